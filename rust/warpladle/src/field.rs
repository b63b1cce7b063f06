//! The fields of the main header.
use std::fmt;

/// The kind of a field's value.
#[derive(Clone, Copy, Debug, PartialEq, Eq, Hash)]
#[repr(u8)]
pub enum FieldKind {
    /// Bytes 32 to 126, padding and all. There is no undefined text.
    Text = 0,
    /// A number that is not negative, or undefined.
    Unsigned = 1,
    /// A number that is not negative and never undefined.
    Count = 2,
    /// A number, or undefined.
    Signed = 3,
    /// A time to the second, or undefined.
    Time = 4,
    /// A time to the millisecond, or undefined.
    LongTime = 5,
}

/// A field of the main header, by the number of its line.
#[derive(Clone, Copy, Debug, PartialEq, Eq, Hash, PartialOrd, Ord)]
#[repr(u8)]
#[allow(missing_docs)]
pub enum Field {
    // tables: fields (written by tools/tables)
    ProductName = 0,
    ParentProductName1 = 1,
    ParentProductName2 = 2,
    ParentProductName3 = 3,
    ParentProductName4 = 4,
    InstrumentId = 5,
    InstrumentModel = 6,
    ProductType = 7,
    ProcessingLevel = 8,
    SpacecraftId = 9,
    SensingStart = 10,
    SensingEnd = 11,
    SensingStartTheoretical = 12,
    SensingEndTheoretical = 13,
    ProcessingCentre = 14,
    ProcessorMajorVersion = 15,
    ProcessorMinorVersion = 16,
    FormatMajorVersion = 17,
    FormatMinorVersion = 18,
    ProcessingTimeStart = 19,
    ProcessingTimeEnd = 20,
    ProcessingMode = 21,
    DispositionMode = 22,
    ReceivingGroundStation = 23,
    ReceiveTimeStart = 24,
    ReceiveTimeEnd = 25,
    OrbitStart = 26,
    OrbitEnd = 27,
    ActualProductSize = 28,
    StateVectorTime = 29,
    SemiMajorAxis = 30,
    Eccentricity = 31,
    Inclination = 32,
    PerigeeArgument = 33,
    RightAscension = 34,
    MeanAnomaly = 35,
    XPosition = 36,
    YPosition = 37,
    ZPosition = 38,
    XVelocity = 39,
    YVelocity = 40,
    ZVelocity = 41,
    EarthSunDistanceRatio = 42,
    LocationToleranceRadial = 43,
    LocationToleranceCrosstrack = 44,
    LocationToleranceAlongtrack = 45,
    YawError = 46,
    RollError = 47,
    PitchError = 48,
    SubsatLatitudeStart = 49,
    SubsatLongitudeStart = 50,
    SubsatLatitudeEnd = 51,
    SubsatLongitudeEnd = 52,
    LeapSecond = 53,
    LeapSecondUtc = 54,
    TotalRecords = 55,
    TotalMphr = 56,
    TotalSphr = 57,
    TotalIpr = 58,
    TotalGeadr = 59,
    TotalGiadr = 60,
    TotalVeadr = 61,
    TotalViadr = 62,
    TotalMdr = 63,
    CountDegradedInstMdr = 64,
    CountDegradedProcMdr = 65,
    CountDegradedInstMdrBlocks = 66,
    CountDegradedProcMdrBlocks = 67,
    DurationOfProduct = 68,
    MillisecondsOfDataPresent = 69,
    MillisecondsOfDataMissing = 70,
    SubsettedProduct = 71,
    // tables: end
}

impl Field {
    /// Every field, in the order of the lines.
    pub const ALL: [Field; 72] = [
        // tables: every field (written by tools/tables)
        Field::ProductName,
        Field::ParentProductName1,
        Field::ParentProductName2,
        Field::ParentProductName3,
        Field::ParentProductName4,
        Field::InstrumentId,
        Field::InstrumentModel,
        Field::ProductType,
        Field::ProcessingLevel,
        Field::SpacecraftId,
        Field::SensingStart,
        Field::SensingEnd,
        Field::SensingStartTheoretical,
        Field::SensingEndTheoretical,
        Field::ProcessingCentre,
        Field::ProcessorMajorVersion,
        Field::ProcessorMinorVersion,
        Field::FormatMajorVersion,
        Field::FormatMinorVersion,
        Field::ProcessingTimeStart,
        Field::ProcessingTimeEnd,
        Field::ProcessingMode,
        Field::DispositionMode,
        Field::ReceivingGroundStation,
        Field::ReceiveTimeStart,
        Field::ReceiveTimeEnd,
        Field::OrbitStart,
        Field::OrbitEnd,
        Field::ActualProductSize,
        Field::StateVectorTime,
        Field::SemiMajorAxis,
        Field::Eccentricity,
        Field::Inclination,
        Field::PerigeeArgument,
        Field::RightAscension,
        Field::MeanAnomaly,
        Field::XPosition,
        Field::YPosition,
        Field::ZPosition,
        Field::XVelocity,
        Field::YVelocity,
        Field::ZVelocity,
        Field::EarthSunDistanceRatio,
        Field::LocationToleranceRadial,
        Field::LocationToleranceCrosstrack,
        Field::LocationToleranceAlongtrack,
        Field::YawError,
        Field::RollError,
        Field::PitchError,
        Field::SubsatLatitudeStart,
        Field::SubsatLongitudeStart,
        Field::SubsatLatitudeEnd,
        Field::SubsatLongitudeEnd,
        Field::LeapSecond,
        Field::LeapSecondUtc,
        Field::TotalRecords,
        Field::TotalMphr,
        Field::TotalSphr,
        Field::TotalIpr,
        Field::TotalGeadr,
        Field::TotalGiadr,
        Field::TotalVeadr,
        Field::TotalViadr,
        Field::TotalMdr,
        Field::CountDegradedInstMdr,
        Field::CountDegradedProcMdr,
        Field::CountDegradedInstMdrBlocks,
        Field::CountDegradedProcMdrBlocks,
        Field::DurationOfProduct,
        Field::MillisecondsOfDataPresent,
        Field::MillisecondsOfDataMissing,
        Field::SubsettedProduct,
        // tables: end
    ];

    const NAMES: [(&'static str, FieldKind, usize); 72] = [
        // tables: names (written by tools/tables)
        ("PRODUCT_NAME", FieldKind::Text, 67),
        ("PARENT_PRODUCT_NAME_1", FieldKind::Text, 67),
        ("PARENT_PRODUCT_NAME_2", FieldKind::Text, 67),
        ("PARENT_PRODUCT_NAME_3", FieldKind::Text, 67),
        ("PARENT_PRODUCT_NAME_4", FieldKind::Text, 67),
        ("INSTRUMENT_ID", FieldKind::Text, 4),
        ("INSTRUMENT_MODEL", FieldKind::Text, 3),
        ("PRODUCT_TYPE", FieldKind::Text, 3),
        ("PROCESSING_LEVEL", FieldKind::Text, 2),
        ("SPACECRAFT_ID", FieldKind::Text, 3),
        ("SENSING_START", FieldKind::Time, 15),
        ("SENSING_END", FieldKind::Time, 15),
        ("SENSING_START_THEORETICAL", FieldKind::Time, 15),
        ("SENSING_END_THEORETICAL", FieldKind::Time, 15),
        ("PROCESSING_CENTRE", FieldKind::Text, 4),
        ("PROCESSOR_MAJOR_VERSION", FieldKind::Unsigned, 5),
        ("PROCESSOR_MINOR_VERSION", FieldKind::Unsigned, 5),
        ("FORMAT_MAJOR_VERSION", FieldKind::Unsigned, 5),
        ("FORMAT_MINOR_VERSION", FieldKind::Unsigned, 5),
        ("PROCESSING_TIME_START", FieldKind::Time, 15),
        ("PROCESSING_TIME_END", FieldKind::Time, 15),
        ("PROCESSING_MODE", FieldKind::Text, 1),
        ("DISPOSITION_MODE", FieldKind::Text, 1),
        ("RECEIVING_GROUND_STATION", FieldKind::Text, 3),
        ("RECEIVE_TIME_START", FieldKind::Time, 15),
        ("RECEIVE_TIME_END", FieldKind::Time, 15),
        ("ORBIT_START", FieldKind::Unsigned, 5),
        ("ORBIT_END", FieldKind::Unsigned, 5),
        ("ACTUAL_PRODUCT_SIZE", FieldKind::Count, 11),
        ("STATE_VECTOR_TIME", FieldKind::LongTime, 18),
        ("SEMI_MAJOR_AXIS", FieldKind::Signed, 11),
        ("ECCENTRICITY", FieldKind::Signed, 11),
        ("INCLINATION", FieldKind::Signed, 11),
        ("PERIGEE_ARGUMENT", FieldKind::Signed, 11),
        ("RIGHT_ASCENSION", FieldKind::Signed, 11),
        ("MEAN_ANOMALY", FieldKind::Signed, 11),
        ("X_POSITION", FieldKind::Signed, 11),
        ("Y_POSITION", FieldKind::Signed, 11),
        ("Z_POSITION", FieldKind::Signed, 11),
        ("X_VELOCITY", FieldKind::Signed, 11),
        ("Y_VELOCITY", FieldKind::Signed, 11),
        ("Z_VELOCITY", FieldKind::Signed, 11),
        ("EARTH_SUN_DISTANCE_RATIO", FieldKind::Signed, 11),
        ("LOCATION_TOLERANCE_RADIAL", FieldKind::Signed, 11),
        ("LOCATION_TOLERANCE_CROSSTRACK", FieldKind::Signed, 11),
        ("LOCATION_TOLERANCE_ALONGTRACK", FieldKind::Signed, 11),
        ("YAW_ERROR", FieldKind::Signed, 11),
        ("ROLL_ERROR", FieldKind::Signed, 11),
        ("PITCH_ERROR", FieldKind::Signed, 11),
        ("SUBSAT_LATITUDE_START", FieldKind::Signed, 11),
        ("SUBSAT_LONGITUDE_START", FieldKind::Signed, 11),
        ("SUBSAT_LATITUDE_END", FieldKind::Signed, 11),
        ("SUBSAT_LONGITUDE_END", FieldKind::Signed, 11),
        ("LEAP_SECOND", FieldKind::Signed, 2),
        ("LEAP_SECOND_UTC", FieldKind::Time, 15),
        ("TOTAL_RECORDS", FieldKind::Count, 6),
        ("TOTAL_MPHR", FieldKind::Count, 6),
        ("TOTAL_SPHR", FieldKind::Count, 6),
        ("TOTAL_IPR", FieldKind::Count, 6),
        ("TOTAL_GEADR", FieldKind::Count, 6),
        ("TOTAL_GIADR", FieldKind::Count, 6),
        ("TOTAL_VEADR", FieldKind::Count, 6),
        ("TOTAL_VIADR", FieldKind::Count, 6),
        ("TOTAL_MDR", FieldKind::Count, 6),
        ("COUNT_DEGRADED_INST_MDR", FieldKind::Unsigned, 6),
        ("COUNT_DEGRADED_PROC_MDR", FieldKind::Unsigned, 6),
        ("COUNT_DEGRADED_INST_MDR_BLOCKS", FieldKind::Unsigned, 6),
        ("COUNT_DEGRADED_PROC_MDR_BLOCKS", FieldKind::Unsigned, 6),
        ("DURATION_OF_PRODUCT", FieldKind::Unsigned, 8),
        ("MILLISECONDS_OF_DATA_PRESENT", FieldKind::Unsigned, 8),
        ("MILLISECONDS_OF_DATA_MISSING", FieldKind::Unsigned, 8),
        ("SUBSETTED_PRODUCT", FieldKind::Text, 1),
        // tables: end
    ];

    /// Its name, as the main header has it.
    pub fn name(self) -> &'static str {
        Field::NAMES[self as usize].0
    }

    /// The kind of its value.
    pub fn kind(self) -> FieldKind {
        Field::NAMES[self as usize].1
    }

    /// How many bytes its value has.
    pub fn width(self) -> usize {
        Field::NAMES[self as usize].2
    }

    /// The field of a name.
    pub fn named(name: &str) -> Option<Field> {
        Field::ALL.into_iter().find(|field| field.name() == name)
    }
}

impl fmt::Display for Field {
    fn fmt(&self, f: &mut fmt::Formatter) -> fmt::Result {
        f.pad(self.name())
    }
}
