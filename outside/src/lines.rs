//! The 72 lines of the main product header: names, widths and kinds from 01.

#[derive(Clone, Copy, Debug, PartialEq, Eq)]
pub enum Kind {
    Text,
    Signed,
    Unsigned,
    /// Unsigned and never undefined: the size and the nine totals.
    Needed,
    Time,
    LongTime,
}
use Kind::*;

pub const LINES: [(&str, usize, Kind); 72] = [
    ("PRODUCT_NAME", 67, Text),
    ("PARENT_PRODUCT_NAME_1", 67, Text),
    ("PARENT_PRODUCT_NAME_2", 67, Text),
    ("PARENT_PRODUCT_NAME_3", 67, Text),
    ("PARENT_PRODUCT_NAME_4", 67, Text),
    ("INSTRUMENT_ID", 4, Text),
    ("INSTRUMENT_MODEL", 3, Text),
    ("PRODUCT_TYPE", 3, Text),
    ("PROCESSING_LEVEL", 2, Text),
    ("SPACECRAFT_ID", 3, Text),
    ("SENSING_START", 15, Time),
    ("SENSING_END", 15, Time),
    ("SENSING_START_THEORETICAL", 15, Time),
    ("SENSING_END_THEORETICAL", 15, Time),
    ("PROCESSING_CENTRE", 4, Text),
    ("PROCESSOR_MAJOR_VERSION", 5, Unsigned),
    ("PROCESSOR_MINOR_VERSION", 5, Unsigned),
    ("FORMAT_MAJOR_VERSION", 5, Unsigned),
    ("FORMAT_MINOR_VERSION", 5, Unsigned),
    ("PROCESSING_TIME_START", 15, Time),
    ("PROCESSING_TIME_END", 15, Time),
    ("PROCESSING_MODE", 1, Text),
    ("DISPOSITION_MODE", 1, Text),
    ("RECEIVING_GROUND_STATION", 3, Text),
    ("RECEIVE_TIME_START", 15, Time),
    ("RECEIVE_TIME_END", 15, Time),
    ("ORBIT_START", 5, Unsigned),
    ("ORBIT_END", 5, Unsigned),
    ("ACTUAL_PRODUCT_SIZE", 11, Needed),
    ("STATE_VECTOR_TIME", 18, LongTime),
    ("SEMI_MAJOR_AXIS", 11, Signed),
    ("ECCENTRICITY", 11, Signed),
    ("INCLINATION", 11, Signed),
    ("PERIGEE_ARGUMENT", 11, Signed),
    ("RIGHT_ASCENSION", 11, Signed),
    ("MEAN_ANOMALY", 11, Signed),
    ("X_POSITION", 11, Signed),
    ("Y_POSITION", 11, Signed),
    ("Z_POSITION", 11, Signed),
    ("X_VELOCITY", 11, Signed),
    ("Y_VELOCITY", 11, Signed),
    ("Z_VELOCITY", 11, Signed),
    ("EARTH_SUN_DISTANCE_RATIO", 11, Signed),
    ("LOCATION_TOLERANCE_RADIAL", 11, Signed),
    ("LOCATION_TOLERANCE_CROSSTRACK", 11, Signed),
    ("LOCATION_TOLERANCE_ALONGTRACK", 11, Signed),
    ("YAW_ERROR", 11, Signed),
    ("ROLL_ERROR", 11, Signed),
    ("PITCH_ERROR", 11, Signed),
    ("SUBSAT_LATITUDE_START", 11, Signed),
    ("SUBSAT_LONGITUDE_START", 11, Signed),
    ("SUBSAT_LATITUDE_END", 11, Signed),
    ("SUBSAT_LONGITUDE_END", 11, Signed),
    ("LEAP_SECOND", 2, Signed),
    ("LEAP_SECOND_UTC", 15, Time),
    ("TOTAL_RECORDS", 6, Needed),
    ("TOTAL_MPHR", 6, Needed),
    ("TOTAL_SPHR", 6, Needed),
    ("TOTAL_IPR", 6, Needed),
    ("TOTAL_GEADR", 6, Needed),
    ("TOTAL_GIADR", 6, Needed),
    ("TOTAL_VEADR", 6, Needed),
    ("TOTAL_VIADR", 6, Needed),
    ("TOTAL_MDR", 6, Needed),
    ("COUNT_DEGRADED_INST_MDR", 6, Unsigned),
    ("COUNT_DEGRADED_PROC_MDR", 6, Unsigned),
    ("COUNT_DEGRADED_INST_MDR_BLOCKS", 6, Unsigned),
    ("COUNT_DEGRADED_PROC_MDR_BLOCKS", 6, Unsigned),
    ("DURATION_OF_PRODUCT", 8, Unsigned),
    ("MILLISECONDS_OF_DATA_PRESENT", 8, Unsigned),
    ("MILLISECONDS_OF_DATA_MISSING", 8, Unsigned),
    ("SUBSETTED_PRODUCT", 1, Text),
];

/// The line of the product's size, of TOTAL_RECORDS, and of TOTAL_MDR (the totals of classes 1..8 are the eight after TOTAL_RECORDS).
pub const SIZE_LINE: usize = 28;
pub const RECORDS_LINE: usize = 55;
pub const LAST_TOTAL_LINE: usize = 63;
pub const MAIN_SIZE: usize = 3307;

/// Where each line starts; the last entry is where the last line ends.
pub const STARTS: [usize; 73] = {
    let mut starts = [20; 73];
    let mut k = 0;
    while k < 72 {
        starts[k + 1] = starts[k] + LINES[k].1 + 33;
        k += 1;
    }
    starts
};

const _: () = assert!(STARTS[72] == MAIN_SIZE);
const _: () = assert!(STARTS[SIZE_LINE] + 32 == 1485 && STARTS[SIZE_LINE + 1] == 1497);
const _: () = assert!(STARTS[RECORDS_LINE] + 32 == 2675 && STARTS[LAST_TOTAL_LINE + 1] == 2994);
