//! Request Four's measure: the field of a name by one `match` on byte strings.
use crate::lines::LINES;

pub fn field_named(name: &[u8]) -> Option<usize> {
    match name {
        b"PRODUCT_NAME" => Some(0),
        b"PARENT_PRODUCT_NAME_1" => Some(1),
        b"PARENT_PRODUCT_NAME_2" => Some(2),
        b"PARENT_PRODUCT_NAME_3" => Some(3),
        b"PARENT_PRODUCT_NAME_4" => Some(4),
        b"INSTRUMENT_ID" => Some(5),
        b"INSTRUMENT_MODEL" => Some(6),
        b"PRODUCT_TYPE" => Some(7),
        b"PROCESSING_LEVEL" => Some(8),
        b"SPACECRAFT_ID" => Some(9),
        b"SENSING_START" => Some(10),
        b"SENSING_END" => Some(11),
        b"SENSING_START_THEORETICAL" => Some(12),
        b"SENSING_END_THEORETICAL" => Some(13),
        b"PROCESSING_CENTRE" => Some(14),
        b"PROCESSOR_MAJOR_VERSION" => Some(15),
        b"PROCESSOR_MINOR_VERSION" => Some(16),
        b"FORMAT_MAJOR_VERSION" => Some(17),
        b"FORMAT_MINOR_VERSION" => Some(18),
        b"PROCESSING_TIME_START" => Some(19),
        b"PROCESSING_TIME_END" => Some(20),
        b"PROCESSING_MODE" => Some(21),
        b"DISPOSITION_MODE" => Some(22),
        b"RECEIVING_GROUND_STATION" => Some(23),
        b"RECEIVE_TIME_START" => Some(24),
        b"RECEIVE_TIME_END" => Some(25),
        b"ORBIT_START" => Some(26),
        b"ORBIT_END" => Some(27),
        b"ACTUAL_PRODUCT_SIZE" => Some(28),
        b"STATE_VECTOR_TIME" => Some(29),
        b"SEMI_MAJOR_AXIS" => Some(30),
        b"ECCENTRICITY" => Some(31),
        b"INCLINATION" => Some(32),
        b"PERIGEE_ARGUMENT" => Some(33),
        b"RIGHT_ASCENSION" => Some(34),
        b"MEAN_ANOMALY" => Some(35),
        b"X_POSITION" => Some(36),
        b"Y_POSITION" => Some(37),
        b"Z_POSITION" => Some(38),
        b"X_VELOCITY" => Some(39),
        b"Y_VELOCITY" => Some(40),
        b"Z_VELOCITY" => Some(41),
        b"EARTH_SUN_DISTANCE_RATIO" => Some(42),
        b"LOCATION_TOLERANCE_RADIAL" => Some(43),
        b"LOCATION_TOLERANCE_CROSSTRACK" => Some(44),
        b"LOCATION_TOLERANCE_ALONGTRACK" => Some(45),
        b"YAW_ERROR" => Some(46),
        b"ROLL_ERROR" => Some(47),
        b"PITCH_ERROR" => Some(48),
        b"SUBSAT_LATITUDE_START" => Some(49),
        b"SUBSAT_LONGITUDE_START" => Some(50),
        b"SUBSAT_LATITUDE_END" => Some(51),
        b"SUBSAT_LONGITUDE_END" => Some(52),
        b"LEAP_SECOND" => Some(53),
        b"LEAP_SECOND_UTC" => Some(54),
        b"TOTAL_RECORDS" => Some(55),
        b"TOTAL_MPHR" => Some(56),
        b"TOTAL_SPHR" => Some(57),
        b"TOTAL_IPR" => Some(58),
        b"TOTAL_GEADR" => Some(59),
        b"TOTAL_GIADR" => Some(60),
        b"TOTAL_VEADR" => Some(61),
        b"TOTAL_VIADR" => Some(62),
        b"TOTAL_MDR" => Some(63),
        b"COUNT_DEGRADED_INST_MDR" => Some(64),
        b"COUNT_DEGRADED_PROC_MDR" => Some(65),
        b"COUNT_DEGRADED_INST_MDR_BLOCKS" => Some(66),
        b"COUNT_DEGRADED_PROC_MDR_BLOCKS" => Some(67),
        b"DURATION_OF_PRODUCT" => Some(68),
        b"MILLISECONDS_OF_DATA_PRESENT" => Some(69),
        b"MILLISECONDS_OF_DATA_MISSING" => Some(70),
        b"SUBSETTED_PRODUCT" => Some(71),
        _ => None,
    }
}

/// The 72 names, and as many unknown ones of each of three sorts: the last letter changed, the first letter changed, a space after the name.
pub fn names() -> [(&'static str, Vec<Vec<u8>>); 4] {
    let changed = |change: fn(&mut Vec<u8>)| {
        LINES.iter().map(move |line| {
            let mut name = line.0.as_bytes().to_vec();
            change(&mut name);
            name
        })
    };
    [
        ("known", changed(|_| ()).collect()),
        ("last letter changed", changed(|name| *name.last_mut().unwrap() = b'Q').collect()),
        ("first letter changed", changed(|name| name[0] = b'Q').collect()),
        ("a space after", changed(|name| name.push(b' ')).collect()),
    ]
}
