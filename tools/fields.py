"""The 72 fields of the main header as 01 lists them, for the tools that write cases."""
import re

# 01, "Order and widths": the list as it stands there
LIST = """PRODUCT_NAME 67, PARENT_PRODUCT_NAME_1 to _4 67; INSTRUMENT_ID 4, INSTRUMENT_MODEL 3, PRODUCT_TYPE 3, PROCESSING_LEVEL 2, SPACECRAFT_ID 3;
SENSING_START, SENSING_END, SENSING_START_THEORETICAL, SENSING_END_THEORETICAL 15; PROCESSING_CENTRE 4; PROCESSOR_MAJOR_VERSION,
PROCESSOR_MINOR_VERSION, FORMAT_MAJOR_VERSION, FORMAT_MINOR_VERSION 5; PROCESSING_TIME_START, PROCESSING_TIME_END 15; PROCESSING_MODE 1,
DISPOSITION_MODE 1, RECEIVING_GROUND_STATION 3; RECEIVE_TIME_START, RECEIVE_TIME_END 15; ORBIT_START, ORBIT_END 5; ACTUAL_PRODUCT_SIZE 11;
STATE_VECTOR_TIME 18; SEMI_MAJOR_AXIS, ECCENTRICITY, INCLINATION, PERIGEE_ARGUMENT, RIGHT_ASCENSION, MEAN_ANOMALY, X_POSITION, Y_POSITION,
Z_POSITION, X_VELOCITY, Y_VELOCITY, Z_VELOCITY, EARTH_SUN_DISTANCE_RATIO, LOCATION_TOLERANCE_RADIAL, LOCATION_TOLERANCE_CROSSTRACK,
LOCATION_TOLERANCE_ALONGTRACK, YAW_ERROR, ROLL_ERROR, PITCH_ERROR, SUBSAT_LATITUDE_START, SUBSAT_LONGITUDE_START, SUBSAT_LATITUDE_END,
SUBSAT_LONGITUDE_END 11; LEAP_SECOND 2; LEAP_SECOND_UTC 15; TOTAL_RECORDS, TOTAL_MPHR, TOTAL_SPHR, TOTAL_IPR, TOTAL_GEADR, TOTAL_GIADR,
TOTAL_VEADR, TOTAL_VIADR, TOTAL_MDR 6; COUNT_DEGRADED_INST_MDR, COUNT_DEGRADED_PROC_MDR, COUNT_DEGRADED_INST_MDR_BLOCKS,
COUNT_DEGRADED_PROC_MDR_BLOCKS 6; DURATION_OF_PRODUCT, MILLISECONDS_OF_DATA_PRESENT, MILLISECONDS_OF_DATA_MISSING 8; SUBSETTED_PRODUCT 1"""
HEAD = 3307


def listed():
    """(name, width) of each field: a width stands after the last of the names that have it."""
    fields, waiting = [], []
    for item in re.split(r'[,;]\s+', LIST):
        m = re.fullmatch(r'(\w+?)(?:_1 to _4)?(?: (\d+))?', item)
        waiting += [m[1] + '_%d' % i for i in range(1, 5)] if ' to ' in item else [m[1]]
        if m[2]:
            fields += [(name, int(m[2])) for name in waiting]
            waiting = []
    assert len(fields) == 72 and sum(33 + w for _, w in fields) + 20 == HEAD
    return fields


FIELDS = listed()
NAMES = [name for name, _ in FIELDS]


def line_start(k):
    """Where the line of field k starts in a product: the record header has 20 bytes, and a line 33 more than its value."""
    return 20 + sum(33 + width for _, width in FIELDS[:k])


def kind_of(k):
    """01, "Kinds": 0 text, 1 unsigned, 2 unsigned and never undefined (the size and the nine totals), 3 signed, 4 time, 5 long time."""
    name, width = FIELDS[k]
    if width == 15:
        return 4
    if name == 'STATE_VECTOR_TIME':
        return 5
    if NAMES.index('SEMI_MAJOR_AXIS') <= k <= NAMES.index('SUBSAT_LONGITUDE_END') or name == 'LEAP_SECOND':
        return 3
    if name == 'ACTUAL_PRODUCT_SIZE' or name.startswith('TOTAL_'):
        return 2
    if name.endswith('_VERSION') or name.startswith(('ORBIT_', 'COUNT_DEGRADED_')) or width == 8:
        return 1
    return 0
