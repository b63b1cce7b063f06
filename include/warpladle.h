/*
 * Warpladle: a proved reader of EPS native products (Metop and NOAA polar orbiters).
 * `tools/archive` writes two archives, which need nothing but the C library:
 *     target/libwarpladle.a   every function of this header
 *     target/libhandheld.a    those under "numbers, times and dates" alone, for meters
 * Both are for x86-64 and for Arm of 64 bits. They are made of LLVM modules for 64-bit
 * little-endian machines: clang can compile these for another such processor; one of 32 bits or of
 * the other byte order would need modules of its own.
 *
 * A product is a main header (MPHR) of 3,307 bytes and then records, one after the other, each with
 * a header of 20 bytes. Every number in it is big-endian. A record's header: byte 0 the class, 1
 * the instrument group, 2 the subclass, 3 the version, 4 to 7 the record's size with its header, 8
 * to 13 its start time, 14 to 19 its stop time. The main header has 72 lines, each a name padded
 * with spaces to 30 bytes, "= ", a value of fixed width and a line feed. What an instrument's
 * measurements mean is not ours.
 *
 * EVERY FUNCTION IS TOTAL: it asks nothing of the bytes and numbers, and answers in the array that
 * it is lent, whose size the prototype says.
 *   answer[0]   0, or the number of a refusal (enum wl_refusal)
 *   answer[1]   of a refusal its place; else 0, except in wl_arrival and wl_watch_feed
 *   the rest    the values, or of a refusal zeros
 * A value that may be undefined is a 1 before its parts, or a 0 before zeros. A negative number
 * stands in two's complement: cast it to int64_t. A flag that is handed in (defined, signed_,
 * which) is 0 or not 0; where `defined` is 0 the parts after it are not looked at. A pointer with a
 * length may be any valid pointer where the length is 0, but not NULL. What is lent to be written
 * must not overlap with anything else that is lent. A refusal writes nothing into a room, a row, a
 * point or a value; what lies beyond what is written is kept.
 *
 * The arrays have names too: at the end of this header stand structs of the same layout, functions
 * wl_ask_NAME that take them and return the refusal, and words for the numbers.
 *
 * WHAT COSTS WHAT. The judges read the main header's 3,307 bytes once, and of the other records the
 * header and a pointer's 7 bytes alone, so a product of 32 MiB in 100,000 records takes
 * milliseconds. wl_record judges the arrival anew and walks to record k at each call: for all
 * records of a product ask wl_rows once, and wl_read_header at each start where a record's times
 * are wanted. Whether it is accepted wl_verdict says, with no rows. A field query judges the main
 * header anew at each call, some microseconds; the ground point twice. A part that is fed to a
 * watch costs some tens of nanoseconds besides its records. Nothing allocates, and no call keeps
 * anything of an earlier one but in the watch that it is lent.
 */
#ifndef WARPLADLE_H
#define WARPLADLE_H

#include <stddef.h>
#include <stdint.h>

#define WARPLADLE_VERSION "1.0.0"
#define WARPLADLE_VERSION_MAJOR 1
#define WARPLADLE_VERSION_MINOR 0
#define WARPLADLE_VERSION_PATCH 0

#ifdef __cplusplus
extern "C" {
#endif

/* ---- refusals: the number, and what answer[1] then is. s is a record's start, D the size that the
 * product declares */
enum wl_refusal {
    /* tables: refusals (written by tools/tables) */
    WL_ACCEPTED = 0,
    /* the first header is not class 1, group 0, subclass 0, size 3307; 0 */
    WL_FIRST_HEADER = 1,
    /* a line's name, "= " or line feed; the line's start */
    WL_LINE = 2,
    /* a value that is not of its field's kind; the value's start */
    WL_VALUE = 3,
    /* D under 3,307 or over 2,147,483,647; 1485 */
    WL_DECLARED_SIZE = 4,
    /* TOTAL_MPHR not 1, TOTAL_SPHR over 1, or TOTAL_RECORDS not the sum of the others; 2675 */
    WL_TOTALS = 5,
    /* 1 to 19 bytes of D are left where a record should start; s */
    WL_BYTES_LEFT = 6,
    /* an unknown class or group; s */
    WL_UNKNOWN_KIND = 7,
    /* a class out of the sections' order; s */
    WL_ORDER = 8,
    /* a size under 20 or past D, or of a pointer record other than 27; s */
    WL_RECORD_SIZE = 9,
    /* a bad time, or both defined and the start after the stop; s */
    WL_RECORD_TIMES = 10,
    /* more records of a class than its total; s */
    WL_TOO_MANY = 11,
    /* a pointer's target class not 4 to 8, or its offset before the pointer's end or less than 20
       before D; s */
    WL_TARGET = 12,
    /* a pointer into the middle of a record; the pointer record's start */
    WL_POINTS_INSIDE = 13,
    /* a pointer at a record of another class, group or subclass; the pointer record's start */
    WL_POINTS_AT_OTHER = 14,
    /* fewer records of a class than its total; D */
    WL_TOO_FEW = 15,
    /* bytes beyond D; D */
    WL_BEYOND = 16,
    /* finished short of 3,307 bytes or of D, or a field asked of a shorter main header; the length
       */
    WL_UNFINISHED = 17,
    /* the lent room is too small; the places or bytes needed */
    WL_ROOM = 18,
    /* no such record yet; the records counted */
    WL_NO_RECORD = 19,
    /* the part to read is outside the lent bytes; their length */
    WL_OUTSIDE = 20,
    /* a number, time, date or header is malformed or outside our limits; 0 */
    WL_MALFORMED = 21,
    /* no such field, another kind, or a value that does not fit its line; 0 */
    WL_NO_FIELD = 22,
    /* a listing of more than 65,536 bytes; 65536 */
    WL_LISTING_LIMIT = 23,
    /* a watch was fed a 65th pointer record; its start; in number order after 12 and before 13 */
    WL_TOO_MANY_POINTERS = 24,
    /* a window of time is undefined or invalid, or ends before it starts; 0; before all others */
    WL_WINDOW = 25,
    /* two products to be joined are unlike: INSTRUMENT_ID, PRODUCT_TYPE, PROCESSING_LEVEL or
       SPACECRAFT_ID, the SPHR or the global records (of granules of a pass without their headers'
       times); 0; after both products' own */
    WL_UNLIKE = 26,
    /* the second of two products to be joined starts before the first stops (of granules of a pass
       by more than one millisecond); 0; after 26 */
    WL_OUT_OF_TIME = 27,
    /* a product to be written would have over 2,147,483,647 bytes or over 999,999 records, or a sum
       does not fit its line; 0; after 17 and 27, and before 18 */
    WL_RESULT_LIMIT = 28,
    /* a record against the Level 0 profile; the first such record's start; after 17 and before 18
       */
    WL_PROFILE = 29,
    /* a humidity file short of 642 bytes; its length */
    WL_UTH_SHORT = 30,
    /* M, its number of segments, is negative; 614 */
    WL_UTH_SEGMENTS = 31,
    /* a segment's line or column is not 1 to 80; where it stands */
    WL_UTH_GRID = 32,
    /* N, a segment's number of blocks, is below 1; where it stands */
    WL_UTH_BLOCKS = 33,
    /* a segment header or a block is cut; the file's length */
    WL_UTH_CUT = 34,
    /* bytes are left over after the last block; where they start */
    WL_UTH_LEFT = 35,
    /* a 4,097th product in a report, or a total past 64 bits; 0 */
    WL_REPORT_FULL = 36,
    /* the record of an arrival is shorter or longer than its counts ask; 0 */
    WL_RECORD_LENGTH = 37,
    /* it has not as many answers as part lengths; 0; after 37 */
    WL_RECORD_COUNTS = 38,
    /* the lengths of parts do not sum to the product's length, or are more than a record can count;
       0; after 38, and before 18 */
    WL_PART_LENGTHS = 39
    /* tables: end */
};

/* ---- how many numbers there are in what is lent */
enum {
    WL_LEN_ANSWER = 4,  /* the answer of most functions */
    WL_LEN_TIME = 6,    /* the answer of wl_read_time, wl_text_time */
    WL_LEN_SCALED = 6,  /* the answer of wl_read_scaled */
    WL_LEN_DATE = 6,    /* the answer of wl_date_of */
    WL_LEN_FIELD = 6,   /* the answer of wl_field */
    WL_LEN_MOMENT = 12, /* the answer of wl_time_field */
    WL_LEN_RECORD = 16, /* the answer of wl_record, wl_read_header */
    WL_LEN_ROW = 7,     /* a row of wl_rows, wl_level0 */
    WL_LEN_POINT = 2,   /* the point of wl_ground_point */
    WL_LEN_REPORT = 38, /* a report */
    WL_LEN_BLOCK = 4,   /* a block of wl_uth */
    WL_LEN_VALUES = 2   /* the values of a block of wl_uth */
};

/* ---- classes of records. They come in the order MPHR, SPHR, IPRs, GEADRs and GIADRs mixed, VEADRs
 * and VIADRs mixed, MDRs */
enum wl_class {
    WL_MPHR = 1,  /* main product header, the first 3,307 bytes */
    WL_SPHR = 2,  /* secondary product header, at most one */
    WL_IPR = 3,   /* internal pointer: 27 bytes, with a target's class, group, subclass and offset
                   * from the product's first byte */
    WL_GEADR = 4, /* global external auxiliary data */
    WL_GIADR = 5, /* global internal auxiliary data */
    WL_VEADR = 6, /* variable external auxiliary data */
    WL_VIADR = 7, /* variable internal auxiliary data */
    WL_MDR = 8    /* measurement data; of group 13 a dummy for data that are missing */
};

/* ---- instrument groups; no other number is known */
enum wl_group {
    WL_GENERIC = 0, WL_AMSU_A = 1, WL_ASCAT = 2, WL_ATOVS = 3, WL_AVHRR_3 = 4, WL_GOME = 5,
    WL_GRAS = 6, WL_HIRS_4 = 7, WL_IASI = 8, WL_MHS = 9, WL_SEM = 10, WL_ADCS = 11, WL_SBUV = 12,
    WL_DUMMY = 13, WL_IASI_L2 = 15, WL_ARCHIVE = 99
};

/* ---- kinds of fields */
enum wl_kind {
    WL_KIND_TEXT = 0,     /* bytes 32 to 126, all of the width, padding too. None is undefined */
    WL_KIND_UNSIGNED = 1, /* spaces and digits; all x is undefined */
    WL_KIND_COUNT = 2,    /* the same, and never undefined */
    WL_KIND_SIGNED = 3,   /* the same with a sign; all x is undefined */
    WL_KIND_TIME = 4,     /* YYYYMMDDHHMMSSZ; x's, with or without a Z at the end, are undefined */
    WL_KIND_LONG_TIME = 5 /* the same with three digits of milliseconds before the Z */
};

/* ---- the fields of the main header: kind, width, unit. A field's number is its line's, from 0 */
enum wl_field_number {
    /* tables: fields (written by tools/tables) */
    WL_FIELD_PRODUCT_NAME = 0,               /* text, 67 */
    WL_FIELD_PARENT_PRODUCT_NAME_1,          /* text, 67 */
    WL_FIELD_PARENT_PRODUCT_NAME_2,          /* text, 67 */
    WL_FIELD_PARENT_PRODUCT_NAME_3,          /* text, 67 */
    WL_FIELD_PARENT_PRODUCT_NAME_4,          /* text, 67 */
    WL_FIELD_INSTRUMENT_ID,                  /* text, 4 */
    WL_FIELD_INSTRUMENT_MODEL,               /* text, 3 */
    WL_FIELD_PRODUCT_TYPE,                   /* text, 3 */
    WL_FIELD_PROCESSING_LEVEL,               /* text, 2 */
    WL_FIELD_SPACECRAFT_ID,                  /* text, 3 */
    WL_FIELD_SENSING_START,                  /* time, 15 */
    WL_FIELD_SENSING_END,                    /* time, 15 */
    WL_FIELD_SENSING_START_THEORETICAL,      /* time, 15 */
    WL_FIELD_SENSING_END_THEORETICAL,        /* time, 15 */
    WL_FIELD_PROCESSING_CENTRE,              /* text, 4 */
    WL_FIELD_PROCESSOR_MAJOR_VERSION,        /* unsigned, 5 */
    WL_FIELD_PROCESSOR_MINOR_VERSION,        /* unsigned, 5 */
    WL_FIELD_FORMAT_MAJOR_VERSION,           /* unsigned, 5 */
    WL_FIELD_FORMAT_MINOR_VERSION,           /* unsigned, 5 */
    WL_FIELD_PROCESSING_TIME_START,          /* time, 15 */
    WL_FIELD_PROCESSING_TIME_END,            /* time, 15 */
    WL_FIELD_PROCESSING_MODE,                /* text, 1 */
    WL_FIELD_DISPOSITION_MODE,               /* text, 1 */
    WL_FIELD_RECEIVING_GROUND_STATION,       /* text, 3 */
    WL_FIELD_RECEIVE_TIME_START,             /* time, 15 */
    WL_FIELD_RECEIVE_TIME_END,               /* time, 15 */
    WL_FIELD_ORBIT_START,                    /* unsigned, 5, since launch */
    WL_FIELD_ORBIT_END,                      /* unsigned, 5, since launch */
    WL_FIELD_ACTUAL_PRODUCT_SIZE,            /* count, 11, bytes */
    WL_FIELD_STATE_VECTOR_TIME,              /* long time, 18 */
    WL_FIELD_SEMI_MAJOR_AXIS,                /* signed, 11, mm */
    WL_FIELD_ECCENTRICITY,                   /* signed, 11, 0.000001 */
    WL_FIELD_INCLINATION,                    /* signed, 11, 0.001 degree */
    WL_FIELD_PERIGEE_ARGUMENT,               /* signed, 11, 0.001 degree */
    WL_FIELD_RIGHT_ASCENSION,                /* signed, 11, 0.001 degree */
    WL_FIELD_MEAN_ANOMALY,                   /* signed, 11, 0.001 degree */
    WL_FIELD_X_POSITION,                     /* signed, 11, mm */
    WL_FIELD_Y_POSITION,                     /* signed, 11, mm */
    WL_FIELD_Z_POSITION,                     /* signed, 11, mm */
    WL_FIELD_X_VELOCITY,                     /* signed, 11, mm/s */
    WL_FIELD_Y_VELOCITY,                     /* signed, 11, mm/s */
    WL_FIELD_Z_VELOCITY,                     /* signed, 11, mm/s */
    WL_FIELD_EARTH_SUN_DISTANCE_RATIO,       /* signed, 11, 0.000001 */
    WL_FIELD_LOCATION_TOLERANCE_RADIAL,      /* signed, 11, m */
    WL_FIELD_LOCATION_TOLERANCE_CROSSTRACK,  /* signed, 11, m */
    WL_FIELD_LOCATION_TOLERANCE_ALONGTRACK,  /* signed, 11, m */
    WL_FIELD_YAW_ERROR,                      /* signed, 11, 0.001 degree */
    WL_FIELD_ROLL_ERROR,                     /* signed, 11, 0.001 degree */
    WL_FIELD_PITCH_ERROR,                    /* signed, 11, 0.001 degree */
    WL_FIELD_SUBSAT_LATITUDE_START,          /* signed, 11, 0.001 degree */
    WL_FIELD_SUBSAT_LONGITUDE_START,         /* signed, 11, 0.001 degree */
    WL_FIELD_SUBSAT_LATITUDE_END,            /* signed, 11, 0.001 degree */
    WL_FIELD_SUBSAT_LONGITUDE_END,           /* signed, 11, 0.001 degree */
    WL_FIELD_LEAP_SECOND,                    /* signed, 2, seconds: -1, 0, 1 by 002; -9 to 99 too */
    WL_FIELD_LEAP_SECOND_UTC,                /* time, 15 */
    WL_FIELD_TOTAL_RECORDS,                  /* count, 6, records */
    WL_FIELD_TOTAL_MPHR,                     /* count, 6, records */
    WL_FIELD_TOTAL_SPHR,                     /* count, 6, records */
    WL_FIELD_TOTAL_IPR,                      /* count, 6, records */
    WL_FIELD_TOTAL_GEADR,                    /* count, 6, records */
    WL_FIELD_TOTAL_GIADR,                    /* count, 6, records */
    WL_FIELD_TOTAL_VEADR,                    /* count, 6, records */
    WL_FIELD_TOTAL_VIADR,                    /* count, 6, records */
    WL_FIELD_TOTAL_MDR,                      /* count, 6, records */
    WL_FIELD_COUNT_DEGRADED_INST_MDR,        /* unsigned, 6, MDRs */
    WL_FIELD_COUNT_DEGRADED_PROC_MDR,        /* unsigned, 6, MDRs */
    WL_FIELD_COUNT_DEGRADED_INST_MDR_BLOCKS, /* unsigned, 6, blocks of MDRs */
    WL_FIELD_COUNT_DEGRADED_PROC_MDR_BLOCKS, /* unsigned, 6, blocks of MDRs */
    WL_FIELD_DURATION_OF_PRODUCT,            /* unsigned, 8, ms */
    WL_FIELD_MILLISECONDS_OF_DATA_PRESENT,   /* unsigned, 8, ms */
    WL_FIELD_MILLISECONDS_OF_DATA_MISSING,   /* unsigned, 8, ms */
    WL_FIELD_SUBSETTED_PRODUCT               /* text, 1 */
    /* tables: end */
};

/* ---- the judges */

/* The bytes of a product that have come so far: 0, the end of the last whole record, the count of
 * whole records, 0; or the refusal 1 to 16, which is final: every longer arrival of the same
 * product is refused with the same number and place. */
void wl_arrival(const uint8_t *bytes, size_t len, uint64_t answer[WL_LEN_ANSWER]);

/* Whether all of a product has come: 0, 0, 1, the count of records where it has; 0, 0, 0, 0 where a
 * sound part has (wl_arrival counts that); or the refusal 1 to 16. An arrival of which this says 1
 * is accepted by wl_verdict. */
void wl_extent(const uint8_t *bytes, size_t len, uint64_t answer[WL_LEN_ANSWER]);

/* ---- what stands where in a record's row */
enum wl_row {
    WL_ROW_START = 0, /* where it starts, from the product's first byte */
    WL_ROW_SIZE = 1,
    WL_ROW_CLASS = 2,
    WL_ROW_GROUP = 3,
    WL_ROW_SUBCLASS = 4,
    WL_ROW_VERSION = 5,
    WL_ROW_ORDINAL = 6 /* how many records before it have its class, group and subclass */
};

/* The verdict of a finished product: 0, 0, the count of records, 0 where it is accepted; or the
 * refusal 1 to 16, or 17 with the length. */
void wl_verdict(const uint8_t *bytes, size_t len, uint64_t answer[WL_LEN_ANSWER]);

/* The rows of a finished product, which is judged first: 0, 0, the count of records, 0, with the
 * records' rows at rows[0] to rows[count - 1], the main header's first, and the other rows kept; or
 * what wl_verdict refuses it with, or 18 with the count where fewer rows are lent. It takes 128 KiB
 * of the stack for the ordinals. */
void wl_rows(const uint8_t *bytes, size_t len, uint32_t (*rows)[WL_LEN_ROW], size_t rows_len,
             uint64_t answer[WL_LEN_ANSWER]);

/* The same of a product of Level 0: 29 with its start, before 18, at the first VIADR that is not of
 * group 0, subclass 0 and version 1 or 2, or MDR that is neither of group 0, subclass 0 to 4 and
 * version 1 nor a dummy (group 13). */
void wl_level0(const uint8_t *bytes, size_t len, uint32_t (*rows)[WL_LEN_ROW], size_t rows_len,
               uint64_t answer[WL_LEN_ANSWER]);

/* ---- the watch: a product that arrives in parts and is not kept */

/* What is known of the bytes fed so far: the main header's 3,307, those of the record header under
 * way, at most 64 pointers, and numbers; 4,328 bytes in all. Its fields are the library's own: make
 * it with wl_watch_new, change it with wl_watch_feed alone, copy it as you like. A watch whose
 * bytes came otherwise still ends each call safely, with some answer, whose first number may be
 * none of enum wl_refusal. */
typedef struct wl_watch {
    uint64_t got, have, at, count, declared, due, place, next, line;
    uint8_t previous, number;
    uint64_t totals[9], tally[9];
    uint32_t starts[64], targets[64], kinds[64];
    uint8_t head[3307], under[27];
} wl_watch;

/* A watch that was fed nothing. */
void wl_watch_new(wl_watch *watch);

/* The next part, of any length: what wl_arrival says of all that was fed so far, however it was cut
 * (0, the end of the last whole record, the count of whole records, 0; or the refusal 1 to 16); or
 * 24 with its start at the 65th pointer record, which comes after 12 and before 13 where both are
 * shown. So a product of more than 64 pointers is refused here though wl_verdict accepts it, and
 * what wl_cut, wl_join and wl_join_pass write is such a product where it has more than 64 kinds of
 * records, since they write a pointer to each. A part of no bytes changes nothing; after a refusal
 * every part is answered with it again. The bytes of a record beyond its header are counted, not
 * looked at. */
void wl_watch_feed(wl_watch *watch, const uint8_t *part, size_t len,
                   uint64_t answer[WL_LEN_ANSWER]);

/* ---- an arrival recorded and replayed. A record is numbers of 4 bytes, big-endian: n, the lengths
 * of n parts, m, and m answers of the watch, each as number, place and count: 0, the end of the
 * last whole record and the count of records while it waits; a refusal's number, its place and 0 */

/* Feeds a new watch the product in the record's parts and compares what it answers after each: 0,
 * 0, 0, 0 where all three numbers of every answer are the record's, and 0, 0, 1, the first part
 * that differs, counted from 0. Or 37, where the record's length is not 8 + 4n + 12m; 38, where n
 * is not m; 39, where the lengths do not sum to the product's length; in that order, with place 0.
 * What wl_record_arrival wrote gives 0, 0, 0, 0. */
void wl_replay(const uint8_t *record, size_t len, const uint8_t *product, size_t product_len,
               uint64_t answer[WL_LEN_ANSWER]);

/* The record of a product that comes in `count` parts of these lengths, at the start of the room:
 * 0, 0, the bytes written, which are 8 + 16 times the count, 0; the bytes beyond them are kept. Or
 * 39, where the lengths do not sum to the product's length or are 2^32 or more; then 18 with the
 * bytes needed. Of a refusal nothing is written. */
void wl_record_arrival(const uint32_t *lengths, size_t count, const uint8_t *product, size_t len,
                       uint8_t *room, size_t room_len, uint64_t answer[WL_LEN_ANSWER]);

/* ---- the queries of a product, arriving or whole */

/* Record k, counted from 0: 0, 0, start, class, group, subclass, version, size, start time defined,
 * day, millisecond, stop time defined, day, millisecond, 0, 0; or the refusal of wl_arrival, or 19
 * with the records counted. */
void wl_record(const uint8_t *bytes, size_t len, size_t k, uint64_t answer[WL_LEN_RECORD]);

/* A query of a field judges the first 3,307 bytes as an arrival and hands on its refusal (1 to 6,
 * 10, 15); then 17 with the length where they have not all come; then 22 for no such field or
 * another kind. */

/* The number of field k, of kind 1, 2 or 3: 0, 0, defined, value in two's complement; or a refusal.
 */
void wl_number_field(const uint8_t *bytes, size_t len, size_t k, uint64_t answer[WL_LEN_ANSWER]);

/* The time of field k, of kind 4 or 5: 0, 0, defined, year, month, day, hour, minute, second,
 * millisecond, 0, 0; or a refusal. The millisecond of a time that is not long is 0. */
void wl_time_field(const uint8_t *bytes, size_t len, size_t k, uint64_t answer[WL_LEN_MOMENT]);

/* The text of field k, of kind 0: 0, 0, where its value starts in the bytes, its width, padding and
 * all; or a refusal. */
void wl_text_field(const uint8_t *bytes, size_t len, size_t k, uint64_t answer[WL_LEN_ANSWER]);

/* Field k whatever the product: 0, 0, where its line starts (its value 32 bytes further on), the
 * width of its value, its kind, and how many bytes its name has, which stands unpadded at the start
 * of the room; or 22, 18 with those bytes. 30 are enough for every name. */
void wl_field(size_t k, uint8_t *room, size_t room_len, uint64_t answer[WL_LEN_FIELD]);

/* The field of a name, unpadded: 0, 0, its number, 0; or 22. */
void wl_field_named(const uint8_t *name, size_t len, uint64_t answer[WL_LEN_ANSWER]);

/* The point below the satellite at the product's start, or at its end where `which` is not 0 (enum
 * wl_which): 0, 0, 1, 0 with latitude and longitude in degrees in the point; 0, 0, 0, 0 where a
 * field is undefined, the point kept; or the refusal of a field query but 22, the point kept. */
enum wl_which { WL_AT_START = 0, WL_AT_END = 1 };
void wl_ground_point(const uint8_t *bytes, size_t len, uint8_t which, double point[WL_LEN_POINT],
                     uint64_t answer[WL_LEN_ANSWER]);

/* ---- the listing */

/* A product's records as text at the start of the room: 0, 0, the bytes written, 0, with a line for
 * the count and one for each record (start, class, group, subclass, version, size), what lies
 * beyond kept; or 23 with 65536 over 65,536 bytes, the refusal of the finished judge 1 to 17, or 18
 * with the bytes needed. The text has no zero at its end; a room of 131,072 bytes is always enough;
 * of a refusal nothing is written. */
void wl_listing(const uint8_t *bytes, size_t len, uint8_t *room, size_t room_len,
                uint64_t answer[WL_LEN_ANSWER]);

/* ---- new products */

/* The cut of a product to a window of time, at the start of the room: 0, 0, the bytes written, 0,
 * what lies beyond kept. Of the MDRs those whose start is defined and lies in the window are
 * carried over, both ends in; with them the SPHR and the auxiliary records (classes 4 to 7), byte
 * for byte and in their order; one pointer record to the first record of each class, group and
 * subclass that is there; and the main header, with the size, the totals, SENSING_START,
 * SENSING_END, the two times in PRODUCT_NAME, the degraded counts, the durations and
 * SUBSETTED_PRODUCT set anew. Or 25 where an end is undefined (a flag of 0) or invalid, or the last
 * before the first; the refusal of the finished judge 1 to 17; 28; or 18 with the bytes needed. Of
 * a refusal nothing is written. The result is accepted by wl_verdict. It has at most the bytes of
 * the product and 27 for each of its records. */
void wl_cut(const uint8_t *bytes, size_t len, uint8_t first_defined, uint16_t first_day,
            uint32_t first_milli, uint8_t last_defined, uint16_t last_day, uint32_t last_milli,
            uint8_t *room, size_t room_len, uint64_t answer[WL_LEN_ANSWER]);

/* Two products that follow each other joined into one, at the start of the room: 0, 0, the bytes
 * written, 0, what lies beyond kept. The SPHR and the records of classes 4 and 5 are the first's,
 * which the second has too; then the records of classes 6 and 7 of the first and of the second, and
 * so the MDRs; one pointer record to the first record of each class, group and subclass that is
 * there; and the first's main header, with the size, the totals, the degraded counts and the
 * durations (added; undefined where either is), SENSING_END and the end time in PRODUCT_NAME (the
 * second's) set anew. Or the refusal of the finished judge 1 to 17, of the first and then of the
 * second; 26; 27, where the last defined stop of an MDR of the first is after the first defined
 * start of one of the second; 28; or 18 with the bytes needed. Of a refusal nothing is written. The
 * result is accepted by wl_verdict. Products that follow each other, joined two by two, give the
 * same bytes however they are paired, where no join is refused. */
void wl_join(const uint8_t *first, size_t first_len, const uint8_t *second, size_t second_len,
             uint8_t *room, size_t room_len, uint64_t answer[WL_LEN_ANSWER]);

/* The join of two granules of a pass. As wl_join, but for two of its tests: 26 compares the SPHR
 * and the records of classes 4 and 5 without bytes 8 to 19, the two times of their headers, which
 * are those of the MDRs of their own product (002, Table 15); and 27 is answered where the last
 * defined stop of an MDR of the first is more than one millisecond after the first defined start of
 * one of the second, on the line of milliseconds of wl_report_add, on which a leap second counts.
 * What is written is the same function of the two: the SPHR and these records are the first's as
 * they stand. Where wl_join writes, this writes the same bytes. */
void wl_join_pass(const uint8_t *first, size_t first_len, const uint8_t *second, size_t second_len,
                  uint8_t *room, size_t room_len, uint64_t answer[WL_LEN_ANSWER]);

/* Whether a product is a cut of another: 0, 0, 1, 0 where it is, and 0, 0, 0, the place where it is
 * not. It is one where its MDRs are a run-through of the original's in order, some left out, none
 * changed or repeated; its SPHR and its records of classes 4 to 7 are the original's, byte for byte
 * and in order, none missing; and INSTRUMENT_ID, PRODUCT_TYPE, PROCESSING_LEVEL and SPACECRAFT_ID
 * agree byte for byte. Pointers and the other lines are free. The place of a no is 0 for one of the
 * four lines; else the start of the first record of the cut that cannot be matched, the SPHR and
 * the records of classes 4 to 7 against the original's next such, each MDR taking the earliest
 * match left; else, where one of the original's is missing, the cut's length. Or the refusal of the
 * finished judge 1 to 17, of the original and then of the cut. Whatever wl_cut writes is a cut of
 * what it was cut from. */
void wl_check_cut(const uint8_t *original, size_t len, const uint8_t *cut, size_t cut_len,
                  uint64_t answer[WL_LEN_ANSWER]);

/* ---- the report of a month: 38 numbers, lent one after the other to each product; a new one is
 * all zeros. [0] products lent, refused ones too; [c] records and [8 + c] bytes of class c, 1 to 8,
 * of the accepted ones; [17] milliseconds of gap and [18] of overlap between the stop of an MDR and
 * the start of the next one in its product; [19] pairs of which one of these two times is
 * undefined, which have neither; [20] products accepted; [20 + n] products refused with n, 1 to 17
 */

/* Adds a product: 0, 0, 0, 0; or 0, 0, its own refusal, 1 to 17, and its place, where it is
 * refused, which then adds one to [0] and to that tally and nothing else. Or 36, 0, 0, 0, and the
 * report as it was, where [0] would pass 4,096 or another number 64 bits. A gap or overlap across
 * one of the days with a leap second counts that second. In whatever order products are added, the
 * report is the same where none is answered with 36; and a list that does not meet 36 in one order
 * meets it in none. */
void wl_report_add(uint64_t report[WL_LEN_REPORT], const uint8_t *bytes, size_t len,
                   uint64_t answer[WL_LEN_ANSWER]);

/* Adds another report, number by number: 0, 0, 0, 0; or 36, 0, 0, 0, and the report as it was,
 * where [0] would pass 4,096 or another number 64 bits. The report of a list is the merge of the
 * reports of its parts, where none is answered with 36. The two may not overlap in memory. */
void wl_report_merge(uint64_t report[WL_LEN_REPORT], const uint64_t other[WL_LEN_REPORT],
                     uint64_t answer[WL_LEN_ANSWER]);

/* ---- the humidity archive: Upper Tropospheric Humidity files in OpenMTP form, which are no EPS
 * products. 542 bytes of text, a header of 100, and for each of its M segments 36 bytes and N
 * blocks of 72, N of each segment's own */

/* The blocks of a humidity file, each into the next place of `blocks` and of `values`: line, column
 * (1 to 80 each), whether UTH is there, whether CSR is there; and UTH in percent and CSR in Kelvin,
 * each with the bits that stand in the file, or 0.0 where it is not finite. Then 0, 0, the number
 * of blocks, 0, and the places beyond kept; or the first fault in file order, 30 to 35; or 18 with
 * the number of blocks where fewer places of either are lent. Of a refusal nothing is written. With
 * no places it says how many are needed. */
void wl_uth(const uint8_t *bytes, size_t len, uint32_t (*blocks)[WL_LEN_BLOCK], size_t blocks_len,
            float (*values)[WL_LEN_VALUES], size_t values_len, uint64_t answer[WL_LEN_ANSWER]);

/* ---- record headers and lines of the main header */

/* The header in the 20 bytes from `at` on: the numbers of wl_record, with `at` for the start; or
 * 20, 21. */
void wl_read_header(const uint8_t *bytes, size_t len, size_t at, uint64_t answer[WL_LEN_RECORD]);

/* A header into the first 20 bytes of the room: 0, 0, 20, 0; or 21, 18 with 20. */
void wl_write_header(uint8_t *room, size_t room_len, uint8_t class_, uint8_t group,
                     uint8_t subclass, uint8_t version, uint32_t size, uint8_t start_defined,
                     uint16_t start_day, uint32_t start_milli, uint8_t stop_defined,
                     uint16_t stop_day, uint32_t stop_milli, uint64_t answer[WL_LEN_ANSWER]);

/* The whole line of field k with a text, of just the field's width, at the start of the room: 0, 0,
 * the bytes of the line, 0; or 22, 18 with those bytes. */
void wl_write_text_line(uint8_t *room, size_t room_len, size_t k, const uint8_t *text,
                        size_t text_len, uint64_t answer[WL_LEN_ANSWER]);

/* The same with a number. */
void wl_write_number_line(uint8_t *room, size_t room_len, size_t k, uint8_t defined, int64_t value,
                          uint64_t answer[WL_LEN_ANSWER]);

/* The same with a time, whose millisecond must be 0 where the field is not long, or 22. */
void wl_write_time_line(uint8_t *room, size_t room_len, size_t k, uint8_t defined, uint16_t year,
                        uint8_t month, uint8_t day, uint8_t hour, uint8_t minute, uint8_t second,
                        uint16_t milli, uint64_t answer[WL_LEN_ANSWER]);

/* ==== numbers, times and dates: these are in libhandheld.a too */

/* ---- dates of the Gregorian calendar, years 0 to 9999; days are counted from 1 January 2000,
 * which is day 0, to 6 June 2179, day 65535 */

/* Whether it is a date: 0, 0, 1 or 0, 0. */
void wl_is_date(uint16_t year, uint8_t month, uint8_t day, uint64_t answer[WL_LEN_ANSWER]);

/* The date of a day: 0, 0, year, month, day of the month, 0. It refuses nothing. */
void wl_date_of(uint16_t day, uint64_t answer[WL_LEN_DATE]);

/* The day of a date: 0, 0, day, 0; or 21 for no date and for one before day 0 or after day 65535.
 */
void wl_day_number(uint16_t year, uint8_t month, uint8_t day, uint64_t answer[WL_LEN_ANSWER]);

/* ---- times: a day, counted from 1 January 2000, and a millisecond of that day, 0 to 86,399,999,
 * or to 86,400,999 on the five days that end in a leap second: 2191, 3287, 4564, 5659 and 6209 (31
 * December 2005, 2008 and 2016, 30 June 2012 and 2015). A written time has second 60 at 23:59 of
 * these dates alone. In 6 bytes the day has 2 and the millisecond 4; all 48 bits one are undefined
 */

/* The time in the 6 bytes from `at` on: 0, 0, defined, day, millisecond, 0; or 20, 21. */
void wl_read_time(const uint8_t *bytes, size_t len, size_t at, uint64_t answer[WL_LEN_TIME]);

/* A time into the first 6 bytes of the room: 0, 0, 6, 0; or 21, 18 with 6. */
void wl_write_time(uint8_t *room, size_t room_len, uint8_t defined, uint16_t day, uint32_t milli,
                   uint64_t answer[WL_LEN_ANSWER]);

/* The order of two times: 0, 0, then enum wl_order, then 0; or 21, also where either is undefined.
 */
enum wl_order { WL_BEFORE = 0, WL_SAME = 1, WL_AFTER = 2 };
void wl_time_order(uint8_t defined, uint16_t day, uint32_t milli, uint8_t other_defined,
                   uint16_t other_day, uint32_t other_milli, uint64_t answer[WL_LEN_ANSWER]);

/* A time as long text, YYYYMMDDHHMMSSmmmZ, into the first 18 bytes of the room: 0, 0, 18, 0; or 21,
 * 18 with 18. An undefined time is 17 times x and a Z. */
void wl_time_text(uint8_t *room, size_t room_len, uint8_t defined, uint16_t day, uint32_t milli,
                  uint64_t answer[WL_LEN_ANSWER]);

/* The time of the 18 bytes of long text from `at` on: 0, 0, defined, day, millisecond, 0; or 20,
 * 21. Undefined are x's with or without the Z. */
void wl_text_time(const uint8_t *bytes, size_t len, size_t at, uint64_t answer[WL_LEN_TIME]);

/* ---- scaled numbers: an integer of 2, 4 or 8 bytes divided by 10 to the scale, which is -15 to
 * 15, so that 3 with scale -2 is 300; another width or scale is 21. In bytes the scale comes first,
 * one byte, signed. The lowest signed integer of the width, or the highest unsigned one, is
 * undefined whatever the scale */

/* The scaled number in the 1 + width bytes from `at` on, its integer signed or not: 0, 0, defined,
 * integer and scale in two's complement, 0; or 20, 21. */
void wl_read_scaled(const uint8_t *bytes, size_t len, size_t at, size_t width, uint8_t signed_,
                    uint64_t answer[WL_LEN_SCALED]);

/* A scaled number into the first 1 + width bytes of the room: 0, 0, 1 + width, 0; or 21, 18 with 1
 * + width. An undefined number is written with the scale 0, whatever scale is handed in. */
void wl_write_scaled(uint8_t *room, size_t room_len, size_t width, uint8_t signed_, uint8_t defined,
                     int64_t integer, int8_t scale, uint64_t answer[WL_LEN_ANSWER]);

/* A scaled number rounded to 0 to 15 decimals, a tie away from zero: 0, 0, defined, the units of
 * the last decimal in two's complement; or 21, where these are past 64 bits too, and for other
 * decimals also where the number is undefined. To show it, write its sign first, since -0.1 is -1
 * tenth and -1 / 10 is 0:
 *     int64_t units = (int64_t)answer[3];
 *     uint64_t size = units < 0 ? 0 - (uint64_t)units : (uint64_t)units;
 *     printf("%s%llu.%0*llu", units < 0 ? "-" : "", size / power, decimals, size % power);
 * with power = 10 to the decimals, which are not 0. */
void wl_round(uint8_t defined, int64_t integer, int8_t scale, int8_t decimals,
              uint64_t answer[WL_LEN_ANSWER]);

/* What a meter shows of a scaled number: 0, 0, then enum wl_shown, then 0, and the value unless it
 * is missing: one division, or for a scale below 0 the product, which is whole; or 21, also for an
 * integer, or a product, beyond 2^53 either way, the value kept. */
enum wl_shown { WL_MISSING = 0, WL_WHOLE = 1, WL_BETWEEN = 2 };
void wl_reading(uint8_t defined, int64_t integer, int8_t scale, double *value,
                uint64_t answer[WL_LEN_ANSWER]);

/* ==== names for what stands in the arrays. The functions above are the library; what follows is of
 * this header alone, and nothing is linked for it
 *
 * A struct has the layout of the array that a function is lent, number for number. Of each function
 * wl_NAME that answers, wl_ask_NAME takes the same things in the same order, with structs in the
 * places of arrays, and returns the refusal, 0 where there is none:
 *
 *     wl_verdict_answer verdict;
 *     if (wl_ask_verdict(bytes, len, &verdict))
 *         return fprintf(stderr, "%s\n", wl_refusal_text(verdict.refusal)), 1;
 *     printf("%llu records\n", (unsigned long long)verdict.records);
 *
 * No function of the library begins with wl_ask_, and none will. `zero` is always 0. Of a refusal
 * all but `refusal` and `place` are 0 */

/* ---- what is lent to be filled */

/* A record of wl_rows and wl_level0. */
typedef struct wl_record_row {
    uint32_t start, size, class_, group, subclass, version, ordinal;
} wl_record_row;

/* A report. records[c] and bytes[c] are of class c + 1; refused[n] counts those refused with
 * n + 1. */
typedef struct wl_report {
    uint64_t products, records[8], bytes[8], gap_ms, overlap_ms, undefined_pairs, accepted;
    uint64_t refused[17];
} wl_report;

/* The point of wl_ground_point, in degrees. */
typedef struct wl_point {
    double latitude, longitude;
} wl_point;

/* A block of wl_uth, and its values: UTH in percent and CSR in Kelvin. */
typedef struct wl_block {
    uint32_t line, column, has_uth, has_csr;
} wl_block;
typedef struct wl_block_values {
    float uth, csr;
} wl_block_values;

/* ---- answers */

/* A time: where `defined` is 0 the others are 0 too. */
typedef struct wl_time {
    uint64_t defined, day, milli;
} wl_time;

/* wl_arrival and wl_watch_feed: without a refusal `place` is the end of the last whole record. */
typedef struct wl_arrival_answer {
    uint64_t refusal, place, records, zero;
} wl_arrival_answer;

/* wl_extent: `whole` is 1 where all of the product has come, with its records. */
typedef struct wl_extent_answer {
    uint64_t refusal, place, whole, records;
} wl_extent_answer;

/* wl_verdict, wl_rows and wl_level0. */
typedef struct wl_verdict_answer {
    uint64_t refusal, place, records, zero;
} wl_verdict_answer;

/* Those that write into a room: how many bytes of it they wrote. */
typedef struct wl_written_answer {
    uint64_t refusal, place, bytes, zero;
} wl_written_answer;

/* wl_replay: `differs` is 1 where a part does, and `part` is the first that does. */
typedef struct wl_replay_answer {
    uint64_t refusal, place, differs, part;
} wl_replay_answer;

/* wl_record and wl_read_header. */
typedef struct wl_record_answer {
    uint64_t refusal, place, start, class_, group, subclass, version, size;
    wl_time start_time, stop_time;
    uint64_t zero[2];
} wl_record_answer;

/* wl_number_field; and wl_round, whose value is in units of the last decimal. */
typedef struct wl_number_answer {
    uint64_t refusal, place, defined;
    int64_t value;
} wl_number_answer;

/* wl_time_field. */
typedef struct wl_moment_answer {
    uint64_t refusal, place, defined, year, month, day, hour, minute, second, milli, zero[2];
} wl_moment_answer;

/* wl_text_field: where the text starts in the product, and its bytes. */
typedef struct wl_text_answer {
    uint64_t refusal, place, start, width;
} wl_text_answer;

/* wl_field: where the line starts, the width of the value, enum wl_kind, the bytes of the name. */
typedef struct wl_field_answer {
    uint64_t refusal, place, start, width, kind, name_len;
} wl_field_answer;

/* Those that answer one number: wl_field_named (the field), wl_is_date (1 or 0), wl_day_number (the
 * day), wl_time_order (enum wl_order), wl_reading (enum wl_shown). */
typedef struct wl_value_answer {
    uint64_t refusal, place, value, zero;
} wl_value_answer;

/* wl_ground_point: where `defined` is 0 the point is kept. */
typedef struct wl_point_answer {
    uint64_t refusal, place, defined, zero;
} wl_point_answer;

/* wl_check_cut: where `is_cut` is 0, `at` says where it is none. */
typedef struct wl_check_answer {
    uint64_t refusal, place, is_cut, at;
} wl_check_answer;

/* wl_report_add and wl_report_merge: the refusal of the product that was added, and its place. The
 * report itself refuses by `refusal`. */
typedef struct wl_report_answer {
    uint64_t refusal, place, product_refusal, product_place;
} wl_report_answer;

/* wl_uth. */
typedef struct wl_blocks_answer {
    uint64_t refusal, place, blocks, zero;
} wl_blocks_answer;

/* wl_date_of. */
typedef struct wl_date_answer {
    uint64_t refusal, place, year, month, day, zero;
} wl_date_answer;

/* wl_read_time and wl_text_time. */
typedef struct wl_time_answer {
    uint64_t refusal, place;
    wl_time time;
    uint64_t zero;
} wl_time_answer;

/* wl_read_scaled. */
typedef struct wl_scaled_answer {
    uint64_t refusal, place, defined;
    int64_t integer, scale;
    uint64_t zero;
} wl_scaled_answer;

/* That a struct is as long as the array whose place it takes is asked of the compiler, where it can
 * be asked (C11, C++11). */
#if defined(__cplusplus) && __cplusplus >= 201103L
#define WL_AS_LONG(type, unit, count) \
    static_assert(sizeof(type) == sizeof(unit) * (count), #type " is not as long as its array");
#elif defined(__STDC_VERSION__) && __STDC_VERSION__ >= 201112L
#define WL_AS_LONG(type, unit, count) \
    _Static_assert(sizeof(type) == sizeof(unit) * (count), #type " is not as long as its array");
#else
#define WL_AS_LONG(type, unit, count)
#endif
WL_AS_LONG(wl_record_row, uint32_t, WL_LEN_ROW)
WL_AS_LONG(wl_report, uint64_t, WL_LEN_REPORT)
WL_AS_LONG(wl_point, double, WL_LEN_POINT)
WL_AS_LONG(wl_block, uint32_t, WL_LEN_BLOCK)
WL_AS_LONG(wl_block_values, float, WL_LEN_VALUES)
WL_AS_LONG(wl_arrival_answer, uint64_t, WL_LEN_ANSWER)
WL_AS_LONG(wl_extent_answer, uint64_t, WL_LEN_ANSWER)
WL_AS_LONG(wl_verdict_answer, uint64_t, WL_LEN_ANSWER)
WL_AS_LONG(wl_written_answer, uint64_t, WL_LEN_ANSWER)
WL_AS_LONG(wl_replay_answer, uint64_t, WL_LEN_ANSWER)
WL_AS_LONG(wl_record_answer, uint64_t, WL_LEN_RECORD)
WL_AS_LONG(wl_number_answer, uint64_t, WL_LEN_ANSWER)
WL_AS_LONG(wl_moment_answer, uint64_t, WL_LEN_MOMENT)
WL_AS_LONG(wl_text_answer, uint64_t, WL_LEN_ANSWER)
WL_AS_LONG(wl_field_answer, uint64_t, WL_LEN_FIELD)
WL_AS_LONG(wl_value_answer, uint64_t, WL_LEN_ANSWER)
WL_AS_LONG(wl_point_answer, uint64_t, WL_LEN_ANSWER)
WL_AS_LONG(wl_check_answer, uint64_t, WL_LEN_ANSWER)
WL_AS_LONG(wl_report_answer, uint64_t, WL_LEN_ANSWER)
WL_AS_LONG(wl_blocks_answer, uint64_t, WL_LEN_ANSWER)
WL_AS_LONG(wl_date_answer, uint64_t, WL_LEN_DATE)
WL_AS_LONG(wl_time_answer, uint64_t, WL_LEN_TIME)
WL_AS_LONG(wl_scaled_answer, uint64_t, WL_LEN_SCALED)
#undef WL_AS_LONG

/* ---- functions that return the refusal. Of a watch that no feeding gives it may be no number of
 * enum wl_refusal */

/* tables: asks (written by tools/tables from the prototypes above and tables/answers.tsv) */
static inline int wl_ask_arrival(const uint8_t *bytes, size_t len, wl_arrival_answer *answer)
{
    wl_arrival(bytes, len, (uint64_t *)answer);
    return (int)answer->refusal;
}

static inline int wl_ask_extent(const uint8_t *bytes, size_t len, wl_extent_answer *answer)
{
    wl_extent(bytes, len, (uint64_t *)answer);
    return (int)answer->refusal;
}

static inline int wl_ask_verdict(const uint8_t *bytes, size_t len, wl_verdict_answer *answer)
{
    wl_verdict(bytes, len, (uint64_t *)answer);
    return (int)answer->refusal;
}

static inline int wl_ask_rows(const uint8_t *bytes, size_t len, wl_record_row *rows,
                              size_t rows_len, wl_verdict_answer *answer)
{
    wl_rows(bytes, len, (uint32_t(*)[WL_LEN_ROW])rows, rows_len, (uint64_t *)answer);
    return (int)answer->refusal;
}

static inline int wl_ask_level0(const uint8_t *bytes, size_t len, wl_record_row *rows,
                                size_t rows_len, wl_verdict_answer *answer)
{
    wl_level0(bytes, len, (uint32_t(*)[WL_LEN_ROW])rows, rows_len, (uint64_t *)answer);
    return (int)answer->refusal;
}

static inline int wl_ask_watch_feed(wl_watch *watch, const uint8_t *part, size_t len,
                                    wl_arrival_answer *answer)
{
    wl_watch_feed(watch, part, len, (uint64_t *)answer);
    return (int)answer->refusal;
}

static inline int wl_ask_replay(const uint8_t *record, size_t len, const uint8_t *product,
                                size_t product_len, wl_replay_answer *answer)
{
    wl_replay(record, len, product, product_len, (uint64_t *)answer);
    return (int)answer->refusal;
}

static inline int wl_ask_record_arrival(const uint32_t *lengths, size_t count,
                                        const uint8_t *product, size_t len, uint8_t *room,
                                        size_t room_len, wl_written_answer *answer)
{
    wl_record_arrival(lengths, count, product, len, room, room_len, (uint64_t *)answer);
    return (int)answer->refusal;
}

static inline int wl_ask_record(const uint8_t *bytes, size_t len, size_t k,
                                wl_record_answer *answer)
{
    wl_record(bytes, len, k, (uint64_t *)answer);
    return (int)answer->refusal;
}

static inline int wl_ask_number_field(const uint8_t *bytes, size_t len, size_t k,
                                      wl_number_answer *answer)
{
    wl_number_field(bytes, len, k, (uint64_t *)answer);
    return (int)answer->refusal;
}

static inline int wl_ask_time_field(const uint8_t *bytes, size_t len, size_t k,
                                    wl_moment_answer *answer)
{
    wl_time_field(bytes, len, k, (uint64_t *)answer);
    return (int)answer->refusal;
}

static inline int wl_ask_text_field(const uint8_t *bytes, size_t len, size_t k,
                                    wl_text_answer *answer)
{
    wl_text_field(bytes, len, k, (uint64_t *)answer);
    return (int)answer->refusal;
}

static inline int wl_ask_field(size_t k, uint8_t *room, size_t room_len, wl_field_answer *answer)
{
    wl_field(k, room, room_len, (uint64_t *)answer);
    return (int)answer->refusal;
}

static inline int wl_ask_field_named(const uint8_t *name, size_t len, wl_value_answer *answer)
{
    wl_field_named(name, len, (uint64_t *)answer);
    return (int)answer->refusal;
}

static inline int wl_ask_ground_point(const uint8_t *bytes, size_t len, uint8_t which,
                                      wl_point *point, wl_point_answer *answer)
{
    wl_ground_point(bytes, len, which, (double *)point, (uint64_t *)answer);
    return (int)answer->refusal;
}

static inline int wl_ask_listing(const uint8_t *bytes, size_t len, uint8_t *room, size_t room_len,
                                 wl_written_answer *answer)
{
    wl_listing(bytes, len, room, room_len, (uint64_t *)answer);
    return (int)answer->refusal;
}

static inline int wl_ask_cut(const uint8_t *bytes, size_t len, uint8_t first_defined,
                             uint16_t first_day, uint32_t first_milli, uint8_t last_defined,
                             uint16_t last_day, uint32_t last_milli, uint8_t *room, size_t room_len,
                             wl_written_answer *answer)
{
    wl_cut(bytes, len, first_defined, first_day, first_milli, last_defined, last_day, last_milli,
           room, room_len, (uint64_t *)answer);
    return (int)answer->refusal;
}

static inline int wl_ask_join(const uint8_t *first, size_t first_len, const uint8_t *second,
                              size_t second_len, uint8_t *room, size_t room_len,
                              wl_written_answer *answer)
{
    wl_join(first, first_len, second, second_len, room, room_len, (uint64_t *)answer);
    return (int)answer->refusal;
}

static inline int wl_ask_join_pass(const uint8_t *first, size_t first_len, const uint8_t *second,
                                   size_t second_len, uint8_t *room, size_t room_len,
                                   wl_written_answer *answer)
{
    wl_join_pass(first, first_len, second, second_len, room, room_len, (uint64_t *)answer);
    return (int)answer->refusal;
}

static inline int wl_ask_check_cut(const uint8_t *original, size_t len, const uint8_t *cut,
                                   size_t cut_len, wl_check_answer *answer)
{
    wl_check_cut(original, len, cut, cut_len, (uint64_t *)answer);
    return (int)answer->refusal;
}

static inline int wl_ask_report_add(wl_report *report, const uint8_t *bytes, size_t len,
                                    wl_report_answer *answer)
{
    wl_report_add((uint64_t *)report, bytes, len, (uint64_t *)answer);
    return (int)answer->refusal;
}

static inline int wl_ask_report_merge(wl_report *report, const wl_report *other,
                                      wl_report_answer *answer)
{
    wl_report_merge((uint64_t *)report, (const uint64_t *)other, (uint64_t *)answer);
    return (int)answer->refusal;
}

static inline int wl_ask_uth(const uint8_t *bytes, size_t len, wl_block *blocks, size_t blocks_len,
                             wl_block_values *values, size_t values_len, wl_blocks_answer *answer)
{
    wl_uth(bytes, len, (uint32_t(*)[WL_LEN_BLOCK])blocks, blocks_len,
           (float(*)[WL_LEN_VALUES])values, values_len, (uint64_t *)answer);
    return (int)answer->refusal;
}

static inline int wl_ask_read_header(const uint8_t *bytes, size_t len, size_t at,
                                     wl_record_answer *answer)
{
    wl_read_header(bytes, len, at, (uint64_t *)answer);
    return (int)answer->refusal;
}

static inline int wl_ask_write_header(uint8_t *room, size_t room_len, uint8_t class_, uint8_t group,
                                      uint8_t subclass, uint8_t version, uint32_t size,
                                      uint8_t start_defined, uint16_t start_day,
                                      uint32_t start_milli, uint8_t stop_defined, uint16_t stop_day,
                                      uint32_t stop_milli, wl_written_answer *answer)
{
    wl_write_header(room, room_len, class_, group, subclass, version, size, start_defined,
                    start_day, start_milli, stop_defined, stop_day, stop_milli, (uint64_t *)answer);
    return (int)answer->refusal;
}

static inline int wl_ask_write_text_line(uint8_t *room, size_t room_len, size_t k,
                                         const uint8_t *text, size_t text_len,
                                         wl_written_answer *answer)
{
    wl_write_text_line(room, room_len, k, text, text_len, (uint64_t *)answer);
    return (int)answer->refusal;
}

static inline int wl_ask_write_number_line(uint8_t *room, size_t room_len, size_t k,
                                           uint8_t defined, int64_t value,
                                           wl_written_answer *answer)
{
    wl_write_number_line(room, room_len, k, defined, value, (uint64_t *)answer);
    return (int)answer->refusal;
}

static inline int wl_ask_write_time_line(uint8_t *room, size_t room_len, size_t k, uint8_t defined,
                                         uint16_t year, uint8_t month, uint8_t day, uint8_t hour,
                                         uint8_t minute, uint8_t second, uint16_t milli,
                                         wl_written_answer *answer)
{
    wl_write_time_line(room, room_len, k, defined, year, month, day, hour, minute, second, milli,
                       (uint64_t *)answer);
    return (int)answer->refusal;
}

static inline int wl_ask_is_date(uint16_t year, uint8_t month, uint8_t day, wl_value_answer *answer)
{
    wl_is_date(year, month, day, (uint64_t *)answer);
    return (int)answer->refusal;
}

static inline int wl_ask_date_of(uint16_t day, wl_date_answer *answer)
{
    wl_date_of(day, (uint64_t *)answer);
    return (int)answer->refusal;
}

static inline int wl_ask_day_number(uint16_t year, uint8_t month, uint8_t day,
                                    wl_value_answer *answer)
{
    wl_day_number(year, month, day, (uint64_t *)answer);
    return (int)answer->refusal;
}

static inline int wl_ask_read_time(const uint8_t *bytes, size_t len, size_t at,
                                   wl_time_answer *answer)
{
    wl_read_time(bytes, len, at, (uint64_t *)answer);
    return (int)answer->refusal;
}

static inline int wl_ask_write_time(uint8_t *room, size_t room_len, uint8_t defined, uint16_t day,
                                    uint32_t milli, wl_written_answer *answer)
{
    wl_write_time(room, room_len, defined, day, milli, (uint64_t *)answer);
    return (int)answer->refusal;
}

static inline int wl_ask_time_order(uint8_t defined, uint16_t day, uint32_t milli,
                                    uint8_t other_defined, uint16_t other_day, uint32_t other_milli,
                                    wl_value_answer *answer)
{
    wl_time_order(defined, day, milli, other_defined, other_day, other_milli, (uint64_t *)answer);
    return (int)answer->refusal;
}

static inline int wl_ask_time_text(uint8_t *room, size_t room_len, uint8_t defined, uint16_t day,
                                   uint32_t milli, wl_written_answer *answer)
{
    wl_time_text(room, room_len, defined, day, milli, (uint64_t *)answer);
    return (int)answer->refusal;
}

static inline int wl_ask_text_time(const uint8_t *bytes, size_t len, size_t at,
                                   wl_time_answer *answer)
{
    wl_text_time(bytes, len, at, (uint64_t *)answer);
    return (int)answer->refusal;
}

static inline int wl_ask_read_scaled(const uint8_t *bytes, size_t len, size_t at, size_t width,
                                     uint8_t signed_, wl_scaled_answer *answer)
{
    wl_read_scaled(bytes, len, at, width, signed_, (uint64_t *)answer);
    return (int)answer->refusal;
}

static inline int wl_ask_write_scaled(uint8_t *room, size_t room_len, size_t width, uint8_t signed_,
                                      uint8_t defined, int64_t integer, int8_t scale,
                                      wl_written_answer *answer)
{
    wl_write_scaled(room, room_len, width, signed_, defined, integer, scale, (uint64_t *)answer);
    return (int)answer->refusal;
}

static inline int wl_ask_round(uint8_t defined, int64_t integer, int8_t scale, int8_t decimals,
                               wl_number_answer *answer)
{
    wl_round(defined, integer, scale, decimals, (uint64_t *)answer);
    return (int)answer->refusal;
}

static inline int wl_ask_reading(uint8_t defined, int64_t integer, int8_t scale, double *value,
                                 wl_value_answer *answer)
{
    wl_reading(defined, integer, scale, value, (uint64_t *)answer);
    return (int)answer->refusal;
}

/* tables: end */

/* ---- words. A number that has none is "unknown refusal", "unknown class" and so on */

/* tables: texts (written by tools/tables) */
/* What a refusal means, in words; of 0 "accepted". */
static inline const char *wl_refusal_text(uint64_t number)
{
    static const char *const texts[] = {
        "accepted",
        "the first header is not class 1, group 0, subclass 0, size 3307",
        "a line of the main header has another name, no \"= \" or no line feed",
        "a value of the main header is not of its kind",
        "the declared size is under 3,307 or over 2,147,483,647",
        "the totals do not agree: one MPHR, at most one SPHR, and TOTAL_RECORDS the sum of the "
        "others",
        "1 to 19 bytes are left where a record should start",
        "a record has an unknown class or group",
        "a record's class is out of the sections' order",
        "a record's size is under 20, past the declared size, or other than 27 for a pointer "
        "record",
        "a record has a bad time, or starts after it stops",
        "there are more records of a class than its total",
        "a pointer's target is not of class 4 to 8, or leaves no room for a record after the "
        "pointer",
        "a pointer points into the middle of a record",
        "a pointer points at a record of another class, group or subclass",
        "there are fewer records of a class than its total",
        "there are bytes beyond the declared size",
        "the product is finished short of its main header or of its declared size",
        "the lent room is too small",
        "there is no such record yet",
        "the part to read is outside the lent bytes",
        "a number, time, date or header is malformed or outside the limits",
        "there is no such field, it is of another kind, or the value does not fit its line",
        "a listing was asked of more than 65,536 bytes",
        "a watch was fed a 65th pointer record",
        "the window of time is undefined or invalid, or ends before it starts",
        "the two products are unlike in instrument, type, level, spacecraft, SPHR or global "
        "records",
        "the second product starts before the first stops",
        "the result would have over 2,147,483,647 bytes or over 999,999 records, or a sum does "
        "not fit its line",
        "a record is against the Level 0 profile",
        "the humidity file is short of 642 bytes",
        "the humidity file's number of segments is negative",
        "a segment's line or column is not 1 to 80",
        "a segment's number of blocks is below 1",
        "a segment header or a block is cut",
        "bytes are left over after the last block",
        "the report is full: 4,096 products, or a total of 64 bits",
        "the record of the arrival is short or long",
        "the record of the arrival has another number of answers than of parts",
        "the lengths of the parts do not sum to the product's, or are more than a record can "
        "count",
    };
    return number < 40 ? texts[number] : "unknown refusal";
}

/* The name of a class, as MDR. */
static inline const char *wl_class_text(uint64_t number)
{
    static const char *const texts[] = {
        "MPHR",
        "SPHR",
        "IPR",
        "GEADR",
        "GIADR",
        "VEADR",
        "VIADR",
        "MDR",
    };
    return number >= 1 && number < 9 ? texts[number - 1] : "unknown class";
}

/* The name of a group, as AVHRR/3. */
static inline const char *wl_group_text(uint64_t number)
{
    switch (number) {
    case 0: return "generic";
    case 1: return "AMSU-A";
    case 2: return "ASCAT";
    case 3: return "ATOVS";
    case 4: return "AVHRR/3";
    case 5: return "GOME";
    case 6: return "GRAS";
    case 7: return "HIRS/4";
    case 8: return "IASI";
    case 9: return "MHS";
    case 10: return "SEM";
    case 11: return "ADCS";
    case 12: return "SBUV";
    case 13: return "dummy";
    case 15: return "IASI level 2";
    case 99: return "archive";
    default: return "unknown group";
    }
}

/* The name of a field, as SENSING_START. */
static inline const char *wl_field_text(uint64_t number)
{
    static const char *const texts[] = {
        "PRODUCT_NAME",
        "PARENT_PRODUCT_NAME_1",
        "PARENT_PRODUCT_NAME_2",
        "PARENT_PRODUCT_NAME_3",
        "PARENT_PRODUCT_NAME_4",
        "INSTRUMENT_ID",
        "INSTRUMENT_MODEL",
        "PRODUCT_TYPE",
        "PROCESSING_LEVEL",
        "SPACECRAFT_ID",
        "SENSING_START",
        "SENSING_END",
        "SENSING_START_THEORETICAL",
        "SENSING_END_THEORETICAL",
        "PROCESSING_CENTRE",
        "PROCESSOR_MAJOR_VERSION",
        "PROCESSOR_MINOR_VERSION",
        "FORMAT_MAJOR_VERSION",
        "FORMAT_MINOR_VERSION",
        "PROCESSING_TIME_START",
        "PROCESSING_TIME_END",
        "PROCESSING_MODE",
        "DISPOSITION_MODE",
        "RECEIVING_GROUND_STATION",
        "RECEIVE_TIME_START",
        "RECEIVE_TIME_END",
        "ORBIT_START",
        "ORBIT_END",
        "ACTUAL_PRODUCT_SIZE",
        "STATE_VECTOR_TIME",
        "SEMI_MAJOR_AXIS",
        "ECCENTRICITY",
        "INCLINATION",
        "PERIGEE_ARGUMENT",
        "RIGHT_ASCENSION",
        "MEAN_ANOMALY",
        "X_POSITION",
        "Y_POSITION",
        "Z_POSITION",
        "X_VELOCITY",
        "Y_VELOCITY",
        "Z_VELOCITY",
        "EARTH_SUN_DISTANCE_RATIO",
        "LOCATION_TOLERANCE_RADIAL",
        "LOCATION_TOLERANCE_CROSSTRACK",
        "LOCATION_TOLERANCE_ALONGTRACK",
        "YAW_ERROR",
        "ROLL_ERROR",
        "PITCH_ERROR",
        "SUBSAT_LATITUDE_START",
        "SUBSAT_LONGITUDE_START",
        "SUBSAT_LATITUDE_END",
        "SUBSAT_LONGITUDE_END",
        "LEAP_SECOND",
        "LEAP_SECOND_UTC",
        "TOTAL_RECORDS",
        "TOTAL_MPHR",
        "TOTAL_SPHR",
        "TOTAL_IPR",
        "TOTAL_GEADR",
        "TOTAL_GIADR",
        "TOTAL_VEADR",
        "TOTAL_VIADR",
        "TOTAL_MDR",
        "COUNT_DEGRADED_INST_MDR",
        "COUNT_DEGRADED_PROC_MDR",
        "COUNT_DEGRADED_INST_MDR_BLOCKS",
        "COUNT_DEGRADED_PROC_MDR_BLOCKS",
        "DURATION_OF_PRODUCT",
        "MILLISECONDS_OF_DATA_PRESENT",
        "MILLISECONDS_OF_DATA_MISSING",
        "SUBSETTED_PRODUCT",
    };
    return number < 72 ? texts[number] : "unknown field";
}
/* tables: end */

/* ---- names of before, for one release. Define WARPLADLE_NO_OLD_NAMES to be without them */
#ifndef WARPLADLE_NO_OLD_NAMES
#define WL_ANSWER WL_LEN_ANSWER
#define WL_TIME WL_LEN_TIME
#define WL_SCALED WL_LEN_SCALED
#define WL_DATE WL_LEN_DATE
#define WL_FIELD WL_LEN_FIELD
#define WL_MOMENT WL_LEN_MOMENT
#define WL_HEADER WL_LEN_RECORD
#define WL_START WL_ROW_START
#define WL_SIZE WL_ROW_SIZE
#define WL_CLASS WL_ROW_CLASS
#define WL_GROUP WL_ROW_GROUP
#define WL_SUBCLASS WL_ROW_SUBCLASS
#define WL_VERSION WL_ROW_VERSION
#define WL_ORDINAL WL_ROW_ORDINAL
#define WL_ROW WL_LEN_ROW
#endif

#ifdef __cplusplus
}
#endif

#endif
