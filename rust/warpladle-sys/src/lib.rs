//! The functions of include/warpladle.h, as they are: a flag is a byte, an answer is its numbers. The header says what each means.
//!
//! The functions are total: they ask nothing of the numbers and bytes. A caller of one owes that each pointer is valid for its length, and that what is
//! lent to be written overlaps with nothing else that is lent.
#![allow(clippy::too_many_arguments)]

/// Numbers in a record's row: start, size, class, group, subclass, version, ordinal.
pub const ROW: usize = 7;
/// Numbers of a report.
pub const REPORT: usize = 38;

/// wl_watch, whose parts are its own.
#[repr(C)]
#[derive(Clone, PartialEq, Eq)]
pub struct Watch {
    pub got: u64,
    pub have: u64,
    pub at: u64,
    pub count: u64,
    pub declared: u64,
    pub due: u64,
    pub place: u64,
    pub next: u64,
    pub line: u64,
    pub previous: u8,
    pub number: u8,
    pub totals: [u64; 9],
    pub tally: [u64; 9],
    pub starts: [u32; 64],
    pub targets: [u32; 64],
    pub kinds: [u32; 64],
    pub head: [u8; 3307],
    pub under: [u8; 27],
}

extern "C" {
    pub fn wl_arrival(bytes: *const u8, len: usize, answer: *mut [u64; 4]);
    pub fn wl_extent(bytes: *const u8, len: usize, answer: *mut [u64; 4]);
    pub fn wl_verdict(bytes: *const u8, len: usize, answer: *mut [u64; 4]);
    pub fn wl_rows(bytes: *const u8, len: usize, rows: *mut [u32; 7], room: usize, answer: *mut [u64; 4]);
    pub fn wl_level0(bytes: *const u8, len: usize, rows: *mut [u32; 7], room: usize, answer: *mut [u64; 4]);

    pub fn wl_watch_new(watch: *mut Watch);
    pub fn wl_watch_feed(watch: *mut Watch, part: *const u8, len: usize, answer: *mut [u64; 4]);

    pub fn wl_record(bytes: *const u8, len: usize, k: usize, answer: *mut [u64; 16]);
    pub fn wl_number_field(bytes: *const u8, len: usize, k: usize, answer: *mut [u64; 4]);
    pub fn wl_time_field(bytes: *const u8, len: usize, k: usize, answer: *mut [u64; 12]);
    pub fn wl_text_field(bytes: *const u8, len: usize, k: usize, answer: *mut [u64; 4]);
    pub fn wl_field(k: usize, name: *mut u8, room: usize, answer: *mut [u64; 6]);
    pub fn wl_field_named(name: *const u8, len: usize, answer: *mut [u64; 4]);
    pub fn wl_ground_point(bytes: *const u8, len: usize, which: u8, point: *mut [f64; 2], answer: *mut [u64; 4]);
    pub fn wl_listing(bytes: *const u8, len: usize, text: *mut u8, room: usize, answer: *mut [u64; 4]);

    pub fn wl_cut(
        bytes: *const u8,
        len: usize,
        first_defined: u8,
        first_day: u16,
        first_milli: u32,
        last_defined: u8,
        last_day: u16,
        last_milli: u32,
        room: *mut u8,
        room_len: usize,
        answer: *mut [u64; 4],
    );
    pub fn wl_join(
        first: *const u8,
        first_len: usize,
        second: *const u8,
        second_len: usize,
        room: *mut u8,
        room_len: usize,
        answer: *mut [u64; 4],
    );
    pub fn wl_join_pass(
        first: *const u8,
        first_len: usize,
        second: *const u8,
        second_len: usize,
        room: *mut u8,
        room_len: usize,
        answer: *mut [u64; 4],
    );
    pub fn wl_check_cut(original: *const u8, len: usize, cut: *const u8, cut_len: usize, answer: *mut [u64; 4]);

    pub fn wl_replay(record: *const u8, len: usize, product: *const u8, product_len: usize, answer: *mut [u64; 4]);
    pub fn wl_record_arrival(
        lengths: *const u32,
        count: usize,
        product: *const u8,
        len: usize,
        room: *mut u8,
        room_len: usize,
        answer: *mut [u64; 4],
    );

    pub fn wl_report_add(report: *mut [u64; 38], bytes: *const u8, len: usize, answer: *mut [u64; 4]);
    pub fn wl_report_merge(report: *mut [u64; 38], other: *const [u64; 38], answer: *mut [u64; 4]);

    pub fn wl_uth(
        bytes: *const u8,
        len: usize,
        blocks: *mut [u32; 4],
        room: usize,
        values: *mut [f32; 2],
        values_room: usize,
        answer: *mut [u64; 4],
    );

    pub fn wl_is_date(year: u16, month: u8, day: u8, answer: *mut [u64; 4]);
    pub fn wl_date_of(day: u16, answer: *mut [u64; 6]);
    pub fn wl_day_number(year: u16, month: u8, day: u8, answer: *mut [u64; 4]);

    pub fn wl_read_time(bytes: *const u8, len: usize, at: usize, answer: *mut [u64; 6]);
    pub fn wl_write_time(room: *mut u8, len: usize, defined: u8, day: u16, milli: u32, answer: *mut [u64; 4]);
    pub fn wl_time_order(
        defined: u8,
        day: u16,
        milli: u32,
        other_defined: u8,
        other_day: u16,
        other_milli: u32,
        answer: *mut [u64; 4],
    );
    pub fn wl_time_text(room: *mut u8, len: usize, defined: u8, day: u16, milli: u32, answer: *mut [u64; 4]);
    pub fn wl_text_time(bytes: *const u8, len: usize, at: usize, answer: *mut [u64; 6]);

    pub fn wl_read_scaled(bytes: *const u8, len: usize, at: usize, width: usize, signed: u8, answer: *mut [u64; 6]);
    pub fn wl_write_scaled(
        room: *mut u8,
        len: usize,
        width: usize,
        signed: u8,
        defined: u8,
        integer: i64,
        scale: i8,
        answer: *mut [u64; 4],
    );
    pub fn wl_round(defined: u8, integer: i64, scale: i8, decimals: i8, answer: *mut [u64; 4]);
    pub fn wl_reading(defined: u8, integer: i64, scale: i8, value: *mut f64, answer: *mut [u64; 4]);

    pub fn wl_read_header(bytes: *const u8, len: usize, at: usize, answer: *mut [u64; 16]);
    pub fn wl_write_header(
        room: *mut u8,
        len: usize,
        class: u8,
        group: u8,
        subclass: u8,
        version: u8,
        size: u32,
        start_defined: u8,
        start_day: u16,
        start_milli: u32,
        stop_defined: u8,
        stop_day: u16,
        stop_milli: u32,
        answer: *mut [u64; 4],
    );
    pub fn wl_write_text_line(
        room: *mut u8,
        len: usize,
        k: usize,
        text: *const u8,
        text_len: usize,
        answer: *mut [u64; 4],
    );
    pub fn wl_write_number_line(room: *mut u8, len: usize, k: usize, defined: u8, value: i64, answer: *mut [u64; 4]);
    pub fn wl_write_time_line(
        room: *mut u8,
        len: usize,
        k: usize,
        defined: u8,
        year: u16,
        month: u8,
        day: u8,
        hour: u8,
        minute: u8,
        second: u8,
        milli: u16,
        answer: *mut [u64; 4],
    );
}
