//! The functions of include/warpladle.h as they are: a flag is a byte, an answer is its numbers.
//!
//! Every answer is filled with ones first, so that a number left unwritten is noticed.

pub use warpladle_sys::Watch;
use warpladle_sys::*;

/// A place for a watch, filled with ones as an answer is.
const UNMADE: Watch = Watch {
    got: u64::MAX,
    have: u64::MAX,
    at: u64::MAX,
    count: u64::MAX,
    declared: u64::MAX,
    due: u64::MAX,
    place: u64::MAX,
    next: u64::MAX,
    line: u64::MAX,
    previous: u8::MAX,
    number: u8::MAX,
    totals: [u64::MAX; 9],
    tally: [u64::MAX; 9],
    starts: [u32::MAX; 64],
    targets: [u32::MAX; 64],
    kinds: [u32::MAX; 64],
    head: [u8::MAX; 3307],
    under: [u8::MAX; 27],
};

fn answered<const N: usize>(call: impl FnOnce(&mut [u64; N])) -> [u64; N] {
    let mut answer = [u64::MAX; N];
    call(&mut answer);
    answer
}

// SAFETY, of every call below: the functions are total, so they ask nothing of the numbers. Each pointer stands with the length of its own
// slice and is not null (a slice's never is); what is written is borrowed as `&mut`, so it overlaps with nothing else that is lent; and the
// answer's type has the places that the header states.

pub fn arrival(bytes: &[u8]) -> [u64; 4] {
    // SAFETY: as above.
    answered(|answer| unsafe { wl_arrival(bytes.as_ptr(), bytes.len(), answer) })
}

pub fn extent(bytes: &[u8]) -> [u64; 4] {
    // SAFETY: as above.
    answered(|answer| unsafe { wl_extent(bytes.as_ptr(), bytes.len(), answer) })
}

pub fn verdict(bytes: &[u8]) -> [u64; 4] {
    // SAFETY: as above.
    answered(|answer| unsafe { wl_verdict(bytes.as_ptr(), bytes.len(), answer) })
}

pub fn rows(bytes: &[u8], rows: &mut [[u32; 7]]) -> [u64; 4] {
    // SAFETY: as above.
    answered(|answer| unsafe { wl_rows(bytes.as_ptr(), bytes.len(), rows.as_mut_ptr(), rows.len(), answer) })
}

pub fn level0(bytes: &[u8], rows: &mut [[u32; 7]]) -> [u64; 4] {
    // SAFETY: as above.
    answered(|answer| unsafe { wl_level0(bytes.as_ptr(), bytes.len(), rows.as_mut_ptr(), rows.len(), answer) })
}

pub fn watch_new() -> Watch {
    let mut watch = UNMADE;
    // SAFETY: as above; the watch has the layout that the header states.
    unsafe { wl_watch_new(&mut watch) };
    watch
}

pub fn watch_feed(watch: &mut Watch, part: &[u8]) -> [u64; 4] {
    // SAFETY: as above; the watch has the layout that the header states, and any state of it is taken.
    answered(|answer| unsafe { wl_watch_feed(watch, part.as_ptr(), part.len(), answer) })
}

pub fn record(bytes: &[u8], k: usize) -> [u64; 16] {
    // SAFETY: as above.
    answered(|answer| unsafe { wl_record(bytes.as_ptr(), bytes.len(), k, answer) })
}

pub fn number_field(bytes: &[u8], k: usize) -> [u64; 4] {
    // SAFETY: as above.
    answered(|answer| unsafe { wl_number_field(bytes.as_ptr(), bytes.len(), k, answer) })
}

pub fn time_field(bytes: &[u8], k: usize) -> [u64; 12] {
    // SAFETY: as above.
    answered(|answer| unsafe { wl_time_field(bytes.as_ptr(), bytes.len(), k, answer) })
}

pub fn text_field(bytes: &[u8], k: usize) -> [u64; 4] {
    // SAFETY: as above.
    answered(|answer| unsafe { wl_text_field(bytes.as_ptr(), bytes.len(), k, answer) })
}

pub fn field(k: usize, name: &mut [u8]) -> [u64; 6] {
    // SAFETY: as above.
    answered(|answer| unsafe { wl_field(k, name.as_mut_ptr(), name.len(), answer) })
}

pub fn field_named(name: &[u8]) -> [u64; 4] {
    // SAFETY: as above.
    answered(|answer| unsafe { wl_field_named(name.as_ptr(), name.len(), answer) })
}

pub fn ground_point(bytes: &[u8], which: u8, point: &mut [f64; 2]) -> [u64; 4] {
    // SAFETY: as above; the point has its two places.
    answered(|answer| unsafe { wl_ground_point(bytes.as_ptr(), bytes.len(), which, point, answer) })
}

pub fn listing(bytes: &[u8], text: &mut [u8]) -> [u64; 4] {
    // SAFETY: as above.
    answered(|answer| unsafe { wl_listing(bytes.as_ptr(), bytes.len(), text.as_mut_ptr(), text.len(), answer) })
}

pub fn uth(bytes: &[u8], blocks: &mut [[u32; 4]], values: &mut [[f32; 2]]) -> [u64; 4] {
    let (room, values_room) = (blocks.len(), values.len());
    // SAFETY: as above.
    answered(|answer| unsafe { wl_uth(bytes.as_ptr(), bytes.len(), blocks.as_mut_ptr(), room, values.as_mut_ptr(), values_room, answer) })
}

pub fn cut(bytes: &[u8], first: (u8, u16, u32), last: (u8, u16, u32), room: &mut [u8]) -> [u64; 4] {
    let ((a, b, c), (d, e, f)) = (first, last);
    // SAFETY: as above.
    answered(|answer| unsafe { wl_cut(bytes.as_ptr(), bytes.len(), a, b, c, d, e, f, room.as_mut_ptr(), room.len(), answer) })
}

pub fn join(first: &[u8], second: &[u8], room: &mut [u8]) -> [u64; 4] {
    // SAFETY: as above.
    answered(|answer| unsafe { wl_join(first.as_ptr(), first.len(), second.as_ptr(), second.len(), room.as_mut_ptr(), room.len(), answer) })
}

pub fn join_pass(first: &[u8], second: &[u8], room: &mut [u8]) -> [u64; 4] {
    // SAFETY: as above.
    answered(|answer| unsafe { wl_join_pass(first.as_ptr(), first.len(), second.as_ptr(), second.len(), room.as_mut_ptr(), room.len(), answer) })
}

pub fn check_cut(original: &[u8], cut: &[u8]) -> [u64; 4] {
    // SAFETY: as above.
    answered(|answer| unsafe { wl_check_cut(original.as_ptr(), original.len(), cut.as_ptr(), cut.len(), answer) })
}

pub fn replay(record: &[u8], product: &[u8]) -> [u64; 4] {
    // SAFETY: as above.
    answered(|answer| unsafe { wl_replay(record.as_ptr(), record.len(), product.as_ptr(), product.len(), answer) })
}

pub fn record_arrival(lengths: &[u32], product: &[u8], room: &mut [u8]) -> [u64; 4] {
    // SAFETY: as above.
    answered(|answer| unsafe {
        wl_record_arrival(lengths.as_ptr(), lengths.len(), product.as_ptr(), product.len(), room.as_mut_ptr(), room.len(), answer)
    })
}

pub fn report_add(report: &mut [u64; 38], bytes: &[u8]) -> [u64; 4] {
    // SAFETY: as above; the report has its places.
    answered(|answer| unsafe { wl_report_add(report, bytes.as_ptr(), bytes.len(), answer) })
}

pub fn report_merge(report: &mut [u64; 38], other: &[u64; 38]) -> [u64; 4] {
    // SAFETY: as above; each report has its places.
    answered(|answer| unsafe { wl_report_merge(report, other, answer) })
}

pub fn is_date((year, month, day): (u16, u8, u8)) -> [u64; 4] {
    // SAFETY: as above.
    answered(|answer| unsafe { wl_is_date(year, month, day, answer) })
}

pub fn date_of(day: u16) -> [u64; 6] {
    // SAFETY: as above.
    answered(|answer| unsafe { wl_date_of(day, answer) })
}

pub fn day_number((year, month, day): (u16, u8, u8)) -> [u64; 4] {
    // SAFETY: as above.
    answered(|answer| unsafe { wl_day_number(year, month, day, answer) })
}

pub fn read_time(bytes: &[u8], at: usize) -> [u64; 6] {
    // SAFETY: as above.
    answered(|answer| unsafe { wl_read_time(bytes.as_ptr(), bytes.len(), at, answer) })
}

pub fn write_time(room: &mut [u8], (defined, day, milli): (u8, u16, u32)) -> [u64; 4] {
    // SAFETY: as above.
    answered(|answer| unsafe { wl_write_time(room.as_mut_ptr(), room.len(), defined, day, milli, answer) })
}

pub fn time_order(time: (u8, u16, u32), other: (u8, u16, u32)) -> [u64; 4] {
    // SAFETY: as above; nothing is lent but the answer.
    answered(|answer| unsafe { wl_time_order(time.0, time.1, time.2, other.0, other.1, other.2, answer) })
}

pub fn time_text(room: &mut [u8], (defined, day, milli): (u8, u16, u32)) -> [u64; 4] {
    // SAFETY: as above.
    answered(|answer| unsafe { wl_time_text(room.as_mut_ptr(), room.len(), defined, day, milli, answer) })
}

pub fn text_time(bytes: &[u8], at: usize) -> [u64; 6] {
    // SAFETY: as above.
    answered(|answer| unsafe { wl_text_time(bytes.as_ptr(), bytes.len(), at, answer) })
}

pub fn read_scaled(bytes: &[u8], at: usize, width: usize, signed: u8) -> [u64; 6] {
    // SAFETY: as above.
    answered(|answer| unsafe { wl_read_scaled(bytes.as_ptr(), bytes.len(), at, width, signed, answer) })
}

pub fn write_scaled(room: &mut [u8], width: usize, signed: u8, (defined, integer, scale): (u8, i64, i8)) -> [u64; 4] {
    // SAFETY: as above.
    answered(|answer| unsafe { wl_write_scaled(room.as_mut_ptr(), room.len(), width, signed, defined, integer, scale, answer) })
}

pub fn round((defined, integer, scale): (u8, i64, i8), decimals: i8) -> [u64; 4] {
    // SAFETY: as above; nothing is lent but the answer.
    answered(|answer| unsafe { wl_round(defined, integer, scale, decimals, answer) })
}

pub fn reading((defined, integer, scale): (u8, i64, i8), value: &mut f64) -> [u64; 4] {
    // SAFETY: as above.
    answered(|answer| unsafe { wl_reading(defined, integer, scale, value, answer) })
}

pub fn read_header(bytes: &[u8], at: usize) -> [u64; 16] {
    // SAFETY: as above.
    answered(|answer| unsafe { wl_read_header(bytes.as_ptr(), bytes.len(), at, answer) })
}

/// `kind` is class, group, subclass and version.
pub fn write_header(room: &mut [u8], kind: [u8; 4], size: u32, start: (u8, u16, u32), stop: (u8, u16, u32)) -> [u64; 4] {
    let (at, len, [class, group, subclass, version]) = (room.as_mut_ptr(), room.len(), kind);
    // SAFETY: as above.
    answered(|answer| unsafe {
        wl_write_header(at, len, class, group, subclass, version, size, start.0, start.1, start.2, stop.0, stop.1, stop.2, answer)
    })
}

pub fn write_text_line(room: &mut [u8], k: usize, text: &[u8]) -> [u64; 4] {
    // SAFETY: as above.
    answered(|answer| unsafe { wl_write_text_line(room.as_mut_ptr(), room.len(), k, text.as_ptr(), text.len(), answer) })
}

pub fn write_number_line(room: &mut [u8], k: usize, (defined, value): (u8, i64)) -> [u64; 4] {
    // SAFETY: as above.
    answered(|answer| unsafe { wl_write_number_line(room.as_mut_ptr(), room.len(), k, defined, value, answer) })
}

/// `parts` are month, day, hour, minute and second.
pub fn write_time_line(room: &mut [u8], k: usize, defined: u8, year: u16, parts: [u8; 5], milli: u16) -> [u64; 4] {
    let (at, len, [month, day, hour, minute, second]) = (room.as_mut_ptr(), room.len(), parts);
    // SAFETY: as above.
    answered(|answer| unsafe { wl_write_time_line(at, len, k, defined, year, month, day, hour, minute, second, milli, answer) })
}
