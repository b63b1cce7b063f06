//! The C boundary (include/warpladle.h) as a Rust user wants it. Undefined is `None`; an answer that is not of the stated form panics.
pub mod form;
pub mod raw;

use crate::month::Report;
use crate::replay::record_size;
use crate::values::{Date, Field, GroundPoint, Header, Moment, Reading, Record, Refusal, Scaled, Time, UthBlock, Which};
use crate::{Arrival, Row};
use std::cmp::Ordering;
use std::io;

/// No quotient has these bits: a number lent with them shows whether it was written.
const UNWRITTEN: u64 = 0x7ff8_0bad_0bad_0bad;

fn flat_time(time: Option<Time>) -> (u8, u16, u32) {
    time.map_or((0, 0, 0), |t| (1, t.day, t.milli))
}

fn flat_scaled(number: Option<Scaled>) -> (u8, i64, i8) {
    number.map_or((0, 0, 0), |n| (1, n.integer, n.scale))
}

// ---- the judges

pub fn arrival(bytes: &[u8]) -> Arrival {
    match raw::arrival(bytes) {
        [0, end, count, 0] => Arrival::Waiting { count, end },
        [number @ 1..=16, place, 0, 0] => Arrival::Refused { number, place },
        other => panic!("not an answer of the stated form: {other:?}"),
    }
}

/// The count of a product's records where all of it has come, `None` where a sound part has.
pub fn extent(bytes: &[u8]) -> Result<Option<u64>, Refusal> {
    match form::said(raw::extent(bytes))? {
        [_, _, 1, count] => Ok(Some(count)),
        [_, _, 0, 0] => Ok(None),
        other => panic!("wl_extent answered {other:?}"),
    }
}

/// The count of a finished product's records, where it is accepted.
pub fn verdict(bytes: &[u8]) -> Result<u64, Refusal> {
    form::one(raw::verdict(bytes))
}

/// The records' rows go to the first places of the list.
pub fn rows(bytes: &[u8], rows: &mut [Row]) -> Result<u64, Refusal> {
    form::one(raw::rows(bytes, rows))
}

/// As `rows`, with 29 before 18 where a VIADR or MDR is not as a Level 0 product has it.
pub fn level0(bytes: &[u8], rows: &mut [Row]) -> Result<u64, Refusal> {
    form::one(raw::level0(bytes, rows))
}

// ---- the watch

/// A watch over an arrival that is not kept: some four kilobytes, however long the product.
///
/// It is fed the parts as they come, or a download is copied into it with `std::io::copy`.
#[derive(Clone, PartialEq)]
pub struct Watch {
    state: raw::Watch,
    answer: Arrival,
}

impl Default for Watch {
    fn default() -> Watch {
        Watch::new()
    }
}

impl Watch {
    /// It stands for no bytes.
    pub fn new() -> Watch {
        Watch { state: raw::watch_new(), answer: Arrival::Waiting { count: 0, end: 0 } }
    }

    /// What `arrival` says of all that was fed, this part with it, up to a 65th pointer: that is refused with 24. A refusal stays.
    pub fn feed(&mut self, part: &[u8]) -> Arrival {
        self.answer = match raw::watch_feed(&mut self.state, part) {
            [0, end, count, 0] => Arrival::Waiting { count, end },
            [number @ (1..=16 | 24), place, 0, 0] => Arrival::Refused { number, place },
            other => panic!("not an answer of the stated form: {other:?}"),
        };
        self.answer
    }

    /// The last answer.
    pub fn answer(&self) -> Arrival {
        self.answer
    }
}

/// A part that shows a refusal, and each after it, is an error of kind `InvalidData` that carries the `Refusal`.
impl io::Write for Watch {
    fn write(&mut self, part: &[u8]) -> io::Result<usize> {
        match self.feed(part) {
            Arrival::Waiting { .. } => Ok(part.len()),
            Arrival::Refused { number, place } => Err(io::Error::new(io::ErrorKind::InvalidData, Refusal { number, place })),
        }
    }

    fn flush(&mut self) -> io::Result<()> {
        Ok(())
    }
}

// ---- the queries of a product, arriving or whole

pub fn record(bytes: &[u8], k: usize) -> Result<Record, Refusal> {
    form::record(raw::record(bytes, k))
}

pub fn number_field(bytes: &[u8], k: usize) -> Result<Option<i64>, Refusal> {
    form::number(raw::number_field(bytes, k))
}

pub fn time_field(bytes: &[u8], k: usize) -> Result<Option<Moment>, Refusal> {
    form::moment(raw::time_field(bytes, k))
}

pub fn text_field(bytes: &[u8], k: usize) -> Result<&str, Refusal> {
    let [.., start, width] = form::said(raw::text_field(bytes, k))?;
    let text = &bytes[start as usize..][..width as usize];
    Ok(std::str::from_utf8(text).expect("bytes 32 to 126"))
}

/// Field k whatever the product; its name goes to the start of the room.
pub fn field(k: usize, name: &mut [u8]) -> Result<Field, Refusal> {
    form::field(raw::field(k, name), name.len())
}

pub fn field_named(name: &[u8]) -> Result<usize, Refusal> {
    form::one(raw::field_named(name)).map(|k| k as usize)
}

/// `None` where either field is undefined.
pub fn ground_point(bytes: &[u8], which: Which) -> Result<Option<GroundPoint>, Refusal> {
    let mut point = [f64::from_bits(UNWRITTEN); 2];
    let answer = form::one(raw::ground_point(bytes, (which == Which::End) as u8, &mut point));
    let kept = point.map(|n| n.to_bits() == UNWRITTEN);
    match answer {
        Ok(1) if kept == [false; 2] => Ok(Some(GroundPoint { latitude: point[0], longitude: point[1] })),
        Ok(0) if kept == [true; 2] => Ok(None),
        Err(refusal) if kept == [true; 2] => Err(refusal),
        other => panic!("wl_ground_point answered {other:?} and left {point:?}"),
    }
}

/// The listing at the start of the room, as so many bytes of text.
pub fn listing(bytes: &[u8], text: &mut [u8]) -> Result<usize, Refusal> {
    form::written(raw::listing(bytes, text), text.len())
}

// ---- new products

/// The cut of a product to a window of time, at the start of the room, as so many bytes.
pub fn cut_into(bytes: &[u8], first: Option<Time>, last: Option<Time>, room: &mut [u8]) -> Result<usize, Refusal> {
    form::written(raw::cut(bytes, flat_time(first), flat_time(last), room), room.len())
}

/// The cut of a product to a window of time. It is seldom longer than the product; where it is, it is cut again into the bytes that it needs.
pub fn cut(bytes: &[u8], first: Option<Time>, last: Option<Time>) -> Result<Vec<u8>, Refusal> {
    let mut room = vec![0; bytes.len()];
    let written = match cut_into(bytes, first, last, &mut room) {
        Err(Refusal { number: 18, place }) => {
            room.resize(place as usize, 0);
            cut_into(bytes, first, last, &mut room)
        }
        other => other,
    };
    room.truncate(written?);
    Ok(room)
}

/// Two products that follow each other as one, at the start of the room, as so many bytes.
pub fn join_into(first: &[u8], second: &[u8], room: &mut [u8]) -> Result<usize, Refusal> {
    form::written(raw::join(first, second, room), room.len())
}

/// As `join_into`, of two granules of a pass.
pub fn join_pass_into(first: &[u8], second: &[u8], room: &mut [u8]) -> Result<usize, Refusal> {
    form::written(raw::join_pass(first, second, room), room.len())
}

/// Two products that follow each other as one. It is seldom longer than the two; where it is, they are joined again into the bytes that it needs.
pub fn join(first: &[u8], second: &[u8]) -> Result<Vec<u8>, Refusal> {
    joined(join_into, first, second)
}

/// As `join`, of two granules of a pass.
pub fn join_pass(first: &[u8], second: &[u8]) -> Result<Vec<u8>, Refusal> {
    joined(join_pass_into, first, second)
}

type JoinInto = fn(&[u8], &[u8], &mut [u8]) -> Result<usize, Refusal>;

fn joined(into: JoinInto, first: &[u8], second: &[u8]) -> Result<Vec<u8>, Refusal> {
    let mut room = vec![0; first.len() + second.len()];
    let written = match into(first, second, &mut room) {
        Err(Refusal { number: 18, place }) => {
            room.resize(place as usize, 0);
            into(first, second, &mut room)
        }
        other => other,
    };
    room.truncate(written?);
    Ok(room)
}

/// Whether a product is a cut of another: `None` where it is, else the place that shows that it is not.
pub fn check_cut(original: &[u8], cut: &[u8]) -> Result<Option<u64>, Refusal> {
    match form::said(raw::check_cut(original, cut))? {
        [_, _, 1, 0] => Ok(None),
        [_, _, 0, place] => Ok(Some(place)),
        other => panic!("wl_check_cut answered {other:?}"),
    }
}

// ---- records of arrivals

/// The first part, counted from 0, whose answer is not as the record has it; `None` where all are.
pub fn replay(record: &[u8], product: &[u8]) -> Result<Option<u64>, Refusal> {
    match form::said(raw::replay(record, product))? {
        [_, _, 0, 0] => Ok(None),
        [_, _, 1, part] => Ok(Some(part)),
        other => panic!("wl_replay answered {other:?}"),
    }
}

/// The record of a product that comes in parts of these lengths, at the start of the room, as so many bytes.
pub fn record_arrival_into(lengths: &[u32], product: &[u8], room: &mut [u8]) -> Result<usize, Refusal> {
    form::written(raw::record_arrival(lengths, product, room), room.len())
}

/// The record of a product that comes in parts of these lengths.
pub fn record_arrival(lengths: &[u32], product: &[u8]) -> Result<Vec<u8>, Refusal> {
    let mut room = vec![0; record_size(lengths.len())];
    let written = record_arrival_into(lengths, product, &mut room)?;
    room.truncate(written);
    Ok(room)
}

// ---- the month report

/// One product more in a report: its own refusal, which is counted, or `None` where it is accepted; or 36, the report kept.
pub fn report_add(report: &mut Report, bytes: &[u8]) -> Result<Option<Refusal>, Refusal> {
    match form::said(raw::report_add(report, bytes))? {
        [_, _, 0, 0] => Ok(None),
        [_, _, number @ 1..=17, place] => Ok(Some(Refusal { number, place })),
        other => panic!("wl_report_add answered {other:?}"),
    }
}

/// The products of another report too; or 36, the report kept.
pub fn report_merge(report: &mut Report, other: &Report) -> Result<(), Refusal> {
    match form::said(raw::report_merge(report, other))? {
        [_, _, 0, 0] => Ok(()),
        other => panic!("wl_report_merge answered {other:?}"),
    }
}

// ---- the humidity archive

/// Of each block line, column and whether UTH and CSR are there into a place of the one room, and the two, or 0.0, into that of the other.
pub fn read_uth(bytes: &[u8], blocks: &mut [[u32; 4]], values: &mut [[f32; 2]]) -> Result<usize, Refusal> {
    let room = blocks.len().min(values.len());
    form::written(raw::uth(bytes, blocks, values), room)
}

/// The blocks of a humidity file. It is asked how many there are, with no room, and then read.
pub fn uth(bytes: &[u8]) -> Result<Vec<UthBlock>, Refusal> {
    let n = match read_uth(bytes, &mut [], &mut []) {
        Err(Refusal { number: 18, place }) => place as usize,
        other => return other.map(|_| vec![]),
    };
    let (mut blocks, mut values) = (vec![[0; 4]; n], vec![[0.0; 2]; n]);
    read_uth(bytes, &mut blocks, &mut values)?;
    let block = |([line, column, uth, csr], v): (&[u32; 4], &[f32; 2])| UthBlock {
        line: *line,
        column: *column,
        uth: (*uth != 0).then_some(v[0]),
        csr: (*csr != 0).then_some(v[1]),
    };
    Ok(blocks.iter().zip(&values).map(block).collect())
}

// ---- dates and times

pub fn is_date(date: Date) -> bool {
    match form::one(raw::is_date((date.year, date.month, date.day))) {
        Ok(yes @ 0..=1) => yes == 1,
        other => panic!("wl_is_date answered {other:?}"),
    }
}

pub fn date_of(day: u16) -> Date {
    form::date(raw::date_of(day)).expect("each day has a date")
}

pub fn day_number(date: Date) -> Result<u16, Refusal> {
    let day = form::one(raw::day_number((date.year, date.month, date.day)))?;
    Ok(u16::try_from(day).expect("a day is 0 to 65535"))
}

pub fn read_time(bytes: &[u8], at: usize) -> Result<Option<Time>, Refusal> {
    form::time(raw::read_time(bytes, at))
}

/// The bytes written; so do all writers.
pub fn write_time(room: &mut [u8], time: Option<Time>) -> Result<usize, Refusal> {
    form::written(raw::write_time(room, flat_time(time)), room.len())
}

pub fn time_order(time: Option<Time>, other: Option<Time>) -> Result<Ordering, Refusal> {
    match form::one(raw::time_order(flat_time(time), flat_time(other)))? {
        0 => Ok(Ordering::Less),
        1 => Ok(Ordering::Equal),
        2 => Ok(Ordering::Greater),
        other => panic!("wl_time_order answered {other}"),
    }
}

pub fn time_text(room: &mut [u8], time: Option<Time>) -> Result<usize, Refusal> {
    form::written(raw::time_text(room, flat_time(time)), room.len())
}

pub fn text_time(bytes: &[u8], at: usize) -> Result<Option<Time>, Refusal> {
    form::time(raw::text_time(bytes, at))
}

// ---- scaled numbers

pub fn read_scaled(bytes: &[u8], at: usize, width: usize, signed: bool) -> Result<Option<Scaled>, Refusal> {
    form::scaled(raw::read_scaled(bytes, at, width, signed as u8))
}

pub fn write_scaled(room: &mut [u8], width: usize, signed: bool, number: Option<Scaled>) -> Result<usize, Refusal> {
    form::written(raw::write_scaled(room, width, signed as u8, flat_scaled(number)), room.len())
}

/// The units of the last decimal.
pub fn round(number: Option<Scaled>, decimals: i8) -> Result<Option<i64>, Refusal> {
    form::number(raw::round(flat_scaled(number), decimals))
}

pub fn reading(number: Option<Scaled>) -> Result<Reading, Refusal> {
    let mut value = f64::from_bits(UNWRITTEN);
    let answer = form::one(raw::reading(flat_scaled(number), &mut value));
    let kept = value.to_bits() == UNWRITTEN;
    match answer {
        Ok(0) if kept => Ok(Reading::Missing),
        Ok(1) if !kept => Ok(Reading::Whole(value)),
        Ok(2) if !kept => Ok(Reading::Between(value)),
        Err(refusal) if kept => Err(refusal),
        other => panic!("wl_reading answered {other:?} and left {value:?}"),
    }
}

// ---- record headers and lines of the main header

pub fn read_header(bytes: &[u8], at: usize) -> Result<Header, Refusal> {
    let record = form::record(raw::read_header(bytes, at))?;
    assert_eq!(record.start, at as u64, "wl_read_header gives `at` for the start");
    Ok(record.header)
}

pub fn write_header(room: &mut [u8], h: &Header) -> Result<usize, Refusal> {
    let kind = [h.class, h.group, h.subclass, h.version];
    form::written(raw::write_header(room, kind, h.size, flat_time(h.start), flat_time(h.stop)), room.len())
}

pub fn write_text_line(room: &mut [u8], k: usize, text: &[u8]) -> Result<usize, Refusal> {
    form::written(raw::write_text_line(room, k, text), room.len())
}

pub fn write_number_line(room: &mut [u8], k: usize, value: Option<i64>) -> Result<usize, Refusal> {
    form::written(raw::write_number_line(room, k, value.map_or((0, 0), |n| (1, n))), room.len())
}

pub fn write_time_line(room: &mut [u8], k: usize, moment: Option<Moment>) -> Result<usize, Refusal> {
    let answer = match moment {
        Some(m) => raw::write_time_line(room, k, 1, m.year, [m.month, m.day, m.hour, m.minute, m.second], m.milli),
        None => raw::write_time_line(room, k, 0, 0, [0; 5], 0),
    };
    form::written(answer, room.len())
}
