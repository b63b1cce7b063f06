//! Short CDS times, and times as text.
use super::{big_endian, part, refused, write};
use crate::leap;
use crate::values::{Date, Moment, Refusal, Time};
use std::cmp::Ordering;

fn checked(time: Time) -> Result<Time, Refusal> {
    if time.milli > leap::last_milli(time.day) {
        return refused(21, 0);
    }
    Ok(time)
}

pub fn read_time(bytes: &[u8], at: usize) -> Result<Option<Time>, Refusal> {
    let six = part(bytes, at, 6)?;
    if six == [0xff; 6] {
        return Ok(None);
    }
    checked(Time { day: big_endian(&six[..2]) as u16, milli: big_endian(&six[2..]) as u32 }).map(Some)
}

pub(super) fn time_bytes(time: Option<Time>) -> Result<Vec<u8>, Refusal> {
    let Some(time) = time else {
        return Ok(vec![0xff; 6]);
    };
    let time = checked(time)?;
    Ok([&time.day.to_be_bytes()[..], &time.milli.to_be_bytes()[..]].concat())
}

pub fn write_time(room: &mut [u8], time: Option<Time>) -> Result<usize, Refusal> {
    write(room, &time_bytes(time)?)
}

/// By day, then millisecond; 21 where either is undefined or invalid (E6).
pub fn time_order(time: Option<Time>, other: Option<Time>) -> Result<Ordering, Refusal> {
    let (Some(a), Some(b)) = (time, other) else {
        return refused(21, 0);
    };
    let (a, b) = (checked(a)?, checked(b)?);
    Ok((a.day, a.milli).cmp(&(b.day, b.milli)))
}

const fn is_leap(year: u16) -> bool {
    year % 4 == 0 && (year % 100 != 0 || year % 400 == 0)
}

/// 0 for a month that is none.
const fn days_of_month(year: u16, month: u8) -> u8 {
    match month {
        2 => 28 + is_leap(year) as u8,
        4 | 6 | 9 | 11 => 30,
        1..=12 => 31,
        _ => 0,
    }
}

pub fn is_date(d: Date) -> bool {
    d.year <= 9999 && (1..=days_of_month(d.year, d.month)).contains(&d.day)
}

pub(super) fn is_moment(m: &Moment) -> bool {
    let date = Date { year: m.year, month: m.month, day: m.day };
    is_date(date) && m.hour <= 23 && m.minute <= 59 && m.second <= leap::last_second(date, m.hour, m.minute) && m.milli <= 999
}

/// Year, month and day of a day from 1 January 2000, month by month.
pub const fn date_of(day: u16) -> Date {
    let (mut year, mut month, mut left) = (2000, 1, day as u32);
    while left >= days_of_month(year, month) as u32 {
        left -= days_of_month(year, month) as u32;
        (year, month) = if month == 12 { (year + 1, 1) } else { (year, month + 1) };
    }
    Date { year, month, day: left as u8 + 1 }
}

/// The day from 1 January 2000; 21 for no date and where it is not 0..65535.
pub fn day_number(d: Date) -> Result<u16, Refusal> {
    if d.year < 2000 || !is_date(d) {
        return refused(21, 0);
    }
    let years: u32 = (2000..d.year).map(|y| 365 + is_leap(y) as u32).sum();
    let months: u32 = (1..d.month).map(|k| days_of_month(d.year, k) as u32).sum();
    u16::try_from(years + months + d.day as u32 - 1).or(refused(21, 0))
}

/// As 002 writes it: 18 bytes, or 15; undefined is x's and a final Z (A2).
pub(super) fn moment_text(moment: Option<Moment>, long: bool) -> String {
    let body = match moment {
        None => "x".repeat(17),
        Some(m) => format!("{:04}{:02}{:02}{:02}{:02}{:02}{:03}", m.year, m.month, m.day, m.hour, m.minute, m.second, m.milli),
    };
    body[..if long { 17 } else { 14 }].to_string() + "Z"
}

/// A time of 15 or 18 bytes. Undefined is x's, with or without a final Z (A2).
pub(super) fn read_moment(text: &[u8]) -> Result<Option<Moment>, Refusal> {
    let (last, body) = text.split_last().expect("15 or 18 bytes");
    if body.iter().all(|b| *b == b'x') && (*last == b'x' || *last == b'Z') {
        return Ok(None);
    }
    if *last != b'Z' || !body.iter().all(u8::is_ascii_digit) {
        return refused(21, 0);
    }
    let number = |from: usize, to: usize| body[from..to].iter().fold(0, |n, b| n * 10 + (b - b'0') as u16);
    let moment = Moment {
        year: number(0, 4),
        month: number(4, 6) as u8,
        day: number(6, 8) as u8,
        hour: number(8, 10) as u8,
        minute: number(10, 12) as u8,
        second: number(12, 14) as u8,
        milli: number(14, body.len()),
    };
    if !is_moment(&moment) {
        return refused(21, 0);
    }
    Ok(Some(moment))
}

fn moment_of(time: Time) -> Moment {
    let Date { year, month, day } = date_of(time.day);
    let seconds = time.milli / 1000;
    // A leap second is of the day's last minute.
    let minutes = (seconds / 60).min(24 * 60 - 1);
    Moment {
        year,
        month,
        day,
        hour: (minutes / 60) as u8,
        minute: (minutes % 60) as u8,
        second: (seconds - minutes * 60) as u8,
        milli: (time.milli % 1000) as u16,
    }
}

pub fn time_text(room: &mut [u8], time: Option<Time>) -> Result<usize, Refusal> {
    let moment = time.map(checked).transpose()?.map(moment_of);
    write(room, moment_text(moment, true).as_bytes())
}

pub fn text_time(bytes: &[u8], at: usize) -> Result<Option<Time>, Refusal> {
    let Some(m) = read_moment(part(bytes, at, 18)?)? else {
        return Ok(None);
    };
    let day = day_number(Date { year: m.year, month: m.month, day: m.day })?;
    let seconds = (m.hour as u32 * 60 + m.minute as u32) * 60 + m.second as u32;
    Ok(Some(Time { day, milli: seconds * 1000 + m.milli as u32 }))
}
