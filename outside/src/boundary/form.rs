//! Answers as include/warpladle.h states them, made into values. An answer of another form panics.
use crate::values::{Date, Field, Header, Moment, Record, Refusal, Scaled, Time};

#[track_caller]
fn misformed(answer: &[u64]) -> ! {
    panic!("not an answer of the stated form: {answer:?}")
}

/// 0, 0 and the values; or number, place and zeros.
#[track_caller]
pub fn said<const N: usize>(answer: [u64; N]) -> Result<[u64; N], Refusal> {
    match (answer[0], answer[1]) {
        (0, 0) => Ok(answer),
        (number @ (1..=23 | 25..=39), place) if answer[2..].iter().all(|n| *n == 0) => Err(Refusal { number, place }),
        _ => misformed(&answer),
    }
}

/// A number in a narrower type, which the boundary took it from.
#[track_caller]
fn narrow<T: TryFrom<u64>>(answer: &[u64], k: usize) -> T {
    T::try_from(answer[k]).unwrap_or_else(|_| misformed(answer))
}

/// One value and a 0.
#[track_caller]
pub fn one(answer: [u64; 4]) -> Result<u64, Refusal> {
    match said(answer)? {
        [_, _, value, 0] => Ok(value),
        _ => misformed(&answer),
    }
}

/// The bytes written, which the room holds, and a 0.
#[track_caller]
pub fn written(answer: [u64; 4], room: usize) -> Result<usize, Refusal> {
    let bytes = one(answer)?;
    if bytes > room as u64 {
        misformed(&answer);
    }
    Ok(bytes as usize)
}

/// Defined, and a number in two's complement.
#[track_caller]
pub fn number(answer: [u64; 4]) -> Result<Option<i64>, Refusal> {
    match said(answer)? {
        [_, _, 1, value] => Ok(Some(value as i64)),
        [_, _, 0, 0] => Ok(None),
        _ => misformed(&answer),
    }
}

/// Defined, day and millisecond at place k.
#[track_caller]
fn time_at(answer: &[u64], k: usize) -> Option<Time> {
    match answer[k..k + 3] {
        [1, ..] => Some(Time { day: narrow(answer, k + 1), milli: narrow(answer, k + 2) }),
        [0, 0, 0] => None,
        _ => misformed(answer),
    }
}

#[track_caller]
pub fn time(answer: [u64; 6]) -> Result<Option<Time>, Refusal> {
    if said(answer)?[5] != 0 {
        misformed(&answer);
    }
    Ok(time_at(&answer, 2))
}

/// Year, month, day and a 0.
#[track_caller]
pub fn date(answer: [u64; 6]) -> Result<Date, Refusal> {
    match said(answer)? {
        [.., 0] => Ok(Date { year: narrow(&answer, 2), month: narrow(&answer, 3), day: narrow(&answer, 4) }),
        _ => misformed(&answer),
    }
}

/// Where the line starts, width, kind, and the bytes of the name, which the room holds.
#[track_caller]
pub fn field(answer: [u64; 6], room: usize) -> Result<Field, Refusal> {
    let [_, _, start, width, kind, name] = said(answer)?;
    if name > room as u64 {
        misformed(&answer);
    }
    Ok(Field { start, width, kind, name })
}

#[track_caller]
pub fn scaled(answer: [u64; 6]) -> Result<Option<Scaled>, Refusal> {
    match said(answer)? {
        [_, _, 1, integer, scale, 0] => {
            let scale = i8::try_from(scale as i64).unwrap_or_else(|_| misformed(&answer));
            Ok(Some(Scaled { integer: integer as i64, scale }))
        }
        [_, _, 0, 0, 0, 0] => Ok(None),
        _ => misformed(&answer),
    }
}

#[track_caller]
pub fn moment(answer: [u64; 12]) -> Result<Option<Moment>, Refusal> {
    match said(answer)? {
        [_, _, 1, .., 0, 0] => Ok(Some(Moment {
            year: narrow(&answer, 3),
            month: narrow(&answer, 4),
            day: narrow(&answer, 5),
            hour: narrow(&answer, 6),
            minute: narrow(&answer, 7),
            second: narrow(&answer, 8),
            milli: narrow(&answer, 9),
        })),
        [_, _, 0, rest @ ..] if rest == [0; 9] => Ok(None),
        _ => misformed(&answer),
    }
}

#[track_caller]
pub fn record(answer: [u64; 16]) -> Result<Record, Refusal> {
    if said(answer)?[14..] != [0, 0] {
        misformed(&answer);
    }
    let header = Header {
        class: narrow(&answer, 3),
        group: narrow(&answer, 4),
        subclass: narrow(&answer, 5),
        version: narrow(&answer, 6),
        size: narrow(&answer, 7),
        start: time_at(&answer, 8),
        stop: time_at(&answer, 11),
    };
    Ok(Record { start: answer[2], header })
}
