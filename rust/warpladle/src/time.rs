//! Times of record headers, and of the main header.
use crate::answers::{ask, flat, time_at};
use crate::Result;
use std::fmt;
use warpladle_sys as sys;

/// A short CDS time: the day from 1 January 2000 and the millisecond of that day, which ends later where it has a leap second.
#[derive(Clone, Copy, Debug, PartialEq, Eq, Hash, PartialOrd, Ord)]
pub struct Time {
    /// From 1 January 2000.
    pub day: u16,
    /// Of the day.
    pub milli: u32,
}

impl Time {
    /// The six bytes of a time from `at` on; `None` where it is undefined. Refused with `Outside`, then `Malformed`.
    pub fn read(bytes: &[u8], at: usize) -> Result<Option<Time>> {
        // SAFETY: as `ask` says.
        let answer = ask::<6>(|answer| unsafe { sys::wl_read_time(bytes.as_ptr(), bytes.len(), at, answer) })?;
        Ok(time_at(&answer, 2))
    }

    /// The time as the main header would write it, `YYYYMMDDHHMMSSmmmZ`. Refused with `Malformed` where the day has no such millisecond.
    pub fn text(self) -> Result<String> {
        let (mut room, (defined, day, milli)) = ([0; 18], flat(Some(self)));
        // SAFETY: as `ask` says.
        ask::<4>(|answer| unsafe { sys::wl_time_text(room.as_mut_ptr(), room.len(), defined, day, milli, answer) })?;
        Ok(room.iter().map(|byte| char::from(*byte)).collect())
    }

    /// The time of such a text; `None` where it is undefined. Refused with `Outside`, then `Malformed`.
    pub fn of_text(text: &str) -> Result<Option<Time>> {
        // SAFETY: as `ask` says.
        let answer = ask::<6>(|answer| unsafe { sys::wl_text_time(text.as_ptr(), text.len(), 0, answer) })?;
        Ok(time_at(&answer, 2))
    }
}

/// In ISO 8601; a time whose millisecond its day does not have is shown by its two numbers.
impl fmt::Display for Time {
    fn fmt(&self, f: &mut fmt::Formatter) -> fmt::Result {
        match self.text() {
            Ok(t) => f.pad(&format!(
                "{}-{}-{}T{}:{}:{}.{}Z",
                &t[..4],
                &t[4..6],
                &t[6..8],
                &t[8..10],
                &t[10..12],
                &t[12..14],
                &t[14..17]
            )),
            Err(_) => write!(f, "day {} millisecond {}", self.day, self.milli),
        }
    }
}

/// A time as the main header writes it, in years 0000 to 9999. Of a field to the second the millisecond is 0.
#[derive(Clone, Copy, Debug, PartialEq, Eq, Hash, PartialOrd, Ord)]
#[allow(missing_docs)]
pub struct Moment {
    pub year: u16,
    pub month: u8,
    pub day: u8,
    pub hour: u8,
    pub minute: u8,
    pub second: u8,
    pub milli: u16,
}

impl fmt::Display for Moment {
    fn fmt(&self, f: &mut fmt::Formatter) -> fmt::Result {
        let Moment { year, month, day, hour, minute, second, milli } = self;
        f.pad(&format!("{year:04}-{month:02}-{day:02}T{hour:02}:{minute:02}:{second:02}.{milli:03}Z"))
    }
}
