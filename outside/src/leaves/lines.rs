//! Lines of the main header.
use super::times::{is_moment, moment_text};
use super::{refused, write};
use crate::lines::{Kind, LINES};
use crate::values::{Moment, Refusal};

/// Name, width and kind of field k.
pub(super) fn line(k: usize) -> Result<(&'static str, usize, Kind), Refusal> {
    LINES.get(k).copied().map_or_else(|| refused(22, 0), Ok)
}

fn write_line(room: &mut [u8], name: &str, value: &[u8]) -> Result<usize, Refusal> {
    write(room, &[format!("{name:30}= ").as_bytes(), value, b"\n"].concat())
}

pub fn write_text_line(room: &mut [u8], k: usize, text: &[u8]) -> Result<usize, Refusal> {
    let (name, width, kind) = line(k)?;
    if kind != Kind::Text || text.len() != width || !text.iter().all(|b| (32..=126).contains(b)) {
        return refused(22, 0);
    }
    write_line(room, name, text)
}

pub fn write_number_line(room: &mut [u8], k: usize, value: Option<i64>) -> Result<usize, Refusal> {
    let (name, width, kind) = line(k)?;
    let fits = match kind {
        Kind::Signed => true,
        Kind::Unsigned => value.is_none_or(|n| n >= 0),
        Kind::Needed => value.is_some_and(|n| n >= 0),
        Kind::Text | Kind::Time | Kind::LongTime => false,
    };
    let text = value.map_or("x".repeat(width), |n| format!("{n:>width$}"));
    if !fits || text.len() > width {
        return refused(22, 0);
    }
    write_line(room, name, text.as_bytes())
}

/// A millisecond doesn't fit a short field (E14).
pub fn write_time_line(room: &mut [u8], k: usize, moment: Option<Moment>) -> Result<usize, Refusal> {
    let (name, _, kind) = line(k)?;
    let fits = match kind {
        Kind::Time => moment.is_none_or(|m| is_moment(&m) && m.milli == 0),
        Kind::LongTime => moment.is_none_or(|m| is_moment(&m)),
        _ => false,
    };
    if !fits {
        return refused(22, 0);
    }
    write_line(room, name, moment_text(moment, kind == Kind::LongTime).as_bytes())
}
