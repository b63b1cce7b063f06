//! Every leaf, query and writer once more, plainly, from the papers alone. The functions have the names and shapes of those in `boundary`.
mod headers;
mod lines;
mod queries;
mod scaled;
mod times;

pub use headers::{read_header, write_header};
pub use lines::{write_number_line, write_text_line, write_time_line};
pub use queries::{extent, field, field_named, ground_point, listing, number_field, record, text_field, time_field};
pub use scaled::{read_scaled, reading, round, write_scaled};
pub use times::{date_of, day_number, is_date, read_time, text_time, time_order, time_text, write_time};

use crate::values::Refusal;

fn refused<T>(number: u64, place: usize) -> Result<T, Refusal> {
    Err(Refusal { number, place: place as u64 })
}

/// The part of `need` bytes from `at` on, or 20 with the length of all lent bytes (E1).
fn part(bytes: &[u8], at: usize, need: u128) -> Result<&[u8], Refusal> {
    let end = at as u128 + need;
    if end > bytes.len() as u128 {
        return refused(20, bytes.len());
    }
    Ok(&bytes[at..end as usize])
}

/// `what` at the start of the room, or 18 with the bytes needed. All other checks come first.
fn write(room: &mut [u8], what: &[u8]) -> Result<usize, Refusal> {
    if room.len() < what.len() {
        return refused(18, what.len());
    }
    room[..what.len()].copy_from_slice(what);
    Ok(what.len())
}

/// Big-endian.
fn big_endian(bytes: &[u8]) -> u64 {
    bytes.iter().fold(0, |n, b| n << 8 | *b as u64)
}
