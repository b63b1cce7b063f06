//! Record headers.
use super::times::{read_time, time_bytes};
use super::{big_endian, part, refused, write};
use crate::values::{Header, Refusal};

/// 21 for an unknown class or group (002's Table 14: A1) or a size under 20. Start after stop is nothing (E3).
fn checked(header: Header) -> Result<Header, Refusal> {
    let class = (1..=8).contains(&header.class);
    let group = matches!(header.group, 0..=13 | 15 | 99);
    if !class || !group || header.size < 20 {
        return refused(21, 0);
    }
    Ok(header)
}

pub fn read_header(bytes: &[u8], at: usize) -> Result<Header, Refusal> {
    let part = part(bytes, at, 20)?;
    checked(Header {
        class: part[0],
        group: part[1],
        subclass: part[2],
        version: part[3],
        size: big_endian(&part[4..8]) as u32,
        start: read_time(part, 8)?,
        stop: read_time(part, 14)?,
    })
}

pub fn write_header(room: &mut [u8], header: &Header) -> Result<usize, Refusal> {
    let h = checked(*header)?;
    let kind = [h.class, h.group, h.subclass, h.version];
    write(room, &[&kind[..], &h.size.to_be_bytes(), &time_bytes(h.start)?, &time_bytes(h.stop)?].concat())
}
