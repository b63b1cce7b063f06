//! Queries of a product, arriving or whole, and its listing.
use super::headers::read_header;
use super::lines::line;
use super::scaled::quotient;
use super::times::read_moment;
use super::{refused, write};
use crate::lines::{Kind, LINES, MAIN_SIZE, STARTS};
use crate::values::{Field, GroundPoint, Moment, Record, Refusal, Which};
use crate::{plain, Arrival, Finished};

/// The judge's refusal; or the count of a product that has wholly come, as the finished judge has it; or none where it is a sound part.
pub fn extent(bytes: &[u8]) -> Result<Option<u64>, Refusal> {
    if let Arrival::Refused { number, place } = plain::arrival(bytes) {
        return Err(Refusal { number, place });
    }
    match plain::finished(bytes, &mut vec![[0; 7]; bytes.len() / 20 + 1]) {
        Finished::Accepted { count } => Ok(Some(count)),
        Finished::Refused { number: 17, .. } => Ok(None),
        other => panic!("an arrival that waits is finished as {other:?}"),
    }
}

/// The judge's refusal; or 19 with the whole records counted; or record k.
pub fn record(bytes: &[u8], k: usize) -> Result<Record, Refusal> {
    match plain::arrival(bytes) {
        Arrival::Refused { number, place } => Err(Refusal { number, place }),
        Arrival::Waiting { count, .. } if k as u64 >= count => Err(Refusal { number: 19, place: count }),
        Arrival::Waiting { .. } => {
            let start = plain::findings(bytes).starts[k];
            Ok(Record { start, header: read_header(bytes, start as usize)? })
        }
    }
}

/// The value of field k where its kind is one of these. The first 3,307 bytes are judged, then 17, then 22 (D3, D4).
fn value<'a>(bytes: &'a [u8], k: usize, kinds: &[Kind]) -> Result<&'a [u8], Refusal> {
    if let Arrival::Refused { number, place } = plain::arrival(&bytes[..bytes.len().min(MAIN_SIZE)]) {
        return Err(Refusal { number, place });
    }
    if bytes.len() < MAIN_SIZE {
        return refused(17, bytes.len());
    }
    let (_, width, kind) = line(k)?;
    if !kinds.contains(&kind) {
        return refused(22, 0);
    }
    Ok(&bytes[STARTS[k] + 32..][..width])
}

fn as_text(value: &[u8]) -> &str {
    std::str::from_utf8(value).expect("the judge has passed it")
}

pub fn number_field(bytes: &[u8], k: usize) -> Result<Option<i64>, Refusal> {
    let value = value(bytes, k, &[Kind::Signed, Kind::Unsigned, Kind::Needed])?;
    if value.iter().all(|b| *b == b'x') {
        return Ok(None);
    }
    Ok(Some(as_text(value).trim_start_matches(' ').parse().expect("the judge has passed it")))
}

pub fn time_field(bytes: &[u8], k: usize) -> Result<Option<Moment>, Refusal> {
    read_moment(value(bytes, k, &[Kind::Time, Kind::LongTime])?)
}

pub fn text_field(bytes: &[u8], k: usize) -> Result<&str, Refusal> {
    value(bytes, k, &[Kind::Text]).map(as_text)
}

/// Field k, with its name at the start of the room: 22, then 18 with the bytes of the name.
pub fn field(k: usize, room: &mut [u8]) -> Result<Field, Refusal> {
    let (name, width, kind) = line(k)?;
    let bytes = write(room, name.as_bytes())?;
    let kind = match kind {
        Kind::Text => 0,
        Kind::Unsigned => 1,
        Kind::Needed => 2,
        Kind::Signed => 3,
        Kind::Time => 4,
        Kind::LongTime => 5,
    };
    Ok(Field { start: STARTS[k] as u64, width: width as u64, kind, name: bytes as u64 })
}

pub fn field_named(name: &[u8]) -> Result<usize, Refusal> {
    LINES.iter().position(|line| line.0.as_bytes() == name).map_or_else(|| refused(22, 0), Ok)
}

/// Thousandths of a degree, divided by 1000; none where either field is undefined.
pub fn ground_point(bytes: &[u8], which: Which) -> Result<Option<GroundPoint>, Refusal> {
    let end = match which {
        Which::Start => "START",
        Which::End => "END",
    };
    let degrees = |of: &str| -> Result<Option<f64>, Refusal> {
        let k = field_named(format!("SUBSAT_{of}_{end}").as_bytes())?;
        Ok(number_field(bytes, k)?.map(|n| quotient(n, 3)))
    };
    let (latitude, longitude) = (degrees("LATITUDE")?, degrees("LONGITUDE")?);
    Ok(latitude.zip(longitude).map(|(latitude, longitude)| GroundPoint { latitude, longitude }))
}

/// 23, then the finished judge's refusal, then 18 with the bytes of text.
pub fn listing(bytes: &[u8], text: &mut [u8]) -> Result<usize, Refusal> {
    if bytes.len() > 65_536 {
        return refused(23, 65_536);
    }
    let mut rows = vec![[0; 7]; bytes.len() / 20 + 1];
    match plain::finished(bytes, &mut rows) {
        Finished::Refused { number, place } => Err(Refusal { number, place }),
        Finished::Accepted { count } => {
            let mut lines = format!("records {count}\n");
            for [start, ..] in &rows[..count as usize] {
                let h = read_header(bytes, *start as usize)?;
                lines += &format!("{start} {} {} {} {} {}\n", h.class, h.group, h.subclass, h.version, h.size);
            }
            write(text, lines.as_bytes())
        }
    }
}
