//! The leaves, and with the feature the boundary, against the vectors in VECTORS/leaves and those of requests Two and Five. Where the two disagree,
//! this says which of them the vectors are with.
use outside::json::Json;
use outside::values::{GroundPoint, Header, Moment, Reading, Refusal, Scaled, Time};
use outside::vectors::{cases, request_products};
use std::cmp::Ordering;

mod leaves {
    use outside::leaves as tried;
    include!("cases.rs");
}

#[cfg(feature = "boundary")]
mod boundary {
    use outside::boundary as tried;
    include!("cases.rs");
}

// Answers in the vectors' own words.

fn said<T>(answer: Result<T, Refusal>, word: impl FnOnce(T) -> String) -> String {
    answer.map_or_else(|r| format!("[refused,{},{}]", r.number, r.place), word)
}

fn or_undefined<T>(value: Option<T>, word: impl FnOnce(T) -> String) -> String {
    value.map_or("[undefined]".into(), word)
}

fn word_time(time: Time) -> String {
    format!("[time,[{},{}]]", time.day, time.milli)
}

fn word_order(order: Ordering) -> String {
    format!("[order,{}]", order as i8)
}

fn word_scaled(n: Scaled) -> String {
    format!("[scaled,{},{}]", n.integer, n.scale)
}

fn word_f64(value: f64) -> String {
    format!("{{f64:{:016x}}}", value.to_bits())
}

fn word_reading(reading: Reading) -> String {
    match reading {
        Reading::Missing => "[missing]".into(),
        Reading::Whole(value) => format!("[whole,{}]", word_f64(value)),
        Reading::Between(value) => format!("[between,{}]", word_f64(value)),
    }
}

fn word_point(point: Option<GroundPoint>) -> String {
    let Some(p) = point else {
        return "[missing]".into();
    };
    format!("[point,{},{}]", word_f64(p.latitude), word_f64(p.longitude))
}

fn word_header(h: Header) -> String {
    // Here the vectors have an undefined time as its bits.
    let time = |t: Option<Time>| t.map_or("[65535,4294967295]".into(), |t| format!("[{},{}]", t.day, t.milli));
    let Header { class, group, subclass, version, size, .. } = h;
    format!("[header,[{class},{group},{subclass},{version},{size},{},{}]]", time(h.start), time(h.stop))
}

/// What a writer did with a room of so many bytes; beyond what it wrote the room must be as it was.
fn wrote(room: usize, writer: impl FnOnce(&mut [u8]) -> Result<usize, Refusal>) -> String {
    let mut bytes = vec![0xaa; room];
    let answer = writer(&mut bytes);
    let kept = *answer.as_ref().unwrap_or(&0);
    assert!(bytes[kept..].iter().all(|b| *b == 0xaa));
    said(answer, |n| format!("[written,{}]", bytes[..n].iter().map(|b| format!("{b:02x}")).collect::<String>()))
}

/// The six bytes as they stand, be they a good time or not.
fn as_time(six: &[u8]) -> Option<Time> {
    let time = Time { day: u16::from_be_bytes([six[0], six[1]]), milli: u32::from_be_bytes(six[2..6].try_into().unwrap()) };
    (six != [0xff; 6]).then_some(time)
}

fn as_header(h: &[u8]) -> Header {
    Header {
        class: h[0],
        group: h[1],
        subclass: h[2],
        version: h[3],
        size: u32::from_be_bytes(h[4..8].try_into().unwrap()),
        start: as_time(&h[8..14]),
        stop: as_time(&h[14..20]),
    }
}

fn as_moment(parts: &[Json]) -> Moment {
    let part = |k: usize| parts.get(k).map_or(0, Json::number);
    let byte = |k: usize| u8::try_from(part(k)).unwrap();
    Moment { year: part(0) as u16, month: byte(1), day: byte(2), hour: byte(3), minute: byte(4), second: byte(5), milli: part(6) as u16 }
}
