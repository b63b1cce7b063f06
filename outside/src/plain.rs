//! The judges straight from 01's table: every fault there is, then the least of those shown.
use crate::lines::{Kind, LAST_TOTAL_LINE, LINES, MAIN_SIZE, RECORDS_LINE, SIZE_LINE, STARTS};
use crate::values::{Date, Refusal};
use crate::{leap, Arrival, Finished, Row};
use std::collections::HashMap;

/// Ordered as 01 gives them: the earliest shown, then the lowest number, then the lowest place.
#[derive(Clone, Copy, Debug, PartialEq, Eq, PartialOrd, Ord)]
pub struct Fault {
    pub shown: u64,
    pub number: u64,
    pub place: u64,
}

struct Record {
    start: u64,
    class: u8,
    group: u8,
    subclass: u8,
    size: u64,
}

struct Pointer {
    start: u64,
    class: u8,
    group: u8,
    subclass: u8,
    offset: u64,
}

/// All that the bytes say: faults (shown or not yet), whole records, the starts of the records and of the IPRs among them, and the product's
/// size where it is known.
pub struct Findings {
    pub faults: Vec<Fault>,
    pub count: u64,
    pub end: u64,
    pub starts: Vec<u64>,
    pub iprs: Vec<u64>,
    pub size: Option<u64>,
}

fn number(bytes: &[u8]) -> u64 {
    bytes.iter().fold(0, |n, b| n * 256 + *b as u64)
}

/// Day and millisecond of a short CDS time.
#[derive(PartialEq)]
enum Time {
    Undefined,
    Bad,
    At(u64, u64),
}

fn time(bytes: &[u8]) -> Time {
    if bytes.iter().all(|b| *b == 0xff) {
        return Time::Undefined;
    }
    let (day, milli) = (number(&bytes[0..2]), number(&bytes[2..6]));
    if milli > leap::last_milli(day as u16) as u64 {
        return Time::Bad;
    }
    Time::At(day, milli)
}

fn times_bad(header: &[u8]) -> bool {
    match (time(&header[8..14]), time(&header[14..20])) {
        (Time::Bad, _) | (_, Time::Bad) => true,
        (Time::At(d, m), Time::At(e, n)) => (d, m) > (e, n),
        _ => false,
    }
}

fn group_known(group: u8) -> bool {
    group <= 13 || group == 15 || group == 99
}

fn may_follow(last: u8, next: u8) -> bool {
    let lowest = match last {
        1 => 2,
        2 | 3 => 3,
        4 | 5 => 4,
        6 | 7 => 6,
        _ => 8,
    };
    (lowest..=8).contains(&next)
}

fn is_number(value: &[u8], signed: bool) -> bool {
    let mut rest = value;
    while let [b' ', after @ ..] = rest {
        rest = after;
    }
    if signed {
        if let [b'+' | b'-', after @ ..] = rest {
            rest = after;
        }
    }
    !rest.is_empty() && rest.iter().all(|b| b.is_ascii_digit())
}

fn is_time(value: &[u8]) -> bool {
    let (body, last) = value.split_at(value.len() - 1);
    if last != b"Z" || !body.iter().all(|b| b.is_ascii_digit()) {
        return false;
    }
    let part = |from: usize, to: usize| body[from..to].iter().fold(0u32, |n, b| n * 10 + (*b - b'0') as u32);
    let (year, month, day) = (part(0, 4), part(4, 6), part(6, 8));
    let (hour, minute, second) = (part(8, 10), part(10, 12), part(12, 14));
    let leap = year % 4 == 0 && (year % 100 != 0 || year % 400 == 0);
    let days = match month {
        1 | 3 | 5 | 7 | 8 | 10 | 12 => 31,
        4 | 6 | 9 | 11 => 30,
        2 if leap => 29,
        2 => 28,
        _ => 0,
    };
    let last_second = leap::last_second(Date { year: year as u16, month: month as u8, day: day as u8 }, hour as u8, minute as u8);
    day >= 1 && day <= days && hour <= 23 && minute <= 59 && second <= last_second as u32
}

fn is_value(value: &[u8], kind: Kind) -> bool {
    let all_x = |bytes: &[u8]| bytes.iter().all(|b| *b == b'x');
    match kind {
        Kind::Text => value.iter().all(|b| (32..=126).contains(b)),
        Kind::Signed => all_x(value) || is_number(value, true),
        Kind::Unsigned => all_x(value) || is_number(value, false),
        Kind::Needed => is_number(value, false),
        Kind::Time | Kind::LongTime => {
            let (body, last) = value.split_at(value.len() - 1);
            all_x(value) || (all_x(body) && last == b"Z") || is_time(value)
        }
    }
}

fn written(value: &[u8]) -> Option<u64> {
    if !is_number(value, false) {
        return None;
    }
    Some(value.iter().filter(|b| **b != b' ').fold(0, |n, b| n * 10 + (*b - b'0') as u64))
}

fn value_of(bytes: &[u8], line: usize) -> Option<u64> {
    let end = STARTS[line + 1];
    if bytes.len() < end {
        return None;
    }
    written(&bytes[STARTS[line] + 32..end - 1])
}

/// Everything the bytes tell. A fault is in the list only where the bytes it depends on are here.
pub fn findings(bytes: &[u8]) -> Findings {
    let len = bytes.len();
    let mut faults = Vec::new();
    let mut fault = |number: u64, place: u64, shown: u64| faults.push(Fault { shown, number, place });

    // The main header: 1 to 5.
    let mut sound = true;
    if len >= 20 {
        if bytes[0] != 1 || bytes[1] != 0 || bytes[2] != 0 || number(&bytes[4..8]) != 3307 {
            fault(1, 0, 20);
            sound = false;
        }
        if times_bad(&bytes[0..20]) {
            fault(10, 0, 20);
        }
    }
    for (k, (name, _, kind)) in LINES.iter().enumerate() {
        let (start, end) = (STARTS[k], STARTS[k + 1]);
        if len < end {
            break;
        }
        let line = &bytes[start..end];
        if line[..30] != *format!("{name:30}").as_bytes() || line[30..32] != *b"= " || line[line.len() - 1] != b'\n' {
            fault(2, start as u64, end as u64);
            sound = false;
        }
        if !is_value(&line[32..line.len() - 1], *kind) {
            fault(3, start as u64 + 32, end as u64);
            sound = false;
        }
    }
    let size = value_of(bytes, SIZE_LINE);
    if size.is_some_and(|d| d < 3307 || d > 2_147_483_647) {
        fault(4, 1485, 1497);
        sound = false;
    }
    let totals: Option<Vec<u64>> = (RECORDS_LINE..=LAST_TOTAL_LINE).map(|k| value_of(bytes, k)).collect();
    if let Some(t) = &totals {
        if t[1] != 1 || t[2] > 1 || t[0] != t[1..].iter().sum::<u64>() {
            fault(5, 2675, 2994);
            sound = false;
        }
    }
    let (Some(d), Some(totals), true) = (size, totals, sound && len >= MAIN_SIZE) else {
        return Findings { faults, count: 0, end: 0, starts: Vec::new(), iprs: Vec::new(), size: None };
    };

    // The records after it: 6 to 12.
    let mut records = vec![Record { start: 0, class: 1, group: 0, subclass: 0, size: 3307 }];
    let mut pointers = Vec::new();
    let mut counts = [0u64; 9];
    counts[1] = 1;
    let (mut whole, mut end) = (1, 3307);
    let mut s = 3307u64;
    loop {
        if s == d {
            if (1..=8).any(|c| counts[c] < totals[c]) {
                fault(15, d, d);
            }
            break;
        }
        if d - s < 20 {
            fault(6, s, s);
            break;
        }
        if s + 20 > len as u64 {
            break;
        }
        let at = s as usize;
        let header = &bytes[at..at + 20];
        let (class, group, subclass, size) = (header[0], header[1], header[2], number(&header[4..8]));
        let class_known = (1..=8).contains(&class);
        if !class_known || !group_known(group) {
            fault(7, s, s + 20);
        }
        let last = records[records.len() - 1].class;
        if class_known && (1..=8).contains(&last) && !may_follow(last, class) {
            fault(8, s, s + 20);
        }
        let misfit = size < 20 || s + size > d || (class == 3 && size != 27);
        if misfit {
            fault(9, s, s + 20);
        }
        if times_bad(header) {
            fault(10, s, s + 20);
        }
        if class_known {
            counts[class as usize] += 1;
            if counts[class as usize] > totals[class as usize] {
                fault(11, s, s + 20);
            }
        }
        records.push(Record { start: s, class, group, subclass, size });
        if misfit {
            break;
        }
        if class == 3 && s + 27 <= len as u64 {
            let p = &bytes[at + 20..at + 27];
            let offset = number(&p[3..7]);
            if !(4..=8).contains(&p[0]) || offset < s + 27 || offset + 20 > d {
                fault(12, s, s + 27);
            } else {
                pointers.push(Pointer { start: s, class: p[0], group: p[1], subclass: p[2], offset });
            }
        }
        if s + size <= len as u64 {
            whole += 1;
            end = s + size;
        }
        s += size;
    }

    // Pointers against records: 13 and 14.
    for p in &pointers {
        for r in &records {
            if r.start < p.offset && p.offset < r.start + r.size {
                fault(13, p.start, r.start + 20);
            }
            if r.start == p.offset && (p.class, p.group, p.subclass) != (r.class, r.group, r.subclass) {
                fault(14, p.start, p.offset + 20);
            }
        }
    }
    if len as u64 > d {
        fault(16, d, d + 1);
    }
    let starts = records.iter().map(|r| r.start).collect();
    let iprs = records.iter().filter(|r| r.class == 3).map(|r| r.start).collect();
    Findings { faults, count: whole, end, starts, iprs, size: Some(d) }
}

fn least(found: &Findings, len: usize) -> Option<Fault> {
    found.faults.iter().filter(|f| f.shown <= len as u64).min().copied()
}

fn given(found: &Findings, least: Option<Fault>) -> Arrival {
    match least {
        Some(f) => Arrival::Refused { number: f.number, place: f.place },
        None => Arrival::Waiting { count: found.count, end: found.end },
    }
}

pub fn arrival(bytes: &[u8]) -> Arrival {
    let found = findings(bytes);
    given(&found, least(&found, bytes.len()))
}

/// The faults of the watch's table (request One) that so many bytes show, the one that is given first. The table has one row more: 24, a 65th
/// IPR, place its start s, shown at s+20, which stands after 12 and before 13 in the order of numbers.
pub fn shown_to_watch(found: &Findings, len: usize) -> Vec<Fault> {
    let mut faults = found.faults.clone();
    faults.extend(found.iprs.get(64).map(|s| Fault { shown: s + 20, number: 24, place: *s }));
    faults.retain(|f| f.shown <= len as u64);
    faults.sort_by_key(|f| (f.shown, if f.number == 24 { (12, 1) } else { (f.number, 0) }, f.place));
    faults
}

/// What is right for a watch that stands for these bytes.
pub fn watched(bytes: &[u8]) -> Arrival {
    let found = findings(bytes);
    given(&found, shown_to_watch(&found, bytes.len()).first().copied())
}

/// "start, size, class, group, subclass, version, and the row's ordinal among rows of its triple, from 0"
fn rows_at(bytes: &[u8], starts: &[u64]) -> Vec<Row> {
    let mut seen = HashMap::<[u8; 3], u32>::new();
    let mut row = |start: u64| {
        let head = &bytes[start as usize..];
        let size = u32::from_be_bytes(head[4..8].try_into().unwrap());
        let triple = [head[0], head[1], head[2]];
        let next = seen.entry(triple).or_default();
        let ordinal = *next;
        *next += 1;
        let [class, group, subclass] = triple.map(u32::from);
        [start as u32, size, class, group, subclass, head[3] as u32, ordinal]
    };
    starts.iter().map(|s| row(*s)).collect()
}

pub fn finished(bytes: &[u8], lent: &mut [Row]) -> Finished {
    let found = findings(bytes);
    if let Some(f) = least(&found, bytes.len()) {
        return Finished::Refused { number: f.number, place: f.place };
    }
    let whole = found.size.is_some_and(|d| bytes.len() as u64 >= d);
    if !whole {
        return Finished::Refused { number: 17, place: bytes.len() as u64 };
    }
    if lent.len() < found.starts.len() {
        return Finished::Refused { number: 18, place: found.starts.len() as u64 };
    }
    lent[..found.starts.len()].copy_from_slice(&rows_at(bytes, &found.starts));
    Finished::Accepted { count: found.starts.len() as u64 }
}

/// What an accepted product tells, or 1 to 17.
fn accepted(bytes: &[u8]) -> Result<Findings, Refusal> {
    let found = findings(bytes);
    match least(&found, bytes.len()) {
        Some(f) => Err(Refusal { number: f.number, place: f.place }),
        None if found.size == Some(bytes.len() as u64) => Ok(found),
        None => Err(Refusal { number: 17, place: bytes.len() as u64 }),
    }
}

/// The verdict (request Fourteen): the count of an accepted product, or 1 to 17.
pub fn verdict(bytes: &[u8]) -> Result<u64, Refusal> {
    Ok(accepted(bytes)?.count)
}

/// The row lister (request Fourteen): it judges for itself and hands refusals on; then 18; then the rows.
pub fn rows(bytes: &[u8], lent: &mut [Row]) -> Result<u64, Refusal> {
    let found = accepted(bytes)?;
    if (lent.len() as u64) < found.count {
        return Err(Refusal { number: 18, place: found.count });
    }
    lent.iter_mut().zip(rows_at(bytes, &found.starts)).for_each(|(place, row)| *place = row);
    Ok(found.count)
}
