//! Request Three: the MDRs of a window of time, and what belongs to them, as a new product. One pass over the headers of the product for sizes,
//! first places and times, one that copies what stays in as few stretches as it stands.
use crate::leaves::date_of;
use crate::lines::{LINES, MAIN_SIZE, RECORDS_LINE, SIZE_LINE, STARTS};
use crate::values::{Refusal, Time};
use crate::{fast, leap};

pub(crate) const IPR_SIZE: usize = 27;
/// Known groups by subclasses, to a class of 4 to 8.
pub(crate) const KINDS: usize = 5 * 16 * 256;
const SENSING_START_LINE: usize = 10;
pub(crate) const SENSING_END_LINE: usize = 11;
pub(crate) const DEGRADED_AND_DURATIONS: std::ops::RangeInclusive<usize> = 64..=70;
const SUBSETTED_LINE: usize = 71;
pub(crate) const UNDEFINED: u64 = 0xffff_ffff_ffff;

/// Day and millisecond as they stand in six bytes, which order as the times do.
fn six(bytes: &[u8]) -> u64 {
    bytes[..6].iter().fold(0, |n, b| n << 8 | *b as u64)
}

fn ends(first: Option<Time>, last: Option<Time>) -> Option<(u64, u64)> {
    let end = |t: Option<Time>| t.filter(|t| t.milli <= leap::last_milli(t.day)).map(|t| (t.day as u64) << 32 | t.milli as u64);
    let (from, to) = (end(first)?, end(last)?);
    (from <= to).then_some((from, to))
}

/// The place of a kind among all that there can be, in their ascending order.
pub(crate) fn kind(header: &[u8]) -> usize {
    let group = match header[1] {
        15 => 14,
        99 => 15,
        g => g as usize,
    };
    (header[0] as usize - 4) * 4096 + group * 256 + header[2] as usize
}

/// What a cut is made of.
struct Survey {
    sphr: std::ops::Range<usize>,
    kept_bytes: usize,
    counts: [u64; 9],
    /// One more than the bytes before the first kept record of a kind, 0 where there is none.
    firsts: Vec<u32>,
    earliest: u64,
    /// The latest defined stop, and one more.
    latest: u64,
}

fn is_chosen(header: &[u8], (from, to): (u64, u64)) -> bool {
    let start = six(&header[8..]);
    start != UNDEFINED && from <= start && start <= to
}

fn survey(bytes: &[u8], window: (u64, u64)) -> Survey {
    let mut found = Survey { sphr: MAIN_SIZE..MAIN_SIZE, kept_bytes: 0, counts: [0; 9], firsts: vec![0; KINDS], earliest: UNDEFINED, latest: 0 };
    found.counts[1] = 1;
    let mut at = MAIN_SIZE;
    while at < bytes.len() {
        let header = &bytes[at..at + 20];
        let size = u32::from_be_bytes(header[4..8].try_into().unwrap()) as usize;
        let class = header[0];
        if class == 2 {
            found.sphr = at..at + size;
            found.counts[2] = 1;
        } else if class > 3 && (class < 8 || is_chosen(header, window)) {
            let first = &mut found.firsts[kind(header)];
            if *first == 0 {
                *first = found.kept_bytes as u32 + 1;
                found.counts[3] += 1;
            }
            found.kept_bytes += size;
            found.counts[class as usize] += 1;
            if class == 8 {
                found.earliest = found.earliest.min(six(&header[8..]));
                let stop = six(&header[14..]);
                if stop != UNDEFINED {
                    found.latest = found.latest.max(stop + 1);
                }
            }
        }
        at += size;
    }
    found
}

/// Whole seconds, as a time of 15 bytes has them.
fn second_text(time: Option<u64>) -> [u8; 15] {
    let Some(time) = time else {
        return *b"xxxxxxxxxxxxxxZ";
    };
    let (day, milli) = ((time >> 32) as u16, time as u32);
    let date = date_of(day);
    let second = (milli / 1000).min(86_399);
    let beyond = milli / 1000 - second;
    let text = format!("{:04}{:02}{:02}{:02}{:02}{:02}Z", date.year, date.month, date.day, second / 3600, second / 60 % 60, second % 60 + beyond);
    text.as_bytes().try_into().unwrap()
}

pub(crate) fn put_line(main: &mut [u8], line: usize, value: &[u8]) {
    main[STARTS[line] + 32..][..value.len()].copy_from_slice(value);
}

pub(crate) fn put_count(main: &mut [u8], line: usize, n: u64) {
    let width = LINES[line].1;
    put_line(main, line, format!("{n:>width$}").as_bytes());
}

/// Whether a product to be written has more bytes than 4 lets it, or more records than TOTAL_RECORDS can say.
pub(crate) fn over_limits(size: usize, counts: &[u64; 9]) -> bool {
    size > 2_147_483_647 || counts.iter().sum::<u64>() > 999_999
}

/// The size and the nine totals, from the counts of the classes 1 to 8.
pub(crate) fn put_size_and_totals(main: &mut [u8], size: usize, counts: &[u64; 9]) {
    put_count(main, SIZE_LINE, size as u64);
    put_count(main, RECORDS_LINE, counts.iter().sum());
    for class in 1..9 {
        put_count(main, RECORDS_LINE + class, counts[class]);
    }
}

fn put_main(main: &mut [u8], found: &Survey, size: usize) {
    put_size_and_totals(main, size, &found.counts);
    let start = second_text((found.counts[8] > 0).then_some(found.earliest));
    let end = second_text(found.latest.checked_sub(1));
    put_line(main, SENSING_START_LINE, &start);
    put_line(main, SENSING_END_LINE, &end);
    let name = STARTS[0] + 32;
    main[name + 16..name + 31].copy_from_slice(&start);
    main[name + 32..name + 47].copy_from_slice(&end);
    for line in DEGRADED_AND_DURATIONS {
        put_line(main, line, &vec![b'x'; LINES[line].1]);
    }
    put_line(main, SUBSETTED_LINE, b"T");
}

fn put_pointer(ipr: &mut [u8], main: &[u8], kind: usize, target: usize) {
    ipr[..8].copy_from_slice(&[3, 0, 0, 1, 0, 0, 0, IPR_SIZE as u8]);
    ipr[8..20].copy_from_slice(&main[8..20]);
    let group = match kind / 256 % 16 {
        14 => 15,
        15 => 99,
        g => g as u8,
    };
    ipr[20..23].copy_from_slice(&[4 + (kind / 4096) as u8, group, kind as u8]);
    ipr[23..].copy_from_slice(&(target as u32).to_be_bytes());
}

/// A pointer for each kind that has a first record (not 0), whose place in the result is made from the number that stands for it.
pub(crate) fn put_pointers(iprs: &mut [u8], main: &[u8], firsts: &[u32], target: impl Fn(usize, u32) -> usize) {
    let present = firsts.iter().enumerate().filter(|(_, first)| **first > 0);
    for (ipr, (kind, first)) in iprs.chunks_exact_mut(IPR_SIZE).zip(present) {
        put_pointer(ipr, main, kind, target(kind, *first));
    }
}

/// The kept records, adjacent ones by one copy.
fn put_kept(bytes: &[u8], window: (u64, u64), room: &mut [u8]) {
    let (mut at, mut from, mut to) = (MAIN_SIZE, MAIN_SIZE, 0);
    let mut copy = |from: usize, at: usize| {
        room[to..to + at - from].copy_from_slice(&bytes[from..at]);
        to += at - from;
    };
    while at < bytes.len() {
        let header = &bytes[at..at + 20];
        let size = u32::from_be_bytes(header[4..8].try_into().unwrap()) as usize;
        if header[0] < 4 || header[0] == 8 && !is_chosen(header, window) {
            copy(from, at);
            from = at + size;
        }
        at += size;
    }
    copy(from, at);
}

/// The bytes written. A refusal writes nothing.
pub fn cut(bytes: &[u8], first: Option<Time>, last: Option<Time>, room: &mut [u8]) -> Result<usize, Refusal> {
    let Some(window) = ends(first, last) else {
        return Err(Refusal { number: 25, place: 0 });
    };
    fast::verdict(bytes)?;
    let found = survey(bytes, window);
    let pointers = found.counts[3] as usize;
    let before = MAIN_SIZE + found.sphr.len() + IPR_SIZE * pointers;
    let size = before + found.kept_bytes;
    if over_limits(size, &found.counts) {
        return Err(Refusal { number: 28, place: 0 });
    }
    if room.len() < size {
        return Err(Refusal { number: 18, place: size as u64 });
    }
    room[..MAIN_SIZE].copy_from_slice(&bytes[..MAIN_SIZE]);
    put_main(&mut room[..MAIN_SIZE], &found, size);
    let iprs = MAIN_SIZE + found.sphr.len();
    room[MAIN_SIZE..iprs].copy_from_slice(&bytes[found.sphr.clone()]);
    put_pointers(&mut room[iprs..before], bytes, &found.firsts, |_, first| before + first as usize - 1);
    put_kept(bytes, window, &mut room[before..size]);
    Ok(size)
}
