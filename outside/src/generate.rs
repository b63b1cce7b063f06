//! Products, whole and damaged, from a small generator of numbers that always gives the same ones.
use crate::leap;
use crate::leaves::date_of;
use crate::lines::{Kind, LINES, MAIN_SIZE, RECORDS_LINE, SIZE_LINE, STARTS};
use crate::values::{Date, Time};

/// splitmix64.
pub struct Rng(pub u64);

impl Rng {
    pub fn next(&mut self) -> u64 {
        self.0 = self.0.wrapping_add(0x9e37_79b9_7f4a_7c15);
        let mut z = self.0;
        z = (z ^ (z >> 30)).wrapping_mul(0xbf58_476d_1ce4_e5b9);
        z = (z ^ (z >> 27)).wrapping_mul(0x94d0_49bb_1331_11eb);
        z ^ (z >> 31)
    }
    /// 0..n, n over 0.
    pub fn below(&mut self, n: usize) -> usize {
        (self.next() % n as u64) as usize
    }
    pub fn one_in(&mut self, n: usize) -> bool {
        self.below(n) == 0
    }
    pub fn pick<T: Copy>(&mut self, from: &[T]) -> T {
        from[self.below(from.len())]
    }
}

pub const GROUPS: [u8; 16] = [0, 1, 2, 3, 4, 5, 6, 7, 8, 9, 10, 11, 12, 13, 15, 99];

/// A product as it was laid out: its bytes, the starts of its records (the first is 0) and the places of its pointers.
#[derive(Clone)]
pub struct Product {
    pub bytes: Vec<u8>,
    pub starts: Vec<usize>,
    pub pointers: Vec<usize>,
}

/// The layout to be built.
pub struct Shape {
    pub first_version: u8,
    /// Class and size of the records after the main header, but for the pointers.
    pub sphr: Option<usize>,
    pub pointers: usize,
    pub others: Vec<(u8, usize)>,
    pub sorted: bool,
    /// Bytes after the last record that D counts (fault 6 where 1..19).
    pub rest: usize,
}

/// On each side of where a usual day ends, and one with a leap second.
pub const DAY_ENDS: [u32; 4] = [86_399_999, 86_400_000, 86_400_999, 86_401_000];

/// Hour, minute and second: a leap second, and what is like it.
pub const LEAP_LIKE: [(u8, u8, u8); 7] = [(23, 59, 59), (23, 59, 60), (23, 59, 60), (23, 59, 61), (22, 59, 60), (23, 58, 60), (0, 0, 60)];

/// A day that ends in a leap second, or the day before or after it.
pub fn day_near_leap(rng: &mut Rng) -> u16 {
    rng.pick(&leap::DAYS) + rng.pick(&[0, 1, 1, 2]) - 1
}

/// The date of such a day, now and then of another year.
pub fn date_near_leap(rng: &mut Rng) -> Date {
    let date = date_of(day_near_leap(rng));
    let any = rng.below(10_000) as u16;
    let year = rng.pick(&[date.year, date.year, date.year, date.year + 1, date.year - 1, 1972, 1998, any]);
    Date { year, ..date }
}

/// Such a date with a time of day that is like a leap second, as a time field has it.
fn text_near_leap(rng: &mut Rng, width: usize) -> Vec<u8> {
    let (date, of_day) = (date_near_leap(rng), rng.pick(&LEAP_LIKE));
    time_value(rng, date, of_day, width)
}

/// A time of 15 or 18 bytes.
fn time_value(rng: &mut Rng, Date { year, month, day }: Date, (h, m, s): (u8, u8, u8), width: usize) -> Vec<u8> {
    let mut v = format!("{year:04}{month:02}{day:02}{h:02}{m:02}{s:02}");
    if width == 18 {
        v += &format!("{:03}", rng.below(1000));
    }
    (v + "Z").into_bytes()
}

fn put_cds(bytes: &mut [u8], at: usize, time: Time) {
    bytes[at..at + 2].copy_from_slice(&time.day.to_be_bytes());
    bytes[at + 2..at + 6].copy_from_slice(&time.milli.to_be_bytes());
}

/// Good times in a leap second and beside it, start and stop of some records.
fn put_leap_seconds(rng: &mut Rng, p: &mut Product) {
    for s in &p.starts {
        if rng.one_in(3) {
            let (day, within) = (rng.pick(&leap::DAYS), 86_400_000 + rng.below(1000) as u32);
            let start = Time { day, milli: rng.pick(&[86_399_999, 86_400_000, within, 86_400_999]) };
            let stop = rng.pick(&[start, Time { day, milli: 86_400_999 }, Time { day: day + 1, milli: 0 }]);
            put_cds(&mut p.bytes, s + 8, start);
            put_cds(&mut p.bytes, s + 14, stop);
        }
    }
}

fn put_time(rng: &mut Rng, header: &mut [u8]) {
    let (mut a, mut b) = ((rng.below(65536), rng.below(86_400_000)), (rng.below(65536), rng.below(86_400_000)));
    if rng.one_in(4) {
        b.0 = a.0;
    }
    if rng.one_in(16) {
        b = a;
    }
    if rng.one_in(16) {
        b = (65535, 86_399_999);
    }
    if a > b {
        std::mem::swap(&mut a, &mut b);
    }
    for (from, (day, milli)) in [(8, a), (14, b)] {
        put_cds(header, from, Time { day: day as u16, milli: milli as u32 });
        if rng.one_in(5) {
            header[from..from + 6].fill(0xff);
        }
    }
}

fn header(rng: &mut Rng, class: u8, group: u8, size: usize) -> [u8; 20] {
    let mut h = [0; 20];
    h[0] = class;
    h[1] = group;
    h[2] = rng.below(4) as u8;
    h[3] = rng.below(256) as u8;
    h[4..8].copy_from_slice(&(size as u32).to_be_bytes());
    put_time(rng, &mut h);
    h
}

/// A value that fits the line.
fn value(rng: &mut Rng, kind: Kind, width: usize) -> Vec<u8> {
    match kind {
        Kind::Text => (0..width).map(|_| if rng.one_in(8) { rng.pick(b" ~x_") } else { 32 + rng.below(95) as u8 }).collect(),
        Kind::Signed | Kind::Unsigned | Kind::Needed => {
            if rng.one_in(5) {
                return vec![b'x'; width];
            }
            let digits = 1 + rng.below(width);
            let mut v = vec![b' '; width];
            for b in &mut v[width - digits..] {
                *b = b'0' + rng.below(10) as u8;
            }
            if kind == Kind::Signed && digits < width && rng.one_in(2) {
                v[width - digits - 1] = rng.pick(b"+-");
            }
            v
        }
        Kind::Time | Kind::LongTime => {
            if rng.one_in(6) {
                return vec![b'x'; width];
            }
            if rng.one_in(6) {
                let mut v = vec![b'x'; width];
                v[width - 1] = b'Z';
                return v;
            }
            if rng.one_in(8) {
                let date = rng.pick(&leap::DATES);
                return time_value(rng, date, (23, 59, 60), width);
            }
            let mut year = rng.below(10_000);
            if rng.one_in(4) {
                year = rng.pick(&[0, 4, 1900, 2000, 2024, 2100, 9999]);
            }
            let month = 1 + rng.below(12);
            let leap = year % 4 == 0 && (year % 100 != 0 || year % 400 == 0);
            let days = [31, if leap { 29 } else { 28 }, 31, 30, 31, 30, 31, 31, 30, 31, 30, 31][month - 1];
            let day = if rng.one_in(4) { days } else { 1 + rng.below(days) };
            let of_day = (rng.below(24) as u8, rng.below(60) as u8, rng.below(60) as u8);
            time_value(rng, Date { year: year as u16, month: month as u8, day: day as u8 }, of_day, width)
        }
    }
}

/// A value written into a line that is already there, right-justified.
pub fn set_number(bytes: &mut [u8], line: usize, n: u64) {
    let (at, width) = (STARTS[line] + 32, LINES[line].1);
    let text = format!("{n:>width$}");
    assert_eq!(text.len(), width);
    bytes[at..at + width].copy_from_slice(text.as_bytes());
}

pub fn get_number(bytes: &[u8], line: usize) -> u64 {
    let (at, width) = (STARTS[line] + 32, LINES[line].1);
    std::str::from_utf8(&bytes[at..at + width]).ok().and_then(|t| t.trim().parse().ok()).unwrap_or(0)
}

pub fn build(rng: &mut Rng, shape: &Shape) -> Product {
    let mut bytes = vec![0; 20];
    let first = header(rng, 1, 0, MAIN_SIZE);
    bytes.copy_from_slice(&first);
    bytes[2] = 0;
    bytes[3] = shape.first_version;
    for (name, width, kind) in LINES {
        bytes.extend_from_slice(format!("{name:30}= ").as_bytes());
        bytes.extend(value(rng, kind, width));
        bytes.push(b'\n');
    }
    let mut starts = vec![0];
    let mut totals = [0u64; 9];
    totals[1] = 1;
    let mut add = |bytes: &mut Vec<u8>, rng: &mut Rng, class: u8, size: usize| {
        starts.push(bytes.len());
        totals[class as usize] += 1;
        let group = if class == 8 && rng.one_in(4) { 13 } else { rng.pick(&GROUPS) };
        let h = header(rng, class, group, size);
        bytes.extend_from_slice(&h);
        let from = bytes.len();
        bytes.resize(from + size - 20, 0);
        // A long body is filled sparsely.
        let step = 1 + size / 600;
        for b in bytes[from..].iter_mut().step_by(step) {
            *b = rng.next() as u8;
        }
    };
    if let Some(size) = shape.sphr {
        add(&mut bytes, rng, 2, size);
    }
    let mut pointers = Vec::new();
    if !shape.others.is_empty() {
        for _ in 0..shape.pointers {
            pointers.push(bytes.len());
            add(&mut bytes, rng, 3, 27);
        }
    }
    for (class, size) in &shape.others {
        add(&mut bytes, rng, *class, *size);
    }
    let first_other = starts.len() - shape.others.len();
    let mut at: Vec<usize> = if pointers.len() == shape.others.len() && shape.sorted {
        (0..pointers.len()).collect()
    } else {
        pointers.iter().map(|_| rng.below(shape.others.len())).collect()
    };
    if shape.sorted {
        at.sort_unstable();
    }
    for (p, k) in pointers.iter().zip(at) {
        let target = starts[first_other + k];
        for i in 0..3 {
            bytes[p + 20 + i] = bytes[target + i];
        }
        bytes[p + 23..p + 27].copy_from_slice(&(target as u32).to_be_bytes());
    }
    for _ in 0..shape.rest {
        bytes.push(rng.next() as u8);
    }
    let size = bytes.len() as u64;
    set_number(&mut bytes, SIZE_LINE, size);
    set_number(&mut bytes, RECORDS_LINE, starts.len() as u64);
    for class in 1..9 {
        set_number(&mut bytes, RECORDS_LINE + class, totals[class]);
    }
    Product { bytes, starts, pointers }
}

/// A small shape: 0 to 40 records after the main header.
pub fn shape(rng: &mut Rng) -> Shape {
    let most = rng.pick(&[20, 21, 40, 60, 400]);
    let size = |rng: &mut Rng| {
        if most == 20 || rng.one_in(3) {
            20
        } else {
            20 + rng.below(most - 19)
        }
    };
    let sphr = if rng.one_in(3) { Some(size(rng)) } else { None };
    let n = rng.pick(&[0, 1, 2, 5, 12, 27]);
    let n = rng.below(n + 1);
    let mut classes: Vec<u8> = (0..n).map(|_| rng.pick(&[4, 5, 6, 7, 8, 8, 8])).collect();
    classes.sort_by_key(|c| c / 2 * 2); // 4 and 5 may mix, 6 and 7 too
    let others: Vec<(u8, usize)> = classes.into_iter().map(|c| (c, size(rng))).collect();
    let pointers = if rng.one_in(3) { 0 } else { rng.below(13) };
    Shape { first_version: rng.below(4) as u8, sphr, pointers, others, sorted: rng.one_in(2), rest: 0 }
}

/// The records, but for the main header, are of few groups and subclasses, so that many are of one kind; each pointer still names its target's.
pub fn few_kinds(rng: &mut Rng, p: &mut Product) {
    let kinds: Vec<[u8; 2]> = (0..1 + rng.below(4)).map(|_| [rng.pick(&GROUPS), rng.pick(&[0, 1, 2, 127, 254, 255])]).collect();
    for s in &p.starts[1..] {
        p.bytes[s + 1..s + 3].copy_from_slice(&rng.pick(&kinds));
    }
    name_targets(p);
}

/// VIADRs and MDRs as a Level 0 product has them (request Nine), and dummies among the MDRs. Some of them are then beside what it has, in one number.
pub fn level0_kinds(rng: &mut Rng, p: &mut Product) {
    for s in &p.starts[1..] {
        let kind = match p.bytes[*s] {
            7 => [0, 0, rng.pick(&[1, 2])],
            8 if rng.one_in(6) => [13, rng.below(256) as u8, rng.below(4) as u8],
            8 => [0, rng.below(5) as u8, 1],
            _ => continue,
        };
        p.bytes[s + 1..s + 4].copy_from_slice(&kind);
    }
    for _ in 0..rng.pick(&[0, 0, 1, 1, 2, 3]) {
        let s = rng.pick(&p.starts);
        match rng.below(3) {
            _ if s == 0 => {}
            0 => p.bytes[s + 1] = rng.pick(&GROUPS),
            1 => p.bytes[s + 2] = rng.pick(&[0, 1, 4, 5, 6, 13, 127, 128, 255]),
            _ => p.bytes[s + 3] = rng.pick(&[0, 1, 2, 3, 129, 255]),
        }
    }
    name_targets(p);
}

/// Times of the MDRs about the end of one day, most often of one with a leap second, so that stops and starts that follow each other are the same, a
/// little apart, or on two sides of it (request Twelve).
pub fn times_that_meet(rng: &mut Rng, p: &mut Product) {
    let day = if rng.one_in(8) { 1 + rng.below(65_534) as u16 } else { rng.pick(&leap::DAYS) };
    let time = |rng: &mut Rng| {
        let day = day + rng.pick(&[0, 1, 1, 1, 2, 2]) - 1;
        let last = leap::last_milli(day);
        let any = rng.below(86_400_000) as u32;
        let milli = rng.pick(&[0, 0, 1, 999, 1000, 86_399_999, 86_400_000, last - 1, last, any]);
        Time { day, milli: milli.min(last) }
    };
    let mut before = None;
    for s in &p.starts {
        if p.bytes[*s] != 8 {
            continue;
        }
        let mut ends = [before.filter(|_| rng.one_in(4)).unwrap_or_else(|| time(rng)), time(rng)];
        ends.sort_by_key(|t| (t.day, t.milli));
        before = Some(ends[1]);
        for (at, end) in [(s + 8, ends[0]), (s + 14, ends[1])] {
            put_cds(&mut p.bytes, at, end);
            if rng.one_in(10) {
                p.bytes[at..at + 6].fill(0xff);
            }
        }
    }
}

/// Each pointer names the class, group and subclass of the record at its target.
pub fn name_targets(p: &mut Product) {
    for s in &p.pointers {
        let target = u32_at(&p.bytes, s + 23) as usize;
        p.bytes.copy_within(target..target + 3, s + 20);
    }
}

/// The record a damage is aimed at: its place among the starts.
fn aim(rng: &mut Rng, p: &Product) -> usize {
    if rng.one_in(3) {
        p.starts.len() - 1
    } else {
        rng.below(p.starts.len())
    }
}

fn u32_at(bytes: &[u8], at: usize) -> u32 {
    u32::from_be_bytes(bytes[at..at + 4].try_into().unwrap())
}

fn put_u32(bytes: &mut [u8], at: usize, n: u32) {
    bytes[at..at + 4].copy_from_slice(&n.to_be_bytes());
}

/// Damage of row `row` of the table, at record k where it has one.
pub fn damage(rng: &mut Rng, p: &mut Product, row: usize, k: usize) {
    let len = p.bytes.len();
    let s = if k < p.starts.len() { p.starts[k] } else { 0 };
    let b = &mut p.bytes;
    match row {
        1 => {
            let at = rng.pick(&[0usize, 1, 2, 4, 5, 6, 7]);
            b[at] ^= 1 << rng.below(8);
        }
        2 => {
            let line = rng.below(72);
            let at = match rng.below(4) {
                0 => STARTS[line + 1] - 1,
                1 => STARTS[line] + 30 + rng.below(2),
                _ => STARTS[line] + rng.below(30),
            };
            b[at] = rng.pick(b"\n A_=x\r\0z9").wrapping_add(if rng.one_in(4) { 128 } else { 0 });
        }
        3 => {
            let line = if rng.one_in(4) { RECORDS_LINE + rng.below(9) } else { rng.below(72) };
            let (at, width) = (STARTS[line] + 32, LINES[line].1);
            let v = &mut b[at..at + width];
            let times = matches!(LINES[line].2, Kind::Time | Kind::LongTime);
            match rng.below(6) {
                _ if times && rng.one_in(2) => v.copy_from_slice(&text_near_leap(rng, width)),
                0 => v.fill(b'x'),
                1 => v.fill(b' '),
                2 => {
                    v.fill(b'x');
                    v[width - 1] = b'Z';
                }
                3 if width >= 15 => {
                    let text: &[u8] = rng.pick(&[
                        b"20230229000000" as &[u8],
                        b"21000229000000",
                        b"20001301000000",
                        b"20000001000000",
                        b"20000100000000",
                        b"20000431000000",
                        b"20000101240000",
                        b"20000101006000",
                        b"20000101000060",
                        b"2000 101000000",
                        b"00000229235959",
                    ]);
                    v[..14].copy_from_slice(text);
                }
                _ => v[rng.below(width)] = rng.pick(b" +-xXZz0959\t\n\x7f\x1f~/:").wrapping_add(if rng.one_in(8) { 128 } else { 0 }),
            }
        }
        4 => {
            let n = rng.pick(&[0, 3306, 3307, 3308, 3326, 3327, 2_147_483_647, 2_147_483_648, 4_294_970_603, 99_999_999_999]);
            set_number(b, SIZE_LINE, n);
        }
        5 => {
            let line = RECORDS_LINE + rng.below(9);
            let n = get_number(b, line);
            let n = rng.pick(&[0, 1, 2, 999_999, (n + 1) % 1_000_000, n.saturating_sub(1)]);
            set_number(b, line, n % 1_000_000);
            if rng.one_in(2) {
                let sum: u64 = (1..9).map(|c| get_number(b, RECORDS_LINE + c)).sum();
                set_number(b, RECORDS_LINE, sum.min(999_999));
            }
        }
        6 => {
            // D moved, with or without bytes
            let n = 1 + rng.below(20);
            if rng.one_in(3) {
                let d = get_number(b, SIZE_LINE).saturating_sub(n as u64);
                set_number(b, SIZE_LINE, d);
            } else {
                let d = get_number(b, SIZE_LINE) + n as u64;
                set_number(b, SIZE_LINE, d.min(99_999_999_999));
                for _ in 0..n {
                    b.push(rng.next() as u8);
                }
            }
        }
        7 if s > 0 => {
            if rng.one_in(2) {
                b[s] = rng.pick(&[0, 9, 10, 255, 128]);
            } else {
                b[s + 1] = rng.pick(&[14, 16, 98, 100, 255, 127]);
            }
        }
        8 if s > 0 => b[s] = 1 + rng.below(8) as u8,
        9 if s > 0 => {
            let size = u32_at(b, s + 4);
            let left = (len - s) as u32;
            let n = rng.pick(&[0, 5, 8, 19, 20, 26, 27, 28, left, left + 1, left - 1, 0xffff_ffff, 0x8000_0000, size + 1, size.wrapping_sub(1)]);
            put_u32(b, s + 4, n);
        }
        10 => {
            let at = s + rng.pick(&[8usize, 14]);
            match rng.below(8) {
                5..=7 => {
                    // At a day's end, and the other time the same or open.
                    let end = Time { day: day_near_leap(rng), milli: rng.pick(&DAY_ENDS) };
                    put_cds(b, s + 8, end);
                    put_cds(b, s + 14, end);
                    if rng.one_in(2) {
                        b[at..at + 6].fill(0xff);
                    }
                }
                0 => put_u32(b, at + 2, 86_400_000),
                1 => put_u32(b, at + 2, 86_399_999),
                2 => b[at..at + 6].copy_from_slice(&[255, 255, 255, 255, 255, 254]),
                3 => b[at..at + 6].copy_from_slice(&[255, 254, 255, 255, 255, 255]),
                _ => {
                    let (x, y) = b[s + 8..s + 20].split_at_mut(6);
                    x.swap_with_slice(y);
                }
            }
        }
        11 | 15 => {
            let class = if s > 0 && (1..9).contains(&b[s]) && rng.one_in(2) { b[s] as usize } else { 2 + rng.below(7) };
            let n = get_number(b, RECORDS_LINE + class);
            let n = if row == 11 { n.saturating_sub(1) } else { (n + 1) % 1_000_000 };
            set_number(b, RECORDS_LINE + class, n);
            let sum: u64 = (1..9).map(|c| get_number(b, RECORDS_LINE + c)).sum();
            set_number(b, RECORDS_LINE, sum.min(999_999));
        }
        12 if !p.pointers.is_empty() => {
            let at = rng.pick(&p.pointers);
            match rng.below(3) {
                0 => b[at + 20] = rng.pick(&[0, 1, 2, 3, 9, 255]),
                1 => put_u32(b, at + 23, rng.pick(&[0, 20, at, at + 26, at + 27, at.saturating_sub(27)]) as u32),
                _ => put_u32(b, at + 23, rng.pick(&[len - 20, len - 19, len, 0xffff_ffff, 0xffff_ffec]) as u32),
            }
        }
        13 if !p.pointers.is_empty() => {
            let at = rng.pick(&p.pointers);
            let size = if k + 1 < p.starts.len() { p.starts[k + 1] - s } else { len.saturating_sub(s) };
            if s > at && size > 1 && rng.one_in(2) {
                put_u32(b, at + 23, (s + 1 + rng.below(size - 1)) as u32);
            } else {
                let n = u32_at(b, at + 23);
                put_u32(b, at + 23, n.wrapping_add(rng.pick(&[1, 2, 19, 20, 27, 0xffff_ffff])));
            }
        }
        14 if !p.pointers.is_empty() => {
            let at = rng.pick(&p.pointers);
            match rng.below(3) {
                0 => put_u32(b, at + 23, s as u32),
                1 => {
                    let i = rng.below(3);
                    b[at + 20 + i] = if i == 0 { 4 + rng.below(5) as u8 } else { rng.below(16) as u8 };
                }
                _ if s > 0 => {
                    b[s + 1] = rng.pick(&GROUPS);
                    b[s + 2] = b[s + 2].wrapping_add(1);
                }
                _ => {}
            }
        }
        16 => {
            for _ in 0..1 + rng.below(40) {
                b.push(rng.next() as u8);
            }
        }
        _ => {}
    }
}

/// What was made, for counting.
#[derive(Clone, Copy, Debug, PartialEq, Eq)]
pub enum Made {
    Valid,
    Row(usize),
    Pair(usize, usize),
    Cut,
    Extended,
    Noise,
}

/// Product `n` of the sequence: rows take their turns, then pairs, noise and the rest.
pub fn product(rng: &mut Rng, n: usize) -> (Product, Made) {
    let mut shape = shape(rng);
    let turn = n % 40;
    let mut p = match turn {
        6 | 20..=23 if rng.one_in(2) => {
            shape.rest = 1 + rng.below(19);
            build(rng, &shape)
        }
        _ => build(rng, &shape),
    };
    if rng.one_in(4) {
        put_leap_seconds(rng, &mut p);
    }
    let made = hurt(rng, &mut p, turn);
    let made = if made == Made::Valid && shape.rest > 0 { Made::Row(6) } else { made };
    (p, made)
}

/// A whole product damaged as it is its turn: those of 0 and from 36 on stay whole.
pub fn hurt(rng: &mut Rng, p: &mut Product, turn: usize) -> Made {
    match turn {
        1..=16 => {
            let k = aim(rng, p);
            damage(rng, p, turn, k);
            Made::Row(turn)
        }
        // Two at one record, or at the two ends of it.
        17..=29 => {
            let k = aim(rng, p);
            let rows = [6, 7, 8, 9, 10, 11, 12, 13, 14, 15];
            let (a, c) = (rng.pick(&rows), rng.pick(&rows));
            damage(rng, p, a, k);
            damage(rng, p, c, k);
            Made::Pair(a, c)
        }
        30..=32 => {
            let (a, c) = (1 + rng.below(16), 1 + rng.below(16));
            for row in [a, c] {
                let k = aim(rng, p);
                damage(rng, p, row, k);
            }
            Made::Pair(a, c)
        }
        33 => {
            let to = rng.below(p.bytes.len() + 1);
            p.bytes.truncate(to);
            Made::Cut
        }
        34 => {
            for _ in 0..1 + rng.below(60) {
                p.bytes.push(rng.next() as u8);
            }
            Made::Extended
        }
        35 => {
            // Bytes at random anywhere, or nothing but such.
            if rng.one_in(4) {
                let n = rng.below(5000);
                p.bytes = (0..n).map(|_| rng.next() as u8).collect();
            } else {
                for _ in 0..1 + rng.below(3) {
                    let from = if rng.one_in(2) { 0 } else { MAIN_SIZE.min(p.bytes.len() - 1) };
                    let at = from + rng.below(p.bytes.len() - from);
                    p.bytes[at] = rng.next() as u8;
                }
            }
            Made::Noise
        }
        _ => Made::Valid,
    }
}

/// The records of some classes, as they lie.
fn section(p: &Product, classes: std::ops::RangeInclusive<u8>) -> std::ops::Range<usize> {
    let ends = p.starts[1..].iter().copied().chain([p.bytes.len()]);
    let mut found = p.starts.iter().copied().zip(ends).filter(|(s, _)| classes.contains(&p.bytes[*s]));
    let Some((start, end)) = found.next() else {
        return 0..0;
    };
    start..found.last().map_or(end, |last| last.1)
}

/// A product to follow a whole one (request Seven): the same SPHR and global records, and the same four fields that say what it is of. Its first MDR
/// with a defined start begins about when the last MDR of the one before with a defined stop ends, or at any time.
pub fn follower(rng: &mut Rng, before: &Product) -> Product {
    let mut shape = shape(rng);
    let size = |s: &usize| u32_at(&before.bytes, s + 4) as usize;
    let of = |class: &u8| before.starts.iter().filter(|s| before.bytes[**s] == *class).collect::<Vec<_>>();
    shape.sphr = of(&2).first().map(|s| size(s));
    shape.others.retain(|(class, _)| *class > 5);
    let globals = before.starts.iter().filter(|s| matches!(before.bytes[**s], 4 | 5)).map(|s| (before.bytes[*s], size(s)));
    shape.others.splice(0..0, globals);
    let mut p = build(rng, &shape);
    if rng.one_in(4) {
        put_leap_seconds(rng, &mut p);
    }
    for classes in [2..=2, 4..=5] {
        let (from, to) = (section(before, classes.clone()), section(&p, classes));
        p.bytes[to].copy_from_slice(&before.bytes[from]);
    }
    name_targets(&mut p);
    for line in LIKE_LINES {
        let place = STARTS[line] + 32..STARTS[line + 1];
        p.bytes[place.clone()].copy_from_slice(&before.bytes[place]);
    }
    if !rng.one_in(8) {
        put_next_start(rng, before, &mut p);
    }
    p
}

/// INSTRUMENT_ID, PRODUCT_TYPE, PROCESSING_LEVEL and SPACECRAFT_ID.
const LIKE_LINES: [usize; 4] = [5, 7, 8, 9];

/// The start of the first MDR that has one, at or beside the last defined stop before it, and its stop undefined or no earlier.
fn put_next_start(rng: &mut Rng, before: &Product, p: &mut Product) {
    let defined = |bytes: &[u8], at: usize| bytes[at..at + 6] != [0xff; 6];
    let last = before.starts.iter().rev().find(|s| before.bytes[**s] == 8 && defined(&before.bytes, **s + 14));
    let first = p.starts.iter().find(|s| p.bytes[**s] == 8 && defined(&p.bytes, **s + 8));
    let (Some(last), Some(first)) = (last, first) else {
        return;
    };
    let day = u16::from_be_bytes(before.bytes[last + 14..last + 16].try_into().unwrap());
    let milli = u32_at(&before.bytes, last + 16);
    let start = match rng.below(6) {
        0 | 1 => Time { day, milli },
        2 => Time { day, milli: milli.saturating_sub(1) },
        3 => Time { day, milli: (milli + 1).min(leap::last_milli(day)) },
        4 => Time { day: day.saturating_sub(1), milli: milli.min(leap::last_milli(day.saturating_sub(1))) },
        _ => Time { day: day.saturating_add(1), milli: 0 },
    };
    put_cds(&mut p.bytes, first + 8, start);
    let stop = rng.pick(&[None, Some(start), Some(Time { day: 65_535, milli: 86_399_999 })]);
    match stop {
        Some(t) if (t.day, t.milli) >= (start.day, start.milli) => put_cds(&mut p.bytes, first + 14, t),
        _ => p.bytes[first + 14..first + 20].fill(0xff),
    }
}

/// The follower made unlike, or nearly so: a byte of one of the four fields, of another text beside them, or of a record that must be the same.
pub fn unlike(rng: &mut Rng, p: &mut Product) {
    let line = rng.pick(&[5, 6, 7, 8, 9, 14]);
    let places = [STARTS[line] + 32..STARTS[line + 1] - 1, section(p, 2..=2), section(p, 4..=5)];
    let place = rng.pick(&[0, 1, 2]);
    let place = if places[place].is_empty() { places[0].clone() } else { places[place].clone() };
    let at = place.start + rng.below(place.len());
    p.bytes[at] = if at < MAIN_SIZE { 32 + rng.below(95) as u8 } else { p.bytes[at].wrapping_add(1) };
}

/// Own times for the SPHR and the global records (002, Table 15): the start of the product's first MDR and the stop of its last, or now and then others.
pub fn put_own_times(rng: &mut Rng, p: &mut Product) {
    let mdrs = p.starts.iter().filter(|s| p.bytes[**s] == 8);
    let (first, last) = (mdrs.clone().next(), mdrs.last());
    let mut times = [0xff; 12];
    if let (Some(first), Some(last)) = (first, last) {
        times[..6].copy_from_slice(&p.bytes[first + 8..first + 14]);
        times[6..].copy_from_slice(&p.bytes[last + 14..last + 20]);
    }
    if times[..6] > times[6..] {
        times[6..].fill(0xff); // a start after the stop would be a fault; undefined is none
    }
    for s in &p.starts {
        let header = &mut p.bytes[*s..s + 20];
        match header[0] {
            2 | 4 | 5 if rng.one_in(10) => put_time(rng, header),
            2 | 4 | 5 => header[8..].copy_from_slice(&times),
            _ => {}
        }
    }
}

/// The millisecond after a time, and the one before, where there is one.
fn after(t: Time) -> Time {
    if t.milli < leap::last_milli(t.day) {
        return Time { milli: t.milli + 1, ..t };
    }
    t.day.checked_add(1).map_or(t, |day| Time { day, milli: 0 })
}

fn before(t: Time) -> Time {
    if t.milli > 0 {
        return Time { milli: t.milli - 1, ..t };
    }
    t.day.checked_sub(1).map_or(t, |day| Time { day, milli: leap::last_milli(day) })
}

/// The last MDR of one and the first of the next meet: the start is some milliseconds from the stop, about the end of a day most often.
pub fn meet(rng: &mut Rng, first: &mut Product, second: &mut Product) {
    let last = first.starts.iter().rev().find(|s| first.bytes[**s] == 8);
    let next = second.starts.iter().find(|s| second.bytes[**s] == 8);
    let (Some(last), Some(next)) = (last, next) else {
        return;
    };
    let any = rng.below(65_536) as u16;
    let day = if rng.one_in(2) { day_near_leap(rng) } else { any };
    let end = leap::last_milli(day);
    let within = rng.below(end as usize) as u32;
    let stop = Time { day, milli: rng.pick(&[0, 1, 2, end - 1, end, within]) };
    let mut start = stop;
    for _ in 0..rng.below(4) {
        start = before(start);
    }
    for _ in 0..rng.pick(&[0, 0, 0, 1, 2, 4, 1000]) {
        start = after(start);
    }
    first.bytes[last + 8..last + 14].fill(0xff);
    put_cds(&mut first.bytes, last + 14, stop);
    put_cds(&mut second.bytes, next + 8, start);
    second.bytes[next + 14..next + 20].fill(0xff);
}

/// A count or duration of both products on either side of what their sum may be.
pub fn near_limit(rng: &mut Rng, first: &mut Product, second: &mut Product) {
    let line = 64 + rng.below(7);
    let least_over = 10u64.pow(LINES[line].1 as u32);
    let a = rng.below(least_over as usize) as u64;
    let b = (least_over - a - rng.pick(&[0, 1, 1, 2])).min(least_over - 1);
    set_number(&mut first.bytes, line, a);
    set_number(&mut second.bytes, line, b);
}

/// The totals set to the classes that the records have.
fn recount(p: &mut Product) {
    let mut totals = [0; 9];
    for s in &p.starts {
        let class = p.bytes[*s] as usize;
        totals[if class < 9 { class } else { 0 }] += 1;
    }
    totals[0] = totals[1..].iter().sum();
    for (class, n) in totals.into_iter().enumerate() {
        set_number(&mut p.bytes, RECORDS_LINE + class, n);
    }
}

/// Product `n` for a watch: as `product` gives it, or every seventh with about as many IPRs as a watch may know, most of them damaged at one
/// of the last IPRs.
pub fn product_to_watch(rng: &mut Rng, n: usize) -> (Product, Made) {
    if n % 7 > 0 {
        return product(rng, n);
    }
    let mut shape = shape(rng);
    shape.pointers = rng.pick(&[63, 64, 65, 66, 70]);
    shape.others.push((8, 20 + rng.below(30)));
    let mut p = build(rng, &shape);
    if rng.one_in(4) {
        put_leap_seconds(rng, &mut p);
    }
    let k = shape.sphr.map_or(1, |_| 2) + rng.pick(&[62, 63, 64, 64, 64, 65]).min(shape.pointers - 1);
    let (a, c) = (7 + rng.below(8), 7 + rng.below(8));
    let made = match rng.below(8) {
        0 => Made::Valid,
        1 => {
            // Another class between two IPRs.
            let s = p.starts[k];
            p.bytes[s] = 4 + rng.below(5) as u8;
            recount(&mut p);
            Made::Row(8)
        }
        2..=5 => {
            damage(rng, &mut p, a, k);
            Made::Row(a)
        }
        _ => {
            damage(rng, &mut p, a, k);
            damage(rng, &mut p, c, k);
            Made::Pair(a, c)
        }
    };
    (p, made)
}

/// How many of the bytes from `at` on come as the next part: none, few, up to near a place where something is shown, or any number.
pub fn part(rng: &mut Rng, p: &Product, at: usize) -> usize {
    let left = p.bytes.len() - at;
    let n = match rng.below(24) {
        0..=20 if at == 0 && !rng.one_in(4) => MAIN_SIZE - 30 + rng.below(60),
        0..=20 => rng.pick(&[0, 1, 2, 19, 20, 27, 100]),
        21 => 1500,
        22 => rng.below(left + 1),
        _ => prefix(rng, p).saturating_sub(at),
    };
    n.min(left)
}

/// A length to judge at: all, anywhere, or beside a place where something is shown.
pub fn prefix(rng: &mut Rng, p: &Product) -> usize {
    let len = p.bytes.len();
    let near = match rng.below(12) {
        0..=4 => return len,
        5 => return rng.below(len + 1),
        6 => STARTS[rng.below(73)],
        7 => rng.pick(&[0, 19, 20, 21, 1496, 1497, 2993, 2994, 3306, 3307, 3308]),
        8 => get_size(&p.bytes),
        _ => rng.pick(&p.starts) + rng.pick(&[0, 5, 8, 20, 27]),
    };
    (near + rng.below(3)).saturating_sub(1).min(len)
}

fn get_size(bytes: &[u8]) -> usize {
    if bytes.len() < 1497 {
        return 0;
    }
    get_number(bytes, SIZE_LINE) as usize
}
