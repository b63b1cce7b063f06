use super::{flag, length, lent, same_read, same_written, CASES};
use outside::boundary::{self, form, raw};
use outside::generate::{date_near_leap, day_near_leap, Rng, DAY_ENDS, LEAP_LIKE};
use outside::seen::{cases, Seen};
use outside::values::{Date, Time};
use outside::{leap, leaves};

/// A flag, a day and a millisecond. Where the flag is 0 the others are any.
pub type Flat = (u8, u16, u32);

pub fn any_time(rng: &mut Rng) -> Flat {
    if rng.one_in(4) {
        return (flag(rng), day_near_leap(rng), rng.pick(&DAY_ENDS));
    }
    let day = rng.next() as u16;
    let day = rng.pick(&[day, day, day, 0, 1, 58, 59, 60, 365, 366, 36_583, 36_584, 65_534, 65_535]);
    (flag(rng), day, any_milli(rng))
}

fn any_milli(rng: &mut Rng) -> u32 {
    let edges = [0, 1, 999, 1000, 59_999, 60_000, 3_599_999, 86_399_998, 86_399_999, 86_400_000, 86_400_999, u32::MAX - 1, u32::MAX];
    match rng.below(8) {
        0..=2 => rng.pick(&edges),
        3 => rng.next() as u32,
        _ => rng.below(86_400_000) as u32,
    }
}

pub fn value((defined, day, milli): Flat) -> Option<Time> {
    (defined != 0).then_some(Time { day, milli })
}

/// Six bytes, now and then with one bit other than all ones.
pub fn six(rng: &mut Rng) -> Vec<u8> {
    let mut bytes = match any_time(rng) {
        (0, ..) => vec![0xff; 6],
        (_, day, milli) => [&day.to_be_bytes()[..], &milli.to_be_bytes()[..]].concat(),
    };
    if rng.one_in(16) {
        bytes = vec![0xff; 6];
        bytes[rng.below(6)] ^= 1 << rng.below(8);
    }
    bytes
}

/// What a run over times must reach.
const NAMES: [&str; 3] = ["defined", "leap second", "undefined"];

fn name(time: &Option<Time>) -> &'static str {
    match time {
        Some(t) if t.milli > leap::USUAL_LAST_MILLI => "leap second",
        Some(_) => "defined",
        None => "undefined",
    }
}

/// A date of the days, beside them, or no date at all.
fn any_date(rng: &mut Rng) -> Date {
    let year = rng.next() as u16;
    let year = rng.pick(&[year, 0, 4, 1999, 2000, 2001, 2096, 2100, 2178, 2179, 2180, 9999, 10_000, 2000 + year % 180, 2000 + year % 180]);
    let (month, day) = (rng.next() as u8, rng.next() as u8);
    let month = rng.pick(&[month, 0, 1, 2, 2, 2, 4, 6, 12, 13, month % 13, month % 13]);
    Date { year, month, day: rng.pick(&[day, 0, 1, 28, 29, 30, 31, 32, day % 32, day % 32]) }
}

#[test]
fn is_date() {
    let (mut rng, mut seen) = (Rng(17), Seen::of("wl_is_date"));
    for _ in 0..cases(CASES) {
        let date = any_date(&mut rng);
        let ours = leaves::is_date(date);
        assert_eq!(boundary::is_date(date), ours, "{date:?}");
        seen.note(&Ok(ours), |yes| if *yes { "a date" } else { "none" });
    }
    seen.complete(&["a date", "none"], &[]);
}

/// Every day there is, and back.
#[test]
fn date_of() {
    for day in 0..=u16::MAX {
        let ours = leaves::date_of(day);
        assert_eq!(boundary::date_of(day), ours, "{day}");
        assert_eq!(boundary::day_number(ours), Ok(day));
    }
}

#[test]
fn day_number() {
    let (mut rng, mut seen) = (Rng(18), Seen::of("wl_day_number"));
    for _ in 0..cases(CASES) {
        let date = any_date(&mut rng);
        let ours = leaves::day_number(date);
        assert_eq!(boundary::day_number(date), ours, "{date:?}");
        seen.note(&ours, |_| "a day");
    }
    seen.complete(&["a day"], &[21]);
}

#[test]
fn read_time() {
    let (mut rng, mut seen) = (Rng(11), Seen::of("wl_read_time"));
    for _ in 0..cases(CASES) {
        let item = six(&mut rng);
        let (bytes, at) = lent(&mut rng, &item);
        let ours = leaves::read_time(&bytes, at);
        same_read(&bytes, &ours, |bytes| boundary::read_time(bytes, at), at);
        seen.note(&ours, name);
    }
    seen.complete(&NAMES, &[20, 21]);
}

#[test]
fn write_time() {
    let (mut rng, mut seen) = (Rng(12), Seen::of("wl_write_time"));
    for _ in 0..cases(CASES) {
        let (flat, len) = (any_time(&mut rng), length(&mut rng, 6));
        let time = value(flat);
        let wrapper = |room: &mut [u8]| boundary::write_time(room, time);
        let direct = |room: &mut [u8]| form::written(raw::write_time(room, flat), len);
        let ours = same_written(&mut rng, len, &|room| leaves::write_time(room, time), &[&wrapper, &direct], &flat);
        seen.note(&ours, |_| name(&time));
    }
    seen.complete(&NAMES, &[18, 21]);
}

/// Another time, often of the same day or the same altogether.
fn beside(rng: &mut Rng, time: Flat) -> Flat {
    let other = any_time(rng);
    match rng.below(6) {
        0 => (other.0, time.1, time.2),
        1 => (other.0, time.1, other.2),
        2 => (other.0, time.1, time.2.wrapping_add(1)),
        3 => (other.0, time.1.wrapping_add(1), other.2),
        _ => other,
    }
}

#[test]
fn time_order() {
    let (mut rng, mut seen) = (Rng(13), Seen::of("wl_time_order"));
    for _ in 0..cases(CASES) {
        let a = any_time(&mut rng);
        let b = beside(&mut rng, a);
        let ours = leaves::time_order(value(a), value(b));
        assert_eq!(boundary::time_order(value(a), value(b)), ours, "{a:?} {b:?}");
        let direct = form::one(raw::time_order(a, b));
        assert_eq!(direct, ours.map(|order| (order as i64 + 1) as u64), "{a:?} {b:?}");
        seen.note(&ours, |order| ["before", "same", "after"][(*order as i8 + 1) as usize]);
    }
    seen.complete(&["before", "same", "after"], &[21]);
}

#[test]
fn time_text() {
    let (mut rng, mut seen) = (Rng(14), Seen::of("wl_time_text"));
    for _ in 0..cases(CASES) {
        let (flat, len) = (any_time(&mut rng), length(&mut rng, 18));
        let time = value(flat);
        let wrapper = |room: &mut [u8]| boundary::time_text(room, time);
        let direct = |room: &mut [u8]| form::written(raw::time_text(room, flat), len);
        let ours = same_written(&mut rng, len, &|room| leaves::time_text(room, time), &[&wrapper, &direct], &flat);
        seen.note(&ours, |_| name(&time));
    }
    seen.complete(&NAMES, &[18, 21]);
}

/// Year to second: a date in the days or beside them, often with a part that is wrong.
fn any_parts(rng: &mut Rng) -> [usize; 6] {
    let any_year = rng.below(10_000);
    let near = 2000 + rng.below(180);
    let year = rng.pick(&[near, near, near, near, 0, 1900, 1999, 2000, 2100, 2179, 2180, 9999, any_year]);
    let (month, day) = match rng.below(8) {
        0 => rng.pick(&[(6, 5), (6, 6), (6, 7), (12, 31), (1, 1), (2, 28), (2, 29), (2, 30), (3, 1)]),
        1 => (rng.below(15), rng.below(34)),
        _ => (1 + rng.below(12), 1 + rng.below(31)),
    };
    let (hour, minute, second) = match rng.below(8) {
        0 => rng.pick(&[(24, 0, 0), (23, 59, 59), (23, 59, 60), (0, 60, 0), (99, 99, 99)]),
        _ => (rng.below(24), rng.below(60), rng.below(60)),
    };
    [year, month, day, hour, minute, second]
}

/// A leap second, or what is like it.
fn leap_parts(rng: &mut Rng) -> [usize; 6] {
    let (date, (hour, minute, second)) = (date_near_leap(rng), rng.pick(&LEAP_LIKE));
    let rest = [date.month, date.day, hour, minute, second].map(usize::from);
    [date.year as usize, rest[0], rest[1], rest[2], rest[3], rest[4]]
}

/// 18 bytes of long text, often with a part or a byte that is wrong.
fn long_text(rng: &mut Rng) -> Vec<u8> {
    let [year, month, day, hour, minute, second] = if rng.one_in(4) { leap_parts(rng) } else { any_parts(rng) };
    let mut text = format!("{year:04}{month:02}{day:02}{hour:02}{minute:02}{second:02}{:03}Z", rng.below(1000)).into_bytes();
    match rng.below(16) {
        0 => text = b"xxxxxxxxxxxxxxxxxx".to_vec(),
        1 => text = b"xxxxxxxxxxxxxxxxxZ".to_vec(),
        _ => {}
    }
    if rng.one_in(8) {
        text[rng.below(18)] = rng.pick(b"0123459xXZz /:-+\0\xff");
    }
    text
}

#[test]
fn text_time() {
    let (mut rng, mut seen) = (Rng(15), Seen::of("wl_text_time"));
    for _ in 0..cases(CASES) {
        let item = long_text(&mut rng);
        let (bytes, at) = lent(&mut rng, &item);
        let ours = leaves::text_time(&bytes, at);
        same_read(&bytes, &ours, |bytes| boundary::text_time(bytes, at), at);
        seen.note(&ours, name);
    }
    seen.complete(&NAMES, &[20, 21]);
}

/// Each of the days, and the text of its first millisecond and of its last ones there and back.
#[test]
fn every_day() {
    for (day, milli) in (0..=u16::MAX).flat_map(|day| [0].into_iter().chain(DAY_ENDS).map(move |milli| (day, milli))) {
        let time = Some(Time { day, milli });
        let (mut ours, mut theirs) = ([0; 18], [0; 18]);
        let answer = leaves::time_text(&mut ours, time);
        assert_eq!(answer.is_ok(), milli <= leap::last_milli(day));
        assert_eq!(boundary::time_text(&mut theirs, time), answer, "{time:?}");
        assert_eq!(ours, theirs, "{time:?}");
        if answer.is_ok() {
            assert_eq!(leaves::text_time(&ours, 0), Ok(time));
            assert_eq!(boundary::text_time(&ours, 0), Ok(time));
        }
    }
}
