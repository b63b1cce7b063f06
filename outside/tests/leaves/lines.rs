use super::{flag, length, noise, same_written, CASES};
use outside::boundary::{self, form, raw};
use outside::generate::{date_near_leap, Rng, LEAP_LIKE};
use outside::leaves;
use outside::lines::{Kind, LINES};
use outside::seen::{cases, Seen};
use outside::values::Moment;

/// A field of one of these kinds, and now and then another or none.
pub fn any_field(rng: &mut Rng, kinds: &[Kind]) -> usize {
    let any = rng.next() as usize;
    match rng.below(10) {
        0 => rng.below(72),
        1 => rng.pick(&[72, 73, 1000, usize::MAX, usize::MAX - 71, 1 << 32, 1 << 63, any]),
        _ => loop {
            let k = rng.below(72);
            if kinds.contains(&LINES[k].2) {
                return k;
            }
        },
    }
}

/// The field's width; any where there is no such field.
fn width(k: usize) -> usize {
    LINES.get(k).map_or(11, |line| line.1)
}

fn any_text(rng: &mut Rng, width: usize) -> Vec<u8> {
    let len = match rng.below(12) {
        0 => 0,
        1 => width - 1,
        2 => width + 1,
        3 => width + 33,
        _ => width,
    };
    let mut text: Vec<u8> = (0..len).map(|_| 32 + rng.below(95) as u8).collect();
    match rng.below(8) {
        0 => text.fill(b'x'),
        1 if len > 0 => text[rng.below(len)] = rng.pick(&[0, 9, 10, 31, 127, 128, 160, 255]),
        2 if len > 0 => text[rng.below(len)] = rng.pick(&[32, 126]),
        3 => text = noise(rng, len),
        _ => {}
    }
    text
}

#[test]
fn write_text_line() {
    let (mut rng, mut seen) = (Rng(41), Seen::of("wl_write_text_line"));
    for _ in 0..cases(CASES) {
        let k = any_field(&mut rng, &[Kind::Text]);
        let text = any_text(&mut rng, width(k));
        let lent = text.clone();
        let len = length(&mut rng, width(k) + 33);
        let wrapper = |room: &mut [u8]| boundary::write_text_line(room, k, &lent);
        let ours = same_written(&mut rng, len, &|room| leaves::write_text_line(room, k, &text), &[&wrapper], &(k, &text));
        assert_eq!(lent, text);
        seen.note(&ours, |_| "written");
    }
    seen.complete(&["written"], &[18, 22]);
}

/// A number beside what the width holds, or of any size.
fn any_number(rng: &mut Rng, width: usize) -> i64 {
    let power = 10i64.pow(width.min(17) as u32);
    let any = rng.next() as i64;
    let near = rng.below(3) as i64 - 1;
    match rng.below(8) {
        0 => rng.pick(&[power, -power, power / 10, -power / 10]) + near,
        1 => near,
        2 => rng.pick(&[i64::MIN, i64::MIN + 1, i64::MAX, any]),
        3 => -(any.rem_euclid(power)),
        4 => any >> rng.below(64),
        _ => any.rem_euclid(power),
    }
}

#[test]
fn write_number_line() {
    let (mut rng, mut seen) = (Rng(42), Seen::of("wl_write_number_line"));
    for _ in 0..cases(CASES) {
        let k = any_field(&mut rng, &[Kind::Signed, Kind::Unsigned, Kind::Needed]);
        let flat = (flag(&mut rng), any_number(&mut rng, width(k)));
        let number = (flat.0 != 0).then_some(flat.1);
        let len = length(&mut rng, width(k) + 33);
        let wrapper = |room: &mut [u8]| boundary::write_number_line(room, k, number);
        let direct = |room: &mut [u8]| form::written(raw::write_number_line(room, k, flat), len);
        let ours = |room: &mut [u8]| leaves::write_number_line(room, k, number);
        let ours = same_written(&mut rng, len, &ours, &[&wrapper, &direct], &(k, flat));
        seen.note(&ours, |_| if number.is_some() { "defined" } else { "undefined" });
    }
    seen.complete(&["defined", "undefined"], &[18, 22]);
}

/// A leap second, or what is like it.
fn leap_moment(rng: &mut Rng) -> Moment {
    let (date, (hour, minute, second)) = (date_near_leap(rng), rng.pick(&LEAP_LIKE));
    let milli = rng.pick(&[0, 0, 1, 999, 1000]);
    Moment { year: date.year, month: date.month, day: date.day, hour, minute, second, milli }
}

/// A moment, often with one part at an edge or beyond it.
fn any_moment(rng: &mut Rng) -> Moment {
    if rng.one_in(4) {
        return leap_moment(rng);
    }
    let any = rng.next();
    let mut m = Moment {
        year: rng.below(10_000) as u16,
        month: 1 + rng.below(12) as u8,
        day: 1 + rng.below(31) as u8,
        hour: rng.below(24) as u8,
        minute: rng.below(60) as u8,
        second: rng.below(60) as u8,
        milli: if rng.one_in(2) { 0 } else { rng.below(1000) as u16 },
    };
    match rng.below(16) {
        0 => m.year = rng.pick(&[0, 1900, 2000, 9999, 10_000, 65_535, any as u16]),
        1 => m.month = rng.pick(&[0, 1, 12, 13, 255, any as u8]),
        2 => m.day = rng.pick(&[0, 1, 30, 31, 32, 255, any as u8]),
        3 => (m.year, m.month, m.day) = (rng.pick(&[0, 4, 100, 1900, 2000, 2023, 2024, 2100]), 2, rng.pick(&[28, 29, 30])),
        4 => m.hour = rng.pick(&[0, 23, 24, 255]),
        5 => m.minute = rng.pick(&[0, 59, 60, 255]),
        6 => m.second = rng.pick(&[0, 59, 60, 61, 255]),
        7 => m.milli = rng.pick(&[1, 999, 1000, 65_535]),
        _ => {}
    }
    m
}

#[test]
fn write_time_line() {
    let (mut rng, mut seen) = (Rng(43), Seen::of("wl_write_time_line"));
    for n in 0..cases(CASES) {
        // There is one long field: every other case is its own.
        let k = any_field(&mut rng, if n % 2 == 0 { &[Kind::Time] } else { &[Kind::LongTime] });
        let (defined, m) = (flag(&mut rng), any_moment(&mut rng));
        let moment = (defined != 0).then_some(m);
        let len = length(&mut rng, width(k) + 33);
        let parts = [m.month, m.day, m.hour, m.minute, m.second];
        let wrapper = |room: &mut [u8]| boundary::write_time_line(room, k, moment);
        let direct = |room: &mut [u8]| form::written(raw::write_time_line(room, k, defined, m.year, parts, m.milli), len);
        let ours = |room: &mut [u8]| leaves::write_time_line(room, k, moment);
        let ours = same_written(&mut rng, len, &ours, &[&wrapper, &direct], &(k, defined, m));
        let long = LINES.get(k).is_some_and(|line| line.2 == Kind::LongTime);
        seen.note(&ours, |_| match (moment, long) {
            (None, _) => "undefined",
            (Some(m), false) if m.second == 60 => "short leap second",
            (Some(m), true) if m.second == 60 => "long leap second",
            (_, false) => "short",
            (_, true) => "long",
        });
    }
    seen.complete(&["undefined", "short", "short leap second", "long", "long leap second"], &[18, 22]);
}
