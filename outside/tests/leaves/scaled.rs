use super::{flag, length, lent, same_read, same_written, CASES};
use outside::boundary::{self, form, raw};
use outside::generate::Rng;
use outside::leaves;
use outside::seen::{cases, Seen};
use outside::values::{Reading, Refusal, Scaled};

type Flat = (u8, i64, i8);

fn value((defined, integer, scale): Flat) -> Option<Scaled> {
    (defined != 0).then_some(Scaled { integer, scale })
}

fn name<T>(value: &Option<T>) -> &'static str {
    if value.is_some() {
        "defined"
    } else {
        "undefined"
    }
}

/// 2, 4 or 8, and now and then another.
fn any_width(rng: &mut Rng) -> usize {
    let any = rng.next() as usize;
    match rng.below(10) {
        0 => rng.pick(&[0, 1, 3, 5, 6, 7, 9, 10, 16]),
        1 => rng.pick(&[usize::MAX, usize::MAX - 1, usize::MAX - 8, 1 << 32, 1 << 63, 258, any]),
        _ => rng.pick(&[2, 4, 8]),
    }
}

/// -15..15, and now and then another.
fn any_scale(rng: &mut Rng) -> i8 {
    let any = rng.next() as i8;
    match rng.below(8) {
        0 => rng.pick(&[-16, 16, -17, 17, 127, -128, any]),
        1 => rng.pick(&[-15, -1, 0, 15]),
        _ => rng.below(31) as i8 - 15,
    }
}

/// 0..15, and now and then another.
fn any_decimals(rng: &mut Rng) -> i8 {
    let any = rng.next() as i8;
    match rng.below(8) {
        0 => rng.pick(&[-1, 16, 17, 127, -128, -15, any]),
        1 => rng.pick(&[0, 15]),
        _ => rng.below(16) as i8,
    }
}

/// Beside a power of two, of any size, or small.
fn any_integer(rng: &mut Rng) -> i64 {
    let sign = rng.pick(&[1, -1i128]);
    let near = rng.below(5) as i128 - 2;
    let edge = sign * (1 << rng.pick(&[0, 15, 16, 31, 32, 53, 62, 63])) + near;
    let any = rng.next() as i64;
    match rng.below(8) {
        0..=2 => edge.clamp(i64::MIN as i128, i64::MAX as i128) as i64,
        3 => near as i64,
        4 => any,
        _ => any >> rng.below(64),
    }
}

fn any_scaled(rng: &mut Rng) -> Flat {
    (flag(rng), any_integer(rng), any_scale(rng))
}

/// The bytes of an integer: lowest, highest, either in the other sign, beside one of these, or any.
fn integer_bytes(rng: &mut Rng, width: usize) -> Vec<u8> {
    let (first, rest) = rng.pick(&[(0x80, 0), (0xff, 0xff), (0x7f, 0xff), (0, 0)]);
    let mut bytes = vec![rest; width];
    bytes[0] = first;
    match rng.below(4) {
        0 => {}
        1 => bytes[width - 1] ^= 1,
        2 => bytes[rng.below(width)] = rng.next() as u8,
        _ => bytes.fill_with(|| rng.next() as u8),
    }
    bytes
}

#[test]
fn read_scaled() {
    let (mut rng, mut seen) = (Rng(21), Seen::of("wl_read_scaled"));
    for _ in 0..cases(CASES) {
        let (width, flag) = (any_width(&mut rng), flag(&mut rng));
        let integer = integer_bytes(&mut rng, width.clamp(1, 16));
        let item = [&[any_scale(&mut rng) as u8], &integer[..]].concat();
        let (bytes, at) = lent(&mut rng, &item);
        let ours = leaves::read_scaled(&bytes, at, width, flag != 0);
        same_read(&bytes, &ours, |bytes| boundary::read_scaled(bytes, at, width, flag != 0), (at, width, flag));
        same_read(&bytes, &ours, |bytes| form::scaled(raw::read_scaled(bytes, at, width, flag)), (at, width, flag));
        seen.note(&ours, name);
    }
    seen.complete(&["defined", "undefined"], &[20, 21]);
}

#[test]
fn write_scaled() {
    let (mut rng, mut seen) = (Rng(22), Seen::of("wl_write_scaled"));
    for _ in 0..cases(CASES) {
        let (width, flag, flat) = (any_width(&mut rng), flag(&mut rng), any_scaled(&mut rng));
        let len = length(&mut rng, 1 + width.min(16));
        let (signed, number) = (flag != 0, value(flat));
        let wrapper = |room: &mut [u8]| boundary::write_scaled(room, width, signed, number);
        let direct = |room: &mut [u8]| form::written(raw::write_scaled(room, width, flag, flat), len);
        let ours = |room: &mut [u8]| leaves::write_scaled(room, width, signed, number);
        let ours = same_written(&mut rng, len, &ours, &[&wrapper, &direct], &(width, flag, flat));
        seen.note(&ours, |_| name(&number));
    }
    seen.complete(&["defined", "undefined"], &[18, 21]);
}

/// Beside a tie: an odd number of halves of 10^(s - d). Where s is at most d, beside 2^63 / 10^(d - s), the last that is not too large.
fn beside_edge(rng: &mut Rng, scale: i8, decimals: i8) -> Option<i64> {
    if scale <= decimals {
        let last = 2f64.powi(63) / 10f64.powi(decimals as i32 - scale as i32);
        return (last as i64 + rng.below(5) as i64 - 2).checked_mul(rng.pick(&[1, -1]));
    }
    let halves = 5 * 10i64.checked_pow((scale as i32 - decimals as i32 - 1).try_into().ok()?)?;
    let odd = 2 * (rng.below(1000) as i64 - 500) + 1;
    halves.checked_mul(odd)?.checked_add(rng.pick(&[-1, 0, 0, 1]))
}

#[test]
fn round() {
    let (mut rng, mut seen) = (Rng(23), Seen::of("wl_round"));
    for _ in 0..cases(CASES) {
        let (mut flat, decimals) = (any_scaled(&mut rng), any_decimals(&mut rng));
        if rng.one_in(3) {
            flat.1 = beside_edge(&mut rng, flat.2, decimals).unwrap_or(flat.1);
        }
        let ours = leaves::round(value(flat), decimals);
        assert_eq!(boundary::round(value(flat), decimals), ours, "{flat:?} {decimals}");
        assert_eq!(form::number(raw::round(flat, decimals)), ours, "{flat:?} {decimals}");
        seen.note(&ours, |units| if units.is_some() && flat.2 < 0 { "product" } else { name(units) });
    }
    seen.complete(&["defined", "product", "undefined"], &[21]);
}

/// The case of a reading and the bits of its value.
fn bits(reading: Reading) -> (u64, Option<u64>) {
    match reading {
        Reading::Missing => (0, None),
        Reading::Whole(value) => (1, Some(value.to_bits())),
        Reading::Between(value) => (2, Some(value.to_bits())),
    }
}

/// The raw answer, with a value lent that has these bits. What is missing or refused must keep them.
fn direct_reading(flat: Flat, lent: u64) -> Result<(u64, Option<u64>), Refusal> {
    let mut value = f64::from_bits(lent);
    let case = form::one(raw::reading(flat, &mut value));
    if matches!(case, Ok(1 | 2)) {
        return case.map(|case| (case, Some(value.to_bits())));
    }
    assert_eq!(value.to_bits(), lent, "{flat:?}");
    case.map(|case| (case, None))
}

#[test]
fn reading() {
    let (mut rng, mut seen) = (Rng(24), Seen::of("wl_reading"));
    for _ in 0..cases(CASES) {
        let mut flat = any_scaled(&mut rng);
        if rng.one_in(3) {
            // Whole, or one beside it; or a product beside 2^53.
            let power = 10i64.pow(flat.2.unsigned_abs().min(15) as u32);
            let whole = if flat.2 < 0 { (1 << 53) / power * rng.pick(&[1, -1]) } else { power.wrapping_mul(rng.below(20) as i64 - 10) };
            flat.1 = whole.wrapping_add(rng.pick(&[0, 0, 1, -1]));
        }
        let ours = leaves::reading(value(flat)).map(bits);
        assert_eq!(boundary::reading(value(flat)).map(bits), ours, "{flat:?}");
        assert_eq!(direct_reading(flat, rng.next()), ours, "{flat:?}");
        let product = flat.2 < 0;
        seen.note(&ours, |reading| if product && reading.0 == 1 { "product" } else { ["missing", "whole", "between"][reading.0 as usize] });
    }
    seen.complete(&["missing", "whole", "between", "product"], &[21]);
}
