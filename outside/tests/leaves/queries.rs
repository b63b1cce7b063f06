use super::lines::any_field;
use super::{flag, noise, CASES};
use outside::boundary::{self, form, raw};
use outside::generate::{prefix, product, Product, Rng};
use outside::leaves;
use outside::lines::{Kind, LINES, MAIN_SIZE, STARTS};
use outside::seen::{cases, Seen};
use outside::values::{GroundPoint, Refusal, Which};
use outside::vectors;

const NUMBERS: [Kind; 3] = [Kind::Signed, Kind::Unsigned, Kind::Needed];
const TIMES: [Kind; 2] = [Kind::Time, Kind::LongTime];

/// What a field query hands on: the main header's faults, and what the first 3,307 bytes show beside them; then 17 and 22.
const FIELD_REFUSALS: [u64; 10] = [1, 2, 3, 4, 5, 6, 10, 15, 17, 22];

/// Four queries of each product, at a prefix each.
fn of_products(rng: &mut Rng, mut query: impl FnMut(&mut Rng, &Product, &[u8])) {
    for n in 0..cases(CASES) / 4 {
        let (p, _) = product(rng, n);
        let before = p.bytes.clone();
        for _ in 0..4 {
            let len = prefix(rng, &p);
            query(rng, &p, &p.bytes[..len]);
        }
        assert_eq!(p.bytes, before);
    }
}

/// Each product of the vectors, at lengths where answers change and at some others.
fn of_vectors(rng: &mut Rng, mut query: impl FnMut(&[u8])) {
    for bytes in vectors::products() {
        let any = rng.below(bytes.len() + 1);
        for len in [0, 20, any, MAIN_SIZE - 1, MAIN_SIZE, bytes.len()] {
            query(&bytes[..len.min(bytes.len())]);
        }
    }
}

fn any_record(rng: &mut Rng, count: usize) -> usize {
    let any = rng.next() as usize;
    match rng.below(8) {
        0 => rng.pick(&[count, count + 1, 1 << 32, usize::MAX, any]),
        1 => count - 1,
        2 => 0,
        _ => rng.below(count),
    }
}

#[test]
fn extent() {
    let (mut rng, mut seen) = (Rng(50), Seen::of("wl_extent"));
    of_products(&mut rng, |_, _, bytes| {
        let ours = leaves::extent(bytes);
        assert_eq!(boundary::extent(bytes), ours, "at {}", bytes.len());
        seen.note(&ours, |whole| if whole.is_some() { "whole" } else { "part" });
    });
    let refusals: Vec<u64> = (1..=16).collect();
    seen.complete(&["whole", "part"], &refusals);
}

#[test]
fn record() {
    let (mut rng, mut seen) = (Rng(51), Seen::of("wl_record"));
    of_products(&mut rng, |rng, p, bytes| {
        let k = any_record(rng, p.starts.len());
        let ours = leaves::record(bytes, k);
        assert_eq!(boundary::record(bytes, k), ours, "record {k} at {}", bytes.len());
        seen.note(&ours, |r| if r.start == 0 { "the first" } else { "another" });
    });
    let refusals: Vec<u64> = (1..=16).chain([19]).collect();
    seen.complete(&["the first", "another"], &refusals);
    of_vectors(&mut rng, |bytes| {
        for k in 0..12 {
            assert_eq!(boundary::record(bytes, k), leaves::record(bytes, k), "record {k} at {}", bytes.len());
        }
    });
}

fn name<T>(value: &Option<T>) -> &'static str {
    if value.is_some() {
        "defined"
    } else {
        "undefined"
    }
}

#[test]
fn number_field() {
    let (mut rng, mut seen) = (Rng(52), Seen::of("wl_number_field"));
    of_products(&mut rng, |rng, _, bytes| {
        let k = any_field(rng, &NUMBERS);
        let ours = leaves::number_field(bytes, k);
        assert_eq!(boundary::number_field(bytes, k), ours, "field {k} at {}", bytes.len());
        seen.note(&ours, name);
    });
    seen.complete(&["defined", "undefined"], &FIELD_REFUSALS);
}

#[test]
fn time_field() {
    let (mut rng, mut seen) = (Rng(53), Seen::of("wl_time_field"));
    of_products(&mut rng, |rng, _, bytes| {
        let k = any_field(rng, &TIMES);
        let ours = leaves::time_field(bytes, k);
        assert_eq!(boundary::time_field(bytes, k), ours, "field {k} at {}", bytes.len());
        seen.note(&ours, |moment| if moment.is_some_and(|m| m.second == 60) { "leap second" } else { name(moment) });
    });
    seen.complete(&["defined", "leap second", "undefined"], &FIELD_REFUSALS);
}

/// A text as the place where it stands.
fn place(text: Result<&str, Refusal>) -> Result<(*const u8, usize), Refusal> {
    text.map(|text| (text.as_ptr(), text.len()))
}

#[test]
fn text_field() {
    let (mut rng, mut seen) = (Rng(54), Seen::of("wl_text_field"));
    of_products(&mut rng, |rng, _, bytes| {
        let k = any_field(rng, &[Kind::Text]);
        let ours = place(leaves::text_field(bytes, k));
        assert_eq!(place(boundary::text_field(bytes, k)), ours, "field {k} at {}", bytes.len());
        seen.note(&ours, |_| "text");
    });
    seen.complete(&["text"], &FIELD_REFUSALS);
}

#[test]
fn fields_of_vectors() {
    of_vectors(&mut Rng(55), |bytes| {
        for k in 0..74 {
            assert_eq!(boundary::number_field(bytes, k), leaves::number_field(bytes, k), "field {k} at {}", bytes.len());
            assert_eq!(boundary::time_field(bytes, k), leaves::time_field(bytes, k), "field {k} at {}", bytes.len());
            assert_eq!(place(boundary::text_field(bytes, k)), place(leaves::text_field(bytes, k)), "field {k} at {}", bytes.len());
        }
    });
}

/// A name, whole, padded, cut, spoilt or another's end; or anything.
fn any_name(rng: &mut Rng) -> Vec<u8> {
    let mut name = LINES[rng.below(72)].0.as_bytes().to_vec();
    let len = name.len();
    match rng.below(12) {
        0 => name.resize(30, b' '),
        1 => name.truncate(rng.below(len)),
        2 => name[rng.below(len)] = rng.next() as u8,
        3 => name.push(rng.pick(b" \0_1=")),
        4 => name.make_ascii_lowercase(),
        5 => name.extend_from_slice(LINES[rng.below(72)].0.as_bytes()),
        6 => name[len - 1] = rng.pick(b"1234D"),
        7 => {
            let any = rng.below(80);
            name = noise(rng, any);
        }
        8 => name.insert(0, b' '),
        _ => {}
    }
    name
}

#[test]
fn field_named() {
    let (mut rng, mut seen) = (Rng(56), Seen::of("wl_field_named"));
    for _ in 0..cases(CASES) {
        let name = any_name(&mut rng);
        let lent = name.clone();
        let ours = leaves::field_named(&name);
        assert_eq!(boundary::field_named(&lent), ours, "{name:?}");
        assert_eq!(lent, name);
        seen.note(&ours, |_| "field");
    }
    for (k, line) in LINES.iter().enumerate() {
        assert_eq!(boundary::field_named(line.0.as_bytes()), Ok(k));
    }
    seen.complete(&["field"], &[22]);
}

#[test]
fn field() {
    let (mut rng, mut seen) = (Rng(59), Seen::of("wl_field"));
    for _ in 0..cases(CASES) {
        let (k, len) = (any_field(&mut rng, &[Kind::Text, Kind::Needed, Kind::Time, Kind::LongTime]), rng.below(40));
        let before = noise(&mut rng, len);
        let (mut expected, mut room) = (before.clone(), before.clone());
        let ours = leaves::field(k, &mut expected);
        assert_eq!(boundary::field(k, &mut room), ours, "field {k} in {len}");
        assert_eq!(room, expected, "field {k} in {len}");
        let kept = ours.map_or(0, |field| field.name as usize);
        assert_eq!(room[kept..], before[kept..], "field {k} in {len}");
        seen.note(&ours, |_| "field");
    }
    seen.complete(&["field"], &[18, 22]);
}

/// Spellings that a point may turn on.
const SPELT: [&[u8; 11]; 9] =
    [b"         -0", b"         +0", b"00000000000", b"-9999999999", b"99999999999", b"xxxxxxxxxxx", b"        +90", b"      -1000", b"          7"];

fn bits(point: Option<GroundPoint>) -> Option<[u64; 2]> {
    point.map(|p| [p.latitude.to_bits(), p.longitude.to_bits()])
}

/// The raw answer, with a point lent that has these bits. What is missing or refused must keep them.
fn direct_point(bytes: &[u8], which: u8, lent: [u64; 2]) -> Result<Option<[u64; 2]>, Refusal> {
    let mut point = lent.map(f64::from_bits);
    let answer = form::one(raw::ground_point(bytes, which, &mut point));
    let now = point.map(f64::to_bits);
    match answer {
        Ok(1) => Ok(Some(now)),
        other => {
            assert_eq!(now, lent);
            other.map(|missing| assert_eq!(missing, 0)).map(|_| None)
        }
    }
}

#[track_caller]
fn same_point(rng: &mut Rng, bytes: &[u8], flag: u8) -> Result<Option<[u64; 2]>, Refusal> {
    let which = if flag == 0 { Which::Start } else { Which::End };
    let ours = leaves::ground_point(bytes, which).map(bits);
    assert_eq!(boundary::ground_point(bytes, which).map(bits), ours, "{which:?} at {}", bytes.len());
    assert_eq!(direct_point(bytes, flag, [rng.next(), rng.next()]), ours, "{which:?} at {}", bytes.len());
    ours
}

#[test]
fn ground_point() {
    let (mut rng, mut seen) = (Rng(57), Seen::of("wl_ground_point"));
    of_products(&mut rng, |rng, _, bytes| {
        let mut bytes = bytes.to_vec();
        let (k, spelt) = (49 + rng.below(4), rng.pick(&SPELT));
        if bytes.len() >= MAIN_SIZE && rng.one_in(2) {
            bytes[STARTS[k] + 32..][..11].copy_from_slice(spelt);
        }
        let flag = flag(rng);
        let ours = same_point(rng, &bytes, flag);
        seen.note(&ours, |p| if p.is_some() { "point" } else { "missing" });
    });
    seen.complete(&["point", "missing"], &FIELD_REFUSALS[..9]);
    let mut again = Rng(58);
    of_vectors(&mut rng, |bytes| {
        for flag in [0, 1] {
            let _ = same_point(&mut again, bytes, flag);
        }
    });
}
