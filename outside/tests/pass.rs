//! The join of granules of a pass: that which was written from the papers gives the vectors of vectors/pass byte for byte; whatever it writes is accepted
//! by both judges and has what it says; where request Seven's join writes, it writes the same bytes; and however the granules of a pass are paired, where no
//! join on the way is refused the bytes are the same. With the feature, that of the boundary answers and writes the same.
mod joined;

use joined::{check_result, join_in, whole, Written};
use outside::generate::{follower, hurt, meet, near_limit, product, put_own_times, unlike, Product, Rng};
use outside::join::Rule;
use outside::lines::STARTS;
use outside::records::{of_classes, records};
use outside::seen::{cases, Seen};
use outside::vectors::written;
use outside::{fast, vectors};

/// How often each pass of the vectors is paired anew.
const PAIRINGS: usize = 20;
/// INSTRUMENT_ID.
const INSTRUMENT_LINE: usize = 5;

/// The granules, which follow each other, joined two and two at random until one is left; or the refusal that stands in the way.
fn paired(rng: &mut Rng, granules: &[Vec<u8>]) -> (Written, Vec<u8>) {
    let mut left = granules.to_vec();
    while left.len() > 1 {
        let k = rng.below(left.len() - 1);
        let (answer, result) = whole(Rule::Pass, &left[k], &left[k + 1]);
        if answer.is_err() {
            return (answer, Vec::new());
        }
        left.splice(k..k + 2, [result]);
    }
    (Ok(left[0].len()), left.remove(0))
}

#[test]
fn pass_vectors() {
    let products = vectors::pass_products();
    let mut rng = Rng(37);
    let (mut seen, mut plain, mut passes) = (Seen::of("join of granules, vectors"), Seen::of("request Seven's join of them"), 0);
    for case in vectors::cases("pass/pass.jsonl", 283) {
        let name = case.get("name").unwrap();
        let numbered = |key: &str| case.get(key).map(|n| products[n.number() as usize].clone());
        let output = numbered("output").unwrap_or_default();
        let right = written(case.get("answer").unwrap());
        if let Some(granules) = case.get("granules") {
            let granules: Vec<_> = granules.list().iter().map(|n| products[n.number() as usize].clone()).collect();
            for _ in 0..PAIRINGS {
                let (answer, result) = paired(&mut rng, &granules);
                assert_eq!(answer, right, "{name:?}");
                assert!(result == output, "{name:?}");
            }
            passes += 1;
            continue;
        }
        let [first, second] = ["first", "second"].map(|key| numbered(key).unwrap());
        assert_eq!(join_in(Rule::Pass, &first, &second, output.len()), (right, output.clone()), "{name:?}");
        let (sevens, result) = whole(Rule::Identical, &first, &second);
        assert_eq!(sevens, written(case.get("plain").unwrap()), "{name:?}");
        assert!(sevens.is_err() || result == output, "{name:?}");
        plain.note(&sevens, |_| "written");
        for room in case.get("rooms").unwrap().list() {
            let (ours, result) = join_in(Rule::Pass, &first, &second, room.list()[0].number() as usize);
            assert_eq!(ours, written(&room.list()[1]), "{name:?}");
            assert!(result.is_empty() || result == output, "{name:?}");
            seen.note(&ours, |_| "written");
        }
    }
    assert_eq!(passes, 16);
    let refusals: Vec<u64> = (1..=18).chain(26..=28).collect();
    plain.complete(&["written"], &refusals);
    seen.complete(&["written"], &refusals);
}

/// A granule and the one that follows it: their own times in the SPHR and the global records most often; alike or not, in time or not, whole or not.
fn pair(rng: &mut Rng) -> [Product; 2] {
    let mut first = product(rng, 0).0;
    let mut second = if rng.one_in(20) { product(rng, 0).0 } else { follower(rng, &first) };
    if rng.one_in(2) {
        meet(rng, &mut first, &mut second);
    }
    if !rng.one_in(4) {
        put_own_times(rng, &mut first);
        put_own_times(rng, &mut second);
    }
    if rng.one_in(6) {
        unlike(rng, &mut second);
    }
    if rng.one_in(8) {
        near_limit(rng, &mut first, &mut second);
    }
    let which = rng.below(8);
    for (k, p) in [&mut first, &mut second].into_iter().enumerate() {
        if which == k || which == 2 {
            let turn = 1 + rng.below(35);
            hurt(rng, p, turn);
        }
    }
    [first, second]
}

#[test]
fn generated_pairs() {
    let mut rng = Rng(15);
    let (mut seen, mut plain) = (Seen::of("join of granules, both accepted"), Seen::of("request Seven's join of them"));
    let mut of_either = Seen::of("join of granules, one refused");
    for _ in 0..cases(200_000) {
        let both = pair(&mut rng);
        let [first, second] = [&both[0].bytes[..], &both[1].bytes[..]];
        let need = whole(Rule::Pass, first, second).0.unwrap_or(60);
        let any = rng.below(2 * need);
        let room = rng.pick(&[need, need, need + 9, need - 1, 0, any]);
        let (answer, result) = join_in(Rule::Pass, first, second, room);
        if answer.is_ok() {
            check_result(Rule::Pass, first, second, &result);
        }
        let (sevens, same) = join_in(Rule::Identical, first, second, room);
        if sevens.is_ok() {
            assert!((sevens, same) == (answer, result), "what request Seven's join writes this one writes");
        }
        match fast::verdict(first).and(fast::verdict(second)) {
            Err(refusal) => {
                assert_eq!((answer, sevens), (Err(refusal), Err(refusal)));
                of_either.note(&answer, |_| "written");
            }
            Ok(_) => {
                seen.note(&answer, |_| "written");
                plain.note(&sevens, |_| "written");
            }
        }
    }
    of_either.complete(&[], &(1..=17).collect::<Vec<_>>());
    seen.complete(&["written"], &[18, 26, 27, 28]);
    plain.complete(&["written"], &[18, 26, 27, 28]);
}

/// Three to eight granules that follow each other; now and then the last is of another instrument.
fn pass(rng: &mut Rng) -> Vec<Product> {
    let mut all = vec![product(rng, 0).0];
    for _ in 0..2 + rng.below(6) {
        let mut next = follower(rng, all.last().unwrap());
        if !rng.one_in(8) {
            meet(rng, all.last_mut().unwrap(), &mut next);
        }
        all.push(next);
    }
    for p in &mut all {
        put_own_times(rng, p);
    }
    if rng.one_in(20) {
        all.last_mut().unwrap().bytes[STARTS[INSTRUMENT_LINE] + 32] = b'#';
    }
    all
}

#[test]
fn generated_passes() {
    let mut rng = Rng(8);
    let mut seen = Seen::of("passes of 3 to 8 granules, paired at random two ways");
    for _ in 0..cases(200_000) / 10 {
        let granules: Vec<_> = pass(&mut rng).into_iter().map(|p| p.bytes).collect();
        let [one, other] = [(); 2].map(|()| paired(&mut rng, &granules));
        if one.0.is_err() || other.0.is_err() {
            seen.note(&one.0.and(other.0), |_| "");
            continue;
        }
        assert!(one == other, "two ways differ");
        let joined = records(&one.1);
        let each: Vec<_> = granules.iter().map(|g| records(g)).collect();
        for (from, to) in [(6, 7), (8, 8)] {
            let all: Vec<_> = each.iter().flat_map(|g| of_classes(g, from, to)).collect();
            assert_eq!(of_classes(&joined, from, to), all);
        }
        seen.note(&one.0, |_| "the same bytes");
    }
    seen.complete(&["the same bytes"], &[26, 27, 28]);
}
