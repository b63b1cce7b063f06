//! Request Seven: the join that was written from the papers gives the request's vectors byte for byte, and whatever it writes is accepted by both
//! judges and has what the request says; where three products are joined both ways the bytes are the same. With the feature, that of the boundary
//! answers and writes the same.
mod joined;

use joined::{check_result, join_in, whole, Written};
use outside::generate::{build, follower, hurt, near_limit, product, set_number, unlike, Product, Rng, Shape};
use outside::join::{join, Rule};
use outside::lines::{MAIN_SIZE, SIZE_LINE};
use outside::records::{of_classes, records};
use outside::seen::{cases, Seen};
use outside::values::Refusal;
use outside::vectors::{pieces, written};
use outside::{fast, vectors};

const RULE: Rule = Rule::Identical;

const OVER: Written = Err(Refusal { number: 28, place: 0 });

/// The two ways of joining three: the first two and then the third, the last two after the first. The refusal that stands in the way is handed on.
fn both_ways([a, b, c]: [&[u8]; 3]) -> [(Written, Vec<u8>); 4] {
    let (first_two, last_two) = (whole(RULE, a, b), whole(RULE, b, c));
    let left = if first_two.0.is_ok() { whole(RULE, &first_two.1, c) } else { first_two.clone() };
    let right = if last_two.0.is_ok() { whole(RULE, a, &last_two.1) } else { last_two.clone() };
    if left.0.is_ok() && right.0.is_ok() {
        assert!(left == right, "the two ways differ");
    }
    [first_two, last_two, left, right]
}

#[test]
fn request_vectors() {
    let products = vectors::request_products();
    let (mut seen, mut threes) = (Seen::of("join, the request's vectors"), 0);
    for case in vectors::cases("requests/seven.jsonl", 218) {
        let numbered = |key: &str| case.get(key).map(|n| products[n.number() as usize].clone());
        let name = case.get("name").unwrap();
        let output = numbered("output").unwrap_or_default();
        if let Some(three) = case.get("three") {
            let [a, b, c] = [0, 1, 2].map(|k: usize| &products[three.list()[k].number() as usize][..]);
            let ours = both_ways([a, b, c]);
            for (key, answer) in ["first_two", "last_two", "left", "right"].iter().zip(&ours) {
                assert_eq!(answer.0, written(case.get(key).unwrap()), "{name:?} {key}");
            }
            assert!(ours[2].1 == output && ours[3].1 == output, "{name:?}");
            threes += 1;
            continue;
        }
        let [first, second] = match case.get("pieces") {
            Some(value) => [pieces(value), pieces(value)],
            None => ["first", "second"].map(|key| numbered(key).unwrap()),
        };
        let right = written(case.get("answer").unwrap());
        assert_eq!(join_in(RULE, &first, &second, output.len()), (right, output.clone()), "{name:?}");
        for room in case.get("rooms").unwrap().list() {
            let (ours, result) = join_in(RULE, &first, &second, room.list()[0].number() as usize);
            assert_eq!(ours, written(&room.list()[1]), "{name:?}");
            assert!(result.is_empty() || result == output, "{name:?}");
            seen.note(&ours, |_| "written");
        }
    }
    assert_eq!(threes, 24);
    let refusals: Vec<u64> = (1..=18).chain(26..=28).collect();
    seen.complete(&["written"], &refusals);
}

/// Two products, whole and alike or not, and how they were made.
fn pair(rng: &mut Rng) -> [Product; 2] {
    let mut first = product(rng, 0).0;
    let mut second = if rng.one_in(20) { product(rng, 0).0 } else { follower(rng, &first) };
    if rng.one_in(6) {
        unlike(rng, &mut second);
    }
    if rng.one_in(4) {
        near_limit(rng, &mut first, &mut second);
    }
    let which = rng.below(6);
    for (k, p) in [&mut first, &mut second].into_iter().enumerate() {
        if which == k || which == 2 {
            let turn = 1 + rng.below(35);
            hurt(rng, p, turn);
        }
    }
    [first, second]
}

/// A third one after them: which of the ways are written.
fn check_three(rng: &mut Rng, [first, second]: &[Product; 2], seen: &mut Seen) {
    let third = follower(rng, second);
    let three = [first, second, &third].map(|p| &p.bytes[..]);
    let [_, _, left, right] = both_ways(three);
    let ways = match (left.0.is_ok(), right.0.is_ok()) {
        (true, true) => "both ways",
        (true, false) => "left alone",
        (false, true) => "right alone",
        (false, false) => return seen.note(&left.0, |_| ""),
    };
    if ways == "both ways" {
        let [a, b, c, joined] = [three[0], three[1], three[2], &left.1].map(records);
        assert_eq!([a, b, c].map(|all| of_classes(&all, 6, 8).len()).iter().sum::<usize>(), of_classes(&joined, 6, 8).len());
    }
    seen.note(&Ok(()), |()| ways);
}

#[test]
fn generated() {
    let mut rng = Rng(7);
    let mut seen = Seen::of("join, both accepted");
    let mut of_first = Seen::of("join, the first refused");
    let mut of_second = Seen::of("join, the second refused");
    let mut threes = Seen::of("join of three");
    for _ in 0..cases(200_000) {
        let both = pair(&mut rng);
        let [first, second] = [&both[0].bytes[..], &both[1].bytes[..]];
        let need = whole(RULE, first, second).0.unwrap_or(60);
        let any = rng.below(2 * need);
        let (answer, result) = join_in(RULE, first, second, rng.pick(&[need, need, need + 9, need - 1, 0, any]));
        if answer.is_ok() {
            check_result(RULE, first, second, &result);
        }
        match (fast::verdict(first), fast::verdict(second)) {
            (Err(refusal), _) => {
                assert_eq!(answer, Err(refusal));
                of_first.note(&answer, |_| "written");
            }
            (_, Err(refusal)) => {
                assert_eq!(answer, Err(refusal));
                of_second.note(&answer, |_| "written");
            }
            _ => {
                seen.note(&answer, |_| "written");
                if rng.one_in(3) {
                    check_three(&mut rng, &both, &mut threes);
                }
            }
        }
    }
    let own: Vec<u64> = (1..=17).collect();
    of_first.complete(&[], &own);
    of_second.complete(&[], &own);
    seen.complete(&["written"], &[18, 26, 27, 28]);
    threes.complete(&["both ways", "left alone", "right alone"], &[26, 27, 28]);
}

/// A product of so many MDRs of one kind and size with no times. The last one has as many bytes as are asked for, which are not filled.
fn plain_product(mdrs: usize, last: usize) -> Vec<u8> {
    let shape = Shape { first_version: 2, sphr: None, pointers: 0, others: vec![(8, 20); mdrs], sorted: true, rest: 0 };
    let p = build(&mut Rng(1), &shape);
    let size = p.bytes.len() - 20 + last;
    let mut bytes = vec![0; size];
    bytes[..p.bytes.len()].copy_from_slice(&p.bytes);
    set_number(&mut bytes, SIZE_LINE, size as u64);
    for k in 64..=70 {
        set_number(&mut bytes, k, 0);
    }
    for s in &p.starts[1..] {
        bytes[s + 1..s + 3].fill(0);
        bytes[s + 8..s + 20].fill(0xff);
    }
    let at = p.starts[mdrs];
    bytes[at + 4..at + 8].copy_from_slice(&(last as u32).to_be_bytes());
    bytes
}

/// The answer alone, of a room of no bytes.
fn need(first: &[u8], second: &[u8]) -> Written {
    #[cfg(feature = "boundary")]
    assert_eq!(outside::boundary::join_into(first, second, &mut []), join(RULE, first, second, &mut []));
    join(RULE, first, second, &mut [])
}

/// The greatest size and the one beyond it; no byte of the payload is looked at, so that a gigabyte costs nothing.
#[test]
fn size_limit() {
    let half = (2_147_483_647 - MAIN_SIZE - 27) / 2;
    let first = plain_product(1, half);
    for (more, right) in [(1, Err(Refusal { number: 18, place: 2_147_483_647 })), (2, OVER)] {
        assert_eq!(need(&first, &plain_product(1, half + more)), right);
    }
}

/// The greatest number of records and the one beyond it: main header, one pointer, and the MDRs.
#[test]
fn records_limit() {
    let first = plain_product(500_000, 20);
    let second = plain_product(499_997, 20);
    let (answer, result) = join_in(RULE, &first, &second, first.len() + second.len());
    assert_eq!(answer, Ok(MAIN_SIZE + 27 + 20 * 999_997));
    assert_eq!(fast::verdict(&result), Ok(999_999));
    assert_eq!(need(&first, &plain_product(499_998, 20)), OVER);
}
