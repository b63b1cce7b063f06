//! Request Three: the cut that was written from the papers gives the request's vectors byte for byte, and whatever it writes is accepted by both
//! judges, with the chosen MDRs and no others; with the feature, that of the boundary answers and writes the same.
use outside::cut::cut;
use outside::generate::{product, Product, Rng};
use outside::json::Json;
use outside::leaves::read_header;
use outside::lines::{LINES, STARTS};
use outside::records::{of_classes, records};
use outside::seen::{cases, Seen};
use outside::values::{Refusal, Time};
use outside::vectors::{pieces, written};
use outside::{fast, plain, vectors, Finished};

const KEPT: u8 = 0xa5;

type Written = Result<usize, Refusal>;

/// What is written, and the whole room after it.
fn cut_in(bytes: &[u8], window: [Option<Time>; 2], room: usize) -> (Written, Vec<u8>) {
    let mut lent = vec![KEPT; room];
    let answer = cut(bytes, window[0], window[1], &mut lent);
    let written = answer.unwrap_or(0);
    assert!(lent[written..].iter().all(|b| *b == KEPT), "{answer:?}");
    #[cfg(feature = "boundary")]
    same_at_boundary(bytes, window, &lent, answer);
    lent.truncate(written);
    (answer, lent)
}

/// The answer and the whole room, and the product kept; raw, a part of a time that is undefined is not looked at.
#[cfg(feature = "boundary")]
fn same_at_boundary(bytes: &[u8], window: [Option<Time>; 2], right: &[u8], answer: Written) {
    use outside::{boundary, leaves};
    let (before, mut lent) = (bytes.to_vec(), vec![KEPT; right.len()]);
    assert_eq!(boundary::cut_into(bytes, window[0], window[1], &mut lent), answer);
    assert!(lent == right, "{answer:?}");
    if window.contains(&None) {
        let [a, b] = window.map(|t| t.map_or((0, 65_535, u32::MAX), |t| (255, t.day, t.milli)));
        assert_eq!(boundary::raw::cut(bytes, a, b, &mut lent), [25, 0, 0, 0]);
    }
    if let (Ok(n), true) = (answer, bytes.len() < 10_000) {
        assert_eq!(boundary::cut(bytes, window[0], window[1]).as_deref(), Ok(&right[..n]));
        let [mut rows, mut plainly] = [(); 2].map(|()| vec![[0; 7]; n / 20]);
        assert_eq!(boundary::rows(&right[..n], &mut rows), plain::rows(&right[..n], &mut plainly));
        assert_eq!(rows, plainly);
        let (mut text, mut listed) = ([0; 16_384], [0; 16_384]);
        assert_eq!(boundary::listing(&right[..n], &mut text), leaves::listing(&right[..n], &mut listed));
        assert!(text == listed);
    }
    assert_eq!(bytes, before);
}

fn time(value: &Json) -> Option<Time> {
    let [day, milli] = [0, 1].map(|k| value.some().map(|v| v.list()[k].number()));
    Some(Time { day: day? as u16, milli: milli? as u32 })
}

#[test]
fn request_vectors() {
    let products = vectors::request_products();
    let mut seen = Seen::of("cut, the request's vectors");
    for case in vectors::cases("requests/three.jsonl", 216) {
        let numbered = |key: &str| case.get(key).map(|n| products[n.number() as usize].clone());
        let bytes = numbered("product").unwrap_or_else(|| pieces(case.get("pieces").unwrap()));
        let output = numbered("output").or_else(|| case.get("output_pieces").map(pieces)).unwrap_or_default();
        let window = ["first", "last"].map(|key| time(case.get(key).unwrap()));
        let name = case.get("name").unwrap();
        let right = written(case.get("answer").unwrap());
        let (ours, result) = cut_in(&bytes, window, output.len());
        assert_eq!(ours, right, "{name:?}");
        assert_eq!(result, output, "{name:?}");
        for room in case.get("rooms").unwrap().list() {
            let (ours, result) = cut_in(&bytes, window, room.list()[0].number() as usize);
            assert_eq!(ours, written(&room.list()[1]), "{name:?}");
            assert!(result.is_empty() || result == output, "{name:?}");
        }
        seen.note(&right, |_| "written");
    }
    seen.complete(&["written"], &[1, 2, 3, 4, 5, 6, 7, 8, 9, 10, 11, 12, 13, 14, 15, 16, 17, 18, 25, 28]);
}

/// A time at or beside the start of a record, or anything.
fn end(rng: &mut Rng, p: &Product) -> Option<Time> {
    if rng.one_in(40) {
        return None;
    }
    let at = rng.pick(&p.starts);
    let near = read_header(&p.bytes, at).ok().and_then(|h| h.start);
    match (near, rng.below(8)) {
        (Some(t), 0..=3) => Some(t),
        (Some(t), 4) => Some(Time { milli: t.milli + 1, ..t }),
        (Some(t), 5) => Some(Time { milli: t.milli.saturating_sub(1), ..t }),
        _ => Some(Time { day: rng.below(65_536) as u16, milli: rng.below(86_400_000) as u32 }),
    }
}

fn window(rng: &mut Rng, p: &Product) -> [Option<Time>; 2] {
    let mut ends = [end(rng, p), end(rng, p)];
    if let ([Some(a), Some(b)], false) = (ends, rng.one_in(8)) {
        if (a.day, a.milli) > (b.day, b.milli) {
            ends.swap(0, 1);
        }
    }
    if rng.one_in(6) {
        ends = [Some(Time { day: 0, milli: 0 }), Some(Time { day: 65_535, milli: 86_399_999 })];
    }
    ends
}

/// What the request says of a result, read off it.
fn check_result(bytes: &[u8], [first, last]: [Option<Time>; 2], result: &[u8]) {
    let mut rows = vec![[0; 7]; result.len() / 20];
    let verdict = plain::finished(result, &mut rows);
    assert!(matches!(verdict, Finished::Accepted { .. }), "{verdict:?}");
    assert_eq!(fast::finished(result, &mut rows), verdict);
    let (before, after) = (records(bytes), records(result));
    for (from, to) in [(2, 2), (4, 7)] {
        assert_eq!(of_classes(&before, from, to), of_classes(&after, from, to));
    }
    let of_day = |t: Time| (t.day, t.milli);
    let inside = |t: Time| of_day(first.unwrap()) <= of_day(t) && of_day(t) <= of_day(last.unwrap());
    let chosen: Vec<&[u8]> = before.iter().filter(|r| r.0.class == 8 && r.0.start.is_some_and(inside)).map(|r| r.1).collect();
    assert_eq!(chosen, of_classes(&after, 8, 8));
    let mut kinds: Vec<&[u8]> = after.iter().filter(|r| r.0.class >= 4).map(|r| &r.1[..3]).collect();
    kinds.sort();
    kinds.dedup();
    assert_eq!(kinds, of_classes(&after, 3, 3).iter().map(|ipr| &ipr[20..23]).collect::<Vec<_>>());
    let anew = |k: usize| k == 0 || k == 10 || k == 11 || k == 28 || (55..=71).contains(&k);
    assert_eq!(bytes[..20], result[..20]);
    for k in (0..LINES.len()).filter(|k| !anew(*k)) {
        assert_eq!(bytes[STARTS[k]..STARTS[k + 1]], result[STARTS[k]..STARTS[k + 1]], "line {k}");
    }
}

#[test]
fn generated() {
    let (mut rng, mut seen) = (Rng(3), Seen::of("cut"));
    for n in 0..cases(200_000) {
        let turn = rng.pick(&[0, n]);
        let (p, _) = product(&mut rng, turn);
        let ends = window(&mut rng, &p);
        let need = cut_in(&p.bytes, ends, p.bytes.len() + 27 * p.starts.len()).0.unwrap_or(60);
        let any = rng.below(2 * need);
        let (answer, result) = cut_in(&p.bytes, ends, rng.pick(&[need, need, need + 9, need - 1, any]));
        if answer.is_ok() {
            check_result(&p.bytes, ends, &result);
        }
        seen.note(&answer, |_| "written");
    }
    let refusals: Vec<u64> = (1..=18).chain([25]).collect();
    seen.complete(&["written"], &refusals);
}
