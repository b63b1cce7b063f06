//! Request Fourteen: the finished judge as a verdict and a row lister. Plain with fast, and with the feature those of the boundary, with the vectors
//! and on generated products: the verdict is the one judge's answer but for 18, and the lister's answer and rows are those of the one judge in every
//! room.
use outside::generate::{build, damage, few_kinds, hurt, prefix, product, set_number, shape, Product, Rng, Shape};
use outside::lines::SIZE_LINE;
use outside::seen::{cases, Seen};
use outside::values::Refusal;
use outside::{fast, plain, vectors, Finished, Row};

type Answer = Result<u64, Refusal>;

const KEPT: Row = [0xdead_beef; 7];

fn result(answer: Finished) -> Answer {
    match answer {
        Finished::Refused { number, place } => Err(Refusal { number, place }),
        Finished::Accepted { count } => Ok(count),
    }
}

/// The verdict of all but the plain one.
#[track_caller]
fn verdict(bytes: &[u8]) -> Answer {
    let answer = fast::verdict(bytes);
    #[cfg(feature = "boundary")]
    assert_eq!(outside::boundary::verdict(bytes), answer, "wl_verdict at {}", bytes.len());
    answer
}

/// The answer of all listers, and the rows that all leave, with a place on each side.
#[track_caller]
fn rows(bytes: &[u8], room: usize) -> (Answer, Vec<Row>) {
    let mut rows = vec![KEPT; room + 2];
    let answer = plain::rows(bytes, &mut rows[1..=room]);
    let mut others: Vec<fn(&[u8], &mut [Row]) -> Answer> = vec![fast::rows];
    #[cfg(feature = "boundary")]
    others.push(outside::boundary::rows);
    for other in others.drain(..) {
        let mut lent = vec![KEPT; room + 2];
        assert_eq!(other(bytes, &mut lent[1..=room]), answer, "at {} room {room}", bytes.len());
        assert_eq!(lent, rows, "at {} room {room}", bytes.len());
    }
    assert_eq!((rows[0], rows[room + 1]), (KEPT, KEPT));
    (answer, rows[1..=room].to_vec())
}

/// The two in turn answer what the one does in a list of so many places, and leave the same rows. Its answer, and the verdict.
#[track_caller]
fn in_turn(bytes: &[u8], room: usize) -> (Answer, Answer) {
    let before = bytes.to_vec();
    let first = verdict(bytes);
    assert_eq!(first, plain::verdict(bytes));
    let (second, listed) = rows(bytes, room);
    let mut one = vec![KEPT; room];
    let right = result(plain::finished(bytes, &mut one));
    assert_eq!((first.and(second), second), (right, right));
    assert_eq!(listed, one);
    assert_eq!(bytes, before);
    (second, first)
}

const OWN: [u64; 17] = [1, 2, 3, 4, 5, 6, 7, 8, 9, 10, 11, 12, 13, 14, 15, 16, 17];
const WITH_ROOM: [u64; 18] = [1, 2, 3, 4, 5, 6, 7, 8, 9, 10, 11, 12, 13, 14, 15, 16, 17, 18];

#[test]
fn request_vectors() {
    let (mut verdicts, mut listers) = (Seen::of("verdict, the vectors of Six"), Seen::of("rows, the vectors of Six"));
    for case in vectors::listed("requests/six.jsonl", 136) {
        let count = case.answer.as_ref().map(|rows| rows.len() as u64).map_err(|r| *r);
        assert_eq!(verdict(&case.bytes), count, "{}", case.name);
        verdicts.note(&count, |_| "accepted");
        for (room, right) in &case.rooms {
            let (answer, listed) = rows(&case.bytes, *room);
            assert_eq!(answer, *right, "{} room {room}", case.name);
            let due = if answer.is_ok() { &case.answer.as_ref().unwrap()[..] } else { &[] };
            assert_eq!(listed[..due.len()], *due, "{} room {room}", case.name);
            assert!(listed[due.len()..].iter().all(|row| *row == KEPT), "{} room {room}", case.name);
            assert_eq!(in_turn(&case.bytes, *room), (answer, count), "{} room {room}", case.name);
            listers.note(&answer, |_| "listed");
        }
    }
    verdicts.complete(&["accepted"], &OWN);
    listers.complete(&["listed"], &WITH_ROOM);
}

/// The products of the judge's vectors, and those of request Two with their answers; at some prefixes too.
#[test]
fn judge_vectors() {
    let mut seen = Seen::of("verdict, the judge's vectors");
    for bytes in vectors::products() {
        for len in (0..bytes.len()).step_by(97).chain([bytes.len().saturating_sub(1), bytes.len()]) {
            let (_, answer) = in_turn(&bytes[..len], bytes.len() / 20);
            seen.note(&answer, |_| "accepted");
        }
    }
    for case in vectors::two() {
        assert_eq!(verdict(&case.bytes), result(case.finished), "{}", case.name);
        seen.note(&verdict(&case.bytes), |_| "accepted");
    }
    seen.complete(&["accepted"], &OWN);
}

#[test]
fn generated() {
    let mut rng = Rng(14);
    let (mut verdicts, mut listers) = (Seen::of("verdict"), Seen::of("rows"));
    for n in 0..cases(200_000) {
        let turn = if rng.one_in(2) { n } else { 0 };
        let (mut p, _) = product(&mut rng, turn);
        if turn == 0 && rng.one_in(2) {
            few_kinds(&mut rng, &mut p);
        }
        let len = if rng.one_in(4) { prefix(&mut rng, &p) } else { p.bytes.len() };
        let (bytes, count) = (&p.bytes[..len], p.starts.len());
        for room in [rng.pick(&[0, count - 1]), count + rng.pick(&[0, 0, 1, 3])] {
            let (listed, verdict) = in_turn(bytes, room);
            verdicts.note(&verdict, |_| "accepted");
            listers.note(&listed, |_| "listed");
        }
    }
    verdicts.complete(&["accepted"], &OWN);
    listers.complete(&["listed"], &WITH_ROOM);
}

/// Pointers in no order, so many that a list of them is not sorted two by two; most of the products damaged at a pointer.
#[test]
fn many_pointers() {
    let mut rng = Rng(1000);
    let mut seen = Seen::of("verdict, many pointers in no order");
    for n in 0..(cases(200_000) / 500).max(20) {
        let mut shape = shape(&mut rng);
        let records = 1 + rng.below(400);
        shape.others.extend((0..records).map(|k| (8, 20 + k % 3)));
        (shape.pointers, shape.sorted) = (990 + rng.below(400), rng.one_in(8));
        let mut p = build(&mut rng, &shape);
        for _ in 0..rng.below(3) {
            let k = rng.below(p.starts.len());
            let row = rng.pick(&[12, 13, 13, 14, 14, 14]);
            damage(&mut rng, &mut p, row, k);
        }
        if rng.one_in(6) {
            hurt(&mut rng, &mut p, 1 + n % 35);
        }
        let (_, answer) = in_turn(&p.bytes, p.starts.len());
        seen.note(&answer, |_| "accepted");
    }
    let refusals: Vec<u64> = OWN.into_iter().collect();
    seen.complete(&["accepted"], &refusals);
}

/// As many pointers and records as TOTAL_RECORDS can say, in no order; then with one pointer, or two, beside their targets. One that takes pointers times
/// records does not come to an end here.
#[test]
fn most_pointers() {
    let mut rng = Rng(499_999);
    let others = vec![(8, 20); 499_999];
    let p = build(&mut rng, &Shape { first_version: 2, sphr: None, pointers: 499_999, others, sorted: false, rest: 0 });
    assert_eq!(verdict(&p.bytes), Ok(999_999));
    let target = |p: &Product, k: usize| u32::from_be_bytes(p.bytes[p.pointers[k] + 23..][..4].try_into().unwrap());
    // 14 of the pointer whose target comes first, and 13 at one record before 14 there.
    let (a, b) = (7, 499_990);
    let first = if target(&p, a) <= target(&p, b) { a } else { b };
    let mut bytes = p.bytes.clone();
    for k in [a, b] {
        bytes[p.pointers[k] + 21] ^= 1;
    }
    assert_eq!(verdict(&bytes), Err(Refusal { number: 14, place: p.pointers[first] as u64 }));
    let inside = target(&p, first) + 5;
    bytes[p.pointers[250_000] + 23..][..4].copy_from_slice(&inside.to_be_bytes());
    assert_eq!(verdict(&bytes), Err(Refusal { number: 13, place: p.pointers[250_000] as u64 }));
    // A byte short, and a byte too many.
    let len = p.bytes.len();
    assert_eq!(verdict(&p.bytes[..len - 1]), Err(Refusal { number: 17, place: len as u64 - 1 }));
    let mut longer = p.bytes.clone();
    longer.push(0);
    assert_eq!(verdict(&longer), Err(Refusal { number: 16, place: len as u64 }));
    set_number(&mut longer, SIZE_LINE, len as u64 + 1);
    assert_eq!(verdict(&longer), Err(Refusal { number: 6, place: len as u64 }));
}
