//! Request Twelve: the report that was written from the papers gives the request's vectors, agrees with the sums over rows, is the same in two orders of
//! a list and by halves that are merged. With the feature, that of the boundary answers the same. All 38 numbers are compared, and the products kept.
use outside::generate::{build, product, shape, times_that_meet, Rng, Shape};
use outside::json::Json;
use outside::month::plainly::{self, Big};
use outside::month::{self, Report, ACCEPTED, FULL, GAP, MOST_PRODUCTS, NUMBERS, OVERLAP, RECORDS, UNDEFINED_PAIRS};
use outside::seen::{cases, Seen};
use outside::values::Refusal;
use outside::vectors;
use std::collections::BTreeMap;

type Added = Result<Option<Refusal>, Refusal>;

const NEW: Report = [0; NUMBERS];

/// A product, and what it is by the request's sentences.
struct Lent {
    bytes: Vec<u8>,
    own: Option<Refusal>,
    big: Big,
}

impl Lent {
    fn of(bytes: Vec<u8>) -> Lent {
        let (own, big) = plainly::of(&bytes);
        Lent { bytes, own, big }
    }
}

/// A report between numbers that must be kept.
#[cfg(feature = "boundary")]
#[repr(C)]
struct Between {
    before: [u64; 4],
    report: Report,
    after: [u64; 4],
}

#[cfg(feature = "boundary")]
#[track_caller]
fn between<T>(report: &Report, call: impl FnOnce(&mut Report) -> T) -> (T, Report) {
    let mut lent = Between { before: [7; 4], report: *report, after: [7; 4] };
    let answer = call(&mut lent.report);
    assert_eq!((lent.before, lent.after), ([7; 4], [7; 4]));
    (answer, lent.report)
}

/// The answer of all, and the report that all leave.
#[track_caller]
fn add(report: &mut Report, lent: &Lent) -> Added {
    let right = plainly::more(report, &lent.big);
    let (mut ours, kept) = (*report, lent.bytes.clone());
    let answer = month::add(&mut ours, &lent.bytes);
    assert_eq!(answer, right.map(|_| lent.own));
    assert_eq!(ours, right.unwrap_or(*report));
    #[cfg(feature = "boundary")]
    assert_eq!(between(report, |report| outside::boundary::report_add(report, &lent.bytes)), (answer, ours));
    assert_eq!(lent.bytes, kept);
    *report = ours;
    answer
}

#[track_caller]
fn merge(report: &mut Report, other: &Report) -> Result<(), Refusal> {
    let right = plainly::more(report, &other.map(u128::from));
    let (mut ours, kept) = (*report, *other);
    let answer = month::merge(&mut ours, other);
    assert_eq!(answer, right.map(|_| ()));
    assert_eq!(ours, right.unwrap_or(*report));
    #[cfg(feature = "boundary")]
    assert_eq!(between(report, |report| outside::boundary::report_merge(report, other)), (answer, ours));
    assert_eq!(*other, kept);
    *report = ours;
    answer
}

fn label(own: &Option<Refusal>) -> &'static str {
    LABELS[own.map_or(0, |r| r.number as usize)]
}

const LABELS: [&str; 18] = ["accepted", "1", "2", "3", "4", "5", "6", "7", "8", "9", "10", "11", "12", "13", "14", "15", "16", "17"];

/// All of them added, with each answer.
fn add_all<'a>(report: &mut Report, list: impl IntoIterator<Item = &'a Lent>) -> Vec<Added> {
    list.into_iter().map(|lent| add(report, lent)).collect()
}

/// The list cut in two: the report of the first part merged with a new one of the second. It meets 36 where the list does, and is else the same.
#[track_caller]
fn by_halves(before: &Report, list: &[&Lent], at: usize, whole: &Report, met: bool) {
    let (mut first, mut second) = (*before, NEW);
    let answers = [add_all(&mut first, list[..at].iter().copied()), add_all(&mut second, list[at..].iter().copied())];
    assert!(answers[1].iter().all(|a| a.is_ok()));
    let merged = if answers[0].iter().any(|a| a.is_err()) { Err(FULL) } else { merge(&mut first, &second) };
    assert_eq!(merged.is_err(), met);
    assert!(met || first == *whole);
}

fn report(value: &Json) -> Report {
    let all: Vec<u64> = value.list().iter().map(Json::unsigned).collect();
    all.try_into().unwrap()
}

fn answer(value: &Json) -> Added {
    let answer = value.list();
    let refusal = Refusal { number: answer[1].unsigned(), place: answer[2].unsigned() };
    match answer[0].text() {
        "added" => Ok((refusal.number != 0).then_some(refusal)),
        "refused" => Err(refusal),
        other => panic!("{other}"),
    }
}

#[test]
fn request_vectors() {
    let products: Vec<Vec<u8>> = vectors::request_products();
    let mut seen = Seen::of("month, the request's vectors");
    let mut halves = 0;
    for case in vectors::cases("requests/twelve.jsonl", 177) {
        let name = case.get("name").unwrap().to_string();
        let lent = |n: &Json| Lent::of(products[n.number() as usize].clone());
        let before = case.get("before").unwrap().some().map_or(NEW, report);
        let after = report(case.get("report").unwrap());
        if let Some(times) = case.get("times") {
            let (mut now, mut last) = (before, Ok(None));
            for pair in times.list() {
                let lent = lent(&pair.list()[0]);
                for _ in 0..pair.list()[1].number() {
                    last = add(&mut now, &lent);
                    seen.note(&last, label);
                }
            }
            assert_eq!((last, now), (answer(case.get("last_answer").unwrap()), after), "{name}");
            continue;
        }
        let list: Vec<Lent> = case.get("products").unwrap().list().iter().map(lent).collect();
        let orders: [(Vec<usize>, _, _); 2] = [
            ((0..list.len()).collect(), "answers", "report"),
            (case.get("order").unwrap().list().iter().map(|k| k.number() as usize).collect(), "order_answers", "order_report"),
        ];
        for (order, answers, after) in &orders {
            let list: Vec<&Lent> = order.iter().map(|k| &list[*k]).collect();
            let mut now = before;
            let said = add_all(&mut now, list.iter().copied());
            let right: Vec<Added> = case.get(answers).unwrap().list().iter().map(answer).collect();
            assert_eq!((&said, now), (&right, report(case.get(after).unwrap())), "{name} {answers}");
            said.iter().for_each(|a| seen.note(a, label));
            for at in 0..=list.len() {
                by_halves(&before, &list, at, &now, said.iter().any(|a| a.is_err()));
                halves += 1;
            }
        }
    }
    println!("month: {halves} lists by halves");
    seen.complete(&LABELS, &[36]);
}

/// A report to begin with: new, or such that one of its numbers comes to about its limit with the list.
fn before(rng: &mut Rng, list: &[Lent]) -> Report {
    let mut report = NEW;
    if rng.one_in(2) {
        return report;
    }
    for n in &mut report[1..] {
        *n = rng.below(1 << 40) as u64;
    }
    // Mostly a number that the list adds to.
    let sum = |k: usize| list.iter().map(|lent| lent.big[k]).sum::<u128>();
    let k = (0..4).map(|_| rng.below(NUMBERS)).find(|k| sum(*k) > 0).unwrap_or(rng.below(NUMBERS));
    let limit = if k == 0 { MOST_PRODUCTS } else { u64::MAX };
    let short = rng.pick(&[0, 0, 1, 2, 20]).min(limit);
    let left = limit - (sum(k) as u64).min(limit);
    report[k] = if rng.one_in(2) { left.saturating_add(short).min(limit) } else { left.saturating_sub(short) };
    if rng.one_in(20) {
        report[0] = rng.pick(&[4094, 4095, 4096, 4097, u64::MAX]);
    }
    report
}

fn some_product(rng: &mut Rng) -> Vec<u8> {
    let n = if rng.one_in(3) { rng.below(40) } else { 0 };
    let mut p = if n == 0 { build_mdrs(rng) } else { product(rng, n).0 };
    if n == 0 {
        times_that_meet(rng, &mut p);
    }
    p.bytes
}

/// Whole, most of it MDRs.
fn build_mdrs(rng: &mut Rng) -> outside::generate::Product {
    let mut shape = shape(rng);
    let more = rng.below(6);
    shape.others.extend((0..more).map(|k| (8, 20 + k)));
    build(rng, &shape)
}

#[test]
fn generated() {
    let mut rng = Rng(12);
    let mut seen = Seen::of("month, lists");
    let (mut lists, mut met, mut reach) = (0, 0, BTreeMap::<&str, usize>::new());
    let mut limits = [0usize; NUMBERS];
    for _ in 0..cases(200_000) {
        let mut list: Vec<Lent> = (0..rng.below(5)).map(|_| Lent::of(some_product(&mut rng))).collect();
        if !list.is_empty() && rng.one_in(4) {
            let again = Lent::of(list[0].bytes.clone());
            list.push(again);
        }
        let before = before(&mut rng, &list);
        let order: Vec<&Lent> = list.iter().collect();
        let mut turned: Vec<&Lent> = order.clone();
        for k in (1..turned.len()).rev() {
            turned.swap(k, rng.below(k + 1));
        }
        let (mut one, mut other) = (before, before);
        let (answers, turned_answers) = (add_all(&mut one, order.iter().copied()), add_all(&mut other, turned.iter().copied()));
        answers.iter().for_each(|a| seen.note(a, label));
        let is_met = answers.iter().any(|a| a.is_err());
        // Which products are left out hangs on the order, whether one is does not.
        assert_eq!(is_met, turned_answers.iter().any(|a| a.is_err()));
        assert!(is_met || one == other);
        let at = rng.below(list.len() + 1);
        // A count of products that no list gives is past its limit in a merge with nothing, too.
        if before[0] <= MOST_PRODUCTS {
            by_halves(&before, &order, at, &one, is_met);
        }
        lists += 1;
        met += is_met as usize;
        for (k, n) in limits.iter_mut().enumerate() {
            *n += (one[k] == if k == 0 { MOST_PRODUCTS } else { u64::MAX } && !is_met) as usize;
        }
        for lent in &list {
            for (name, k) in [("gap", GAP), ("overlap", OVERLAP), ("undefined", UNDEFINED_PAIRS)] {
                *reach.entry(name).or_default() += (lent.big[k] > 0) as usize;
            }
            for (class, name) in ["MPHR", "SPHR", "IPR", "GEADR", "GIADR", "VEADR", "VIADR", "MDR"].into_iter().enumerate() {
                *reach.entry(name).or_default() += (lent.big[RECORDS + 1 + class] > 0) as usize;
            }
        }
    }
    println!("{lists} lists in two orders and by halves, {met} of them meet 36; products with {reach:?}; at the limit of each number {limits:?}");
    seen.complete(&LABELS, &[36]);
    if cases(200_000) >= 20_000 {
        assert!(met > 0 && reach.values().all(|n| *n > 0) && limits.iter().all(|n| *n > 0));
    }
}

#[test]
fn generated_merges() {
    let mut rng = Rng(36);
    let mut seen = Seen::of("month, merges");
    let mut past = [0usize; NUMBERS];
    for _ in 0..cases(200_000) {
        let mut both = [NEW, NEW];
        for n in both.as_flattened_mut() {
            *n = rng.next() >> (1 + rng.below(63));
        }
        for report in &mut both {
            report[0] = rng.pick(&[0, 1, 2047, 2048, 2048, 2049, 4095, 4096]);
        }
        if rng.one_in(2) {
            let k = rng.below(NUMBERS);
            let (limit, one) = if k == 0 { (4096, rng.below(4097) as u64) } else { (u64::MAX, rng.next()) };
            (both[0][0], both[1][0]) = (2000, 2000);
            (both[0][k], both[1][k]) = (one, (limit - one).saturating_add(rng.pick(&[0, 0, 1])));
            past[k] += plainly::more(&both[0], &both[1].map(u128::from)).is_err() as usize;
        } else if rng.one_in(20) {
            both[0][0] = rng.pick(&[4097, u64::MAX]);
        }
        let [one, other] = both;
        let (mut left, mut right) = (one, other);
        let answer = merge(&mut left, &other);
        assert_eq!(answer, merge(&mut right, &one));
        assert!(answer.is_err() || left == right);
        seen.note(&answer, |()| "merged");
    }
    println!("one number alone past its limit: {past:?}");
    seen.complete(&["merged"], &[36]);
    if cases(200_000) >= 20_000 {
        assert!(past.iter().all(|n| *n > 0));
    }
}

/// 4,096 products, and one more; and each in a report of its own, merged two by two.
#[test]
fn as_many_as_may_be() {
    let mut rng = Rng(4096);
    let list: Vec<Lent> = (0..4097).map(|_| Lent::of(some_product(&mut rng))).collect();
    let mut whole = NEW;
    assert!(add_all(&mut whole, &list[..4096]).iter().all(|a| a.is_ok()));
    assert_eq!((whole[0], whole[ACCEPTED..].iter().sum()), (4096u64, 4096u64));
    assert_eq!(add(&mut whole, &list[4096]), Err(FULL));
    let alone = |lent: &Lent| {
        let mut one = NEW;
        add(&mut one, lent).unwrap();
        one
    };
    let merged = |pair: &[Report]| {
        let mut one = pair[0];
        merge(&mut one, &pair[1]).unwrap();
        one
    };
    let mut level: Vec<Report> = list[..4096].iter().map(alone).collect();
    while level.len() > 1 {
        level = level.chunks(2).map(merged).collect();
    }
    assert_eq!(level[0], whole);
    let mut one = alone(&list[4096]);
    assert_eq!(merge(&mut whole, &one), Err(FULL));
    assert_eq!(merge(&mut one, &whole), Err(FULL));
    assert_eq!(merge(&mut whole, &NEW), Ok(()));
}

/// A pair about each day's end: the gap from its last millisecond to the next day's first is one, and a day has 1,000 more where it is one of the five.
#[test]
fn every_day() {
    let mut rng = Rng(86_400);
    let shape = Shape { first_version: 2, sphr: None, pointers: 0, others: vec![(8, 20), (8, 20)], sorted: true, rest: 0 };
    let mut p = build(&mut rng, &shape);
    let (stop, start) = (p.starts[1] + 14, p.starts[2] + 8);
    p.bytes[p.starts[1] + 8..][..6].fill(0xff);
    p.bytes[p.starts[2] + 14..][..6].fill(0xff);
    let put = |at: usize, day: u16, milli: u32, bytes: &mut Vec<u8>| {
        bytes[at..at + 2].copy_from_slice(&day.to_be_bytes());
        bytes[at + 2..at + 6].copy_from_slice(&milli.to_be_bytes());
    };
    for day in 0..u16::MAX {
        let last = outside::leap::last_milli(day);
        let (begin, end, next) = ((day, 0), (day, last), (day + 1, 0));
        for (a, b, gap, overlap) in [(begin, next, last as u64 + 1, 0), (next, end, 0, 1), (end, next, 1, 0)] {
            put(stop, a.0, a.1, &mut p.bytes);
            put(start, b.0, b.1, &mut p.bytes);
            let mut report = NEW;
            assert_eq!(add(&mut report, &Lent::of(p.bytes.clone())), Ok(None));
            assert_eq!((report[GAP], report[OVERLAP], report[UNDEFINED_PAIRS]), (gap, overlap, 0), "day {day}");
        }
    }
    // From the first moment to the last: 65,536 days and five seconds.
    put(stop, 0, 0, &mut p.bytes);
    put(start, 65_535, 86_399_999, &mut p.bytes);
    let mut report = NEW;
    add(&mut report, &Lent::of(p.bytes.clone())).unwrap();
    assert_eq!(report[GAP], 65_536 * 86_400_000 - 1 + 5000);
}
