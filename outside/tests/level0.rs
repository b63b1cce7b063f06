//! Request Nine: the profile judge that was written from the papers gives the request's vectors and agrees with the tables of 002 asked of the rows.
//! With the feature, that of the boundary answers the same. Every number of every place that is lent is compared, and one more on each side.
use outside::generate::{hurt, level0_kinds, prefix, product, Rng};
use outside::seen::{cases, listed, Lister, Seen, KEPT};
use outside::values::Refusal;
use outside::{level0, plain, vectors, Row};
use std::collections::BTreeMap;

const OTHERS: &[Lister] = &[
    level0::level0,
    #[cfg(feature = "boundary")]
    outside::boundary::level0,
];

/// One answer of all and one list of rows.
#[track_caller]
fn judged(bytes: &[u8], room: usize) -> (Result<u64, Refusal>, Vec<Row>) {
    listed(bytes, room, level0::plainly, OTHERS)
}

fn all() -> Vec<u64> {
    (1..=18).chain([29]).collect()
}

#[test]
fn request_vectors() {
    let mut seen = Seen::of("level0, the request's vectors");
    for (file, count) in [("requests/nine.jsonl", 153), ("requests/nine_dummy.jsonl", 12)] {
        for case in vectors::listed(file, count) {
            let longest = case.answer.as_ref().map_or(3, |rows| rows.len() + 2);
            let right = case.answer.as_ref().map(|rows| rows.len() as u64).map_err(|r| *r);
            for (room, right) in case.rooms.iter().copied().chain([(longest, right)]) {
                let (answer, rows) = judged(&case.bytes, room);
                assert_eq!(answer, right, "{} room {room}", case.name);
                let due = if answer.is_ok() { &case.answer.as_ref().unwrap()[..] } else { &[] };
                assert_eq!(rows[..due.len()], *due, "{} room {room}", case.name);
                assert!(rows[due.len()..].iter().all(|row| *row == KEPT), "{} room {room}", case.name);
                seen.note(&answer, |_| "accepted");
            }
        }
    }
    seen.complete(&["accepted"], &all());
}

/// Class of the first record against the profile, and the first of group, subclass and version that is against it.
fn why(bytes: &[u8], place: u64) -> (u8, &'static str) {
    let head = &bytes[place as usize..][..4];
    let subclasses = if head[0] == 7 { 0..=0 } else { 0..=4 };
    let what = if head[1] != 0 {
        "group"
    } else if !subclasses.contains(&head[2]) {
        "subclass"
    } else {
        "version"
    };
    (head[0], what)
}

#[test]
fn generated() {
    let mut rng = Rng(9);
    let mut seen = Seen::of("level0");
    let (mut against, mut beside, mut dummies) = (BTreeMap::<(u8, &str), usize>::new(), 0, 0);
    for n in 0..cases(200_000) {
        let mut p = product(&mut rng, 0).0;
        if !rng.one_in(16) {
            level0_kinds(&mut rng, &mut p);
        }
        if rng.one_in(3) {
            hurt(&mut rng, &mut p, 1 + n % 35);
        }
        let len = if rng.one_in(4) { prefix(&mut rng, &p) } else { p.bytes.len() };
        let (bytes, count) = (&p.bytes[..len], p.starts.len());
        for room in [count - 1, count, count + 1 + rng.below(4), 0] {
            let (answer, rows) = judged(bytes, room);
            seen.note(&answer, |_| "accepted");
            let written = answer.unwrap_or(0) as usize;
            assert!(rows[written..].iter().all(|row| *row == KEPT));
            dummies += rows[..written].iter().filter(|row| (row[2], row[3]) == (8, 13)).count();
            let mut general = vec![KEPT; room];
            let verdict = plain::rows(bytes, &mut general);
            match answer {
                // 29 stands after 17 and before 18.
                Err(Refusal { number: 29, place }) => {
                    assert!(matches!(verdict, Ok(_) | Err(Refusal { number: 18, .. })), "{verdict:?}");
                    *against.entry(why(bytes, place)).or_default() += 1;
                    beside += verdict.is_err() as usize;
                }
                _ => assert_eq!((answer, rows), (verdict, general)),
            }
        }
    }
    println!("against the profile by class and what is against it {against:?}, {beside} of them with too few rows lent; {dummies} dummies listed");
    seen.complete(&["accepted"], &all());
    if cases(200_000) >= 20_000 {
        assert!(against.len() == 6 && beside > 0 && dummies > 0);
    }
}

/// Every group, subclass and version that a VIADR or MDR can have, alone in a product.
#[test]
fn every_kind() {
    let mut rng = Rng(99);
    let mut fits = BTreeMap::<u8, usize>::new();
    for class in [7, 8] {
        let shape = outside::generate::Shape { first_version: 2, sphr: None, pointers: 0, others: vec![(class, 20)], sorted: true, rest: 0 };
        let mut p = outside::generate::build(&mut rng, &shape);
        let s = p.starts[1];
        for group in outside::generate::GROUPS {
            for (subclass, version) in (0..=255).flat_map(|a| [0, 1, 2, 3, 128, 255].map(|b| (a, b))) {
                p.bytes[s + 1..s + 4].copy_from_slice(&[group, subclass, version]);
                let (answer, _) = judged(&p.bytes, 2);
                *fits.entry(class).or_default() += answer.is_ok() as usize;
                assert!(matches!(answer, Ok(2) | Err(Refusal { number: 29, place: 3307 })));
            }
        }
    }
    println!("level0, of every kind: {fits:?} fit");
    // VIADR: two versions. MDR: five subclasses, and a dummy of any of 256 subclasses and the 6 versions tried.
    assert_eq!(fits, BTreeMap::from([(7, 2), (8, 5 + 256 * 6)]));
}

/// Records of one size one after the other, some hundreds, with dummies between them, and in turn each of them against the profile, alone and with
/// the last one: the first is named.
#[test]
fn long_runs() {
    let mut rng = Rng(999);
    let others = [vec![(4, 20); 3], vec![(7, 40); 70], vec![(8, 40); 300]].concat();
    let shape = outside::generate::Shape { first_version: 2, sphr: None, pointers: 3, others, sorted: true, rest: 0 };
    let mut p = outside::generate::build(&mut rng, &shape);
    for (k, s) in p.starts.iter().enumerate() {
        match p.bytes[*s] {
            7 => p.bytes[s + 1..s + 4].copy_from_slice(&[0, 0, 1 + (k % 2) as u8]),
            8 => p.bytes[s + 1..s + 4].copy_from_slice(&[if k % 41 == 0 { 13 } else { 0 }, (k % 5) as u8, 1]),
            _ => {}
        }
    }
    outside::generate::name_targets(&mut p);
    let count = p.starts.len();
    assert_eq!(judged(&p.bytes, count).0, Ok(count as u64));
    let mut named = 0;
    for (k, s) in p.starts.iter().enumerate() {
        let spoken = p.bytes[*s] == 7 || (p.bytes[*s] == 8 && p.bytes[s + 1] == 0);
        for with_last in [false, true] {
            let mut bytes = p.bytes.clone();
            bytes[s + 3] = 9;
            if with_last {
                bytes[p.starts[count - 1] + 3] = 9;
            }
            let last = *p.starts.last().unwrap() as u64;
            let right = match (spoken, with_last) {
                (true, _) => Err(Refusal { number: 29, place: *s as u64 }),
                (false, true) => Err(Refusal { number: 29, place: last }),
                (false, false) => Ok(count as u64),
            };
            for room in [count, 0] {
                let right = if room == 0 && right.is_ok() { Err(Refusal { number: 18, place: count as u64 }) } else { right };
                assert_eq!(judged(&bytes, room).0, right, "record {k}");
            }
            named += right.is_err() as usize;
        }
    }
    assert!(named > 700, "{named}");
}
