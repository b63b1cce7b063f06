//! Request Ten: the check of a cut that was written from the papers gives the request's vectors, agrees with the request's sentence put in lists of
//! records, and says yes to whatever the cut of request Three writes. With the feature, that of the boundary answers the same.
use outside::check::check;
use outside::generate::{few_kinds, hurt, product, set_number, Product, Rng};
use outside::join::LIKE_LINES;
use outside::lines::{LINES, MAIN_SIZE, SIZE_LINE, STARTS};
use outside::records::{of_classes, records};
use outside::seen::{cases, Seen};
use outside::values::{Refusal, Time};
use outside::{cut, fast, vectors};

type Answer = Result<Option<u64>, Refusal>;

const RECORDS_LINE: usize = 55;

/// The answer, which is the boundary's too; both products are kept.
fn checked(original: &[u8], cut: &[u8]) -> Answer {
    let answer = check(original, cut);
    #[cfg(feature = "boundary")]
    {
        let before = [original.to_vec(), cut.to_vec()];
        assert_eq!(outside::boundary::check_cut(original, cut), answer);
        assert!(before == [original, cut]);
    }
    answer
}

fn label(answer: &Option<u64>, cut: &[u8]) -> &'static str {
    match answer {
        None => "yes",
        Some(0) => "a field",
        Some(place) if *place == cut.len() as u64 => "the length",
        Some(_) => "a record",
    }
}

const NAMES: [&str; 4] = ["yes", "a field", "the length", "a record"];

#[test]
fn request_vectors() {
    let products = vectors::request_products();
    let mut seen = Seen::of("check, the request's vectors");
    for case in vectors::cases("requests/ten.jsonl", 252) {
        let [original, cut] = ["original", "cut"].map(|key| &products[case.get(key).unwrap().number() as usize][..]);
        let right = case.get("answer").unwrap().list();
        let number = |k: usize| right[k].number() as u64;
        let right = match right[0].text() {
            "yes" => Ok(None),
            "no" => Ok(Some(number(1))),
            "refused" => Err(Refusal { number: number(1), place: number(2) }),
            other => panic!("{other}"),
        };
        assert_eq!(checked(original, cut), right, "{:?}", case.get("name"));
        seen.note(&right, |answer| label(answer, cut));
    }
    seen.complete(&NAMES, &(1..=17).collect::<Vec<_>>());
}

/// A product of these records and no pointers, with the main header's other lines.
fn assemble(main: &[u8], records: &[Vec<u8>]) -> Product {
    let mut p = Product { bytes: main.to_vec(), starts: vec![0], pointers: vec![] };
    let mut totals = [0; 9];
    totals[1] = 1;
    for record in records {
        totals[record[0] as usize] += 1;
        p.starts.push(p.bytes.len());
        p.bytes.extend(record);
    }
    totals[0] = totals[1..].iter().sum();
    let size = p.bytes.len() as u64;
    set_number(&mut p.bytes, SIZE_LINE, size);
    for (class, n) in totals.into_iter().enumerate() {
        set_number(&mut p.bytes, RECORDS_LINE + class, n);
    }
    p
}

/// Whether the places in the list may hold each other's records: those of one class but the SPHR.
fn of_one_class(records: &[Vec<u8>], a: usize, b: usize) -> bool {
    records[a][0] == records[b][0] && records[a][0] != 2
}

/// Something done to the records: a byte of payload, one twice, two exchanged, one left out.
fn stir(rng: &mut Rng, records: &mut Vec<Vec<u8>>) {
    if records.is_empty() {
        return;
    }
    let [a, b] = [(); 2].map(|()| rng.below(records.len()));
    match rng.below(4) {
        0 if records[a].len() > 20 => {
            let at = 20 + rng.below(records[a].len() - 20);
            records[a][at] = records[a][at].wrapping_add(1);
        }
        1 if of_one_class(records, a, b) => {
            let again = records[a].clone();
            records.insert(b, again);
        }
        2 if of_one_class(records, a, b) => records.swap(a, b),
        3 => {
            records.remove(a);
        }
        _ => {}
    }
}

fn owned(bytes: &[u8]) -> Vec<Vec<u8>> {
    records(bytes).into_iter().filter(|r| r.0.class != 3).map(|r| r.1.to_vec()).collect()
}

/// One of the four fields, or another, changed.
fn other_field(rng: &mut Rng, p: &mut Product) {
    let line = rng.pick(&[LIKE_LINES[0], LIKE_LINES[1], LIKE_LINES[2], LIKE_LINES[3], 6, 14]);
    let at = STARTS[line] + 32 + rng.below(LINES[line].1);
    p.bytes[at] = b'A' + rng.below(26) as u8;
}

/// With its pointers.
fn copy_of(p: &Product) -> Product {
    Product { bytes: p.bytes.clone(), starts: p.starts.clone(), pointers: p.pointers.clone() }
}

/// An original, some of whose MDRs stand in it twice, and what may be a cut of it.
fn pair(rng: &mut Rng) -> [Product; 2] {
    let mut p = product(rng, 0).0;
    if rng.one_in(2) {
        few_kinds(rng, &mut p);
    }
    let mut all = owned(&p.bytes);
    for _ in 0..rng.below(4) {
        stir(rng, &mut all);
    }
    let mut original = if rng.one_in(3) { p } else { assemble(&p.bytes[..MAIN_SIZE], &all) };
    let mut kept = owned(&original.bytes);
    let one_in = 1 + rng.below(5);
    kept.retain(|r| r[0] != 8 || !rng.one_in(one_in));
    for _ in 0..rng.pick(&[0, 0, 0, 1, 1, 2]) {
        stir(rng, &mut kept);
    }
    let itself = rng.one_in(5);
    let mut cut = if itself { copy_of(&original) } else { assemble(&original.bytes[..MAIN_SIZE], &kept) };
    if rng.one_in(8) {
        other_field(rng, &mut cut);
    }
    let which = rng.below(8);
    for (k, p) in [&mut original, &mut cut].into_iter().enumerate() {
        if which == k || which == 2 {
            let turn = 1 + rng.below(35);
            hurt(rng, p, turn);
        }
    }
    [original, cut]
}

/// The request's sentence, of two accepted products.
fn is_cut(original: &[u8], cut: &[u8]) -> bool {
    let [a, b] = [original, cut].map(records);
    let both = |from: usize, to: usize| original[from..to] == cut[from..to];
    let mut mdrs = of_classes(&a, 8, 8).into_iter();
    LIKE_LINES.iter().all(|k| both(STARTS[*k], STARTS[k + 1]))
        && of_classes(&a, 2, 2) == of_classes(&b, 2, 2)
        && of_classes(&a, 4, 7) == of_classes(&b, 4, 7)
        && of_classes(&b, 8, 8).into_iter().all(|mdr| mdrs.any(|other| other == mdr))
}

/// The records before the place can be matched, and with that at the place they cannot.
fn check_place(original: &[u8], cut: &[u8], place: usize) {
    let (mut at, all, [a, b]) = (MAIN_SIZE, owned(original), [original, cut].map(records));
    let mut before = vec![];
    for (header, bytes) in &b {
        let here: Vec<&[u8]> = before.iter().copied().chain([*bytes]).collect();
        let is_mdr = |r: &&&[u8]| r[0] == 8;
        let others = here.iter().filter(|r| !is_mdr(r)).zip(all.iter().filter(|r| r[0] != 8));
        let enough = here.iter().filter(|r| !is_mdr(r)).count() <= all.iter().filter(|r| r[0] != 8).count();
        let mut mdrs = of_classes(&a, 8, 8).into_iter();
        let fits = enough && others.into_iter().all(|(x, y)| *x == &y[..]) && here.iter().filter(is_mdr).all(|x| mdrs.any(|y| y == *x));
        if header.class != 3 {
            assert_eq!(fits, at != place, "{at} {place}");
            if at == place {
                return;
            }
            before.push(*bytes);
        }
        at += bytes.len();
    }
    assert_eq!(place, cut.len());
}

/// What request Three writes of it gets a yes.
fn check_three(rng: &mut Rng, original: &[u8], seen: &mut Seen) {
    let mut ends = [(); 2].map(|()| Time { day: rng.below(65_536) as u16, milli: rng.below(86_400_000) as u32 });
    ends.sort_by_key(|t| (t.day, t.milli));
    let mut room = vec![0; original.len() + 27 * original.len() / 20];
    let written = cut::cut(original, Some(ends[0]), Some(ends[1]), &mut room).unwrap();
    let answer = checked(original, &room[..written]);
    assert_eq!(answer, Ok(None));
    seen.note(&answer, |_| "yes");
}

#[test]
fn generated() {
    let mut rng = Rng(10);
    let mut seen = Seen::of("check, both accepted");
    let mut of_original = Seen::of("check, the original refused");
    let mut of_cut = Seen::of("check, the cut refused");
    let mut threes = Seen::of("check of what Three writes");
    for _ in 0..cases(200_000) {
        let both = pair(&mut rng);
        let [original, cut] = [&both[0].bytes[..], &both[1].bytes[..]];
        let answer = checked(original, cut);
        match (fast::verdict(original), fast::verdict(cut)) {
            (Err(refusal), _) => {
                assert_eq!(answer, Err(refusal));
                of_original.note(&answer, |_| "");
            }
            (_, Err(refusal)) => {
                assert_eq!(answer, Err(refusal));
                of_cut.note(&answer, |_| "");
            }
            _ => {
                assert_eq!(answer == Ok(None), is_cut(original, cut));
                if let Ok(Some(place @ 1..)) = answer {
                    check_place(original, cut, place as usize);
                }
                seen.note(&answer, |answer| label(answer, cut));
                check_three(&mut rng, original, &mut threes);
            }
        }
    }
    let own: Vec<u64> = (1..=17).collect();
    of_original.complete(&[], &own);
    of_cut.complete(&[], &own);
    seen.complete(&NAMES, &[]);
    threes.complete(&["yes"], &[]);
}
