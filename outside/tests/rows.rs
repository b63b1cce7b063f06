//! The rows of request Six: plain with fast, and with the feature the proved judge, on generated products of few kinds and with the request's
//! vectors; the answer, and every number of every place that is lent and of one on each side.
use outside::generate::{build, damage, few_kinds, prefix, shape, Rng};
use outside::json::Json;
use outside::seen::{cases, listed, Lister, Seen, KEPT};
use outside::values::Refusal;
use outside::{fast, plain, vectors, Row};

const OTHERS: &[Lister] = &[
    fast::rows,
    #[cfg(feature = "boundary")]
    outside::boundary::rows,
];

/// One answer and one list of rows, the places beside those that are lent with them.
#[track_caller]
fn judged(bytes: &[u8], room: usize) -> (Result<u64, Refusal>, Vec<Row>) {
    listed(bytes, room, plain::rows, OTHERS)
}

#[test]
fn generated() {
    let mut rng = Rng(6);
    let mut seen = Seen::of("rows");
    let (mut most, mut kept, mut same_class) = (0, 0, 0);
    for n in 0..cases(200_000) {
        let mut p = build(&mut rng, &shape(&mut Rng(n as u64)));
        few_kinds(&mut rng, &mut p);
        if rng.one_in(3) {
            let k = rng.below(p.starts.len());
            damage(&mut rng, &mut p, 1 + n % 16, k);
        }
        let whole = rng.one_in(2);
        let bytes = if whole { &p.bytes[..] } else { &p.bytes[..prefix(&mut rng, &p)] };
        let count = p.starts.len();
        for room in [count - 1, count, count + 1 + rng.below(4), 0] {
            let (answer, rows) = judged(bytes, room);
            seen.note(&answer, |_| "accepted");
            let written = answer.unwrap_or(0) as usize;
            assert!(rows[written..].iter().all(|row| *row == KEPT));
            kept += (written > 0 && written < room) as u32;
            for row in &rows[..written] {
                most = most.max(row[6]);
                // an ordinal that a count by class alone would not give
                same_class += (rows[..written].iter().filter(|r| r[0] < row[0] && r[2] == row[2]).count() > row[6] as usize) as u32;
            }
        }
    }
    println!("ordinals up to {most}, rows kept past the count {kept}, ordinals below those of a class {same_class}");
    if cases(200_000) >= 20_000 {
        let refusals: Vec<u64> = (1..=18).collect();
        seen.complete(&["accepted"], &refusals);
        assert!(most > 10 && kept > 0 && same_class > 0);
    }
}

fn said(answer: &[Json]) -> Result<u64, Refusal> {
    match answer[0].text() {
        "rows" => Ok(answer[1].number() as u64),
        "refused" => Err(Refusal { number: answer[1].number() as u64, place: answer[2].number() as u64 }),
        other => panic!("{other}"),
    }
}

#[test]
fn every_vector() {
    let products = vectors::request_products();
    let mut answers = 0;
    for case in vectors::cases("requests/six.jsonl", 136) {
        let name = case.get("name").unwrap().to_string();
        let bytes = &products[case.get("product").unwrap().number() as usize];
        let answer = case.get("answer").unwrap().list();
        let due: Vec<Row> = match answer[0].text() {
            "rows" => {
                let number = |x: &Json| x.number() as u32;
                answer[1].list().iter().map(|row| row.list().iter().map(number).collect::<Vec<_>>().try_into().unwrap()).collect()
            }
            _ => Vec::new(),
        };
        for room in case.get("rooms").unwrap().list() {
            let (lent, right) = (room.list()[0].number() as usize, said(room.list()[1].list()));
            let (answer, rows) = judged(bytes, lent);
            assert_eq!(answer, right, "{name} room {lent}");
            let written = if answer.is_ok() { due.len() } else { 0 };
            assert_eq!(rows[..written], due[..written], "{name} room {lent}");
            assert!(rows[written..].iter().all(|row| *row == KEPT), "{name} room {lent}");
            answers += 1;
        }
    }
    println!("six: {answers} answers");
}
