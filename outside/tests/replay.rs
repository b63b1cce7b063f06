//! Request Thirteen: the replay and the writer of records that were written from the papers give the request's vectors and agree with what is right after
//! each part, on records as they were made and on what is done to them. With the feature, those of the boundary answer the same. Every byte of the
//! room is compared, and what is read is kept.
use outside::generate::{part, product_to_watch, Rng};
use outside::json::Json;
use outside::replay::{plainly, record_arrival, record_size, replay};
use outside::seen::{cases, Seen};
use outside::values::Refusal;
use outside::vectors;
use std::collections::{BTreeMap, HashMap};

type Replayed = Result<Option<u64>, Refusal>;

const KEPT: u8 = 0xa5;

/// A product, and what is right after so many of its bytes, where that has been asked.
struct Fed {
    bytes: Vec<u8>,
    known: HashMap<usize, [u32; 3]>,
}

impl Fed {
    fn of(bytes: Vec<u8>) -> Fed {
        Fed { bytes, known: HashMap::new() }
    }

    /// The answer of all.
    #[track_caller]
    fn replay(&mut self, record: &[u8]) -> Replayed {
        let Fed { bytes, known } = self;
        let right = plainly::replay(record, bytes.len(), |at| *known.entry(at).or_insert_with(|| plainly::right(bytes, at)));
        let before = (record.to_vec(), bytes.clone());
        assert_eq!(replay(record, bytes), right);
        #[cfg(feature = "boundary")]
        assert_eq!(outside::boundary::replay(record, bytes), right, "wl_replay");
        assert!((record, &bytes[..]) == (&before.0, &before.1));
        right
    }

    /// The answer of all in a room of so many bytes, with bytes on both sides, and what stands in it.
    #[track_caller]
    fn record(&mut self, lengths: &[u32], room: usize) -> (Result<usize, Refusal>, Vec<u8>) {
        let Fed { bytes, known } = self;
        let whole = plainly::record(lengths, bytes.len(), |at| *known.entry(at).or_insert_with(|| plainly::right(bytes, at)));
        let right = whole.as_ref().map(|r| r.len()).map_err(|r| *r);
        let right = right.and_then(|size| if size <= room { Ok(size) } else { Err(Refusal { number: 18, place: size as u64 }) });
        let mut lent = vec![KEPT; room + 16];
        if let (Ok(size), Ok(record)) = (right, &whole) {
            lent[8..8 + size].copy_from_slice(record);
        }
        let mut others: Vec<fn(&[u32], &[u8], &mut [u8]) -> Result<usize, Refusal>> = vec![record_arrival];
        #[cfg(feature = "boundary")]
        others.push(outside::boundary::record_arrival_into);
        let before = (lengths.to_vec(), bytes.clone());
        for other in others.drain(..) {
            let mut ours = vec![KEPT; room + 16];
            assert_eq!(other(lengths, bytes, &mut ours[8..8 + room]), right);
            assert!(ours == lent);
        }
        assert!((lengths, &bytes[..]) == (&before.0, &before.1));
        #[cfg(feature = "boundary")]
        assert!(outside::boundary::record_arrival(lengths, bytes) == whole);
        (right, lent[8..8 + room].to_vec())
    }
}

fn label(answer: &Option<u64>) -> &'static str {
    match answer {
        None => "none",
        Some(0) => "the first part",
        Some(_) => "a later part",
    }
}

const LABELS: [&str; 3] = ["none", "the first part", "a later part"];
const REFUSALS: [u64; 3] = [37, 38, 39];

fn refusal(answer: &[Json]) -> Refusal {
    Refusal { number: answer[1].unsigned(), place: answer[2].unsigned() }
}

#[test]
fn request_vectors() {
    let products = vectors::request_products();
    let (mut replays, mut records) = (Seen::of("replay, the request's vectors"), Seen::of("record, the request's vectors"));
    for case in vectors::cases("requests/thirteen.jsonl", 331) {
        let name = case.get("name").unwrap().to_string();
        let mut fed = Fed::of(products[case.get("product").unwrap().number() as usize].clone());
        let answer = case.get("answer").unwrap().list();
        if case.get("op").unwrap().text() == "replay" {
            let right = match answer[0].text() {
                "none" => Ok(None),
                "part" => Ok(Some(answer[1].unsigned())),
                _ => Err(refusal(answer)),
            };
            assert_eq!(fed.replay(&case.get("record").unwrap().hex()), right, "{name}");
            replays.note(&right, label);
            continue;
        }
        let lengths: Vec<u32> = case.get("lengths").unwrap().list().iter().map(|l| l.unsigned() as u32).collect();
        let right = if answer[0].text() == "record" { Ok(answer[1].hex()) } else { Err(refusal(answer)) };
        let longer = record_size(lengths.len()) + 7;
        let (written, lent) = fed.record(&lengths, longer);
        assert_eq!(written.map(|size| lent[..size].to_vec()), right, "{name}");
        for room in case.get("rooms").unwrap().list() {
            let (room, said) = (room.list()[0].number() as usize, room.list()[1].list());
            let due = if said[0].text() == "record" { Ok(said[1].number() as usize) } else { Err(refusal(said)) };
            let (written, lent) = fed.record(&lengths, room);
            assert_eq!(written, due, "{name} room {room}");
            let size = written.unwrap_or(0);
            assert!(size == 0 || lent[..size] == right.as_ref().unwrap()[..], "{name} room {room}");
            assert!(lent[size..].iter().all(|b| *b == KEPT), "{name} room {room}");
            records.note(&written, |_| "written");
        }
        if let Ok(record) = &right {
            assert_eq!(fed.replay(record), Ok(None), "{name}");
        }
    }
    replays.complete(&LABELS, &REFUSALS);
    records.complete(&["written"], &[18, 39]);
}

/// A product cut into few parts, some of no bytes.
fn cut(rng: &mut Rng, n: usize) -> (Fed, Vec<u32>) {
    let (p, _) = product_to_watch(rng, n);
    let (mut at, mut lengths, most) = (0, vec![], rng.below(9));
    while lengths.len() < most && at < p.bytes.len() {
        let next = part(rng, &p, at);
        lengths.push(next as u32);
        at += next;
    }
    if at < p.bytes.len() || rng.one_in(4) {
        lengths.push((p.bytes.len() - at) as u32);
    }
    (Fed::of(p.bytes), lengths)
}

/// A record as its two lists.
#[derive(Clone)]
struct Lists {
    lengths: Vec<u32>,
    answers: Vec<[u32; 3]>,
}

impl Lists {
    /// Of a record that was made of so many lengths.
    fn of(record: &[u8], lengths: &[u32]) -> Lists {
        let answers = record[8 + 4 * lengths.len()..].chunks(12);
        let answer = |a: &[u8]| [0, 4, 8].map(|k| u32::from_be_bytes(a[k..k + 4].try_into().unwrap()));
        Lists { lengths: lengths.to_vec(), answers: answers.map(answer).collect() }
    }

    fn record(&self) -> Vec<u8> {
        let (lengths, answers) = (&self.lengths, &self.answers);
        let words = [lengths.len() as u32].into_iter().chain(lengths.iter().copied()).chain([answers.len() as u32]);
        words.chain(answers.iter().flatten().copied()).flat_map(u32::to_be_bytes).collect()
    }
}

/// What may be done to a record.
const DONE: [&str; 12] = [
    "an answer changed",
    "a length changed",
    "a byte moved",
    "a part split",
    "lengths exchanged",
    "answers exchanged",
    "parts exchanged",
    "bytes cut or added",
    "a count changed",
    "one list shorter",
    "a part left out",
    "words at random",
];

fn done(rng: &mut Rng, what: usize, record: &[u8], lengths: &[u32]) -> Vec<u8> {
    let (n, mut lists, mut bytes) = (lengths.len(), Lists::of(record, lengths), record.to_vec());
    let flips = [1, 1 << rng.below(32), rng.next() as u32 | 1];
    let flip = rng.pick(&flips);
    let (a, b) = if n > 0 { (rng.below(n), rng.below(n)) } else { (0, 0) };
    match what {
        // One number of one answer.
        0 if n > 0 => lists.answers[a][rng.below(3)] ^= flip,
        1 if n > 0 => lists.lengths[a] ^= flip,
        // Lengths that still sum to the product's, or wrap round to it.
        2 if n > 0 => {
            let one = rng.pick(&[1, 1, 20, 1 << 31]);
            lists.lengths[a] = lists.lengths[a].wrapping_add(one);
            lists.lengths[b] = lists.lengths[b].wrapping_sub(one);
        }
        // With the answer after the whole for both, which is right for the second.
        3 if n > 0 => {
            let first = rng.below(lists.lengths[a] as usize + 1) as u32;
            lists.lengths[a] -= first;
            lists.lengths.insert(a, first);
            let answer = lists.answers[if rng.one_in(3) && a > 0 { a - 1 } else { a }];
            lists.answers.insert(a, answer);
        }
        4 if n > 0 => lists.lengths.swap(a, b),
        5 if n > 0 => lists.answers.swap(a, b),
        6 if n > 0 => {
            lists.lengths.swap(a, b);
            lists.answers.swap(a, b);
        }
        7 => {
            let at = rng.below(bytes.len() + 1);
            match rng.below(4) {
                0 => bytes.truncate(at),
                1 => bytes.truncate(bytes.len().saturating_sub(rng.pick(&[1, 3, 4, 8, 12, 16]))),
                _ => bytes.extend((0..rng.pick(&[1, 2, 4, 12, 16])).map(|_| 0)),
            }
            return bytes;
        }
        8 => {
            let at = rng.pick(&[0, 4 + 4 * n]);
            let near = [n as u32 + 1, (n as u32).wrapping_sub(1), u32::MAX, 0x4000_0000, 0x8000_0000, 0x5555_5556, n as u32 + 3, n as u32 * 4 + 1];
            bytes[at..at + 4].copy_from_slice(&rng.pick(&near).to_be_bytes());
            return bytes;
        }
        9 if n > 0 && rng.one_in(2) => drop(lists.lengths.remove(a)),
        9 if n > 0 => drop(lists.answers.remove(a)),
        10 if n > 0 => {
            lists.lengths.remove(a);
            lists.answers.remove(a);
        }
        11 => {
            for _ in 0..1 + rng.below(3) {
                let at = 4 * rng.below(bytes.len() / 4);
                let word = rng.pick(&[0, 1, 2, 3307, 24, flip]);
                bytes[at..at + 4].copy_from_slice(&word.to_be_bytes());
            }
            return bytes;
        }
        _ => {}
    }
    lists.record()
}

#[test]
fn generated() {
    let mut rng = Rng(13);
    let (mut records, mut same, mut others) = (Seen::of("record"), Seen::of("replay of records"), Seen::of("replay of what was done to them"));
    let mut by_what = BTreeMap::<(&str, String), usize>::new();
    for n in 0..cases(200_000) {
        let (mut fed, lengths) = cut(&mut rng, n);
        let size = record_size(lengths.len());
        let room = rng.pick(&[0, size - 1, size, size + 1, size + 40]);
        records.note(&fed.record(&lengths, room).0, |_| "written");
        let (written, record) = fed.record(&lengths, size);
        assert_eq!(written, Ok(size));
        // Replaying what was recorded always gives none.
        let answer = fed.replay(&record);
        assert_eq!(answer, Ok(None));
        same.note(&answer, label);
        for what in [n % 12, rng.below(12), 0] {
            let other = done(&mut rng, what, &record, &lengths);
            let answer = fed.replay(&other);
            if what == 0 && !lengths.is_empty() {
                let changed = (record.iter().zip(&other).position(|(a, b)| a != b).unwrap() - 8 - 4 * lengths.len()) / 12;
                assert_eq!(answer, Ok(Some(changed as u64)));
            }
            let name = answer.map_or_else(|r| r.to_string(), |part| label(&part).into());
            *by_what.entry((DONE[what], name)).or_default() += 1;
            others.note(&answer, label);
        }
        // Lengths that do not sum to the product's, and a product that is not the record's.
        if !lengths.is_empty() {
            let mut wrong = lengths.clone();
            let k = rng.below(wrong.len());
            wrong[k] = wrong[k].wrapping_add(rng.pick(&[1, u32::MAX, 1 << 31, 4096]));
            records.note(&fed.record(&wrong, room).0, |_| "written");
            let mut changed = Fed::of(fed.bytes.clone());
            let at = rng.below(changed.bytes.len().max(1));
            match rng.below(3) {
                _ if changed.bytes.is_empty() => {}
                0 => drop(changed.bytes.remove(at)),
                _ => changed.bytes[at] ^= 1 << rng.below(8),
            }
            let answer = changed.replay(&record);
            let name = answer.map_or_else(|r| r.to_string(), |part| label(&part).into());
            *by_what.entry(("another product", name)).or_default() += 1;
            others.note(&answer, label);
        }
    }
    println!("what was done, and the answers: {by_what:?}");
    records.complete(&["written"], &[18, 39]);
    same.complete(&["none"], &[]);
    others.complete(&LABELS, &REFUSALS);
}

/// Short records of few small words, most of them with counts that fit, of products that show little or nothing.
#[test]
fn short_records() {
    let mut rng = Rng(37);
    let mut seen = Seen::of("replay of short records");
    for _ in 0..cases(200_000) {
        let n = rng.below(4);
        let m = if rng.one_in(6) { rng.below(4) } else { n };
        let mut lists = Lists { lengths: (0..n).map(|_| rng.pick(&[0, 1, 2, 19, 20])).collect(), answers: vec![[0; 3]; m] };
        let sum = lists.lengths.iter().sum::<u32>() as usize;
        let len = if rng.one_in(6) { rng.pick(&[0, 1, 20]) } else { sum };
        // 1 is shown by 20 bytes.
        for k in 0..m {
            let shown = lists.lengths.iter().take(k + 1).sum::<u32>() >= 20;
            lists.answers[k] = [(shown != rng.one_in(8)) as u32, 0, 0];
        }
        let mut record = lists.record();
        if rng.one_in(3) {
            record.truncate(rng.below(record.len() + 1));
        } else if rng.one_in(3) {
            let at = 4 * rng.below(record.len() / 4);
            record[at..at + 4].copy_from_slice(&rng.pick(&[0, 1, 2, 3, u32::MAX]).to_be_bytes());
        }
        let answer = Fed::of(vec![9; len]).replay(&record);
        seen.note(&answer, label);
    }
    seen.complete(&LABELS, &REFUSALS);
}
