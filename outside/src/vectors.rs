//! The repository's vectors, unpacked: VECTORS names their folder (tools/outside unpacks them to target/vectors).
use crate::json::Json;
use crate::values::Refusal;
use crate::{Arrival, Finished, Row};
use std::path::PathBuf;

pub fn file(name: &str) -> PathBuf {
    let folder = std::env::var("VECTORS").unwrap_or(concat!(env!("CARGO_MANIFEST_DIR"), "/../target/vectors").into());
    PathBuf::from(folder).join(name)
}

/// The cases of a file, and how many there must be.
pub fn cases(name: &str, count: usize) -> Vec<Json> {
    let text = std::fs::read_to_string(file(name)).unwrap();
    let all: Vec<Json> = text.lines().map(Json::parse).collect();
    assert_eq!(all.len(), count, "{name}");
    all
}

/// The products of the judge's vectors.
pub fn products() -> Vec<Vec<u8>> {
    packed("judge/products.bin")
}

/// What the vectors of the requests speak of, by its numbers.
pub fn request_products() -> Vec<Vec<u8>> {
    packed("requests/products.bin")
}

/// Granules and what they are joined to, by the numbers of the vectors of a pass.
pub fn pass_products() -> Vec<Vec<u8>> {
    packed("pass/products.bin")
}

/// A product of request Two, and what the judges say of it.
pub struct Judged {
    pub name: String,
    pub bytes: Vec<u8>,
    pub finished: Finished,
    /// Each length at which the arrival judge's answer changes.
    changes: Vec<(usize, Arrival)>,
}

impl Judged {
    /// What is right for the first so many bytes.
    pub fn arrival(&self, len: usize) -> Arrival {
        self.changes.iter().rev().find(|change| change.0 <= len).expect("an answer at 0").1
    }
}

pub fn two() -> Vec<Judged> {
    let products = request_products();
    let mut all = Vec::new();
    for case in cases("requests/two.jsonl", 513) {
        let Some(n) = case.get("product") else {
            continue;
        };
        let changes = case.get("at").unwrap().list().iter().map(|at| (at.list()[0].number() as usize, arrival(&at.list()[1..])));
        all.push(Judged {
            name: case.get("name").unwrap().to_string(),
            bytes: products[n.number() as usize].clone(),
            finished: finished(case.get("finished").unwrap().list()),
            changes: changes.collect(),
        });
    }
    assert_eq!(all.len(), 111);
    all
}

fn arrival(answer: &[Json]) -> Arrival {
    let [a, b] = [1, 2].map(|k: usize| answer[k].number() as u64);
    match answer[0].text() {
        "refused" => Arrival::Refused { number: a, place: b },
        "waiting" => Arrival::Waiting { count: a, end: b },
        other => panic!("{other}"),
    }
}

fn finished(answer: &[Json]) -> Finished {
    match answer[0].text() {
        "refused" => Finished::Refused { number: answer[1].number() as u64, place: answer[2].number() as u64 },
        "accepted" => Finished::Accepted { count: answer[1].number() as u64 },
        other => panic!("{other}"),
    }
}

/// A case of request Six or Nine: a product, its rows (none where it is refused), and rooms for them with the count or the refusal.
pub struct Listed {
    pub name: String,
    pub bytes: Vec<u8>,
    pub answer: Result<Vec<Row>, Refusal>,
    pub rooms: Vec<(usize, Result<u64, Refusal>)>,
}

pub fn listed(name: &str, count: usize) -> Vec<Listed> {
    let products = request_products();
    let case = |case: &Json| Listed {
        name: case.get("name").unwrap().to_string(),
        bytes: products[case.get("product").unwrap().number() as usize].clone(),
        answer: rows_or(case.get("answer").unwrap(), |rows| rows.list().iter().map(row).collect()),
        rooms: case.get("rooms").unwrap().list().iter().map(room).collect(),
    };
    cases(name, count).iter().map(case).collect()
}

fn rows_or<T>(answer: &Json, rows: impl FnOnce(&Json) -> T) -> Result<T, Refusal> {
    match (answer.list()[0].text(), &answer.list()[1..]) {
        ("rows", [value]) => Ok(rows(value)),
        ("refused", [number, place]) => Err(Refusal { number: number.number() as u64, place: place.number() as u64 }),
        other => panic!("{other:?}"),
    }
}

fn row(row: &Json) -> Row {
    row.list().iter().map(|n| n.number() as u32).collect::<Vec<_>>().try_into().unwrap()
}

fn room(room: &Json) -> (usize, Result<u64, Refusal>) {
    (room.list()[0].number() as usize, rows_or(&room.list()[1], |count| count.number() as u64))
}

/// Pieces of bytes, each so many times.
pub fn pieces(value: &Json) -> Vec<u8> {
    value.list().iter().flat_map(|p| p.list()[0].hex().repeat(p.list()[1].number() as usize)).collect()
}

/// What a writer answers: the bytes written, or its refusal.
pub fn written(value: &Json) -> Result<usize, Refusal> {
    match (value.list()[0].text(), &value.list()[1..]) {
        ("written", [bytes]) => Ok(bytes.number() as usize),
        ("refused", [number, place]) => Err(Refusal { number: number.number() as u64, place: place.number() as u64 }),
        other => panic!("{other:?}"),
    }
}

/// Each with its length before it.
fn packed(name: &str) -> Vec<Vec<u8>> {
    let all = std::fs::read(file(name)).unwrap();
    let (mut rest, mut products) = (&all[..], Vec::new());
    while let Some((length, after)) = rest.split_first_chunk::<4>() {
        let (bytes, next) = after.split_at(u32::from_be_bytes(*length) as usize);
        products.push(bytes.to_vec());
        rest = next;
    }
    products
}
