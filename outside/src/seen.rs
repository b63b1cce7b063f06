//! What a run's answers were, so that no run is empty.
use crate::values::Refusal;
use crate::Row;
use std::collections::BTreeMap;
use std::time::Instant;

/// CASES, or as many as are usual.
pub fn cases(usual: usize) -> usize {
    std::env::var("CASES").ok().and_then(|n| n.parse().ok()).unwrap_or(usual)
}

pub struct Seen {
    function: &'static str,
    from: Instant,
    answers: BTreeMap<&'static str, usize>,
    refusals: BTreeMap<u64, usize>,
}

impl Seen {
    pub fn of(function: &'static str) -> Seen {
        Seen { function, from: Instant::now(), answers: BTreeMap::new(), refusals: BTreeMap::new() }
    }

    /// An answer counts under its name.
    pub fn note<T>(&mut self, answer: &Result<T, Refusal>, name: impl FnOnce(&T) -> &'static str) {
        match answer {
            Ok(value) => *self.answers.entry(name(value)).or_default() += 1,
            Err(refusal) => *self.refusals.entry(refusal.number).or_default() += 1,
        }
    }

    /// Every one of these answers and refusals has come, and no other. A run of few cases need not have them all.
    pub fn complete(self, answers: &[&'static str], refusals: &[u64]) {
        let cases = self.answers.values().sum::<usize>() + self.refusals.values().sum::<usize>();
        let seconds = self.from.elapsed().as_secs_f64();
        println!("{}: {cases} cases in {seconds:.1} s, {:?}, refused {:?}", self.function, self.answers, self.refusals);
        for name in self.answers.keys() {
            assert!(answers.contains(name), "{} answered {name}", self.function);
        }
        for number in self.refusals.keys() {
            assert!(refusals.contains(number), "{} refused {number}", self.function);
        }
        if cases >= 20_000 {
            assert_eq!(self.answers.len(), answers.len(), "{} lacks an answer of {answers:?}", self.function);
            assert_eq!(self.refusals.len(), refusals.len(), "{} lacks a refusal of {refusals:?}", self.function);
        }
    }
}

/// What a place of a list holds before it is lent.
pub const KEPT: Row = [0xdead_beef; 7];

/// One that fills a list of rows that it is lent.
pub type Lister = fn(&[u8], &mut [Row]) -> Result<u64, Refusal>;

/// One answer of all the listers and one list of rows; the places beside those that are lent are kept, and so are the bytes.
#[track_caller]
pub fn listed(bytes: &[u8], room: usize, first: Lister, others: &[Lister]) -> (Result<u64, Refusal>, Vec<Row>) {
    let mut rows = vec![KEPT; room + 2];
    let before = bytes.to_vec();
    let answer = first(bytes, &mut rows[1..=room]);
    for other in others {
        let mut lent = vec![KEPT; room + 2];
        assert_eq!(other(bytes, &mut lent[1..=room]), answer, "at {} room {room}", bytes.len());
        assert_eq!(lent, rows, "at {} room {room}", bytes.len());
    }
    assert_eq!(bytes, before);
    assert_eq!((rows[0], rows[room + 1]), (KEPT, KEPT));
    (answer, rows[1..=room].to_vec())
}
