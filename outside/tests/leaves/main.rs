//! Every function of the boundary but the judges, against the plain ones: the whole answer, and every byte that is lent.
//! A function is tried through its wrapper, and raw with odd flags and with parts that must not be looked at.
#![cfg(feature = "boundary")]
mod headers;
mod lines;
mod listing;
mod queries;
mod scaled;
mod times;

use outside::generate::Rng;
use outside::values::Refusal;
use std::fmt::Debug;

/// Cases of each function, unless CASES says otherwise.
const CASES: usize = 200_000;

type Written = Result<usize, Refusal>;
type Writer<'a> = &'a dyn Fn(&mut [u8]) -> Written;

fn noise(rng: &mut Rng, len: usize) -> Vec<u8> {
    (0..len).map(|_| rng.next() as u8).collect()
}

/// 0, or one of the other values that say yes.
fn flag(rng: &mut Rng) -> u8 {
    rng.pick(&[0, 0, 1, 1, 1, 1, 1, 2, 128, 255])
}

/// How much to lend where so many bytes are needed.
fn length(rng: &mut Rng, need: usize) -> usize {
    match rng.below(16) {
        0 => 0,
        1 | 2 => need.saturating_sub(1),
        3 | 4 => need + 3,
        5 => rng.below(need + 1),
        6..=9 => need + 1 + rng.below(40),
        _ => need,
    }
}

fn offset(rng: &mut Rng, len: usize, need: usize) -> usize {
    let last = len.saturating_sub(need);
    match rng.below(32) {
        0 => last + 1,
        1 => last.saturating_sub(1),
        2 => len,
        3 => len + 1,
        4 => usize::MAX,
        5 => usize::MAX - rng.below(need + 3),
        6 => 0usize.wrapping_sub(need),
        7 => rng.below(len + 2),
        8..=15 => 0,
        _ => last,
    }
}

/// Bytes to lend and an offset, the item standing there as far as it goes.
fn lent(rng: &mut Rng, item: &[u8]) -> (Vec<u8>, usize) {
    let len = length(rng, item.len());
    let at = offset(rng, len, item.len());
    let mut bytes = noise(rng, len);
    for (byte, of_item) in bytes.iter_mut().skip(at).zip(item) {
        *byte = *of_item;
    }
    (bytes, at)
}

/// A reader's answer is ours, and what it was lent is as it was.
#[track_caller]
fn same_read<T: PartialEq + Debug>(bytes: &[u8], ours: &T, theirs: impl Fn(&[u8]) -> T, case: impl Debug) {
    let lent = bytes.to_vec();
    assert_eq!(theirs(&lent), *ours, "{case:?} of {bytes:02x?}");
    assert_eq!(lent, bytes, "{case:?}");
}

/// Bytes on each side of a lent room, to be kept.
const MARGIN: usize = 8;

/// Lends the same room to ours and to theirs: one answer, the same bytes, and kept what is not written.
#[track_caller]
fn same_written(rng: &mut Rng, len: usize, ours: Writer, theirs: &[Writer], case: &dyn Debug) -> Written {
    let before = noise(rng, len + 2 * MARGIN);
    let lent = MARGIN..MARGIN + len;
    let mut expected = before.clone();
    let answer = ours(&mut expected[lent.clone()]);
    let kept = MARGIN + answer.unwrap_or(0);
    assert_eq!(expected[kept..], before[kept..], "{case:?}");
    for their in theirs {
        let mut bytes = before.clone();
        assert_eq!(their(&mut bytes[lent.clone()]), answer, "room of {len}, {case:?}");
        assert_eq!(bytes, expected, "room of {len}, {case:?}");
    }
    answer
}
