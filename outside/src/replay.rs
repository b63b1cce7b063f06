//! Request Thirteen: the record of an arrival, and its replay, over `watch` and for speed; and `plainly`, a word at a time over `plain::watched`.
//!
//! A record: the number of parts, the length of each; the number of answers, each as number, place and count. All have four bytes.
use crate::values::Refusal;
use crate::watch::Watch;
use crate::{plain, Arrival};

fn refused<T>(number: u64) -> Result<T, Refusal> {
    Err(Refusal { number, place: 0 })
}

/// The bytes that a record of so many parts has.
pub fn record_size(parts: usize) -> usize {
    8 + 16 * parts
}

/// An answer as a record has it.
#[inline(always)]
fn answer(said: Arrival) -> [u32; 3] {
    match said {
        Arrival::Waiting { count, end } => [0, end as u32, count as u32],
        Arrival::Refused { number, place } => [number as u32, place as u32, 0],
    }
}

/// A section: its count, as many items of N bytes, and what is left.
fn section<const N: usize>(bytes: &[u8]) -> Option<(&[[u8; N]], &[u8])> {
    let (count, rest) = bytes.split_first_chunk::<4>()?;
    let size = (u32::from_be_bytes(*count) as usize).checked_mul(N)?;
    let (items, rest) = rest.split_at_checked(size)?;
    Some((items.as_chunks().0, rest))
}

/// Lengths and answers of a record that is neither short nor long.
fn sections(record: &[u8]) -> Option<(&[[u8; 4]], &[[u8; 12]])> {
    let (lengths, rest) = section(record)?;
    let (answers, rest) = section(rest)?;
    rest.is_empty().then_some((lengths, answers))
}

/// The first part whose answer is not as the record has it, counted from 0.
pub fn replay(record: &[u8], product: &[u8]) -> Result<Option<u64>, Refusal> {
    let Some((lengths, answers)) = sections(record) else {
        return refused(37);
    };
    if lengths.len() != answers.len() {
        return refused(38);
    }
    if lengths.iter().map(|l| u32::from_be_bytes(*l) as u64).sum::<u64>() != product.len() as u64 {
        return refused(39);
    }
    let (mut watch, mut rest) = (Watch::new(), product);
    for (k, (length, recorded)) in lengths.iter().zip(answers).enumerate() {
        let (part, after) = rest.split_at(u32::from_be_bytes(*length) as usize);
        if answer(watch.feed(part)).map(u32::to_be_bytes).as_flattened() != recorded {
            return Ok(Some(k as u64));
        }
        rest = after;
    }
    Ok(None)
}

/// The record of a product that comes in parts of these lengths, at the start of the room, as so many bytes.
pub fn record_arrival(lengths: &[u32], product: &[u8], room: &mut [u8]) -> Result<usize, Refusal> {
    if lengths.iter().map(|l| *l as u64).sum::<u64>() != product.len() as u64 {
        return refused(39);
    }
    let size = record_size(lengths.len());
    let Some(room) = room.get_mut(..size) else {
        return Err(Refusal { number: 18, place: size as u64 });
    };
    let parts = (lengths.len() as u32).to_be_bytes();
    let (first, second) = room.split_at_mut(4 + 4 * lengths.len());
    first[..4].copy_from_slice(&parts);
    second[..4].copy_from_slice(&parts);
    let places = first[4..].as_chunks_mut::<4>().0.iter_mut().zip(second[4..].as_chunks_mut::<12>().0);
    let (mut watch, mut rest) = (Watch::new(), product);
    for (length, (written, answered)) in lengths.iter().zip(places) {
        let (part, after) = rest.split_at(*length as usize);
        *written = length.to_be_bytes();
        answered.copy_from_slice(answer(watch.feed(part)).map(u32::to_be_bytes).as_flattened());
        rest = after;
    }
    Ok(size)
}

/// The same a word at a time.
pub mod plainly {
    use super::*;

    /// What is right after so many bytes.
    pub fn right(product: &[u8], at: usize) -> [u32; 3] {
        match plain::watched(&product[..at]) {
            Arrival::Refused { number, place } => [number, place, 0].map(|n| u32::try_from(n).unwrap()),
            Arrival::Waiting { count, end } => [0, end, count].map(|n| u32::try_from(n).unwrap()),
        }
    }

    /// The replay of a product of so many bytes by what is right after each part.
    pub fn replay(record: &[u8], len: usize, mut right: impl FnMut(usize) -> [u32; 3]) -> Result<Option<u64>, Refusal> {
        let words: Vec<u64> = record.chunks_exact(4).map(|word| word.iter().fold(0, |n, b| n * 256 + *b as u64)).collect();
        let whole = record.len() % 4 == 0;
        let n = words.first().copied().filter(|_| whole);
        let m = n.and_then(|n| words.get(1 + n as usize)).copied();
        let (Some(n), Some(m)) = (n, m) else {
            return refused(37);
        };
        if record.len() as u64 != 8 + 4 * n + 12 * m {
            return refused(37);
        }
        if n != m {
            return refused(38);
        }
        let lengths = &words[1..1 + n as usize];
        if lengths.iter().sum::<u64>() != len as u64 {
            return refused(39);
        }
        let mut at = 0;
        for k in 0..n as usize {
            at += lengths[k] as usize;
            let recorded = &words[2 + n as usize + 3 * k..][..3];
            if right(at).map(u64::from) != recorded {
                return Ok(Some(k as u64));
            }
        }
        Ok(None)
    }

    /// The record of a product, or 39.
    pub fn record(lengths: &[u32], len: usize, mut right: impl FnMut(usize) -> [u32; 3]) -> Result<Vec<u8>, Refusal> {
        let next = |at: &mut u64, length: &u32| {
            *at += *length as u64;
            Some(*at)
        };
        let ends: Vec<u64> = lengths.iter().scan(0, next).collect();
        if ends.last().copied().unwrap_or(0) != len as u64 {
            return refused(39);
        }
        let n = lengths.len() as u32;
        let answers = ends.iter().flat_map(|at| right(*at as usize));
        let words = [n].into_iter().chain(lengths.iter().copied()).chain([n]).chain(answers);
        Ok(words.flat_map(u32::to_be_bytes).collect())
    }
}
