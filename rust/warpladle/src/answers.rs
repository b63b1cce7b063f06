//! Answers of the library as values. The library's promises fix their form, so what is unpacked here cannot be of another.
use crate::{Fault, Refused, Result, Time};

/// Asks a function for its numbers: the values, or the refusal.
///
/// SAFETY, of every call in this crate: the functions are total, so they ask nothing of the numbers. Each pointer stands with the length of its own
/// slice; what is written is borrowed as `&mut`, so it overlaps with nothing else that is lent; an answer has the places that the header states.
pub(crate) fn ask<const N: usize>(call: impl FnOnce(*mut [u64; N])) -> Result<[u64; N]> {
    let mut answer = [0; N];
    call(&mut answer);
    match answer[0] {
        0 => Ok(answer),
        number => Err(Refused { fault: Fault::of(number).expect("a refusal has a known number"), place: answer[1] }),
    }
}

/// A time that may be undefined, as a flag and its two numbers.
pub(crate) fn flat(time: Option<Time>) -> (u8, u16, u32) {
    time.map_or((0, 0, 0), |t| (1, t.day, t.milli))
}

/// A flag at place k and the two numbers after it, as a time.
pub(crate) fn time_at(answer: &[u64], k: usize) -> Option<Time> {
    (answer[k] == 1).then_some(Time { day: answer[k + 1] as u16, milli: answer[k + 2] as u32 })
}

/// What a writer writes, in bytes of its own: it is asked with room enough for most, and again with what it says that it needs.
pub(crate) fn written(likely: usize, write: impl Fn(&mut [u8]) -> Result<[u64; 4]>) -> Result<Vec<u8>> {
    let mut room = vec![0; likely];
    let answer = match write(&mut room) {
        Err(Refused { fault: Fault::Room, place }) => {
            room.resize(place as usize, 0);
            write(&mut room)?
        }
        other => other?,
    };
    room.truncate(answer[2] as usize);
    Ok(room)
}
