//! The proved judges behind the C boundary agree with the plain ones, on every generated case and every prefix of the vectors.
#![cfg(feature = "boundary")]
use outside::generate::{prefix, product, Rng};
use outside::seen::{cases, Seen};
use outside::values::Refusal;
use outside::{boundary, fast, plain, vectors, Arrival, Finished};

const KEPT: [u32; 7] = [0xdead_beef; 7];

fn note_arrival(seen: &mut Seen, answer: Arrival) {
    let answer = match answer {
        Arrival::Refused { number, place } => Err(Refusal { number, place }),
        Arrival::Waiting { count, .. } => Ok(count),
    };
    seen.note(&answer, |count| if *count == 0 { "none whole" } else { "some whole" });
}

fn note_rows(seen: &mut Seen, answer: Result<u64, Refusal>) {
    seen.note(&answer, |_| "accepted");
}

/// Lends both a list of so many places, with one more on each side: one answer, the same rows.
#[track_caller]
fn same_rows(bytes: &[u8], room: usize) -> Result<u64, Refusal> {
    let (mut i, mut j) = (vec![KEPT; room + 2], vec![KEPT; room + 2]);
    let ours = plain::rows(bytes, &mut i[1..=room]);
    assert_eq!(ours, boundary::rows(bytes, &mut j[1..=room]), "wl_rows at {} room {room}", bytes.len());
    assert_eq!(i, j, "rows at {} room {room}", bytes.len());
    ours
}

#[test]
fn generated() {
    let mut rng = Rng(1);
    let (mut arrivals, mut listers) = (Seen::of("wl_arrival"), Seen::of("wl_rows"));
    for n in 0..cases(200_000) {
        let (p, made) = product(&mut rng, n);
        let bytes = &p.bytes[..prefix(&mut rng, &p)];
        let (len, before) = (bytes.len(), bytes.to_vec());
        let ours = plain::arrival(bytes);
        assert_eq!(ours, fast::arrival(bytes), "arrival {n} {made:?} at {len}");
        assert_eq!(ours, boundary::arrival(bytes), "wl_arrival {n} {made:?} at {len}");
        note_arrival(&mut arrivals, ours);
        let count = p.starts.len();
        for room in [count - 1, count, count + 1, 0] {
            note_rows(&mut listers, same_rows(bytes, room));
        }
        assert_eq!(bytes, before);
    }
    let refusals: Vec<u64> = (1..=18).collect();
    arrivals.complete(&["none whole", "some whole"], &refusals[..16]);
    listers.complete(&["accepted"], &refusals);
}

#[test]
fn every_vector() {
    for (n, bytes) in vectors::products().iter().enumerate() {
        for l in 0..=bytes.len() {
            assert_eq!(fast::arrival(&bytes[..l]), boundary::arrival(&bytes[..l]), "product {n} at {l}");
        }
        for room in [0, 1, 2, bytes.len() / 20 + 1] {
            let _ = same_rows(bytes, room);
        }
    }
}

#[test]
fn two() {
    for case in vectors::two() {
        for l in 0..=case.bytes.len() {
            assert_eq!(boundary::arrival(&case.bytes[..l]), case.arrival(l), "{} at {l}", case.name);
        }
        let right = match case.finished {
            Finished::Refused { number, place } => Err(Refusal { number, place }),
            Finished::Accepted { count } => Ok(count),
        };
        assert_eq!(same_rows(&case.bytes, case.bytes.len() / 20), right, "{}", case.name);
    }
}
