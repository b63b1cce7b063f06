//! Request Eleven: the two readings of humidity files agree with each other and with the request's vectors, and with the feature the boundary with
//! both, every place of both rooms compared by its bits.
use outside::generate::Rng;
use outside::json::Json;
use outside::seen::{cases, Seen};
use outside::uth::{plain, read};
use outside::values::{Refusal, UthBlock};
use outside::vectors;

/// What a place holds that nothing was read into: a NaN, which no reading gives.
const KEPT: ([u32; 4], [u32; 2]) = ([7; 4], [0x7fc0_0bad, 0xffff_ffff]);

type Rooms = (Vec<[u32; 4]>, Vec<[u32; 2]>);

/// The answer into rooms of so many places, and both rooms after it, floats as their bits.
fn into_rooms(
    rows: usize,
    pairs: usize,
    reader: impl FnOnce(&mut [[u32; 4]], &mut [[f32; 2]]) -> Result<usize, Refusal>,
) -> (Result<usize, Refusal>, Rooms) {
    let (mut blocks, mut values) = (vec![KEPT.0; rows], vec![KEPT.1.map(f32::from_bits); pairs]);
    let answer = reader(&mut blocks, &mut values);
    (answer, (blocks, values.iter().map(|pair| pair.map(f32::to_bits)).collect()))
}

/// What is right for rooms of so many places.
fn right(file: &Result<Vec<UthBlock>, Refusal>, rows: usize, pairs: usize) -> (Result<usize, Refusal>, Rooms) {
    let (mut blocks, mut values) = (vec![KEPT.0; rows], vec![KEPT.1; pairs]);
    let all = match file {
        Ok(all) if rows.min(pairs) < all.len() => return (Err(Refusal { number: 18, place: all.len() as u64 }), (blocks, values)),
        Ok(all) => all,
        Err(refusal) => return (Err(*refusal), (blocks, values)),
    };
    for (k, b) in all.iter().enumerate() {
        blocks[k] = [b.line, b.column, b.uth.is_some() as u32, b.csr.is_some() as u32];
        values[k] = [b.uth, b.csr].map(|x| x.map_or(0, f32::to_bits));
    }
    (Ok(all.len()), (blocks, values))
}

/// The readings of a file into rooms of so many places.
fn same(bytes: &[u8], file: &Result<Vec<UthBlock>, Refusal>, rows: usize, pairs: usize) -> Result<usize, Refusal> {
    let right = right(file, rows, pairs);
    assert_eq!(into_rooms(rows, pairs, |b, v| read(bytes, b, v)), right);
    #[cfg(feature = "boundary")]
    {
        let before = bytes.to_vec();
        assert_eq!(into_rooms(rows, pairs, |b, v| outside::boundary::read_uth(bytes, b, v)), right);
        assert_eq!(bytes, before);
    }
    right.0
}

/// The wrapper that finds its own rooms.
#[cfg(feature = "boundary")]
fn same_whole(bytes: &[u8], file: &Result<Vec<UthBlock>, Refusal>) {
    assert_eq!(outside::boundary::uth(bytes).map(|all| bits(&all)), file.as_ref().map(|all| bits(all)).map_err(|r| *r));
}

#[cfg(not(feature = "boundary"))]
fn same_whole(_: &[u8], _: &Result<Vec<UthBlock>, Refusal>) {}

fn bits(all: &[UthBlock]) -> Vec<(u32, u32, Option<u32>, Option<u32>)> {
    all.iter().map(|b| (b.line, b.column, b.uth.map(f32::to_bits), b.csr.map(f32::to_bits))).collect()
}

fn refusal(answer: &[Json]) -> Refusal {
    Refusal { number: answer[1].number() as u64, place: answer[2].number() as u64 }
}

#[test]
fn request_vectors() {
    let (files, mut seen) = (vectors::request_products(), Seen::of("UTH, the request's vectors"));
    for case in vectors::cases("requests/eleven.jsonl", 223) {
        let bytes = &files[case.get("file").unwrap().number() as usize];
        let (file, answer) = (plain(bytes), case.get("answer").unwrap().list());
        if answer[0].text() == "blocks" {
            let float = |x: &Json| x.some().map(|x| u32::from_str_radix(x.text(), 16).unwrap());
            let block = |b: &[Json]| (b[0].number() as u32, b[1].number() as u32, float(&b[2]), float(&b[3]));
            let blocks: Vec<_> = answer[1].list().iter().map(|b| block(b.list())).collect();
            assert_eq!(file.as_ref().map(|all| bits(all)), Ok(blocks), "{case}");
        } else {
            assert_eq!(file, Err(refusal(answer)), "{case}");
        }
        same(bytes, &file, 24, 24).ok();
        same_whole(bytes, &file);
        for room in case.get("rooms").unwrap().list() {
            let (places, answer) = (room.list()[0].number() as usize, room.list()[1].list());
            let ours = same(bytes, &file, places, places);
            if answer[0].text() == "blocks" {
                assert_eq!(ours, Ok(answer[1].number() as usize), "{case}");
            } else {
                assert_eq!(ours, Err(refusal(answer)), "{case}");
            }
            seen.note(&ours, |_| "blocks");
        }
        seen.note(&file.map(|all| all.len()), |_| "blocks");
    }
    seen.complete(&["blocks"], &[18, 30, 31, 32, 33, 34, 35]);
}

/// The bits of a float: of any kind, at the edges of finite ones, or any.
fn float(rng: &mut Rng) -> u32 {
    let any = rng.next() as u32;
    let sign = any & 0x8000_0000;
    match rng.below(6) {
        0 => sign | rng.pick(&[0x7f80_0000, 0x7f7f_ffff, 0x7f80_0001, 0x7fc0_0000, 0x7fff_ffff, 0, 1, 0x007f_ffff, 0x0080_0000]),
        1 => sign | 0x7f80_0000 | any & 0x007f_ffff,
        2 => sign | any & 0x007f_ffff,
        3 => (rng.below(1000) as f32 / 10.0).to_bits(),
        _ => any,
    }
}

/// A line or a column, in the grid or seldom out of it.
fn grid(rng: &mut Rng, wrong: bool) -> i32 {
    let any = rng.next() as i32;
    if wrong {
        return rng.pick(&[0, 81, -1, 256, i32::MIN, i32::MAX, any]);
    }
    rng.pick(&[1, 80, 1 + (any.unsigned_abs() % 80) as i32])
}

fn file(rng: &mut Rng) -> Vec<u8> {
    let segments = rng.pick(&[0, 1, 1, 2, 3, 5]);
    let mut bytes: Vec<u8> = (0..642).map(|_| rng.next() as u8).collect();
    let m = if rng.one_in(12) { rng.pick(&[-1, i32::MIN, 0, i32::MAX, segments + 1, segments - 1]) } else { segments };
    bytes[614..618].copy_from_slice(&m.to_be_bytes());
    for _ in 0..segments {
        let blocks = rng.pick(&[1, 1, 2, 4]);
        let fault = rng.below(40);
        let n = if fault == 0 { rng.pick(&[0, -1, i32::MIN, i32::MAX, blocks + 1, blocks - 1]) } else { blocks };
        let mut header = [0; 36];
        header.fill_with(|| rng.next() as u8);
        header[..4].copy_from_slice(&grid(rng, fault == 1).to_be_bytes());
        header[4..8].copy_from_slice(&grid(rng, fault == 2).to_be_bytes());
        header[32..].copy_from_slice(&n.to_be_bytes());
        bytes.extend(header);
        for _ in 0..blocks {
            let mut block = [0; 72];
            block.fill_with(|| rng.next() as u8);
            block[8..12].copy_from_slice(&float(rng).to_be_bytes());
            block[12..16].copy_from_slice(&float(rng).to_be_bytes());
            bytes.extend(block);
        }
    }
    match rng.below(10) {
        0 => bytes.truncate(rng.below(bytes.len() + 1)),
        1 => bytes.truncate(bytes.len().saturating_sub(rng.below(110))),
        2 => bytes.extend((0..rng.pick(&[1, 2, 35, 36, 72, 108])).map(|_| 1)),
        _ => {}
    }
    bytes
}

#[test]
fn generated() {
    let (mut rng, mut seen) = (Rng(11), Seen::of("wl_uth"));
    for _ in 0..cases(200_000) {
        let bytes = file(&mut rng);
        let whole = plain(&bytes);
        let n = whole.as_ref().map_or(3, Vec::len);
        let mut places = || rng.pick(&[n, n, n + 1, n + 7, n.saturating_sub(1), 0]);
        let (rows, pairs) = (places(), places());
        seen.note(&same(&bytes, &whole, rows, pairs), |_| "blocks");
        same_whole(&bytes, &whole);
    }
    seen.complete(&["blocks"], &[18, 30, 31, 32, 33, 34, 35]);
}

/// A segment that says it has as many blocks as may be, and a file that says so of its segments, are answered at once.
#[test]
fn large_claims() {
    for (m, n) in [(1, i32::MAX), (i32::MAX, 1), (i32::MAX, i32::MAX)] {
        let mut bytes = vec![0; 642 + 36 + 72];
        for (at, value) in [(614, m), (642, 1), (646, 80), (674, n)] {
            bytes[at..at + 4].copy_from_slice(&value.to_be_bytes());
        }
        let whole = plain(&bytes);
        assert_eq!(whole, Err(Refusal { number: 34, place: bytes.len() as u64 }));
        assert!(same(&bytes, &whole, 1, 1).is_err());
    }
}
