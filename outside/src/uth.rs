//! Request Eleven: Upper Tropospheric Humidity files in OpenMTP form (003). Twice: field by field as a reader would, and for speed.
use crate::values::{Refusal, UthBlock};

/// 542 bytes of text and a header of 100; M stands at offset 072 of the header.
const FIRST_SEGMENT: usize = 642;
const NSEG: usize = 542 + 72;
const SEGMENT_HEADER: usize = 36;
const BLOCK: usize = 72;

fn refused<T>(number: u64, place: usize) -> Result<T, Refusal> {
    Err(Refusal { number, place: place as u64 })
}

/// A reader's finger on the file.
struct Finger<'a> {
    bytes: &'a [u8],
    at: usize,
}

impl<'a> Finger<'a> {
    /// The next bytes, or 34 with the first that is missing.
    fn pass(&mut self, count: u64) -> Result<&'a [u8], Refusal> {
        let rest = &self.bytes[self.at..];
        match usize::try_from(count).ok().filter(|n| *n <= rest.len()) {
            Some(n) => {
                self.at += n;
                Ok(&rest[..n])
            }
            None => refused(34, self.bytes.len()),
        }
    }

    /// An I4, and where it stands.
    fn i4(&mut self) -> Result<(i32, usize), Refusal> {
        let place = self.at;
        self.pass(4).map(|four| (i32::from_be_bytes(four.try_into().unwrap()), place))
    }

    fn in_grid(&mut self) -> Result<u32, Refusal> {
        match self.i4()? {
            (n @ 1..=80, _) => Ok(n as u32),
            (_, place) => refused(32, place),
        }
    }

    fn segment(&mut self, blocks: &mut Vec<UthBlock>) -> Result<(), Refusal> {
        let (line, column) = (self.in_grid()?, self.in_grid()?);
        self.pass(24)?;
        let (n, place) = self.i4()?;
        if n < 1 {
            return refused(33, place);
        }
        // All of a segment's blocks are there, or the file is cut, however many they are said to be.
        for block in self.pass(n as u64 * BLOCK as u64)?.chunks(BLOCK) {
            let r4 = |at: usize| Some(f32::from_be_bytes(block[at..at + 4].try_into().unwrap())).filter(|x| x.is_finite());
            blocks.push(UthBlock { line, column, uth: r4(8), csr: r4(12) });
        }
        Ok(())
    }
}

/// Every block, or the first fault in file order.
pub fn plain(bytes: &[u8]) -> Result<Vec<UthBlock>, Refusal> {
    if bytes.len() < FIRST_SEGMENT {
        return refused(30, bytes.len());
    }
    let (m, place) = Finger { bytes, at: NSEG }.i4()?;
    if m < 0 {
        return refused(31, place);
    }
    let (mut finger, mut blocks) = (Finger { bytes, at: FIRST_SEGMENT }, vec![]);
    for _ in 0..m {
        finger.segment(&mut blocks)?;
    }
    if finger.at < bytes.len() {
        return refused(35, finger.at);
    }
    Ok(blocks)
}

fn number(bytes: &[u8], at: usize) -> u32 {
    u32::from_be_bytes(bytes[at..at + 4].try_into().unwrap())
}

/// How many blocks there are.
fn count(bytes: &[u8]) -> Result<usize, Refusal> {
    let len = bytes.len();
    if len < FIRST_SEGMENT {
        return refused(30, len);
    }
    let m = number(bytes, NSEG);
    if m > i32::MAX as u32 {
        return refused(31, NSEG);
    }
    let (mut at, mut blocks) = (FIRST_SEGMENT, 0);
    for _ in 0..m {
        let rest = &bytes[at..];
        if rest.len() < SEGMENT_HEADER {
            return cut_header(rest, at, len);
        }
        if number(rest, 0).wrapping_sub(1) >= 80 {
            return refused(32, at);
        }
        if number(rest, 4).wrapping_sub(1) >= 80 {
            return refused(32, at + 4);
        }
        let n = number(rest, 32) as usize;
        if n.wrapping_sub(1) >= i32::MAX as usize {
            return refused(33, at + 32);
        }
        if rest.len() - SEGMENT_HEADER < BLOCK * n {
            return refused(34, len);
        }
        at += SEGMENT_HEADER + BLOCK * n;
        blocks += n;
    }
    if at < len {
        return refused(35, at);
    }
    Ok(blocks)
}

/// A header that is not all there is 34, unless a field that is there is wrong.
#[cold]
fn cut_header(rest: &[u8], at: usize, len: usize) -> Result<usize, Refusal> {
    for field in [0, 4] {
        if rest.len() >= field + 4 && number(rest, field).wrapping_sub(1) >= 80 {
            return refused(32, at + field);
        }
    }
    refused(34, len)
}

/// For speed: one pass that judges, and one that reads. Line, column and whether UTH and CSR are there to a place of the one room, the two, or 0.0,
/// to that of the other.
pub fn read(bytes: &[u8], blocks: &mut [[u32; 4]], values: &mut [[f32; 2]]) -> Result<usize, Refusal> {
    let n = count(bytes)?;
    if blocks.len() < n || values.len() < n {
        return refused(18, n);
    }
    let mut places = blocks.iter_mut().zip(values);
    let mut rest = &bytes[FIRST_SEGMENT..];
    while !rest.is_empty() {
        let (header, after) = rest.split_at(SEGMENT_HEADER);
        let (line, column) = (number(header, 0), number(header, 4));
        let (body, next) = after.split_at(BLOCK * number(header, 32) as usize);
        for (block, (row, pair)) in body.chunks_exact(BLOCK).zip(&mut places) {
            let [uth, csr] = [8, 12].map(|at| f32::from_bits(number(block, at)));
            *row = [line, column, uth.is_finite() as u32, csr.is_finite() as u32];
            *pair = [uth, csr].map(|x| if x.is_finite() { x } else { 0.0 });
        }
        rest = next;
    }
    Ok(n)
}
