//! Request Ten: whether a product is a cut of another. The cut's records are walked once, beside two places in the original that only go on.
use crate::fast::{self, be32};
use crate::join::{value, LIKE_LINES};
use crate::lines::MAIN_SIZE;
use crate::values::Refusal;

/// What is left of a product's records of some classes.
struct Left<'a> {
    bytes: &'a [u8],
    at: usize,
    wanted: fn(u8) -> bool,
}

impl<'a> Iterator for Left<'a> {
    type Item = &'a [u8];

    #[inline(always)]
    fn next(&mut self) -> Option<&'a [u8]> {
        while self.at < self.bytes.len() {
            let rest = &self.bytes[self.at..];
            let size = be32(rest, 4) as usize;
            self.at += size;
            if (self.wanted)(rest[0]) {
                return Some(&rest[..size]);
            }
        }
        None
    }
}

fn left(bytes: &[u8], wanted: fn(u8) -> bool) -> Left<'_> {
    Left { bytes, at: MAIN_SIZE, wanted }
}

/// `None` is a yes, a place is a no.
fn compared(original: &[u8], cut: &[u8]) -> Option<u64> {
    if LIKE_LINES.iter().any(|k| value(original, *k) != value(cut, *k)) {
        return Some(0);
    }
    let mut others = left(original, |class| class != 3 && class != 8);
    let mut mdrs = left(original, |class| class == 8);
    let mut place = MAIN_SIZE;
    for record in left(cut, |_| true) {
        let matched = match record[0] {
            3 => true,
            8 => mdrs.any(|mdr| mdr == record),
            _ => others.next() == Some(record),
        };
        if !matched {
            return Some(place as u64);
        }
        place += record.len();
    }
    others.next().map(|_| cut.len() as u64)
}

/// Whether it is a cut, or where it shows that it is not.
pub fn check(original: &[u8], cut: &[u8]) -> Result<Option<u64>, Refusal> {
    fast::verdict(original)?;
    fast::verdict(cut)?;
    Ok(compared(original, cut))
}
