//! Request One for speed: a watch that is fed a product in parts and keeps the main header, the header under way and the pending pointers.
//!
//! It meets the faults in the order in which they are shown, as `fast` does, so the first one met is the answer. A header that lies whole in
//! a part is read where it lies; payload is counted and not looked at.
use crate::fast::{be32, first_fault, header_fault, line, remainder, shown_with_rest, Main};
use crate::lines::{MAIN_SIZE, STARTS};
use crate::Arrival;

/// The pointers that may be pending; one more is refused with 24.
const MOST: usize = 64;

/// Number and place of a refusal.
type Fault = (u64, u64);

#[derive(Clone, Copy, Default, PartialEq)]
struct Pointer {
    target: u32,
    start: u32,
    /// Class, group and subclass that the target must have.
    kind: [u8; 3],
}

/// Where the walk over the records stands.
#[derive(Clone, Copy, PartialEq)]
struct Walk {
    /// Whole records, and where the last of them ends.
    count: u64,
    end: u64,
    /// Where the record under way ends, if that is known and what else is to come of it is payload; else `end`.
    until: u64,
    /// The class of the last record judged.
    last: usize,
}

#[derive(Clone, PartialEq)]
pub struct Watch {
    head: [u8; MAIN_SIZE],
    /// Bytes of the main header that have come, and lines of it that have been judged.
    got: usize,
    lines: usize,
    main: Main,
    /// How many of each class may still come.
    left: [u32; 9],
    walk: Walk,
    /// The first bytes of the record under way, while a header or a pointer is not whole.
    under: [u8; 27],
    /// All bytes fed, until a refusal.
    fed: u64,
    /// In the order of their targets; those before `next` have been met.
    pointers: [Pointer; MOST],
    known: usize,
    next: usize,
    /// The target of pointer `next`, u64::MAX if there is none.
    target: u64,
    refused: Option<Fault>,
}

const _: () = assert!(size_of::<Watch>() <= MAIN_SIZE + 27 + MOST * 12 + 200);

impl Default for Watch {
    fn default() -> Watch {
        Watch::new()
    }
}

impl Watch {
    pub fn new() -> Watch {
        Watch {
            head: [0; MAIN_SIZE],
            got: 0,
            lines: 0,
            main: Main::default(),
            left: [0; 9],
            walk: Walk { count: 0, end: 0, until: 0, last: 1 },
            under: [0; 27],
            fed: 0,
            pointers: [Pointer::default(); MOST],
            known: 0,
            next: 0,
            target: u64::MAX,
            refused: None,
        }
    }

    /// What is right for all that was fed, this part with it.
    pub fn feed(&mut self, part: &[u8]) -> Arrival {
        if self.refused.is_none() {
            self.refused = self.take(part).err();
        }
        match self.refused {
            Some((number, place)) => Arrival::Refused { number, place },
            None => Arrival::Waiting { count: self.walk.count, end: self.walk.end },
        }
    }

    fn take(&mut self, part: &[u8]) -> Result<(), Fault> {
        let mut rest = part;
        if self.got < MAIN_SIZE {
            let (head, after) = part.split_at(part.len().min(MAIN_SIZE - self.got));
            self.main_header(head)?;
            if self.got < MAIN_SIZE {
                return Ok(());
            }
            rest = after;
        }
        self.records(rest)
    }

    /// More of the main header: its first header and its lines are judged as they become whole.
    fn main_header(&mut self, piece: &[u8]) -> Result<(), Fault> {
        let before = self.got;
        self.got += piece.len();
        self.head[before..self.got].copy_from_slice(piece);
        if before < 20 && self.got >= 20 {
            let fault = first_fault(self.head.first_chunk().unwrap());
            if fault != 0 {
                return Err((fault, 0));
            }
        }
        while self.lines < 72 && STARTS[self.lines + 1] <= self.got {
            let k = self.lines;
            line(k, &self.head[STARTS[k]..STARTS[k + 1]], &mut self.main)?;
            self.lines += 1;
        }
        if self.got == MAIN_SIZE {
            self.fed = MAIN_SIZE as u64;
            self.walk = Walk { count: 1, end: self.fed, until: self.fed, last: 1 };
            self.left = self.main.totals;
            self.left[1] = 0;
        }
        Ok(())
    }

    /// More of what follows the main header.
    fn records(&mut self, part: &[u8]) -> Result<(), Fault> {
        let from = self.fed;
        self.fed += part.len() as u64;
        // A copy, which the loop can keep in registers.
        let mut walk = self.walk;
        let told = self.walk(&mut walk, part, from);
        self.walk = walk;
        told
    }

    #[inline(always)]
    fn walk(&mut self, walk: &mut Walk, part: &[u8], from: u64) -> Result<(), Fault> {
        if walk.end < from && walk.until == walk.end {
            self.join(walk, part, from)?;
            if walk.until == walk.end {
                return Ok(());
            }
        }
        loop {
            if walk.until != walk.end {
                if walk.until > self.fed {
                    return Ok(());
                }
                walk.count += 1;
                walk.end = walk.until;
            }
            if self.main.size - walk.end < 20 {
                return self.last_end(walk.end);
            }
            let rest = &part[(walk.end - from) as usize..];
            if let Some(head) = rest.first_chunk() {
                self.record(walk, head, rest.first_chunk())?;
            }
            if walk.until == walk.end {
                self.under[..rest.len()].copy_from_slice(rest);
                return Ok(());
            }
        }
    }

    /// The first bytes of the part join those of the record under way.
    #[inline(never)]
    fn join(&mut self, walk: &mut Walk, part: &[u8], from: u64) -> Result<(), Fault> {
        let have = (from - walk.end) as usize;
        let now = (have + part.len()).min(27);
        self.under[have..now].copy_from_slice(&part[..now - have]);
        let under = self.under;
        match under[..now].first_chunk() {
            Some(head) => self.record(walk, head, under[..now].first_chunk()),
            None => Ok(()),
        }
    }

    /// Fewer than 20 bytes of D are left at `end`: 6, 15, 16 or none.
    fn last_end(&self, end: u64) -> Result<(), Fault> {
        let d = self.main.size;
        if end != d {
            Err((6, end))
        } else if self.left[1..].iter().any(|n| *n > 0) {
            Err((15, d))
        } else if self.fed > d {
            Err((16, d))
        } else {
            Ok(())
        }
    }

    /// A record by its header and, where they have come, the 27 bytes of an IPR; one that lacks them stays under way and is judged again.
    /// Faults 7 to 11, then 24, then 13 and 14; or 6, which is shown with them where the record is no more than its header.
    #[inline(always)]
    fn record(&mut self, walk: &mut Walk, head: &[u8; 20], ipr: Option<&[u8; 27]>) -> Result<(), Fault> {
        let (s, d, class, size) = (walk.end, self.main.size, head[0] as usize, be32(head, 4) as u64);
        let fault = header_fault(head, s, d, walk.last, &self.left);
        if fault != 0 {
            return Err(shown_with_rest(fault, s, class, size, d));
        }
        if class == 3 && self.known == MOST {
            return Err((24, s));
        }
        if self.target < s + size {
            if let Some((number, place)) = self.meet(s, s + size, head) {
                return Err(if size == 20 && remainder(s + 20, d) { (6, s + 20) } else { (number, place) });
            }
        }
        if class == 3 {
            let Some(bytes) = ipr else { return Ok(()) };
            self.pointer(s, bytes)?;
        }
        self.left[class] -= 1;
        walk.last = class;
        walk.until = s + size;
        Ok(())
    }

    /// The least of 13 and 14 of the pointers whose targets lie in the record from s to `end`. They are then behind us.
    #[inline(never)]
    fn meet(&mut self, s: u64, end: u64, head: &[u8; 20]) -> Option<Fault> {
        let mut least: Option<Fault> = None;
        while self.target < end {
            let pointer = &self.pointers[self.next];
            let place = pointer.start as u64;
            let fault = if self.target > s {
                Some((13, place))
            } else if pointer.kind != head[..3] {
                Some((14, place))
            } else {
                None
            };
            least = least.into_iter().chain(fault).min();
            self.next += 1;
            self.target = if self.next < self.known { self.pointers[self.next].target as u64 } else { u64::MAX };
        }
        least
    }

    /// A whole pointer: 12, or 6 that is shown with it. A sound one takes its place among the others.
    #[inline(never)]
    fn pointer(&mut self, s: u64, bytes: &[u8; 27]) -> Result<(), Fault> {
        let (end, d, target) = (s + 27, self.main.size, be32(bytes, 23));
        if bytes[20].wrapping_sub(4) > 4 || (target as u64) < end || target as u64 + 20 > d {
            return Err(if remainder(end, d) { (6, end) } else { (12, s) });
        }
        let mut k = self.known;
        while k > 0 && self.pointers[k - 1].target > target {
            self.pointers[k] = self.pointers[k - 1];
            k -= 1;
        }
        self.pointers[k] = Pointer { target, start: s as u32, kind: [bytes[20], bytes[21], bytes[22]] };
        self.known += 1;
        // None has been met yet: their section is not over, and a pointer to a pointer is refused.
        self.target = self.pointers[0].target as u64;
        Ok(())
    }
}
