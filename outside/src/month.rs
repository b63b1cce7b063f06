//! Request Twelve: the report over a month of products, in one pass over the headers of each for speed; and `plainly`, over the rows of `plain`
//! with sums that no product can pass.
use crate::fast::{self, Sink};
use crate::leap::{self, moment};
use crate::values::Refusal;
use crate::{plain, Finished};

/// Products lent; records of the classes 1 to 8; bytes of them; milliseconds of gap; of overlap; pairs with an undefined time; products accepted;
/// products refused with 1 to 17. A new report is all zeros.
pub type Report = [u64; NUMBERS];

pub const NUMBERS: usize = 38;
/// Where the numbers of class c (at +c) stand, and of products refused with n (at +n).
pub const RECORDS: usize = 0;
pub const BYTES: usize = 8;
pub const GAP: usize = 17;
pub const OVERLAP: usize = 18;
pub const UNDEFINED_PAIRS: usize = 19;
pub const ACCEPTED: usize = 20;

pub const MOST_PRODUCTS: u64 = 4096;

pub const FULL: Refusal = Refusal { number: 36, place: 0 };

/// All 48 bits of a time.
const UNDEFINED: u64 = 0xffff_ffff_ffff;
/// No time has these bits: there is no MDR yet.
const NO_STOP: u64 = u64::MAX;

/// What one product adds. It has less than a million records, each at most 65,536 days from the next, so that nothing here passes 64 bits.
struct Survey {
    /// By class; none has a number over 8.
    records: [u64; 16],
    bytes: [u64; 16],
    gap: u64,
    overlap: u64,
    undefined: u64,
    /// Of the last MDR.
    stop: u64,
}

impl Sink for Survey {
    #[inline(always)]
    fn put(&mut self, _: u64, head: &[u8; 20]) {
        let class = head[0] as usize & 15;
        self.records[class] += 1;
        self.bytes[class] += fast::be32(head, 4) as u64;
        if class == 8 {
            let (start, stop) = fast::times(head);
            if self.stop != NO_STOP {
                self.pair(self.stop, start);
            }
            self.stop = stop;
        }
    }
}

impl Survey {
    fn new() -> Survey {
        Survey { records: [0; 16], bytes: [0; 16], gap: 0, overlap: 0, undefined: 0, stop: NO_STOP }
    }

    #[inline(always)]
    fn pair(&mut self, stop: u64, start: u64) {
        if stop == UNDEFINED || start == UNDEFINED {
            self.undefined += 1;
            return;
        }
        let (from, to) = if stop >> 32 == start >> 32 { (stop, start) } else { (moment(stop), moment(start)) };
        if to >= from {
            self.gap += to - from;
        } else {
            self.overlap += from - to;
        }
    }

    fn report(&self) -> Report {
        let mut report = [0; NUMBERS];
        for class in 1..=8 {
            report[RECORDS + class] = self.records[class];
            report[BYTES + class] = self.bytes[class];
        }
        (report[0], report[ACCEPTED]) = (1, 1);
        (report[GAP], report[OVERLAP], report[UNDEFINED_PAIRS]) = (self.gap, self.overlap, self.undefined);
        report
    }
}

/// The two together, or 36.
fn together(one: &Report, other: &Report) -> Result<Report, Refusal> {
    let mut sum = [0; NUMBERS];
    let mut past = false;
    for k in 0..NUMBERS {
        let (n, over) = one[k].overflowing_add(other[k]);
        sum[k] = n;
        past |= over;
    }
    if past || sum[0] > MOST_PRODUCTS {
        return Err(FULL);
    }
    Ok(sum)
}

/// One product more. Its own refusal, if it has one, is counted and given; 36 leaves the report as it is.
pub fn add(report: &mut Report, bytes: &[u8]) -> Result<Option<Refusal>, Refusal> {
    if report[0] >= MOST_PRODUCTS {
        return Err(FULL);
    }
    let mut survey = Survey::new();
    let (refusal, more) = match fast::judged(bytes, &mut survey) {
        Ok(_) => (None, survey.report()),
        Err(refusal) => {
            let mut more = [0; NUMBERS];
            more[0] = 1;
            more[ACCEPTED + refusal.number as usize] = 1;
            (Some(refusal), more)
        }
    };
    *report = together(report, &more)?;
    Ok(refusal)
}

/// The products of the other report too. 36 leaves the report as it is.
pub fn merge(report: &mut Report, other: &Report) -> Result<(), Refusal> {
    *report = together(report, other)?;
    Ok(())
}

/// The same by the request's sentences.
pub mod plainly {
    use super::*;
    use crate::leaves::read_header;
    use crate::values::Time;
    use std::sync::OnceLock;

    /// A report's numbers, of any size.
    pub type Big = [u128; NUMBERS];

    /// Milliseconds before each day, day after day.
    fn before(day: u16) -> u128 {
        static BEFORE: OnceLock<Vec<u128>> = OnceLock::new();
        let days = |sum: &mut u128, day: u16| {
            let before = *sum;
            *sum += leap::last_milli(day) as u128 + 1;
            Some(before)
        };
        BEFORE.get_or_init(|| (0..=u16::MAX).scan(0, days).collect())[day as usize]
    }

    fn moment(time: Time) -> u128 {
        before(time.day) + time.milli as u128
    }

    /// What a product adds to every report, and its own refusal.
    pub fn of(bytes: &[u8]) -> (Option<Refusal>, Big) {
        let mut big = [0; NUMBERS];
        big[0] = 1;
        let mut rows = vec![[0; 7]; bytes.len() / 20];
        let count = match plain::finished(bytes, &mut rows) {
            Finished::Accepted { count } => count as usize,
            Finished::Refused { number, place } => {
                big[ACCEPTED + number as usize] = 1;
                return (Some(Refusal { number, place }), big);
            }
        };
        big[ACCEPTED] = 1;
        let rows = &rows[..count];
        for class in 1..=8 {
            let of_class = rows.iter().filter(|row| row[2] as usize == class);
            big[RECORDS + class] = of_class.clone().count() as u128;
            big[BYTES + class] = of_class.map(|row| row[1] as u128).sum();
        }
        let mdrs: Vec<_> = rows.iter().filter(|row| row[2] == 8).map(|row| read_header(bytes, row[0] as usize).unwrap()).collect();
        for pair in mdrs.windows(2) {
            match (pair[0].stop, pair[1].start) {
                (Some(stop), Some(start)) => {
                    big[GAP] += moment(start).saturating_sub(moment(stop));
                    big[OVERLAP] += moment(stop).saturating_sub(moment(start));
                }
                _ => big[UNDEFINED_PAIRS] += 1,
            }
        }
        (None, big)
    }

    /// The report with so much more, where it holds that.
    pub fn more(report: &Report, big: &Big) -> Result<Report, Refusal> {
        let mut sum = *report;
        for k in 0..NUMBERS {
            let limit = if k == 0 { MOST_PRODUCTS } else { u64::MAX };
            sum[k] = u64::try_from(report[k] as u128 + big[k]).ok().filter(|n| *n <= limit).ok_or(FULL)?;
        }
        Ok(sum)
    }

    pub fn add(report: &mut Report, bytes: &[u8]) -> Result<Option<Refusal>, Refusal> {
        let (refusal, big) = of(bytes);
        *report = more(report, &big)?;
        Ok(refusal)
    }
}
