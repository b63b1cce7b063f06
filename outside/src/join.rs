//! Request Seven: two products that follow each other become one. The judge's own pass over each is told where its sections start, which kinds of
//! records there are and which times meet; what stays is then copied section by section. The join of granules differs in what it asks of the two.
use crate::cut::{
    kind, over_limits, put_count, put_line, put_pointers, put_size_and_totals, DEGRADED_AND_DURATIONS, IPR_SIZE, KINDS, SENSING_END_LINE, UNDEFINED,
};
use crate::fast::{self, be32};
use crate::leap::moment;
use crate::lines::{LINES, MAIN_SIZE, STARTS};
use crate::values::Refusal;

/// INSTRUMENT_ID, PRODUCT_TYPE, PROCESSING_LEVEL and SPACECRAFT_ID.
pub const LIKE_LINES: [usize; 4] = [5, 7, 8, 9];
/// The two times of a record's header (01): 002, Table 15, gives those of an SPHR and of global records the first and last MDR of their own product.
const TIMES: std::ops::Range<usize> = 8..20;
/// 002, 4.2.1.2.3: times are rounded to a millisecond, so that this much overlap of MDRs that follow each other is nominal.
const NOMINAL_OVERLAP: u64 = 1;
/// A first record of the second product; starts are below it.
const OF_SECOND: u32 = 1 << 31;
/// The kinds of class 8 are the last.
const MDR_KINDS: usize = KINDS / 5 * 4;

/// The sections of a product, each starting where those before it end, its totals, and the times that meet those of another.
struct Sections {
    pointers: usize,
    globals: usize,
    variables: usize,
    mdrs: usize,
    totals: [u32; 9],
    /// Of the first MDR that has a defined one, and of the last.
    start: u64,
    stop: u64,
}

/// The start of the first record of each kind, 0 where there is none; of the first product where it has the kind.
struct Kinds {
    firsts: Vec<u32>,
    count: usize,
}

/// What the judge's pass over a product tells.
struct Survey<'a> {
    found: Sections,
    kinds: &'a mut Kinds,
    of: u32,
}

impl fast::Sink for Survey<'_> {
    #[inline(always)]
    fn put(&mut self, start: u64, head: &[u8; 20]) {
        let (class, found) = (head[0], &mut self.found);
        if class > 3 {
            let first = &mut self.kinds.firsts[kind(head)];
            if *first == 0 {
                *first = self.of | start as u32;
                self.kinds.count += 1;
            }
        }
        if class == 8 {
            let (start, stop) = fast::times(head);
            if found.start == UNDEFINED {
                found.start = start;
            }
            if stop != UNDEFINED {
                found.stop = stop;
            }
            return;
        }
        let end = start as usize + be32(head, 4) as usize;
        found.mdrs = end;
        if class < 6 {
            found.variables = end;
        }
        if class < 4 {
            found.globals = end;
        }
        if class < 3 {
            found.pointers = end;
        }
    }
}

/// Judged and surveyed in one pass.
fn surveyed(bytes: &[u8], kinds: &mut Kinds, of: u32) -> Result<Sections, Refusal> {
    let found = Sections { pointers: 0, globals: 0, variables: 0, mdrs: 0, totals: [0; 9], start: UNDEFINED, stop: UNDEFINED };
    let mut survey = Survey { found, kinds, of };
    let totals = fast::judged(bytes, &mut survey)?.totals;
    Ok(Sections { totals, ..survey.found })
}

pub(crate) fn value(bytes: &[u8], line: usize) -> &[u8] {
    &bytes[STARTS[line] + 32..][..LINES[line].1]
}

/// A count or duration of both: undefined where either is, and the refusal where it does not fit.
fn sum(line: usize, first: &[u8], second: &[u8]) -> Result<Option<u64>, Refusal> {
    let [a, b] = [first, second].map(|bytes| fast::number(value(bytes, line), false));
    let (Some(a), Some(b)) = (a, b) else {
        return Ok(None);
    };
    if a + b >= 10u64.pow(LINES[line].1 as u32) {
        return Err(Refusal { number: 28, place: 0 });
    }
    Ok(Some(a + b))
}

type Sums = [Option<u64>; 7];

fn sums(first: &[u8], second: &[u8]) -> Result<Sums, Refusal> {
    let mut all = [None; 7];
    for (sum_of, line) in all.iter_mut().zip(DEGRADED_AND_DURATIONS) {
        *sum_of = sum(line, first, second)?;
    }
    Ok(all)
}

fn put_sums(main: &mut [u8], sums: &Sums) {
    for (sum, line) in sums.iter().zip(DEGRADED_AND_DURATIONS) {
        match sum {
            Some(n) => put_count(main, line, *n),
            None => put_line(main, line, &[b'x'; 8][..LINES[line].1]),
        }
    }
}

/// The end time, in its field and in the name.
fn put_end(main: &mut [u8], second: &[u8]) {
    put_line(main, SENSING_END_LINE, value(second, SENSING_END_LINE));
    let end = STARTS[0] + 32 + 32;
    main[end..end + 15].copy_from_slice(&second[end..end + 15]);
}

fn put_main(main: &mut [u8], size: usize, counts: &[u64; 9], sums: &Sums, second: &[u8]) {
    put_size_and_totals(main, size, counts);
    put_sums(main, sums);
    put_end(main, second);
}

/// The parts one after the other, which fill the room.
fn put_parts(room: &mut [u8], parts: [&[u8]; 4]) {
    let mut at = 0;
    for part in parts {
        room[at..at + part.len()].copy_from_slice(part);
        at += part.len();
    }
    assert_eq!(at, room.len());
}

/// What is asked of two products that are to be joined.
#[derive(Clone, Copy, Debug, PartialEq, Eq)]
pub enum Rule {
    /// Request Seven: SPHR and global records are the same in every byte, and the first does not stop after the second starts.
    Identical,
    /// Granules of a pass: their header times are their own product's, and a millisecond of overlap is nominal.
    Pass,
}

impl Rule {
    /// Whether two runs of whole records are the same.
    fn same(self, a: &[u8], b: &[u8]) -> bool {
        match self {
            Rule::Identical => a == b,
            Rule::Pass => same_but_for_times(a, b),
        }
    }

    /// Whether a stop is too late for a start, both defined.
    fn late(self, stop: u64, start: u64) -> bool {
        match self {
            Rule::Identical => stop > start,
            Rule::Pass => moment(stop) > moment(start) + NOMINAL_OVERLAP,
        }
    }
}

fn same_but_for_times(a: &[u8], b: &[u8]) -> bool {
    if a.len() != b.len() {
        return false;
    }
    let mut at = 0;
    while at < a.len() {
        let end = at + be32(&a[at..], 4) as usize;
        let (head, rest) = (at..at + TIMES.start, at + TIMES.end..end);
        if a[head.clone()] != b[head] || a[rest.clone()] != b[rest] {
            return false;
        }
        at = end;
    }
    true
}

fn alike(rule: Rule, first: &[u8], a: &Sections, second: &[u8], b: &Sections) -> bool {
    LIKE_LINES.iter().all(|k| value(first, *k) == value(second, *k))
        && rule.same(&first[MAIN_SIZE..a.pointers], &second[MAIN_SIZE..b.pointers])
        && rule.same(&first[a.globals..a.variables], &second[b.globals..b.variables])
}

fn out_of_time(rule: Rule, a: &Sections, b: &Sections) -> bool {
    a.stop != UNDEFINED && b.start != UNDEFINED && rule.late(a.stop, b.start)
}

fn counts(a: &Sections, b: &Sections, kinds: usize) -> [u64; 9] {
    let [mut counts, more] = [a.totals, b.totals].map(|totals| totals.map(u64::from));
    counts[0] = 0;
    counts[3] = kinds as u64;
    for class in 6..9 {
        counts[class] += more[class];
    }
    counts
}

/// The bytes written. A refusal writes nothing.
pub fn join(rule: Rule, first: &[u8], second: &[u8], room: &mut [u8]) -> Result<usize, Refusal> {
    let refused = |number, place| Err(Refusal { number, place });
    let mut kinds = Kinds { firsts: vec![0; KINDS], count: 0 };
    let a = surveyed(first, &mut kinds, 0)?;
    let b = surveyed(second, &mut kinds, OF_SECOND)?;
    if !alike(rule, first, &a, second, &b) {
        return refused(26, 0);
    }
    if out_of_time(rule, &a, &b) {
        return refused(27, 0);
    }
    let sums = sums(first, second)?;
    let counts = counts(&a, &b, kinds.count);
    let before = a.pointers + IPR_SIZE * kinds.count;
    let size = before + first.len() - a.globals + second.len() - b.variables;
    if over_limits(size, &counts) {
        return refused(28, 0);
    }
    if room.len() < size {
        return refused(18, size as u64);
    }
    room[..a.pointers].copy_from_slice(&first[..a.pointers]);
    put_main(&mut room[..MAIN_SIZE], size, &counts, &sums, second);
    // Global records of the first, variable ones of both, MDRs of both: where each of these four parts starts.
    let after = [before + a.mdrs - a.globals, before + a.mdrs - a.globals + b.mdrs - b.variables];
    put_pointers(&mut room[a.pointers..before], first, &kinds.firsts, |kind, start| {
        let at = (start & !OF_SECOND) as usize;
        match (start < OF_SECOND, kind < MDR_KINDS) {
            (true, true) => before + at - a.globals,
            (false, true) => after[0] + at - b.variables,
            (true, false) => after[1] + at - a.mdrs,
            (false, false) => after[1] + first.len() - a.mdrs + at - b.mdrs,
        }
    });
    put_parts(&mut room[before..size], [&first[a.globals..a.mdrs], &second[b.variables..b.mdrs], &first[a.mdrs..], &second[b.mdrs..]]);
    Ok(size)
}
