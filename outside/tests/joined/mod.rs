//! What the tests of both joins share: a join into a lent room, held against that of the boundary, and what a result must have.
use outside::join::{join, Rule};
use outside::lines::{LINES, MAIN_SIZE, SIZE_LINE, STARTS};
use outside::records::{of_classes, records};
use outside::values::Refusal;
use outside::{fast, plain, Finished};

const KEPT: u8 = 0xa5;
/// The two times of a record's header, which granules of a pass have of their own.
const TIMES: std::ops::Range<usize> = 8..20;

pub type Written = Result<usize, Refusal>;

/// What is written, and what the answer is.
pub fn join_in(rule: Rule, first: &[u8], second: &[u8], room: usize) -> (Written, Vec<u8>) {
    let mut lent = vec![KEPT; room];
    let answer = join(rule, first, second, &mut lent);
    let written = answer.unwrap_or(0);
    assert!(lent[written..].iter().all(|b| *b == KEPT), "{answer:?}");
    #[cfg(feature = "boundary")]
    same_at_boundary(rule, first, second, &lent, answer);
    lent.truncate(written);
    (answer, lent)
}

#[cfg(feature = "boundary")]
type JoinInto = fn(&[u8], &[u8], &mut [u8]) -> Written;
#[cfg(feature = "boundary")]
type Join = fn(&[u8], &[u8]) -> Result<Vec<u8>, Refusal>;

/// The answer and the whole room, and both products kept; what is written the judge of the boundary accepts, with the rows of `plain`.
#[cfg(feature = "boundary")]
fn same_at_boundary(rule: Rule, first: &[u8], second: &[u8], right: &[u8], answer: Written) {
    use outside::boundary;
    let (before, mut lent) = ([first.to_vec(), second.to_vec()], vec![KEPT; right.len()]);
    let (into, join) = match rule {
        Rule::Identical => (boundary::join_into as JoinInto, boundary::join as Join),
        Rule::Pass => (boundary::join_pass_into as JoinInto, boundary::join_pass as Join),
    };
    assert_eq!(into(first, second, &mut lent), answer);
    assert!(lent == right, "{answer:?}");
    assert!(before == [first, second]);
    if let (Ok(n), true) = (answer, right.len() < 20_000) {
        assert_eq!(join(first, second).as_deref(), Ok(&right[..n]));
        let [mut rows, mut plainly] = [(); 2].map(|()| vec![[0; 7]; n / 20]);
        assert_eq!(boundary::rows(&right[..n], &mut rows), plain::rows(&right[..n], &mut plainly));
        assert_eq!(rows, plainly);
    }
}

/// All of a join of products that may be joined to one of any length.
pub fn whole(rule: Rule, first: &[u8], second: &[u8]) -> (Written, Vec<u8>) {
    join_in(rule, first, second, first.len() + second.len() + 27 * (first.len() + second.len()) / 20)
}

fn line(bytes: &[u8], k: usize) -> &[u8] {
    &bytes[STARTS[k]..STARTS[k + 1]]
}

/// A count or duration of the result: undefined where either is, else the sum.
fn check_sum(k: usize, first: &[u8], second: &[u8], result: &[u8]) {
    let width = LINES[k].1;
    let [a, b] = [first, second].map(|bytes| std::str::from_utf8(&line(bytes, k)[32..32 + width]).unwrap().trim().parse::<u64>());
    let right = match (a, b) {
        (Ok(a), Ok(b)) => format!("{:>width$}", a + b),
        _ => "x".repeat(width),
    };
    assert_eq!(&line(result, k)[32..32 + width], right.as_bytes(), "line {k}");
}

fn check_lines(first: &[u8], second: &[u8], result: &[u8]) {
    assert_eq!(first[..20], result[..20]);
    for k in 0..LINES.len() {
        match k {
            0 => {
                let (name, end) = (line(result, 0), 32 + 32..32 + 47);
                assert_eq!(name[..end.start], line(first, 0)[..end.start]);
                assert_eq!(name[end.clone()], line(second, 0)[end.clone()]);
                assert_eq!(name[end.end..], line(first, 0)[end.end..]);
            }
            SIZE_LINE | 55..=63 => {}
            11 => assert_eq!(line(result, k), line(second, k)),
            64..=70 => check_sum(k, first, second, result),
            _ => assert_eq!(line(result, k), line(first, k), "line {k}"),
        }
    }
}

/// One pointer to the first record of each class, group and subclass, in ascending order.
fn check_pointers(result: &[u8]) {
    let (mut at, mut right) = (MAIN_SIZE, std::collections::BTreeMap::new());
    let all = records(result);
    for (header, bytes) in &all {
        if header.class > 3 {
            right.entry([header.class, header.group, header.subclass]).or_insert(at as u32);
        }
        at += bytes.len();
    }
    let pointers = of_classes(&all, 3, 3);
    assert_eq!(pointers.len(), right.len());
    for (ipr, (kind, place)) in pointers.iter().zip(&right) {
        assert_eq!(ipr[..8], [3, 0, 0, 1, 0, 0, 0, 27]);
        assert_eq!(ipr[8..20], result[8..20]);
        assert_eq!(ipr[20..23], kind[..]);
        assert_eq!(ipr[23..], place.to_be_bytes());
    }
}

/// Records without the times of their headers.
fn untimed(all: &[&[u8]]) -> Vec<Vec<u8>> {
    all.iter().map(|record| [&record[..TIMES.start], &record[TIMES.end..]].concat()).collect()
}

/// What the request says of a result, read off it; of granules, of an SPHR and global records that differ in their times.
pub fn check_result(rule: Rule, first: &[u8], second: &[u8], result: &[u8]) {
    let [mut rows, mut quick] = [(); 2].map(|()| vec![[0; 7]; result.len() / 20]);
    let verdict = plain::finished(result, &mut rows);
    assert!(matches!(verdict, Finished::Accepted { .. }), "{verdict:?}");
    assert_eq!(fast::finished(result, &mut quick), verdict);
    assert_eq!(rows, quick);
    let [a, b, joined] = [first, second, result].map(records);
    for (from, to) in [(2, 2), (4, 5)] {
        let [ours, others, result] = [&a, &b, &joined].map(|all| of_classes(all, from, to));
        assert_eq!(ours, result);
        match rule {
            Rule::Identical => assert_eq!(others, result),
            Rule::Pass => assert_eq!(untimed(&others), untimed(&result)),
        }
    }
    for (from, to) in [(6, 7), (8, 8)] {
        assert_eq!([of_classes(&a, from, to), of_classes(&b, from, to)].concat(), of_classes(&joined, from, to));
    }
    check_pointers(result);
    check_lines(first, second, result);
}
