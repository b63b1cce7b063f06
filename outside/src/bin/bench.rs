//! Times of the judges on large products, of the watch, of the cut, of the join and of what else reads products: medians of runs taken in turn. The row
//! listers fill the same rows. A line to a row: what was measured, ours, what it is held against, their ratio in the same rounds (least to most), the bar.
//! With DETAIL set each contender has a line of its own too.
use outside::generate::{build, name_targets, set_number, Product, Rng, Shape, GROUPS};
use outside::join::Rule;
use outside::leaves::read_header;
use outside::values::{Refusal, Time};
use outside::watch::Watch;
use outside::{check, cut, fast, join, level0, lookup, month, replay, uth, Arrival};
use std::cell::RefCell;
use std::hint::black_box;
use std::time::Instant;

#[cfg(feature = "boundary")]
use outside::boundary;

/// n records of one class with one size, so many pointers before them.
fn large(seed: u64, records: usize, size: usize, pointers: usize, sorted: bool) -> Product {
    let mut rng = Rng(seed);
    let others = vec![(8, size); records];
    build(&mut rng, &Shape { first_version: 2, sphr: None, pointers, others, sorted, rest: 0 })
}

/// 32 MiB in 100,000 records, the main header and the pointers among them. The sizes are the same, or differ from each record to the next.
fn even(pointers: usize, differ: bool) -> Product {
    even_of(32 << 20, 100_000, pointers, differ)
}

fn even_of(total: usize, records: usize, pointers: usize, differ: bool) -> Product {
    let n = records - 1 - pointers;
    let space = total - 3307 - 27 * pointers;
    let mut others: Vec<(u8, usize)> = (0..n).map(|k| (8, space / n + (k < space % n) as usize)).collect();
    if differ {
        // What one record of a pair is longer the other is shorter.
        for (k, pair) in others.chunks_exact_mut(2).enumerate() {
            let more = 1 + k * 7919 % 101;
            pair[0].1 += more;
            pair[1].1 -= more;
        }
    }
    build(&mut Rng(7), &Shape { first_version: 2, sphr: None, pointers, others, sorted: true, rest: 0 })
}

struct Series {
    name: &'static str,
    figures: Vec<f64>,
}

impl Series {
    fn sorted(&self) -> Vec<f64> {
        let mut v = self.figures.clone();
        v.sort_by(f64::total_cmp);
        v
    }
    fn median(&self) -> f64 {
        let v = self.sorted();
        (v[(v.len() - 1) / 2] + v[v.len() / 2]) / 2.0
    }
}

/// A contender: its name, and one judging whose answer it checks itself.
type Contender<'a> = (&'static str, Box<dyn FnMut() + 'a>);

extern "C" {
    fn clock_gettime(clock: i32, time: &mut [i64; 2]) -> i32;
}
const THREAD_CPUTIME: i32 = 3;

/// Seconds since some moment, or with CPU set those that this thread was on a processor (Linux, 64 bits).
fn now(from: Instant) -> f64 {
    if std::env::var_os("CPU").is_none() {
        return from.elapsed().as_secs_f64();
    }
    let mut time = [0; 2];
    // SAFETY: the place has the layout of a timespec of 64 bits.
    assert_eq!(unsafe { clock_gettime(THREAD_CPUTIME, &mut time) }, 0);
    time[0] as f64 + time[1] as f64 / 1e9
}

/// One round to warm up, then the runs, each contender in its turn. A run judges so many times and is divided by that.
fn rounds(runs: usize, times: usize, contenders: Vec<Contender>) -> Vec<Series> {
    let (mut all, mut judges): (Vec<Series>, Vec<_>) = contenders.into_iter().map(|(name, judge)| (Series { name, figures: vec![] }, judge)).unzip();
    let start = Instant::now();
    for round in 0..=runs {
        for (series, judge) in all.iter_mut().zip(&mut judges) {
            let from = now(start);
            for _ in 0..times {
                judge();
            }
            let took = (now(start) - from) * 1e6 / times as f64;
            if round > 0 {
                series.figures.push(took);
            }
        }
    }
    if std::env::var_os("DETAIL").is_some() {
        for series in &all {
            let v = series.sorted();
            let (least, most) = (v[0], v[v.len() - 1]);
            println!("  {:18} median {:10.1} us   least {least:10.1}   most {most:10.1}   runs {}", series.name, series.median(), v.len());
        }
    }
    all
}

/// The bars that were set: how a row's name begins, who is measured, and the greatest ratio.
const BARS: [(&str, &str, f64); 22] = [
    ("even", "rows boundary", 1.2),
    ("even", "arrival boundary", 0.8),
    ("uneven", "rows boundary", 1.5),
    ("small", "rows boundary", 1.5),
    ("verdict, even", "verdict boundary", 1.0),
    ("verdict, uneven", "verdict boundary", 1.2),
    ("verdict, pointers in order", "verdict boundary", 1.2),
    ("verdict, small", "verdict boundary", 1.5),
    ("level0", "level0 boundary", 1.5),
    ("month, one product", "report boundary", 1.5),
    ("month", "report boundary", 1.2),
    ("watch, in parts of 65536", "watch boundary", 1.0),
    ("watch, in parts of 1500", "watch boundary", 1.0),
    ("watch, in parts of 1", "watch boundary", 5.0),
    ("replay, in parts of 65536", "replay boundary", 1.0),
    ("replay, in parts of 1500", "replay boundary", 1.0),
    ("replay, in parts of 1", "replay boundary", 5.0),
    ("lookup, the 72 names", "lookup boundary", 2.0),
    ("cut", "cut boundary", 1.3),
    ("join", "join boundary", 1.5),
    ("join", "join pass boundary", 1.1),
    ("check", "check boundary", 1.4),
];

fn bar_of(what: &str, name: &str, over: &str) -> Option<f64> {
    let beside = ["copy", "rows boundary", "arrival boundary"].contains(&over);
    BARS.iter().find(|(begins, of, _)| !beside && what.starts_with(begins) && *of == name).map(|bar| bar.2)
}

/// A row: the one over the other, each run by that in the same round, where both are there.
fn row(what: &str, all: &[Series], name: &str, over: &str) {
    let find = |name: &str| all.iter().find(|s| s.name == name);
    let (Some(one), Some(other)) = (find(name), find(over)) else {
        return;
    };
    let figures = one.figures.iter().zip(&other.figures).map(|(a, b)| a / b).collect();
    let ratios = Series { name: "", figures };
    let v = ratios.sorted();
    let (median, least, most) = (ratios.median(), v[0], v[v.len() - 1]);
    let judged = bar_of(what, name, over).map_or(String::new(), |bar| format!("   bar {bar:.2} {}", if median <= bar { "met" } else { "MISSED" }));
    let (ours, others) = (shown(one.median()), shown(other.median()));
    println!("{what:46} {name:>18} {ours:>9}   {over:>17} {others:>9}   {median:6.2} ({least:.2} to {most:.2}){judged}");
}

/// Microseconds for people.
fn shown(us: f64) -> String {
    match us {
        us if us >= 1e6 => format!("{:.2} s", us / 1e6),
        us if us >= 1e3 => format!("{:.2} ms", us / 1e3),
        us => format!("{us:.2} us"),
    }
}

fn left_out(what: &str) -> bool {
    std::env::var("ONLY").is_ok_and(|only| only != what)
}

fn measure(what: &str, make: impl Fn() -> Product, runs: usize, times: usize) {
    if left_out(what) {
        return;
    }
    let p = &make();
    let bytes = &p.bytes;
    let count = p.starts.len();
    let rows = &RefCell::new(vec![[0; 7]; count]);
    let accepted = Ok(count as u64);
    let waiting = Arrival::Waiting { count: count as u64, end: bytes.len() as u64 };
    let all = rounds(
        runs,
        times,
        vec![
            ("rows fast", Box::new(|| assert_eq!(fast::rows(black_box(bytes), &mut rows.borrow_mut()), accepted))),
            ("arrival fast", Box::new(|| assert_eq!(fast::arrival(black_box(bytes)), waiting))),
            #[cfg(feature = "boundary")]
            ("rows boundary", Box::new(|| assert_eq!(boundary::rows(black_box(bytes), &mut rows.borrow_mut()), accepted))),
            #[cfg(feature = "boundary")]
            ("arrival boundary", Box::new(|| assert_eq!(boundary::arrival(black_box(bytes)), waiting))),
        ],
    );
    assert!(rows.borrow().iter().zip(&p.starts).all(|(a, b)| a[0] as usize == *b));
    row(what, &all, "rows boundary", "rows fast");
    row(what, &all, "arrival boundary", "arrival fast");
}

/// The verdicts (request Fourteen), which keep no rows.
fn measure_verdict(what: &str, p: &Product, runs: usize, times: usize) {
    let (bytes, count) = (&p.bytes, p.starts.len());
    let all = rounds(
        runs,
        times,
        vec![
            ("verdict fast", Box::new(|| assert_eq!(fast::verdict(black_box(bytes)), Ok(count as u64)))),
            #[cfg(feature = "boundary")]
            ("verdict boundary", Box::new(|| assert_eq!(boundary::verdict(black_box(bytes)), Ok(count as u64)))),
        ],
    );
    row(what, &all, "verdict boundary", "verdict fast");
}

/// The VIADRs and MDRs of a product as a Level 0 product has them.
fn raw_level(mut p: Product) -> Product {
    for (k, s) in p.starts.iter().enumerate() {
        let kind = match p.bytes[*s] {
            7 => [0, 0, 2],
            8 => [0, (k % 5) as u8, 1],
            _ => continue,
        };
        p.bytes[s + 1..s + 4].copy_from_slice(&kind);
    }
    name_targets(&mut p);
    p
}

/// The profile judges beside the row listers, which fill the same rows.
fn measure_level0(what: &str, p: Product, runs: usize) {
    let p = &raw_level(p);
    let (bytes, count) = (&p.bytes, p.starts.len());
    let rows = &RefCell::new(vec![[0; 7]; count]);
    let accepted = Ok(count as u64);
    let all = rounds(
        runs,
        1,
        vec![
            ("rows fast", Box::new(|| assert_eq!(fast::rows(black_box(bytes), &mut rows.borrow_mut()), accepted))),
            ("level0", Box::new(|| assert_eq!(level0::level0(black_box(bytes), &mut rows.borrow_mut()), accepted))),
            #[cfg(feature = "boundary")]
            ("rows boundary", Box::new(|| assert_eq!(boundary::rows(black_box(bytes), &mut rows.borrow_mut()), accepted))),
            #[cfg(feature = "boundary")]
            ("level0 boundary", Box::new(|| assert_eq!(boundary::level0(black_box(bytes), &mut rows.borrow_mut()), accepted))),
        ],
    );
    row(what, &all, "level0 boundary", "rows boundary");
    row(what, &all, "level0 boundary", "level0");
}

/// Products into a new report, one after the other, beside their verdicts.
fn measure_month(what: &str, products: &[Product], runs: usize) {
    let records: usize = products.iter().map(|p| p.starts.len()).sum();
    let reported = |add: fn(&mut month::Report, &[u8]) -> Result<Option<Refusal>, Refusal>| {
        let mut report = [0; month::NUMBERS];
        for p in products {
            assert_eq!(add(&mut report, black_box(&p.bytes)), Ok(None));
        }
        assert_eq!(report[1..=8].iter().sum::<u64>(), records as u64);
    };
    let all = rounds(
        runs,
        1,
        vec![
            ("verdicts fast", Box::new(|| products.iter().for_each(|p| assert!(fast::verdict(black_box(&p.bytes)).is_ok())))),
            ("report", Box::new(|| reported(month::add))),
            #[cfg(feature = "boundary")]
            ("report boundary", Box::new(|| reported(boundary::report_add))),
        ],
    );
    row(what, &all, "report boundary", "report");
}

/// A new watch is fed the bytes in parts of one length; the last answer.
fn watched(bytes: &[u8], length: usize) -> Arrival {
    let mut watch = Watch::new();
    bytes.chunks(length).map(|part| watch.feed(black_box(part))).last().unwrap()
}

#[cfg(feature = "boundary")]
fn watched_boundary(bytes: &[u8], length: usize) -> Arrival {
    let mut watch = boundary::Watch::new();
    bytes.chunks(length).map(|part| watch.feed(black_box(part))).last().unwrap()
}

/// The watches on parts of one length, and the arrival judges on the whole.
fn measure_watch(p: &Product, length: usize, runs: usize, times: usize) {
    let bytes = &p.bytes;
    let waiting = Arrival::Waiting { count: p.starts.len() as u64, end: bytes.len() as u64 };
    let what = &format!("watch, in parts of {length}");
    let all = rounds(
        runs,
        times,
        vec![
            ("arrival fast", Box::new(|| assert_eq!(fast::arrival(black_box(bytes)), waiting))),
            ("watch", Box::new(|| assert_eq!(watched(bytes, length), waiting))),
            #[cfg(feature = "boundary")]
            ("arrival boundary", Box::new(|| assert_eq!(boundary::arrival(black_box(bytes)), waiting))),
            #[cfg(feature = "boundary")]
            ("watch boundary", Box::new(|| assert_eq!(watched_boundary(bytes, length), waiting))),
        ],
    );
    row(what, &all, "watch boundary", "watch");
    row(what, &all, "watch boundary", "arrival boundary");
}

/// The replays of a product in parts of one length, and the writers of its record, beside the watches that are fed the same parts.
fn measure_replay(p: &Product, length: usize, runs: usize, times: usize) {
    let bytes = &p.bytes;
    let waiting = Arrival::Waiting { count: p.starts.len() as u64, end: bytes.len() as u64 };
    let lengths = &bytes.chunks(length).map(|part| part.len() as u32).collect::<Vec<u32>>();
    let size = replay::record_size(lengths.len());
    let room = &RefCell::new(vec![0; size]);
    assert_eq!(replay::record_arrival(lengths, bytes, &mut room.borrow_mut()), Ok(size));
    let record = &room.borrow().clone();
    let what = &format!("replay, in parts of {length}");
    let all = rounds(
        runs,
        times,
        vec![
            ("watch", Box::new(|| assert_eq!(watched(bytes, length), waiting))),
            ("replay", Box::new(|| assert_eq!(replay::replay(record, black_box(bytes)), Ok(None)))),
            ("record", Box::new(|| assert_eq!(replay::record_arrival(lengths, black_box(bytes), &mut room.borrow_mut()), Ok(size)))),
            #[cfg(feature = "boundary")]
            ("watch boundary", Box::new(|| assert_eq!(watched_boundary(bytes, length), waiting))),
            #[cfg(feature = "boundary")]
            ("replay boundary", Box::new(|| assert_eq!(boundary::replay(record, black_box(bytes)), Ok(None)))),
            #[cfg(feature = "boundary")]
            ("record boundary", Box::new(|| assert_eq!(boundary::record_arrival_into(lengths, black_box(bytes), &mut room.borrow_mut()), Ok(size)))),
        ],
    );
    assert!(*room.borrow() == *record);
    row(what, &all, "replay boundary", "replay");
    row(what, &all, "record boundary", "record");
}

/// So many records of 20,480 kinds, or of one kind.
fn kinds(records: usize, size: usize, many: bool) -> Product {
    let class = |k: usize| if many { 4 + (k * 5 / records) as u8 } else { 8 };
    let others = (0..records).map(|k| (class(k), size)).collect();
    let mut p = build(&mut Rng(13), &Shape { first_version: 2, sphr: None, pointers: 0, others, sorted: true, rest: 0 });
    for (k, s) in p.starts[1..].iter().enumerate() {
        let (group, subclass) = if many { (GROUPS[k / 256 % 16], k as u8) } else { (0, 0) };
        p.bytes[s + 1] = group;
        p.bytes[s + 2] = subclass;
    }
    p
}

/// The window that has the first half of the MDRs by their starts.
fn first_half(p: &Product) -> [Option<Time>; 2] {
    let start = |s: &usize| read_header(&p.bytes, *s).ok().filter(|h| h.class == 8).and_then(|h| h.start);
    let mut starts: Vec<(u16, u32)> = p.starts.iter().filter_map(start).map(|t| (t.day, t.milli)).collect();
    starts.sort_unstable();
    [0, (p.starts.len() / 2).min(starts.len() - 1)].map(|k| Some(Time { day: starts[k].0, milli: starts[k].1 }))
}

/// The cuts, and a plain copy of as many bytes as they write.
fn measure_cut(what: &str, p: &Product, [first, last]: [Option<Time>; 2], runs: usize) {
    let bytes = &p.bytes;
    let room = &RefCell::new(vec![0; bytes.len() + 27 * p.starts.len()]);
    let size = cut::cut(bytes, first, last, &mut room.borrow_mut()).unwrap();
    let result = &room.borrow()[..size].to_vec();
    let all = rounds(
        runs,
        1,
        vec![
            ("copy", Box::new(|| room.borrow_mut()[..size].copy_from_slice(black_box(result)))),
            ("cut", Box::new(|| assert_eq!(cut::cut(black_box(bytes), first, last, &mut room.borrow_mut()), Ok(size)))),
            #[cfg(feature = "boundary")]
            ("cut boundary", Box::new(|| assert_eq!(boundary::cut_into(black_box(bytes), first, last, &mut room.borrow_mut()), Ok(size)))),
        ],
    );
    assert!(room.borrow()[..size] == result[..]);
    row(what, &all, "cut boundary", "cut");
    row(what, &all, "cut boundary", "copy");
}

/// The checks of what request Three writes with the window, which is a cut, or of one whose last MDR has another last byte.
fn measure_check(what: &str, p: &Product, [first, last]: [Option<Time>; 2], yes: bool, runs: usize) {
    if left_out("check") && left_out(what) {
        return;
    }
    let original = &p.bytes;
    let mut room = vec![0; original.len() + 27 * p.starts.len()];
    let size = cut::cut(original, first, last, &mut room).unwrap();
    room.truncate(size);
    if !yes {
        room[size - 1] ^= 1;
    }
    let (cut, right) = (&room, check::check(original, &room));
    assert_eq!(right == Ok(None), yes);
    let all = rounds(
        runs,
        1,
        vec![
            ("verdicts fast", Box::new(|| assert!(fast::verdict(black_box(original)).is_ok() && fast::verdict(black_box(cut)).is_ok()))),
            ("check", Box::new(|| assert_eq!(check::check(black_box(original), cut), right))),
            #[cfg(feature = "boundary")]
            ("check boundary", Box::new(|| assert_eq!(boundary::check_cut(black_box(original), cut), right))),
        ],
    );
    row(what, &all, "check boundary", "check");
}

/// A product whose MDRs all have the same header and differ in their last byte alone, but for one in two that is as the one before.
fn equal_headers(mdrs: usize, size: usize) -> Product {
    let mut p = kinds(mdrs, size, false);
    let head: [u8; 20] = p.bytes[p.starts[1]..][..20].try_into().unwrap();
    let payload = p.bytes[p.starts[1] + 20..][..size - 20].to_vec();
    for (k, s) in p.starts[1..].iter().enumerate() {
        p.bytes[*s..s + 20].copy_from_slice(&head);
        p.bytes[s + 20..s + size].copy_from_slice(&payload);
        p.bytes[s + size - 1] = (k / 2) as u8;
    }
    p
}

/// A product that may follow itself: its last MDR ends before every other time, and its counts and durations are small.
fn to_follow_itself(mut p: Product) -> Product {
    let last = *p.starts.last().unwrap();
    p.bytes[last + 8..last + 20].fill(0);
    for line in 64..=70 {
        set_number(&mut p.bytes, line, line as u64);
    }
    p
}

/// The joins of a product with a copy of itself, and a plain copy of as many bytes as they write.
fn measure_join(what: &str, make: impl Fn() -> Product, runs: usize, times: usize) {
    if left_out("join") && left_out(what) {
        return;
    }
    let p = to_follow_itself(make());
    let (first, second) = (&p.bytes, &p.bytes.clone());
    let room = &RefCell::new(vec![0; 2 * first.len() + 27 * p.starts.len()]);
    let size = join::join(Rule::Identical, first, second, &mut room.borrow_mut()).unwrap();
    let result = &room.borrow()[..size].to_vec();
    let all = rounds(
        runs,
        times,
        vec![
            ("copy", Box::new(|| room.borrow_mut()[..size].copy_from_slice(black_box(result)))),
            ("verdicts fast", Box::new(|| assert_eq!(fast::verdict(black_box(first)), fast::verdict(black_box(second))))),
            ("join", Box::new(|| assert_eq!(join::join(Rule::Identical, black_box(first), second, &mut room.borrow_mut()), Ok(size)))),
            #[cfg(feature = "boundary")]
            ("verdicts boundary", Box::new(|| assert_eq!(boundary::extent(black_box(first)), boundary::extent(black_box(second))))),
            #[cfg(feature = "boundary")]
            ("join boundary", Box::new(|| assert_eq!(boundary::join_into(black_box(first), second, &mut room.borrow_mut()), Ok(size)))),
            #[cfg(feature = "boundary")]
            ("join pass boundary", Box::new(|| assert_eq!(boundary::join_pass_into(black_box(first), second, &mut room.borrow_mut()), Ok(size)))),
        ],
    );
    assert!(room.borrow()[..size] == result[..]);
    row(what, &all, "join boundary", "join");
    row(what, &all, "join pass boundary", "join boundary");
}

/// Half of the records GEADRs, half MDRs.
fn half_global(records: usize, size: usize) -> Product {
    let others = (0..records).map(|k| (if k < records / 2 { 4 } else { 8 }, size)).collect();
    build(&mut Rng(15), &Shape { first_version: 2, sphr: Some(5000), pointers: 64, others, sorted: true, rest: 0 })
}

/// How the pointers of a hostile product name its records, which are as short as may be.
#[cfg(feature = "boundary")]
#[derive(Clone, Copy, Debug)]
enum Order {
    Shuffled,
    Descending,
    Cycling,
}

/// So many pointers before so many records.
#[cfg(feature = "boundary")]
fn hostile(pointers: usize, records: usize, order: Order) -> Product {
    let mut p = large(17, records, 20, pointers, true);
    let targets = p.starts[1 + pointers..].to_vec();
    let mut places: Vec<usize> = (0..pointers).map(|k| k % records).collect();
    let mut rng = Rng(18);
    match order {
        Order::Shuffled => (1..pointers).rev().for_each(|k| places.swap(k, rng.below(k + 1))),
        Order::Descending => places.reverse(),
        Order::Cycling => {}
    }
    for (s, k) in p.pointers.iter().zip(places) {
        p.bytes[s + 23..s + 27].copy_from_slice(&(targets[k] as u32).to_be_bytes());
    }
    name_targets(&mut p);
    p
}

/// The greatest seconds that any product may take any of the judges and writers.
#[cfg(feature = "boundary")]
const HOSTILE_BAR: f64 = 0.5;

/// Every judge and writer that walks a product, once each and the least of three; the slowest of them is the row.
#[cfg(feature = "boundary")]
fn measure_hostile(pointers: usize, records: usize, order: Order) {
    let p = to_follow_itself(hostile(pointers, records, order));
    let (bytes, again) = (&p.bytes, &p.bytes.clone());
    let count = Ok(p.starts.len() as u64);
    let rows = &RefCell::new(vec![[0; 7]; p.starts.len()]);
    let room = &RefCell::new(vec![0; 2 * bytes.len() + 27 * p.starts.len()]);
    let all = [Some(Time { day: 0, milli: 0 }), Some(Time { day: 65_535, milli: 86_399_999 })];
    let figures = rounds(
        3,
        1,
        vec![
            ("verdict fast", Box::new(|| assert_eq!(fast::verdict(black_box(bytes)), count))),
            ("verdict", Box::new(|| assert_eq!(boundary::verdict(black_box(bytes)), count))),
            ("rows", Box::new(|| assert_eq!(boundary::rows(black_box(bytes), &mut rows.borrow_mut()), count))),
            ("arrival", Box::new(|| assert!(matches!(boundary::arrival(black_box(bytes)), Arrival::Waiting { .. })))),
            ("report", Box::new(|| assert_eq!(boundary::report_add(&mut [0; month::NUMBERS], black_box(bytes)), Ok(None)))),
            ("cut", Box::new(|| assert!(boundary::cut_into(black_box(bytes), all[0], all[1], &mut room.borrow_mut()).is_ok()))),
            // Twice as many records as may be are refused, after both were judged.
            (
                "join",
                Box::new(|| assert!(boundary::join_into(black_box(bytes), again, &mut room.borrow_mut()).map_or_else(|r| r.number == 28, |n| n > 0))),
            ),
        ],
    );
    let least = |series: &Series| series.sorted()[0] / 1e6;
    let (slowest, most) = figures[1..].iter().map(|series| (series.name, least(series))).max_by(|a, b| a.1.total_cmp(&b.1)).unwrap();
    let judged = if most <= HOSTILE_BAR { "met" } else { "MISSED" };
    println!(
        "{:46} verdict {:.4} s, Rust {:.4} s; slowest {slowest} {most:.4} s   bar {HOSTILE_BAR:.2} s {judged}",
        format!("hostile, {pointers} {order:?} over {records}"),
        least(&figures[1]),
        least(&figures[0])
    );
}

/// Lookups of a sort of names.
fn measure_lookup(what: &str, names: &[Vec<u8>], runs: usize) {
    let what = &format!("lookup, {what}, {} names a thousand times", names.len());
    let all = rounds(
        runs,
        1,
        vec![
            ("match", Box::new(|| looked_up(names, |name| lookup::field_named(name).unwrap_or(99)))),
            #[cfg(feature = "boundary")]
            ("lookup boundary", Box::new(|| looked_up(names, |name| boundary::raw::field_named(name)[2] as usize))),
        ],
    );
    row(what, &all, "lookup boundary", "match");
}

fn looked_up(names: &[Vec<u8>], find: impl Fn(&[u8]) -> usize) {
    let mut sum = 0;
    for _ in 0..1000 {
        for name in names {
            sum += find(black_box(name));
        }
    }
    black_box(sum);
}

/// A humidity file of so many segments, each of as many blocks.
fn humidity(segments: u32, blocks: u32) -> Vec<u8> {
    let mut rng = Rng(14);
    let mut bytes = vec![b' '; 642];
    bytes[614..618].copy_from_slice(&segments.to_be_bytes());
    for k in 0..segments {
        let mut segment = vec![0; 36 + 72 * blocks as usize];
        for (at, value) in [(0, 1 + k / 80 % 80), (4, 1 + k % 80), (32, blocks)] {
            segment[at..at + 4].copy_from_slice(&value.to_be_bytes());
        }
        for block in segment[36..].chunks_mut(72) {
            let csr = if rng.one_in(4) { f32::NAN } else { 230.0 + rng.below(400) as f32 / 10.0 };
            block[8..12].copy_from_slice(&(rng.below(1000) as f32 / 10.0).to_be_bytes());
            block[12..16].copy_from_slice(&csr.to_be_bytes());
        }
        bytes.extend(segment);
    }
    bytes
}

fn measure_uth(segments: u32, blocks: u32, runs: usize, times: usize) {
    let bytes = &humidity(segments, blocks);
    let n = (segments * blocks) as usize;
    let rooms = &RefCell::new((vec![[0; 4]; n], vec![[0.0; 2]; n]));
    let what = &format!("uth, {segments} segments of {blocks} blocks");
    let all = rounds(
        runs,
        times,
        vec![
            ("uth", Box::new(|| assert_eq!(into(rooms, |b, v| uth::read(black_box(bytes), b, v)), Ok(n)))),
            #[cfg(feature = "boundary")]
            ("uth boundary", Box::new(|| assert_eq!(into(rooms, |b, v| boundary::read_uth(black_box(bytes), b, v)), Ok(n)))),
        ],
    );
    row(what, &all, "uth boundary", "uth");
}

fn into<T>(rooms: &RefCell<(Vec<[u32; 4]>, Vec<[f32; 2]>)>, reader: impl FnOnce(&mut [[u32; 4]], &mut [[f32; 2]]) -> T) -> T {
    let (blocks, values) = &mut *rooms.borrow_mut();
    reader(blocks, values)
}

fn main() {
    let runs = std::env::var("RUNS").ok().and_then(|n| n.parse().ok()).unwrap_or(15).max(9);
    measure("even", || even(64, false), runs, 1);
    measure("long", || large(8, 300, 100 << 10, 0, true), runs, 100);
    measure("pointers", || large(9, 20_000, 335, 20_000, true), runs, 1);
    // Not asked for: sizes that cannot be guessed, and a product that is hardly more than its main header.
    measure("uneven", || even(64, true), runs, 1);
    measure("small", || large(11, 1, 21, 0, true), runs, 1000);
    measure("one kind", || kinds(100_000, 335, false), runs, 1);
    measure("20,480 kinds", || kinds(100_000, 335, true), runs, 1);
    // The other path: targets that descend.
    measure("scattered", || large(10, 20_000, 335, 20_000, false), runs, 1);
    if !left_out("verdict") {
        measure_verdict("verdict, even", &even(64, false), runs, 1);
        measure_verdict("verdict, uneven", &even(64, true), runs, 1);
        measure_verdict("verdict, long", &large(8, 300, 100 << 10, 0, true), runs, 100);
        measure_verdict("verdict, pointers in order", &large(9, 20_000, 335, 20_000, true), runs, 1);
        measure_verdict("verdict, pointers in no order", &large(10, 20_000, 335, 20_000, false), runs, 1);
        // As many pointers and records as TOTAL_RECORDS can say.
        measure_verdict("verdict, 499,999 pointers in no order", &large(16, 499_999, 20, 499_999, false), runs, 1);
        measure_verdict("verdict, small", &large(11, 0, 20, 0, true), runs, 1000);
    }
    #[cfg(feature = "boundary")]
    if !left_out("hostile") {
        for pointers in [20_000, 100_000, 499_999] {
            measure_hostile(pointers, pointers, Order::Shuffled);
            measure_hostile(pointers, pointers, Order::Descending);
            for records in [390, 1_560, 3_880] {
                measure_hostile(pointers, records, Order::Cycling);
            }
        }
        // As many pointers as TOTAL_RECORDS leaves room for.
        for (pointers, records) in [(998_000, 390), (998_000, 1_560), (995_000, 3_880)] {
            measure_hostile(pointers, records, Order::Cycling);
        }
    }
    if !left_out("level0") {
        measure_level0("level0, even", even(64, false), runs);
        measure_level0("level0, uneven", even(64, true), runs);
    }
    if !left_out("month") {
        let products: Vec<Product> = (0..4096).map(|seed| large(seed, 99, 100, 0, true)).collect();
        measure_month("month", &products, runs);
        measure_month("month, one product", &[even(64, false)], runs);
    }
    if !left_out("watch") {
        let p = even(64, false);
        measure_watch(&p, 64 << 10, runs, 1);
        measure_watch(&p, 1500, runs, 1);
        // The main header a byte at a time.
        let p = large(12, 0, 20, 0, true);
        measure_watch(&p, 1, runs, 100);
        let p = even_of(1 << 20, 3_000, 64, false);
        measure_watch(&p, 1, runs, 1);
    }
    if !left_out("replay") {
        let p = even(64, false);
        measure_replay(&p, 64 << 10, runs, 1);
        measure_replay(&p, 1500, runs, 1);
        measure_replay(&even_of(1 << 20, 3_000, 64, false), 1, runs, 1);
    }
    if !left_out("lookup") {
        for (what, names) in &lookup::names() {
            measure_lookup(what, names, runs);
        }
    }
    if !left_out("uth") {
        measure_uth(6_400, 1, runs, 20);
        measure_uth(1, 6_400, runs, 20);
        measure_uth(64, 1, runs, 1000);
    }
    if !left_out("cut") {
        let p = even(64, false);
        measure_cut("cut, half of the MDRs", &p, first_half(&p), runs);
        for many in [false, true] {
            let p = kinds(20_480, 335, many);
            let all = [Some(Time { day: 0, milli: 0 }), Some(Time { day: 65_535, milli: 86_399_999 })];
            measure_cut(if many { "cut, 20,480 kinds" } else { "cut, one kind" }, &p, all, runs);
        }
    }
    measure_join("join, 16 MiB", || even_of(16 << 20, 50_000, 64, false), runs, 1);
    measure_join("join, uneven", || even_of(16 << 20, 50_000, 64, true), runs, 1);
    measure_join("join, half global", || half_global(50_000, 335), runs, 1);
    measure_join("join, one kind", || kinds(20_480, 335, false), runs, 1);
    measure_join("join, 20,480 kinds", || kinds(20_480, 335, true), runs, 1);
    measure_join("join, small", || large(11, 1, 21, 0, true), runs, 100);
    if !left_out("check") {
        let all = [Some(Time { day: 0, milli: 0 }), Some(Time { day: 65_535, milli: 86_399_999 })];
        let p = even(64, false);
        measure_check("check, half of the MDRs", &p, first_half(&p), true, runs);
        measure_check("check, all of them", &p, all, true, runs);
        measure_check("check, the last changed", &p, all, false, runs);
        let p = even(64, true);
        measure_check("check, uneven", &p, first_half(&p), true, runs);
        let p = equal_headers(100_000, 335);
        measure_check("check, equal headers, the last changed", &p, all, false, runs);
    }
}
