//! Plain and fast agree, on generated cases and with the vectors.
use outside::generate::{build, damage, prefix, product, shape, Made, Rng};
use outside::leaves::read_header;
use outside::{fast, leap, plain, seen, vectors, Arrival, Finished, Row};

fn cases() -> usize {
    seen::cases(200_000)
}

const KEPT: [u32; 7] = [0xdead_beef; 7];

/// Whether a record of an accepted product has a time in a leap second.
fn has_leap_second(bytes: &[u8], rows: &[Row]) -> bool {
    let headers = rows.iter().map(|[s, ..]| read_header(bytes, *s as usize).unwrap());
    headers.flat_map(|h| [h.start, h.stop]).flatten().any(|t| t.milli > leap::USUAL_LAST_MILLI)
}

#[test]
fn generated() {
    let mut rng = Rng(1);
    let (mut arrivals, mut finishes, mut waits, mut accepts) = ([0u32; 24], [0u32; 24], 0, 0);
    let (mut unlike_row, mut leap_seconds) = (0, 0);
    // (given, beaten) of faults shown at one length
    let mut ties = std::collections::BTreeMap::<(u64, u64), u32>::new();
    for n in 0..cases() {
        let (p, made) = product(&mut rng, n);
        let bytes = &p.bytes[..prefix(&mut rng, &p)];
        let (a, b) = (plain::arrival(bytes), fast::arrival(bytes));
        assert_eq!(a, b, "arrival {n} {made:?} at {}", bytes.len());
        match a {
            Arrival::Refused { number, .. } => arrivals[number as usize] += 1,
            Arrival::Waiting { .. } => waits += 1,
        }
        if let (Made::Row(row), Arrival::Refused { number, .. }) = (made, a) {
            unlike_row += (row as u64 != number) as u32;
        }
        let mut shown: Vec<_> = plain::findings(bytes).faults.into_iter().filter(|f| f.shown <= bytes.len() as u64).collect();
        shown.sort_unstable();
        for f in shown.iter().skip(1).filter(|f| f.shown == shown[0].shown) {
            *ties.entry((shown[0].number, f.number)).or_default() += 1;
        }
        let count = p.starts.len();
        for room in [count, [0, count - 1, count + 1, 60][n % 4]] {
            let (mut i, mut j) = (vec![KEPT; room], vec![KEPT; room]);
            let (a, b) = (plain::finished(bytes, &mut i), fast::finished(bytes, &mut j));
            assert_eq!(a, b, "finished {n} {made:?} at {} room {room}", bytes.len());
            assert_eq!(i, j, "rows {n} {made:?} at {} room {room}", bytes.len());
            match a {
                Finished::Refused { number, .. } => {
                    finishes[number as usize] += 1;
                    assert!(j.iter().all(|x| *x == KEPT));
                }
                Finished::Accepted { count } => {
                    accepts += 1;
                    leap_seconds += has_leap_second(bytes, &i[..count as usize]) as u32;
                }
            }
        }
    }
    println!("cases {}: waiting {waits}, accepted {accepts}, of a row but refused by another number {unlike_row}", cases());
    println!("accepted with a leap second: {leap_seconds}");
    println!("arrival refusals by number  {arrivals:?}");
    println!("finished refusals by number {finishes:?}");
    println!("ties (given, beaten): {ties:?}");
    if cases() >= 20_000 {
        assert!((1..=16).all(|k| arrivals[k] > 0) && (1..=18).all(|k| finishes[k] > 0) && leap_seconds > 0);
    }
}

/// Some products at every length from before the main header's end on.
#[test]
fn every_length() {
    let mut rng = Rng(2);
    let mut judged = 0;
    for n in 0..cases() / 1000 {
        let (p, made) = product(&mut rng, n);
        for l in 3300.min(p.bytes.len())..=p.bytes.len() {
            let bytes = &p.bytes[..l];
            assert_eq!(plain::arrival(bytes), fast::arrival(bytes), "arrival {n} {made:?} at {l}");
            judged += 1;
        }
    }
    println!("every length: {judged} lengths");
}

/// Hundreds of pointers, in order and not, with some of them moved.
#[test]
fn many_pointers() {
    let mut rng = Rng(3);
    let (mut by, mut waits) = ([0u32; 24], 0);
    for n in 0..cases() / 500 {
        let mut s = shape(&mut rng);
        s.others = (0..100 + rng.below(300)).map(|_| (8, 20 + rng.below(30))).collect();
        s.pointers = 100 + rng.below(300);
        let mut p = build(&mut rng, &s);
        for _ in 0..rng.below(4) {
            let k = rng.below(p.starts.len());
            damage(&mut rng, &mut p, 12 + n % 3, k);
        }
        for l in [p.bytes.len(), 3307 + rng.below(p.bytes.len() - 3306)] {
            let bytes = &p.bytes[..l];
            let a = plain::arrival(bytes);
            assert_eq!(a, fast::arrival(bytes), "arrival {n} at {l}");
            match a {
                Arrival::Refused { number, .. } => by[number as usize] += 1,
                Arrival::Waiting { .. } => waits += 1,
            }
        }
    }
    println!("many pointers: waiting {waits}, refused {by:?}");
}

#[test]
fn every_vector() {
    let products = vectors::products();
    let text = std::fs::read_to_string(vectors::file("judge/expected.txt")).unwrap();
    let mut lines = text.lines().peekable();
    let mut prefixes = 0usize;
    for (n, bytes) in products.iter().enumerate() {
        let len = bytes.len();
        let mut ours = vec![format!("product {n} {len}")];
        let (mut i, mut j) = (vec![KEPT; len / 20 + 1], vec![KEPT; len / 20 + 1]);
        let finished = plain::finished(bytes, &mut i);
        assert_eq!(finished, fast::finished(bytes, &mut j), "product {n}");
        assert_eq!(i, j, "product {n}");
        ours.push(match finished {
            Finished::Refused { number, place } => format!("finished refused {number} {place}"),
            Finished::Accepted { count } => format!("finished accepted {count}"),
        });
        let mut last = None;
        for l in 0..=len {
            let a = plain::arrival(&bytes[..l]);
            assert_eq!(a, fast::arrival(&bytes[..l]), "product {n} at {l}");
            prefixes += 1;
            if last != Some(a) {
                ours.push(match a {
                    Arrival::Refused { number, place } => {
                        format!("at {l} refused {number} {place}")
                    }
                    Arrival::Waiting { count, end } => format!("at {l} waiting {count} {end}"),
                });
            }
            last = Some(a);
        }
        let mut theirs = vec![lines.next().unwrap().to_string()];
        while let Some(line) = lines.next_if(|l| !l.starts_with("product ")) {
            theirs.push(line.to_string());
        }
        assert_eq!(ours, theirs, "product {n}");
    }
    assert!(lines.next().is_none());
    println!("vectors: {} products, {prefixes} prefixes", products.len());
}

/// The products of request Two at every length.
#[test]
fn two() {
    for case in vectors::two() {
        let (bytes, name) = (&case.bytes, &case.name);
        for l in 0..=bytes.len() {
            let right = case.arrival(l);
            assert_eq!(plain::arrival(&bytes[..l]), right, "plain, {name} at {l}");
            assert_eq!(fast::arrival(&bytes[..l]), right, "fast, {name} at {l}");
        }
        let (mut i, mut j) = (vec![KEPT; bytes.len() / 20], vec![KEPT; bytes.len() / 20]);
        assert_eq!(plain::finished(bytes, &mut i), case.finished, "plain, {name}");
        assert_eq!(fast::finished(bytes, &mut j), case.finished, "fast, {name}");
        assert_eq!(i, j, "{name}");
    }
}
