//! Request Eight: products that differ in payload alone, the bytes beyond the first 20 of records of classes 2 and 4 to 8, get the same answers of
//! every reader, whole and part by part; a cut of the one is the cut of the other but for payload, and so is a join. With the feature, so it is at the boundary.
use outside::generate::{build, follower, part, product, put_own_times, shape, Product, Rng};
use outside::join::{join, Rule};
use outside::leaves::{self, read_header};
use outside::lines::MAIN_SIZE;
use outside::seen::cases;
use outside::values::{Refusal, Time, Which};
use outside::{plain, Finished};

/// The bytes of each record after the main header, with its class.
fn records(bytes: &[u8]) -> Vec<(u8, std::ops::Range<usize>)> {
    let (mut at, mut all) = (MAIN_SIZE, Vec::new());
    while at < bytes.len() {
        let header = read_header(bytes, at).unwrap();
        all.push((header.class, at..at + header.size as usize));
        at += header.size as usize;
    }
    all
}

/// The places of the payload of an accepted product.
fn payload(bytes: &[u8]) -> Vec<usize> {
    records(bytes).into_iter().filter(|(class, _)| *class != 3).flat_map(|(_, r)| r.start + 20..r.end).collect()
}

/// The product without its payload.
fn blank(bytes: &[u8]) -> Vec<u8> {
    let mut kept = bytes.to_vec();
    payload(bytes).into_iter().for_each(|j| kept[j] = 0);
    kept
}

/// How a product is asked: where its parts end, the rooms that are lent, the window of a cut.
struct Asked {
    ends: Vec<usize>,
    rows: [usize; 3],
    text: [usize; 3],
    window: [Option<Time>; 2],
}

fn asked(rng: &mut Rng, p: &Product) -> Asked {
    let (mut ends, mut at) = (Vec::new(), 0);
    while at < p.bytes.len() {
        // After eight parts the rest comes as one.
        at = if ends.len() < 8 { at + part(rng, p, at) } else { p.bytes.len() };
        ends.push(at);
    }
    let count = p.starts.len();
    let mut text = vec![0; 131_072];
    let listing = leaves::listing(&p.bytes, &mut text).unwrap_or(0);
    let near = read_header(&p.bytes, rng.pick(&p.starts)).ok().and_then(|h| h.start);
    let window = if rng.one_in(2) { [near, near] } else { [Some(Time { day: 0, milli: 0 }), Some(Time { day: 65_535, milli: 86_399_999 })] };
    Asked { ends, rows: [count.saturating_sub(1), count, count + 2], text: [listing.saturating_sub(1), listing, listing + 5], window }
}

/// What a judge says of a product and of each part of it, with every row that is lent.
macro_rules! judged {
    ($name:ident, $judge:path, $watch:path) => {
        fn $name(bytes: &[u8], asked: &Asked) -> Vec<String> {
            use $judge as judge;
            use $watch as Watch;
            let (mut all, mut watch, mut at) = (vec![format!("{:?}", judge::arrival(bytes))], Watch::new(), 0);
            for end in &asked.ends {
                all.push(format!("{:?} {:?}", judge::arrival(&bytes[..*end]), watch.feed(&bytes[at..*end])));
                at = *end;
            }
            for room in asked.rows {
                let mut rows = vec![[7; 7]; room];
                all.push(format!("{:?}", judge::rows(bytes, &mut rows)));
                all.push(format!("{rows:?}"));
            }
            all
        }
    };
}

/// What each query says, the listing and the cut, with every byte that is lent; a cut without its payload.
macro_rules! queried {
    ($name:ident, $m:path, $cut:path) => {
        fn $name(bytes: &[u8], asked: &Asked) -> Vec<String> {
            use $cut as cut_into;
            use $m as m;
            let mut all = vec![format!("{:?}", m::extent(bytes))];
            all.extend(asked.ends.iter().map(|end| format!("{:?}", m::extent(&bytes[..*end]))));
            for room in asked.text {
                let mut text = vec![0xa5; room];
                all.push(format!("{:?}", m::listing(bytes, &mut text)));
                all.push(format!("{text:?}"));
            }
            all.extend((0..asked.rows[1] + 2).map(|k| format!("{:?}", m::record(bytes, k))));
            for k in 0..74 {
                all.push(format!("{:?} {:?} {:?}", m::number_field(bytes, k), m::time_field(bytes, k), m::text_field(bytes, k)));
            }
            all.push(format!("{:?} {:?}", m::ground_point(bytes, Which::Start), m::ground_point(bytes, Which::End)));
            let mut room = vec![0; bytes.len() + 27 * asked.rows[1]];
            let written = cut_into(bytes, asked.window[0], asked.window[1], &mut room);
            all.push(format!("{written:?} {:?}", written.map(|n| blank(&room[..n]))));
            all
        }
    };
}

judged!(plainly, outside::plain, outside::watch::Watch);
judged!(quickly, outside::fast, outside::watch::Watch);
queried!(read, outside::leaves, outside::cut::cut);
#[cfg(feature = "boundary")]
judged!(judged_at_boundary, outside::boundary, outside::boundary::Watch);
#[cfg(feature = "boundary")]
queried!(read_at_boundary, outside::boundary, outside::boundary::cut_into);

fn all_answers(bytes: &[u8], asked: &Asked) -> Vec<String> {
    let (mut all, read) = (plainly(bytes, asked), read(bytes, asked));
    assert_eq!(all, quickly(bytes, asked));
    #[cfg(feature = "boundary")]
    {
        assert_eq!(all, judged_at_boundary(bytes, asked));
        assert_eq!(read, read_at_boundary(bytes, asked));
    }
    all.extend(read);
    all
}

/// Other bytes in the payload: all of it, some of it, one byte, or the bytes at its edges.
fn change(rng: &mut Rng, bytes: &mut [u8], places: &[usize]) {
    let edges: Vec<usize> =
        records(bytes).into_iter().filter(|(class, r)| *class != 3 && r.len() > 20).flat_map(|(_, r)| [r.start + 20, r.end - 1]).collect();
    let chosen: Vec<usize> = match rng.below(4) {
        0 => places.to_vec(),
        1 => places.iter().copied().filter(|_| rng.one_in(3)).collect(),
        2 => edges,
        _ => vec![rng.pick(places)],
    };
    for j in chosen {
        let any = rng.below(256) as u8;
        bytes[j] = rng.pick(&[bytes[j] ^ 0xff, any, 0, 3, 10]);
    }
}

#[test]
fn generated() {
    let mut rng = Rng(8);
    let (mut products, mut changed, mut told, mut tried) = (0, 0, 0, 0);
    while products < cases(20_000) {
        let made = shape(&mut rng);
        let p = build(&mut rng, &made);
        let places = payload(&p.bytes);
        let verdict = plain::finished(&p.bytes, &mut vec![[0; 7]; p.starts.len()]);
        assert_eq!(verdict, Finished::Accepted { count: p.starts.len() as u64 });
        if places.is_empty() {
            continue;
        }
        products += 1;
        let asked = asked(&mut rng, &p);
        let mut other = p.bytes.clone();
        change(&mut rng, &mut other, &places);
        assert!(blank(&other) == blank(&p.bytes));
        changed += (0..other.len()).filter(|j| other[*j] != p.bytes[*j]).count();
        let right = all_answers(&p.bytes, &asked);
        assert_eq!(right, all_answers(&other, &asked), "product {products}");
        // A byte that is not payload shows: the last of a header, or one of a pointer's target.
        if rng.one_in(10) {
            let last = records(&p.bytes).pop().unwrap().1.start;
            let j = p.pointers.first().map_or(last + 19, |i| i + 20 + rng.below(7));
            let mut other = p.bytes.clone();
            other[j] ^= 1;
            let asked = Asked { window: [None; 2], ..asked };
            tried += 1;
            told += (plainly(&other, &asked) != plainly(&p.bytes, &asked) || read(&other, &asked) != read(&p.bytes, &asked)) as usize;
        }
    }
    println!("{products} products, {changed} bytes of payload changed, no answer moved; of {tried} other bytes {told} moved one");
    assert!(told > tried / 2);
}

/// Both joins without their payload, or the refusals.
fn joins_of(first: &[u8], second: &[u8]) -> [Result<Vec<u8>, Refusal>; 2] {
    let mut room = vec![0; 2 * (first.len() + second.len())];
    let answers = [Rule::Identical, Rule::Pass].map(|rule| join(rule, first, second, &mut room).map(|n| blank(&room[..n])));
    #[cfg(feature = "boundary")]
    {
        use outside::boundary;
        let theirs = [boundary::join(first, second), boundary::join_pass(first, second)];
        assert_eq!(theirs.map(|answer| answer.map(|bytes| blank(&bytes))), answers);
    }
    answers
}

/// 26 compares the SPHR and the global records whole, so their payload is left as it is, but for a few pairs, of which it must tell some.
#[test]
fn joins() {
    let mut rng = Rng(87);
    let (mut written, mut refused, mut unlike) = (0, 0, 0);
    for _ in 0..cases(20_000) / 4 {
        let before = product(&mut rng, 0).0;
        let mut after = follower(&mut rng, &before);
        if rng.one_in(2) {
            put_own_times(&mut rng, &mut after);
        }
        let (second, first) = (after.bytes, before.bytes);
        let right = joins_of(&first, &second);
        let free =
            |bytes: &[u8]| records(bytes).into_iter().filter(|(class, _)| *class >= 6).flat_map(|(_, r)| r.start + 20..r.end).collect::<Vec<_>>();
        let mut others = [first.clone(), second.clone()];
        for bytes in &mut others {
            for j in free(bytes) {
                bytes[j] ^= rng.below(256) as u8;
            }
        }
        assert!(joins_of(&others[0], &others[1]) == right);
        written += right.iter().filter(|answer| answer.is_ok()).count();
        refused += right.iter().filter(|answer| answer.is_err()).count();
        if let Some(j) = payload(&first).first().filter(|j| !free(&first).contains(j)) {
            others[0][*j] ^= 1;
            let told = joins_of(&others[0], &others[1]);
            unlike += told.iter().filter(|answer| **answer == Err(Refusal { number: 26, place: 0 })).count();
        }
    }
    println!(
        "{written} joins written and {refused} refused, before and after alike; {unlike} refused with 26 where a fixed record's payload was changed"
    );
    assert!(written > refused && unlike > 0);
}
