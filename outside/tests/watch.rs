//! The watch agrees after every part with what is right for it, however an arrival is cut; with the feature, so does that of the boundary.
use outside::generate::{build, part, product_to_watch, set_number, shape, Rng};
use outside::lines::SIZE_LINE;
use outside::plain::{findings, shown_to_watch, watched};
use outside::seen::{cases, Seen};
use outside::values::Refusal;
use outside::watch::Watch;
use outside::{fast, plain, vectors, Arrival};
use std::collections::BTreeMap;

/// The watches that are tried, fed side by side.
struct Watches {
    watch: Watch,
    #[cfg(feature = "boundary")]
    boundary: outside::boundary::Watch,
}

impl Watches {
    fn new() -> Watches {
        Watches {
            watch: Watch::new(),
            #[cfg(feature = "boundary")]
            boundary: outside::boundary::Watch::new(),
        }
    }

    /// Each gives the right answer. A part of no bytes changes nothing.
    #[track_caller]
    fn feed(&mut self, part: &[u8], right: Arrival, what: &str) {
        let before = part.is_empty().then(|| self.watch.clone());
        assert_eq!(self.watch.feed(part), right, "{what}");
        assert!(before.is_none_or(|b| b == self.watch), "a part of no bytes: {what}");
        #[cfg(feature = "boundary")]
        self.feed_boundary(part, right, what);
    }

    #[cfg(feature = "boundary")]
    #[track_caller]
    fn feed_boundary(&mut self, part: &[u8], right: Arrival, what: &str) {
        let before = part.is_empty().then(|| self.boundary.clone());
        assert_eq!(self.boundary.feed(part), right, "wl_watch_feed: {what}");
        assert_eq!(self.boundary.answer(), right, "wl_watch_feed: {what}");
        assert!(before.is_none_or(|b| b == self.boundary), "wl_watch_feed, a part of no bytes: {what}");
    }
}

fn note(seen: &mut Seen, answer: Arrival) {
    let answer = match answer {
        Arrival::Refused { number, place } => Err(Refusal { number, place }),
        Arrival::Waiting { count, .. } => Ok(count),
    };
    seen.note(&answer, |count| if *count == 0 { "none whole" } else { "some whole" });
}

/// Where the bytes have no 65th IPR, what is right for the watch is what is right for the arrival judge. Counts which number is given where 24
/// and another are shown first and at one length.
fn compare_tables(bytes: &[u8], meetings: &mut BTreeMap<(u64, u64), usize>) {
    let found = findings(bytes);
    if found.iprs.len() <= 64 {
        let right = watched(bytes);
        assert_eq!(right, plain::arrival(bytes));
        assert_eq!(right, fast::arrival(bytes));
        return;
    }
    let shown = shown_to_watch(&found, bytes.len());
    for f in shown.iter().skip(1).filter(|f| f.shown == shown[0].shown && (f.number == 24 || shown[0].number == 24)) {
        *meetings.entry((shown[0].number, f.number)).or_default() += 1;
    }
}

#[test]
fn generated() {
    let mut rng = Rng(24);
    let (mut seen, mut meetings, mut by_iprs) = (Seen::of("watch, after each part"), BTreeMap::new(), BTreeMap::<usize, usize>::new());
    for n in 0..cases(200_000) {
        let (p, made) = product_to_watch(&mut rng, n);
        *by_iprs.entry(p.pointers.len()).or_default() += 1;
        let (bytes, len) = (p.bytes.clone(), p.bytes.len());
        let (mut watches, mut at, mut refused) = (Watches::new(), 0, 0);
        loop {
            // Four parts are cut after a refusal, the rest comes as one.
            let next = if refused < 4 { at + part(&mut rng, &p, at) } else { len };
            let right = watched(&bytes[..next]);
            watches.feed(&p.bytes[at..next], right, &format!("arrival {n} {made:?} from {at} to {next}"));
            note(&mut seen, right);
            refused += matches!(right, Arrival::Refused { .. }) as usize;
            at = next;
            if at == len && rng.one_in(2) {
                break;
            }
        }
        assert_eq!(p.bytes, bytes, "the fed bytes of arrival {n}");
        compare_tables(&bytes, &mut meetings);
    }
    println!("{} arrivals, by their IPRs {by_iprs:?}; 24 meets others (given, beaten): {meetings:?}", cases(200_000));
    let refusals: Vec<u64> = (1..=16).chain([24]).collect();
    seen.complete(&["none whole", "some whole"], &refusals);
    if cases(200_000) >= 20_000 {
        let expected = [(7, 24), (8, 24), (9, 24), (10, 24), (11, 24), (24, 13), (24, 14)];
        assert!(meetings.keys().eq(&expected), "{meetings:?}");
        assert!([63, 64, 65, 66, 70].iter().all(|n| by_iprs.contains_key(n)));
    }
}

fn word(answer: Arrival) -> String {
    match answer {
        Arrival::Refused { number, place } => format!("[refused,{number},{place}]"),
        Arrival::Waiting { count, end } => format!("[waiting,{count},{end}]"),
    }
}

#[test]
fn request_vectors() {
    let products = vectors::request_products();
    let mut seen = Seen::of("watch, the request's vectors");
    for case in vectors::cases("requests/one.jsonl", 207) {
        let bytes = &products[case.get("product").unwrap().number() as usize];
        let [lengths, answers] = ["lengths", "answers"].map(|key| case.get(key).unwrap().list());
        assert_eq!(lengths.len(), answers.len());
        let (mut watches, mut at) = (Watches::new(), 0);
        for (length, answer) in lengths.iter().zip(answers) {
            let next = at + length.number() as usize;
            let right = watched(&bytes[..next]);
            let what = format!("{} from {at} to {next}", case.get("name").unwrap());
            assert_eq!(word(right), answer.to_string(), "{what}");
            watches.feed(&bytes[at..next], right, &what);
            note(&mut seen, right);
            at = next;
        }
        assert_eq!(at, bytes.len());
    }
    let refusals: Vec<u64> = (1..=16).chain([24]).collect();
    seen.complete(&["none whole", "some whole"], &refusals);
}

/// The judge's vectors, a byte at a time.
#[test]
fn judge_vectors() {
    let (mut bytes, mut known) = (0, 0);
    for (n, product) in vectors::products().iter().enumerate() {
        let many = findings(product).iprs.len() > 64;
        let mut watches = Watches::new();
        for l in 1..=product.len() {
            let right = if many { watched(&product[..l]) } else { fast::arrival(&product[..l]) };
            watches.feed(&product[l - 1..l], right, &format!("product {n} at {l}"));
        }
        bytes += product.len();
        known += !many as usize;
    }
    println!("watch: {bytes} parts of one byte; {known} products of at most 64 IPRs");
}

/// The products of request Two, a byte at a time.
#[test]
fn two() {
    for case in vectors::two() {
        let mut watches = Watches::new();
        for l in 1..=case.bytes.len() {
            watches.feed(&case.bytes[l - 1..l], case.arrival(l), &format!("{} at {l}", case.name));
        }
    }
}

/// As long as a product may be, with a pointer to its last 20 bytes; all between is payload.
#[test]
fn longest() {
    let mut rng = Rng(6);
    let (d, last) = (2_147_483_647, 2_147_483_627);
    let mut shape = shape(&mut rng);
    (shape.sphr, shape.pointers, shape.others, shape.sorted) = (None, 2, vec![(8, 20), (8, 20)], true);
    let small = build(&mut rng, &shape);
    let [.., long, end] = small.starts[..] else { panic!() };
    let mut bytes = vec![0; d + 1];
    bytes[..end].copy_from_slice(&small.bytes[..end]);
    bytes[last..d].copy_from_slice(&small.bytes[end..]);
    bytes[long + 4..long + 8].copy_from_slice(&((last - long) as u32).to_be_bytes());
    set_number(&mut bytes, SIZE_LINE, d as u64);
    let to_last = small.pointers[1] + 23;
    bytes[to_last..to_last + 4].copy_from_slice(&(last as u32).to_be_bytes());

    let (mut watches, mut at) = (Watches::new(), 0);
    let ends = (1..=2048).map(|k| k << 20).filter(|e| *e < last).chain([last + 19, last + 20, d + 1]);
    for next in ends {
        watches.feed(&bytes[at..next], watched(&bytes[..next]), &format!("from {at} to {next}"));
        at = next;
    }
    assert_eq!(watched(&bytes[..d]), Arrival::Waiting { count: 5, end: d as u64 });
    assert_eq!(watched(&bytes), Arrival::Refused { number: 16, place: d as u64 });
}

#[cfg(feature = "boundary")]
mod boundary {
    use super::*;
    use outside::boundary::{raw, Watch};
    use std::io::{copy, ErrorKind, Write};

    /// A download is copied into the watch, and stops where it is refused.
    #[test]
    fn copied() {
        let mut rng = Rng(25);
        let mut seen = Seen::of("watch, copied into");
        for n in 0..cases(200_000) / 10 {
            let (p, made) = product_to_watch(&mut rng, n);
            let (right, mut watch) = (watched(&p.bytes), Watch::new());
            let result = copy(&mut &p.bytes[..], &mut watch);
            assert_eq!(watch.answer(), right, "arrival {n} {made:?}");
            match (right, result) {
                (Arrival::Waiting { .. }, Ok(bytes)) => {
                    assert_eq!(bytes, p.bytes.len() as u64);
                    watch.flush().unwrap();
                }
                (Arrival::Refused { number, place }, Err(error)) => {
                    assert_eq!(error.kind(), ErrorKind::InvalidData);
                    let refusal = Refusal { number, place };
                    assert_eq!(error.downcast::<Refusal>().unwrap(), refusal);
                    assert_eq!(watch.write(b"more").unwrap_err().to_string(), refusal.to_string());
                }
                other => panic!("arrival {n} {made:?}: {other:?}"),
            }
            note(&mut seen, right);
        }
        let refusals: Vec<u64> = (1..=16).chain([24]).collect();
        seen.complete(&["none whole", "some whole"], &refusals);
    }

    const SIZE: usize = size_of::<raw::Watch>();

    /// A watch with bytes on both sides that it must keep.
    #[repr(C)]
    struct Between {
        before: [u64; 8],
        watch: raw::Watch,
        after: [u64; 8],
    }

    /// A state that stands for no bytes that could have been fed still ends with some answer, and nothing but the state is written.
    #[test]
    fn odd_states() {
        let mut rng = Rng(26);
        let mut answers = BTreeMap::<u64, usize>::new();
        for n in 0..cases(200_000) / 4 {
            let (p, made) = product_to_watch(&mut rng, n);
            let (bytes, at) = (p.bytes.clone(), rng.below(p.bytes.len() + 1));
            let mut lent = Between { before: [7; 8], watch: raw::watch_new(), after: [7; 8] };
            raw::watch_feed(&mut lent.watch, &bytes[..at]);
            disturb(&mut rng, &mut lent.watch);
            for to in [at, at + rng.below(bytes.len() - at + 1), bytes.len()] {
                let answer = raw::watch_feed(&mut lent.watch, &p.bytes[at..to]);
                assert_eq!(answer[3], 0, "arrival {n} {made:?} from {at} to {to}: {answer:?}");
                *answers.entry(answer[0]).or_default() += 1;
            }
            assert_eq!((lent.before, lent.after), ([7; 8], [7; 8]), "arrival {n} {made:?}");
            assert_eq!(p.bytes, bytes, "the fed bytes of arrival {n} {made:?}");
        }
        println!("odd states, by the number answered: {answers:?}");
        assert!(answers.len() > 1);
    }

    /// Some bytes of a state set at random, now and then all.
    fn disturb(rng: &mut Rng, watch: &mut raw::Watch) {
        let all = rng.one_in(8);
        let (from, many) = if all { (0, SIZE) } else { (rng.pick(&[0, 3307, SIZE - 228]), 1 + rng.below(8)) };
        let state = (watch as *mut raw::Watch).cast::<u8>();
        for k in 0..many {
            let at = if all { k } else { from + rng.below(SIZE - from) };
            let other = rng.next() as u8;
            // SAFETY: `at` is below SIZE, and any bytes are a watch, which is numbers alone.
            unsafe { state.add(at).write(rng.pick(&[0, 1, 255, other])) };
        }
    }
}
