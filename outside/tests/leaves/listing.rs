use super::{same_written, Written, CASES};
use outside::boundary;
use outside::generate::{build, prefix, product, Product, Rng, Shape};
use outside::leaves;
use outside::lines::MAIN_SIZE;
use outside::seen::{cases, Seen};
use outside::vectors;

/// The most that a listing may be asked of.
const MOST: usize = 65_536;

/// A product of so many bytes in all, of short records or of any.
fn sized(rng: &mut Rng, total: usize) -> Product {
    let mut left = total - MAIN_SIZE;
    let most = rng.pick(&[20, 21, 400, 4000]);
    let mut others = Vec::new();
    while left > 0 {
        let size = 20 + rng.below(most - 19);
        let size = if left < size + 20 { left } else { size };
        others.push((8, size));
        left -= size;
    }
    build(rng, &Shape { first_version: 2, sphr: None, pointers: 0, others, sorted: true, rest: 0 })
}

/// A room beside the bytes that the text needs, or any.
fn any_room(rng: &mut Rng, need: usize) -> usize {
    let any = rng.below(2 * need + 8);
    rng.pick(&[0, need.saturating_sub(1), need, need, need + 3, any])
}

fn same_listing(rng: &mut Rng, bytes: &[u8], room: Option<usize>) -> Written {
    let need = leaves::listing(bytes, &mut [0; 131_072]).unwrap_or(60);
    let len = room.unwrap_or_else(|| any_room(rng, need));
    let ours = |room: &mut [u8]| leaves::listing(bytes, room);
    let wrapper = |room: &mut [u8]| boundary::listing(bytes, room);
    same_written(rng, len, &ours, &[&wrapper], &bytes.len())
}

/// A product; every 500th is beside the most, and now and then not a product at all.
fn any_product(rng: &mut Rng, n: usize) -> Product {
    if n % 500 != 0 {
        return product(rng, n).0;
    }
    let mut p = sized(rng, MOST - 1 + n / 500 % 3);
    if rng.one_in(4) {
        p.bytes[rng.below(20)] ^= 1;
    }
    p
}

#[test]
fn generated() {
    let (mut rng, mut seen) = (Rng(61), Seen::of("wl_listing"));
    for n in 0..cases(CASES) {
        let p = any_product(&mut rng, n);
        let len = if rng.one_in(2) { p.bytes.len() } else { prefix(&mut rng, &p) };
        let before = p.bytes.clone();
        let ours = same_listing(&mut rng, &p.bytes[..len], None);
        assert_eq!(p.bytes, before);
        seen.note(&ours, |_| "listed");
    }
    let refusals: Vec<u64> = (1..=18).chain([23]).collect();
    seen.complete(&["listed"], &refusals);
}

#[test]
fn of_vectors() {
    let mut rng = Rng(62);
    for bytes in vectors::products() {
        for room in [0, 10, 100, 131_072] {
            let _ = same_listing(&mut rng, &bytes, Some(room));
        }
    }
}

/// 01's example, to the byte.
#[test]
fn example() {
    let bytes = &vectors::products()[0];
    let mut text = [b'?'; 60];
    assert_eq!(boundary::listing(bytes, &mut text), Ok(42));
    assert_eq!(text[..42], *b"records 2\n0 1 0 0 2 3307\n3307 8 13 1 1 21\n");
    assert_eq!(text[42..], [b'?'; 18]);
}
