//! The crate `warpladle` (../rust), as a user has it: it says what the boundary says, on the vectors of the judge, the cuts, the joins, the passes, the
//! humidity files and the months, in enums and words; and a watch that a download is copied into ends with the refusal.
#![cfg(feature = "boundary")]

use outside::boundary;
use outside::values::Refusal;
use outside::vectors::{self, pieces};
use outside::Arrival;
use std::io;
use warpladle::{Class, Fault, Field, FieldKind, Group, Product, Refused, Report, Time, Watch};

/// A refusal of the crate in the numbers of the boundary.
fn plain<T>(answer: warpladle::Result<T>) -> Result<T, Refusal> {
    answer.map_err(|Refused { fault, place }| Refusal { number: fault.number().into(), place })
}

#[test]
fn judged_as_by_the_boundary() {
    let mut accepted = 0;
    for bytes in vectors::products() {
        assert_eq!(plain(warpladle::verdict(&bytes)), boundary::verdict(&bytes));
        assert_eq!(plain(warpladle::extent(&bytes)), boundary::extent(&bytes));
        let arrival = match plain(warpladle::arrival(&bytes)) {
            Ok(waiting) => Arrival::Waiting { count: waiting.records, end: waiting.end },
            Err(Refusal { number, place }) => Arrival::Refused { number, place },
        };
        assert_eq!(arrival, boundary::arrival(&bytes));
        let mut rows = vec![[0; 7]; bytes.len() / 20 + 1];
        let count = boundary::rows(&bytes, &mut rows);
        let product = plain(Product::judged(&bytes));
        assert_eq!(product.as_ref().map(|p| p.len() as u64).map_err(|r| *r), count);
        if let Ok(product) = product {
            accepted += 1;
            check_records(&product, &rows);
            check_fields(&product);
        }
    }
    assert!(accepted > 20);
}

fn check_records(product: &Product, rows: &[[u32; 7]]) {
    for (k, (record, row)) in product.records().zip(rows).enumerate() {
        let [start, size, class, group, subclass, version, ordinal] = *row;
        assert_eq!((record.start, record.bytes.len(), record.ordinal), (start as usize, size as usize, ordinal));
        assert_eq!((record.class, record.group), (Class::of(class as u8).unwrap(), Group::of(group as u8).unwrap()));
        assert_eq!((record.subclass, record.version), (subclass as u8, version as u8));
        assert_eq!(record.payload().len() + 20, size as usize);
        let header = boundary::record(product.bytes(), k).unwrap().header;
        assert_eq!(record.times(), (header.start.map(time), header.stop.map(time)));
        assert_eq!(product.record(k), Some(record));
    }
    assert_eq!(product.record(product.len()), None);
}

fn time(t: outside::values::Time) -> Time {
    Time { day: t.day, milli: t.milli }
}

fn check_fields(product: &Product) {
    for (k, field) in Field::ALL.into_iter().enumerate() {
        let mut name = [0; 30];
        let told = boundary::field(k, &mut name).unwrap();
        assert_eq!(field.name().as_bytes(), &name[..told.name as usize]);
        assert_eq!((field.kind() as u64, field.width() as u64), (told.kind, told.width));
        assert_eq!(Field::named(field.name()), Some(field));
        assert_eq!(plain(product.text(field)), boundary::text_field(product.bytes(), k));
        assert_eq!(plain(product.number(field)), boundary::number_field(product.bytes(), k));
        let moment = plain(product.time(field)).map(|m| m.map(|m| (m.year, m.month, m.day, m.hour, m.minute, m.second, m.milli)));
        let right = boundary::time_field(product.bytes(), k).map(|m| m.map(|m| (m.year, m.month, m.day, m.hour, m.minute, m.second, m.milli)));
        assert_eq!(moment, right);
        assert!(field.kind() != FieldKind::Text || product.shown(field).unwrap().len() == field.width());
    }
}

#[test]
fn watched_as_by_the_boundary() {
    for bytes in vectors::products() {
        let mut watch = Watch::new();
        let copied = io::copy(&mut &bytes[..], &mut watch);
        let said = match plain(watch.answer()) {
            Ok(waiting) => Arrival::Waiting { count: waiting.records, end: waiting.end },
            Err(Refusal { number, place }) => Arrival::Refused { number, place },
        };
        assert_eq!(said, boundary::Watch::new().feed(&bytes));
        match watch.answer() {
            Ok(_) => assert_eq!(copied.unwrap(), bytes.len() as u64),
            Err(refused) => assert_eq!(copied.unwrap_err().into_inner().unwrap().to_string(), refused.to_string()),
        }
    }
}

#[test]
fn cut_and_joined_as_by_the_boundary() {
    let products = vectors::pass_products();
    for case in vectors::cases("pass/pass.jsonl", 283) {
        let (Some(first), Some(second)) = (case.get("first"), case.get("second")) else { continue };
        let [first, second] = [first, second].map(|n| &products[n.number() as usize][..]);
        let (Ok(a), Ok(b)) = (Product::judged(first), Product::judged(second)) else { continue };
        assert_eq!(plain(a.join(&b)), boundary::join_pass(first, second));
        assert_eq!(plain(a.join_identical(&b)), boundary::join(first, second));
        let Some((start, stop)) = a.records().last().map(|r| r.times()).and_then(|(start, stop)| start.zip(stop)) else { continue };
        let lent = |t: Time| Some(outside::values::Time { day: t.day, milli: t.milli });
        let cut = plain(a.cut(start, stop));
        assert_eq!(cut, boundary::cut(first, lent(start), lent(stop)));
        assert_eq!(Product::judged(&cut.unwrap()).unwrap().differs_from_cut_of(&a), Ok(None));
    }
}

#[test]
fn reports_add_up() {
    let products = vectors::products();
    let (mut whole, mut halves, mut numbers) = (Report::new(), [Report::new(); 2], [0; 38]);
    for (k, bytes) in products.iter().enumerate() {
        let told = whole.add(bytes).unwrap();
        assert_eq!(told.map(|r| (r.fault.number().into(), r.place)), boundary::report_add(&mut numbers, bytes).unwrap().map(|r| (r.number, r.place)));
        halves[k % 2].add(bytes).unwrap();
    }
    assert_eq!(halves.iter().sum::<warpladle::Result<Report>>(), Ok(whole));
    assert_eq!((whole.products(), whole.accepted()), (numbers[0], numbers[20]));
    assert_eq!(whole.refused(Fault::PointsInside), numbers[33]);
    assert_eq!((whole.records(Class::Mdr), whole.bytes(Class::Mdr)), (numbers[8], numbers[16]));
    assert_eq!((whole.gap(), whole.overlap(), whole.undefined()), (numbers[17], numbers[18], numbers[19]));
}

#[test]
fn humidity_as_by_the_boundary() {
    let products = vectors::request_products();
    for case in vectors::cases("requests/eleven.jsonl", 223) {
        let bytes = match (case.get("file"), case.get("pieces")) {
            (Some(n), _) => products[n.number() as usize].clone(),
            (None, Some(value)) => pieces(value),
            (None, None) => panic!("{case:?}"),
        };
        let block = |b: warpladle::Block| (b.line, b.column, b.uth.map(f32::to_bits), b.csr.map(f32::to_bits));
        let right =
            boundary::uth(&bytes).map(|all| all.iter().map(|b| (b.line, b.column, b.uth.map(f32::to_bits), b.csr.map(f32::to_bits))).collect());
        assert_eq!(plain(warpladle::humidity(&bytes)).map(|all| all.into_iter().map(block).collect::<Vec<_>>()), right);
    }
}

#[test]
fn words() {
    let refused = Product::judged(&[]).unwrap_err();
    assert_eq!((refused.fault, refused.place), (Fault::Unfinished, 0));
    assert_eq!(refused.to_string(), "refused 17 at 0: the product is finished short of its main header or of its declared size");
    assert_eq!(Fault::ALL.map(Fault::number), std::array::from_fn(|k| k as u8 + 1));
    assert_eq!((Fault::of(0), Fault::of(40)), (None, None));
    assert_eq!(Time { day: 6209, milli: 86_400_999 }.to_string(), "2016-12-31T23:59:60.999Z");
    assert_eq!(Time::of_text("20000301000000000Z"), Ok(Some(Time { day: 60, milli: 0 })));
    assert_eq!(format!("{:>6}|{}", Class::Mdr, Group::Avhrr3), "   MDR|AVHRR/3");
}
