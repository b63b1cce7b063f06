// Included for each of the modules that are tried.
use super::*;
use outside::generate::{build, shape, Rng};
use outside::lines::{Kind, LINES, STARTS};
use outside::values::Which;

/// Where a case has the answer of request Two or of request Five beside the one before it, the former holds.
#[track_caller]
fn check(case: &Json, key: &str, ours: String) {
    let later = case.get(&format!("leap_{key}")).or(case.get("leap")).or(case.get("wide"));
    assert_eq!(ours, later.or(case.get(key)).unwrap().to_string(), "{key} of {case}");
}

/// A case of bytes, text or order.
fn time(case: &Json) {
    if let Some(bytes) = case.get("bytes").map(Json::hex) {
        check(case, "read", said(tried::read_time(&bytes, 0), |t| or_undefined(t, word_time)));
        if case.get("long").is_some() {
            check(case, "long", wrote(21, |room| tried::time_text(room, as_time(&bytes))));
        }
        if case.get("write").is_some() {
            check(case, "write", wrote(9, |room| tried::write_time(room, as_time(&bytes))));
        }
    } else if let Some(text) = case.get("text").map(Json::hex) {
        check(case, "cds", said(tried::text_time(&text, 0), |t| or_undefined(t, word_time)));
    } else {
        let times = case.get("order").unwrap().list();
        let time = |k: usize| times[k].some().map(|t| Time { day: t.list()[0].number() as u16, milli: t.list()[1].number() as u32 });
        check(case, "answer", said(tried::time_order(time(0), time(1)), word_order));
    }
}

#[test]
fn times() {
    cases("leaves/times.jsonl", 868).iter().for_each(time);
}

/// A time line that is written into a room.
fn time_line(case: &Json, room: usize) -> String {
    let (k, value) = (case.get("field").unwrap().number() as usize, case.get("value").unwrap());
    wrote(room, |room| tried::write_time_line(room, k, value.some().map(|m| as_moment(m.list()))))
}

/// Request Two; the judges' part of its products is in `agree`, `boundary` and `watch`.
#[test]
fn two() {
    let (products, mut leap_seconds) = (request_products(), 0);
    for case in cases("requests/two.jsonl", 513) {
        if let Some(n) = case.get("product") {
            leap_seconds += time_fields(&products[n.number() as usize], &case);
        } else if case.get("op").is_some() {
            check(&case, "answer", time_line(&case, 120));
        } else {
            time(&case);
        }
    }
    assert!(leap_seconds > 20);
}

/// Each time field of an accepted product, written again, is the line it was read from. Gives how many have second 60.
fn time_fields(product: &[u8], case: &Json) -> usize {
    let extent = tried::extent(product);
    check(case, "finished", said(extent, |count| format!("[accepted,{}]", count.unwrap())));
    if extent.is_err() {
        return 0;
    }
    let (mut room, mut leap_seconds) = ([0; 51], 0);
    for k in (0..72).filter(|k| matches!(LINES[*k].2, Kind::Time | Kind::LongTime)) {
        let (moment, line) = (tried::time_field(product, k).unwrap(), &product[STARTS[k]..STARTS[k + 1]]);
        if let Some(m) = moment {
            assert_eq!(tried::write_time_line(&mut room, k, moment), Ok(line.len()), "field {k} of {case}");
            assert_eq!(room[..line.len()], *line, "field {k} of {case}");
            leap_seconds += (m.second == 60) as usize;
        }
    }
    leap_seconds
}

#[test]
fn scaled() {
    assert_eq!(scaled_numbers(cases("leaves/scaled.jsonl", 8120)), 63);
}

#[test]
fn five() {
    assert_eq!(scaled_numbers(cases("requests/five.jsonl", 400)), 0);
}

/// Gives how many have an integer that no i64 holds.
fn scaled_numbers(cases: Vec<Json>) -> usize {
    let mut beyond = 0;
    for case in cases {
        let number = |key: &str| case.get(key).unwrap().number();
        let width = || number("width") as usize;
        let signed = || case.get("signed").unwrap().to_string() == "true";
        let op = case.get("op").unwrap().text();
        if op == "read" {
            let bytes = case.get("bytes").unwrap().hex();
            check(&case, "answer", said(tried::read_scaled(&bytes, 0, width(), signed()), |n| or_undefined(n, word_scaled)));
            continue;
        }
        let integer = case.get("i").unwrap().some().map(Json::integer);
        if integer == Some(None) {
            // No i64 holds it, so it cannot be handed in (F4).
            check(&case, "answer", "[refused,21,0]".into());
            beyond += 1;
            continue;
        }
        let n = integer.map(|i| Scaled { integer: i.unwrap(), scale: number("s") as i8 });
        let ours = match op {
            "write" => wrote(case.get("room").map_or(12, |r| r.number() as usize), |room| tried::write_scaled(room, width(), signed(), n)),
            "round" => said(tried::round(n, number("d") as i8), |m| or_undefined(m, |m| format!("[rounded,{m}]"))),
            "reading" => said(tried::reading(n), word_reading),
            _ => panic!("{case}"),
        };
        check(&case, "answer", ours);
    }
    beyond
}

#[test]
fn headers() {
    for case in cases("leaves/headers.jsonl", 303) {
        let bytes = case.get("bytes").unwrap().hex();
        check(&case, "read", said(tried::read_header(&bytes, 0), word_header));
        if case.get("write").is_some() {
            check(&case, "write", wrote(23, |room| tried::write_header(room, &as_header(&bytes))));
            check(&case, "write_room19", wrote(19, |room| tried::write_header(room, &as_header(&bytes))));
        }
    }
}

#[test]
fn lines() {
    let mut beyond = 0;
    for case in cases("leaves/lines.jsonl", 1424) {
        let k = case.get("field").unwrap().number() as usize;
        let room = case.get("room").map_or(120, |r| r.number() as usize);
        let value = case.get("value").unwrap();
        let ours = match case.get("op").unwrap().text() {
            "text" => wrote(room, |room| tried::write_text_line(room, k, &value.hex())),
            "time" => time_line(&case, room),
            "number" => match value.some().map(Json::integer) {
                // No i64 holds it (F4).
                Some(None) => {
                    beyond += 1;
                    "[refused,22,0]".into()
                }
                n => wrote(room, |room| tried::write_number_line(room, k, n.flatten())),
            },
            _ => panic!("{case}"),
        };
        check(&case, "answer", ours);
    }
    assert_eq!(beyond, 20);
}

#[test]
fn names() {
    for case in cases("leaves/names.jsonl", 187) {
        let name = case.get("name").unwrap().hex();
        check(&case, "answer", said(tried::field_named(&name), |k| format!("[field,{k}]")));
    }
}

#[test]
fn points() {
    let mut rng = Rng(5);
    for case in cases("leaves/points.jsonl", 27) {
        for (latitude, which) in [(49, Which::Start), (51, Which::End)] {
            let shape = shape(&mut rng);
            let mut product = build(&mut rng, &shape).bytes;
            for (k, key) in [(latitude, "lat"), (latitude + 1, "lon")] {
                product[STARTS[k] + 32..][..11].copy_from_slice(&case.get(key).unwrap().hex());
            }
            check(&case, "answer", said(tried::ground_point(&product, which), word_point));
        }
    }
}
