use super::times::{any_time, six, value};
use super::{length, lent, same_read, same_written, CASES};
use outside::boundary::{self, form, raw};
use outside::generate::{Rng, GROUPS};
use outside::seen::{cases, Seen};
use outside::values::{Header, Time};
use outside::{leap, leaves};

/// Class, group, subclass and version, and a size.
fn any_kind(rng: &mut Rng) -> ([u8; 4], u32) {
    let [any, another, subclass, version, ..] = rng.next().to_be_bytes();
    let class = if rng.one_in(8) { rng.pick(&[0, 9, 255, 128, any]) } else { 1 + rng.below(8) as u8 };
    let group = if rng.one_in(8) { rng.pick(&[14, 16, 98, 100, 255, another]) } else { rng.pick(&GROUPS) };
    let size = rng.next() as u32;
    let size = rng.pick(&[size, size, size, 20, 21, 27, 3307, u32::MAX, 19, 0]);
    ([class, group, subclass, version], size)
}

fn in_leap_second(time: &Option<Time>) -> bool {
    time.is_some_and(|t| t.milli > leap::USUAL_LAST_MILLI)
}

#[test]
fn read_header() {
    let (mut rng, mut seen) = (Rng(31), Seen::of("wl_read_header"));
    for _ in 0..cases(CASES) {
        let (kind, size) = any_kind(&mut rng);
        let item = [&kind[..], &size.to_be_bytes(), &six(&mut rng), &six(&mut rng)].concat();
        let (bytes, at) = lent(&mut rng, &item);
        let ours = leaves::read_header(&bytes, at);
        same_read(&bytes, &ours, |bytes| boundary::read_header(bytes, at), at);
        seen.note(&ours, |h| match (h.start, h.stop) {
            (start, stop) if [start, stop].iter().any(in_leap_second) => "a leap second",
            (Some(_), Some(_)) => "both times",
            (Some(_), None) => "a start",
            (None, Some(_)) => "a stop",
            (None, None) => "no time",
        });
    }
    seen.complete(&["a leap second", "both times", "a start", "a stop", "no time"], &[20, 21]);
}

#[test]
fn write_header() {
    let (mut rng, mut seen) = (Rng(32), Seen::of("wl_write_header"));
    for _ in 0..cases(CASES) {
        let (kind, size) = any_kind(&mut rng);
        let (start, stop, len) = (any_time(&mut rng), any_time(&mut rng), length(&mut rng, 20));
        let [class, group, subclass, version] = kind;
        let header = Header { class, group, subclass, version, size, start: value(start), stop: value(stop) };
        let wrapper = |room: &mut [u8]| boundary::write_header(room, &header);
        let direct = |room: &mut [u8]| form::written(raw::write_header(room, kind, size, start, stop), len);
        let ours = same_written(&mut rng, len, &|room| leaves::write_header(room, &header), &[&wrapper, &direct], &header);
        seen.note(&ours, |_| "written");
    }
    seen.complete(&["written"], &[18, 21]);
}
