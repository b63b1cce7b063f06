//! Request Two on every day and date: the judges, the watch and the leaves have one rule, and conversion is one to one.
use outside::generate::{build, shape, Rng, DAY_ENDS, LEAP_LIKE};
use outside::lines::STARTS;
use outside::values::{Date, Moment, Time};
use outside::watch::Watch;
use outside::{fast, leap, leaves, plain, Arrival};

/// SENSING_START.
const FIELD: usize = 10;

#[test]
fn dates() {
    let texts = leap::DATES.map(|d| format!("{:04}-{:02}-{:02}", d.year, d.month, d.day));
    assert_eq!(texts, ["2005-12-31", "2008-12-31", "2012-06-30", "2015-06-30", "2016-12-31"]);
}

/// Each of the three judges on these bytes, which show at most one fault.
#[track_caller]
fn same_answer(bytes: &[u8], fault: Option<(u64, u64)>) {
    let right = fault.map_or(Arrival::Waiting { count: 0, end: 0 }, |(number, place)| Arrival::Refused { number, place });
    assert_eq!(plain::arrival(bytes), right);
    assert_eq!(fast::arrival(bytes), right);
    assert_eq!(Watch::new().feed(bytes), right);
}

/// The ends of every day, in bytes, in a header and as text; the texts ascend, so no two are the same.
#[test]
fn every_day() {
    let (mut last_text, mut beyond_usual) = ([0; 18], 0);
    let mut head = [1, 0, 0, 2, 0, 0, 12, 235, 0, 0, 0, 0, 0, 0, 255, 255, 255, 255, 255, 255];
    for (day, milli) in (0..=u16::MAX).flat_map(|day| DAY_ENDS.map(|milli| (day, milli))) {
        let right = milli <= 86_399_999 || leap::DAYS.contains(&day) && milli <= 86_400_999;
        let time = Time { day, milli };
        head[8..10].copy_from_slice(&day.to_be_bytes());
        head[10..14].copy_from_slice(&milli.to_be_bytes());
        assert_eq!(leaves::read_time(&head, 8).ok(), right.then_some(Some(time)));
        same_answer(&head, (!right).then_some((10, 0)));
        let mut text = [0; 18];
        assert_eq!(leaves::time_text(&mut text, Some(time)).is_ok(), right);
        if right {
            assert_eq!(leaves::text_time(&text, 0), Ok(Some(time)));
            assert!(last_text < text, "{time:?}");
            last_text = text;
            beyond_usual += (milli > 86_399_999) as u32;
        }
    }
    assert_eq!(beyond_usual, 10);
}

/// Times of day that are like a leap second in a field of the main header.
fn every_time_of_day(bytes: &mut [u8], date: Date) {
    for (hour, minute, second) in LEAP_LIKE {
        let right = second <= 59 || (hour, minute, second) == (23, 59, 60) && leap::DATES.contains(&date);
        let Date { year, month, day } = date;
        let at = STARTS[FIELD] + 32;
        bytes[at..at + 15].copy_from_slice(format!("{year:04}{month:02}{day:02}{hour:02}{minute:02}{second:02}Z").as_bytes());
        same_answer(&bytes[..STARTS[FIELD + 1]], (!right).then_some((3, at as u64)));
        let moment = Moment { year, month, day, hour, minute, second, milli: 0 };
        let mut line = [0; 48];
        assert_eq!(leaves::write_time_line(&mut line, FIELD, Some(moment)).is_ok(), right);
        assert!(!right || line == bytes[STARTS[FIELD]..STARTS[FIELD + 1]]);
    }
}

/// The date of every day, and the ends of June and December of every year.
#[test]
fn every_date() {
    let mut rng = Rng(8);
    let mut shape = shape(&mut rng);
    shape.others.clear();
    let mut bytes = build(&mut rng, &shape).bytes;
    (0..=u16::MAX).for_each(|day| every_time_of_day(&mut bytes, leaves::date_of(day)));
    for year in 0..=9999 {
        every_time_of_day(&mut bytes, Date { year, month: 6, day: 30 });
        every_time_of_day(&mut bytes, Date { year, month: 12, day: 31 });
    }
}
