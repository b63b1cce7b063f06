//! Request Two, said once: the five days that end in a leap second. A day outside the five keeps its limit.
use crate::leaves::date_of;
use crate::values::Date;

/// Counted from 1 January 2000.
pub const DAYS: [u16; 5] = [2191, 3287, 4564, 5659, 6209];

/// The dates of these days.
pub const DATES: [Date; 5] = {
    let mut dates = [date_of(0); 5];
    let mut k = 0;
    while k < 5 {
        dates[k] = date_of(DAYS[k]);
        k += 1;
    }
    dates
};

/// No day ends before it.
pub const USUAL_LAST_MILLI: u32 = 86_399_999;

pub fn last_milli(day: u16) -> u32 {
    if DAYS.contains(&day) {
        86_400_999
    } else {
        USUAL_LAST_MILLI
    }
}

/// The last second of a minute.
pub fn last_second(date: Date, hour: u8, minute: u8) -> u8 {
    if (hour, minute) == (23, 59) && DATES.contains(&date) {
        60
    } else {
        59
    }
}

/// The place of a time on the line of milliseconds (request Twelve): of a time of 48 bits, the milliseconds since day 0. Each day with a leap second
/// before it adds 1,000.
#[inline(always)]
pub fn moment(time: u64) -> u64 {
    let (day, milli) = (time >> 32, time & 0xffff_ffff);
    let leaps = DAYS.iter().map(|d| (day > *d as u64) as u64).sum::<u64>();
    day * 86_400_000 + milli + 1000 * leaps
}
