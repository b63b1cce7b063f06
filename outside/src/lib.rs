//! An opinion from outside: 01, and of 02 what has been built, read independently. The judges twice, the rest once.
pub mod check;
pub mod cut;
pub mod fast;
pub mod generate;
pub mod join;
pub mod json;
pub mod leap;
pub mod leaves;
pub mod level0;
pub mod lines;
pub mod lookup;
pub mod month;
pub mod plain;
pub mod records;
pub mod replay;
pub mod seen;
pub mod uth;
pub mod values;
pub mod vectors;
pub mod watch;

#[cfg(feature = "boundary")]
pub mod boundary;

/// What the arrival judge says, and the watch.
#[derive(Clone, Copy, Debug, PartialEq, Eq)]
pub enum Arrival {
    Refused { number: u64, place: u64 },
    Waiting { count: u64, end: u64 },
}

/// A record's row (request Six): start, size, class, group, subclass, version, and the ordinal among the rows of its class, group and subclass.
pub type Row = [u32; 7];

/// What the finished judge says.
#[derive(Clone, Copy, Debug, PartialEq, Eq)]
pub enum Finished {
    Refused { number: u64, place: u64 },
    Accepted { count: u64 },
}
