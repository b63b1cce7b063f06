//! What the leaves, the queries and the boundary take and give.
use std::fmt;

/// A refusal of 01: "Numbers we answer with".
#[derive(Clone, Copy, Debug, PartialEq, Eq)]
pub struct Refusal {
    pub number: u64,
    pub place: u64,
}

/// As the listing has it.
impl fmt::Display for Refusal {
    fn fmt(&self, f: &mut fmt::Formatter) -> fmt::Result {
        write!(f, "refused {} {}", self.number, self.place)
    }
}

impl std::error::Error for Refusal {}

/// A day of the calendar.
#[derive(Clone, Copy, Debug, PartialEq, Eq)]
pub struct Date {
    pub year: u16,
    pub month: u8,
    pub day: u8,
}

/// A field of the main header: where its line starts, the width and the kind (`WL_KIND_..`) of its value, and the bytes of its name.
#[derive(Clone, Copy, Debug, PartialEq, Eq)]
pub struct Field {
    pub start: u64,
    pub width: u64,
    pub kind: u64,
    pub name: u64,
}

/// A short CDS time: the day from 1 January 2000 and the millisecond of that day.
#[derive(Clone, Copy, Debug, PartialEq, Eq)]
pub struct Time {
    pub day: u16,
    pub milli: u32,
}

/// A time as the main header writes it, in years 0000 to 9999. A short field has millisecond 0.
#[derive(Clone, Copy, Debug, PartialEq, Eq)]
pub struct Moment {
    pub year: u16,
    pub month: u8,
    pub day: u8,
    pub hour: u8,
    pub minute: u8,
    pub second: u8,
    pub milli: u16,
}

/// A record header. A time that is `None` is undefined.
#[derive(Clone, Copy, Debug, PartialEq, Eq)]
pub struct Header {
    pub class: u8,
    pub group: u8,
    pub subclass: u8,
    pub version: u8,
    pub size: u32,
    pub start: Option<Time>,
    pub stop: Option<Time>,
}

/// A record of a product: where it starts, and its header.
#[derive(Clone, Copy, Debug, PartialEq, Eq)]
pub struct Record {
    pub start: u64,
    pub header: Header,
}

/// A scaled number: integer / 10^scale, so integer times 10^-scale where the scale is below 0.
#[derive(Clone, Copy, Debug, PartialEq, Eq)]
pub struct Scaled {
    pub integer: i64,
    pub scale: i8,
}

/// A block of a humidity file. UTH, in percent, or CSR, in Kelvin, is `None` where it is not finite.
#[derive(Clone, Copy, Debug, PartialEq)]
pub struct UthBlock {
    pub line: u32,
    pub column: u32,
    pub uth: Option<f32>,
    pub csr: Option<f32>,
}

/// What a meter shows of a scaled number.
#[derive(Clone, Copy, Debug, PartialEq)]
pub enum Reading {
    Missing,
    Whole(f64),
    Between(f64),
}

/// Which of a product's two ground points.
#[derive(Clone, Copy, Debug, PartialEq, Eq)]
pub enum Which {
    Start,
    End,
}

/// The point below the satellite, in degrees.
#[derive(Clone, Copy, Debug, PartialEq)]
pub struct GroundPoint {
    pub latitude: f64,
    pub longitude: f64,
}
