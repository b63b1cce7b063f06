//! Refusals: what is at fault, where, and words for it.
use std::fmt;

/// What is at fault. The numbers are those of the library; s is a record's start, D the size that the product declares.
#[derive(Clone, Copy, Debug, PartialEq, Eq, Hash)]
#[repr(u8)]
#[non_exhaustive]
pub enum Fault {
    // tables: faults (written by tools/tables)
    /// The first header is not class 1, group 0, subclass 0, size 3307. The place: 0.
    FirstHeader = 1,
    /// A line's name, "= " or line feed. The place: the line's start.
    Line = 2,
    /// A value that is not of its field's kind. The place: the value's start.
    Value = 3,
    /// D under 3,307 or over 2,147,483,647. The place: 1485.
    DeclaredSize = 4,
    /// TOTAL_MPHR not 1, TOTAL_SPHR over 1, or TOTAL_RECORDS not the sum of the others. The place: 2675.
    Totals = 5,
    /// 1 to 19 bytes of D are left where a record should start. The place: s.
    BytesLeft = 6,
    /// An unknown class or group. The place: s.
    UnknownKind = 7,
    /// A class out of the sections' order. The place: s.
    Order = 8,
    /// A size under 20 or past D, or of a pointer record other than 27. The place: s.
    RecordSize = 9,
    /// A bad time, or both defined and the start after the stop. The place: s.
    RecordTimes = 10,
    /// More records of a class than its total. The place: s.
    TooMany = 11,
    /// A pointer's target class not 4 to 8, or its offset before the pointer's end or less than 20 before D. The place: s.
    Target = 12,
    /// A pointer into the middle of a record. The place: the pointer record's start.
    PointsInside = 13,
    /// A pointer at a record of another class, group or subclass. The place: the pointer record's start.
    PointsAtOther = 14,
    /// Fewer records of a class than its total. The place: D.
    TooFew = 15,
    /// Bytes beyond D. The place: D.
    Beyond = 16,
    /// Finished short of 3,307 bytes or of D, or a field asked of a shorter main header. The place: the length.
    Unfinished = 17,
    /// The lent room is too small. The place: the places or bytes needed.
    Room = 18,
    /// No such record yet. The place: the records counted.
    NoRecord = 19,
    /// The part to read is outside the lent bytes. The place: their length.
    Outside = 20,
    /// A number, time, date or header is malformed or outside our limits. The place: 0.
    Malformed = 21,
    /// No such field, another kind, or a value that does not fit its line. The place: 0.
    NoField = 22,
    /// A listing of more than 65,536 bytes. The place: 65536.
    ListingLimit = 23,
    /// A watch was fed a 65th pointer record. The place: its start. In number order after 12 and before 13.
    TooManyPointers = 24,
    /// A window of time is undefined or invalid, or ends before it starts. The place: 0. Before all others.
    Window = 25,
    /// Two products to be joined are unlike: INSTRUMENT_ID, PRODUCT_TYPE, PROCESSING_LEVEL or SPACECRAFT_ID, the SPHR or the global records (of granules of a pass without their headers' times). The place: 0. After both products' own.
    Unlike = 26,
    /// The second of two products to be joined starts before the first stops (of granules of a pass by more than one millisecond). The place: 0. After 26.
    OutOfTime = 27,
    /// A product to be written would have over 2,147,483,647 bytes or over 999,999 records, or a sum does not fit its line. The place: 0. After 17 and 27, and before 18.
    ResultLimit = 28,
    /// A record against the Level 0 profile. The place: the first such record's start. After 17 and before 18.
    Profile = 29,
    /// A humidity file short of 642 bytes. The place: its length.
    UthShort = 30,
    /// M, its number of segments, is negative. The place: 614.
    UthSegments = 31,
    /// A segment's line or column is not 1 to 80. The place: where it stands.
    UthGrid = 32,
    /// N, a segment's number of blocks, is below 1. The place: where it stands.
    UthBlocks = 33,
    /// A segment header or a block is cut. The place: the file's length.
    UthCut = 34,
    /// Bytes are left over after the last block. The place: where they start.
    UthLeft = 35,
    /// A 4,097th product in a report, or a total past 64 bits. The place: 0.
    ReportFull = 36,
    /// The record of an arrival is shorter or longer than its counts ask. The place: 0.
    RecordLength = 37,
    /// It has not as many answers as part lengths. The place: 0. After 37.
    RecordCounts = 38,
    /// The lengths of parts do not sum to the product's length, or are more than a record can count. The place: 0. After 38, and before 18.
    PartLengths = 39,
    // tables: end
}

impl Fault {
    /// Every fault, by its number from 1 on.
    pub const ALL: [Fault; 39] = [
        // tables: every fault (written by tools/tables)
        Fault::FirstHeader,
        Fault::Line,
        Fault::Value,
        Fault::DeclaredSize,
        Fault::Totals,
        Fault::BytesLeft,
        Fault::UnknownKind,
        Fault::Order,
        Fault::RecordSize,
        Fault::RecordTimes,
        Fault::TooMany,
        Fault::Target,
        Fault::PointsInside,
        Fault::PointsAtOther,
        Fault::TooFew,
        Fault::Beyond,
        Fault::Unfinished,
        Fault::Room,
        Fault::NoRecord,
        Fault::Outside,
        Fault::Malformed,
        Fault::NoField,
        Fault::ListingLimit,
        Fault::TooManyPointers,
        Fault::Window,
        Fault::Unlike,
        Fault::OutOfTime,
        Fault::ResultLimit,
        Fault::Profile,
        Fault::UthShort,
        Fault::UthSegments,
        Fault::UthGrid,
        Fault::UthBlocks,
        Fault::UthCut,
        Fault::UthLeft,
        Fault::ReportFull,
        Fault::RecordLength,
        Fault::RecordCounts,
        Fault::PartLengths,
        // tables: end
    ];

    /// The number of the fault.
    pub fn number(self) -> u8 {
        self as u8
    }

    /// The fault of a number.
    pub fn of(number: u64) -> Option<Fault> {
        let k = usize::try_from(number).ok()?.checked_sub(1)?;
        Fault::ALL.get(k).copied()
    }

    const MEANINGS: [&'static str; 39] = [
        // tables: meanings (written by tools/tables)
        "the first header is not class 1, group 0, subclass 0, size 3307",
        "a line of the main header has another name, no \"= \" or no line feed",
        "a value of the main header is not of its kind",
        "the declared size is under 3,307 or over 2,147,483,647",
        "the totals do not agree: one MPHR, at most one SPHR, and TOTAL_RECORDS the sum of the others",
        "1 to 19 bytes are left where a record should start",
        "a record has an unknown class or group",
        "a record's class is out of the sections' order",
        "a record's size is under 20, past the declared size, or other than 27 for a pointer record",
        "a record has a bad time, or starts after it stops",
        "there are more records of a class than its total",
        "a pointer's target is not of class 4 to 8, or leaves no room for a record after the pointer",
        "a pointer points into the middle of a record",
        "a pointer points at a record of another class, group or subclass",
        "there are fewer records of a class than its total",
        "there are bytes beyond the declared size",
        "the product is finished short of its main header or of its declared size",
        "the lent room is too small",
        "there is no such record yet",
        "the part to read is outside the lent bytes",
        "a number, time, date or header is malformed or outside the limits",
        "there is no such field, it is of another kind, or the value does not fit its line",
        "a listing was asked of more than 65,536 bytes",
        "a watch was fed a 65th pointer record",
        "the window of time is undefined or invalid, or ends before it starts",
        "the two products are unlike in instrument, type, level, spacecraft, SPHR or global records",
        "the second product starts before the first stops",
        "the result would have over 2,147,483,647 bytes or over 999,999 records, or a sum does not fit its line",
        "a record is against the Level 0 profile",
        "the humidity file is short of 642 bytes",
        "the humidity file's number of segments is negative",
        "a segment's line or column is not 1 to 80",
        "a segment's number of blocks is below 1",
        "a segment header or a block is cut",
        "bytes are left over after the last block",
        "the report is full: 4,096 products, or a total of 64 bits",
        "the record of the arrival is short or long",
        "the record of the arrival has another number of answers than of parts",
        "the lengths of the parts do not sum to the product's, or are more than a record can count",
        // tables: end
    ];

    /// What it means.
    pub fn meaning(self) -> &'static str {
        Fault::MEANINGS[self as usize - 1]
    }
}

/// A refusal: the fault and its place.
#[derive(Clone, Copy, Debug, PartialEq, Eq, Hash)]
pub struct Refused {
    /// What is at fault.
    pub fault: Fault,
    /// Where, as [`Fault`] says of each.
    pub place: u64,
}

impl fmt::Display for Refused {
    fn fmt(&self, f: &mut fmt::Formatter) -> fmt::Result {
        write!(f, "refused {} at {}: {}", self.fault.number(), self.place, self.fault.meaning())
    }
}

impl std::error::Error for Refused {}
