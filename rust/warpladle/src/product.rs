//! A product: judged, its records and fields, and new products that are made of it.
use crate::answers::{ask, flat, time_at, written};
use crate::{Class, Field, FieldKind, Group, Moment, Refused, Result, Time, Waiting};
use warpladle_sys as sys;

/// What has come of a product: the whole records, and the end of the last. A refusal is final for every longer arrival.
pub fn arrival(bytes: &[u8]) -> Result<Waiting> {
    // SAFETY: as `ask` says.
    let answer = ask::<4>(|answer| unsafe { sys::wl_arrival(bytes.as_ptr(), bytes.len(), answer) })?;
    Ok(Waiting { records: answer[2], end: answer[1] })
}

/// How many records a product has if all of it has come; `None` where a sound part has.
pub fn extent(bytes: &[u8]) -> Result<Option<u64>> {
    // SAFETY: as `ask` says.
    let answer = ask::<4>(|answer| unsafe { sys::wl_extent(bytes.as_ptr(), bytes.len(), answer) })?;
    Ok((answer[2] == 1).then_some(answer[3]))
}

/// How many records a finished product has.
pub fn verdict(bytes: &[u8]) -> Result<u64> {
    // SAFETY: as `ask` says.
    Ok(ask::<4>(|answer| unsafe { sys::wl_verdict(bytes.as_ptr(), bytes.len(), answer) })?[2])
}

/// A finished product that was accepted, and its records' rows. It borrows the bytes.
#[derive(Clone, Debug, PartialEq, Eq)]
pub struct Product<'a> {
    bytes: &'a [u8],
    rows: Vec<[u32; sys::ROW]>,
}

/// A record of a product.
#[derive(Clone, Copy, Debug, PartialEq, Eq)]
pub struct Record<'a> {
    /// Where it starts in the product.
    pub start: usize,
    /// Its class.
    pub class: Class,
    /// The instruments that it is of.
    pub group: Group,
    /// Its subclass.
    pub subclass: u8,
    /// Its subclass version.
    pub version: u8,
    /// How many records before it have its class, group and subclass.
    pub ordinal: u32,
    /// All its bytes, the header's 20 with them.
    pub bytes: &'a [u8],
}

impl<'a> Record<'a> {
    /// What it starts and stops at; `None` where that is undefined.
    pub fn times(&self) -> (Option<Time>, Option<Time>) {
        // SAFETY: as `ask` says.
        let answer =
            ask::<16>(|answer| unsafe { sys::wl_read_header(self.bytes.as_ptr(), self.bytes.len(), 0, answer) });
        let answer = answer.expect("the header of an accepted product's record reads");
        (time_at(&answer, 8), time_at(&answer, 11))
    }

    /// Its bytes after the header.
    pub fn payload(&self) -> &'a [u8] {
        &self.bytes[20..]
    }
}

/// Which of a product's two ground points.
#[derive(Clone, Copy, Debug, PartialEq, Eq)]
pub enum Which {
    /// At its start.
    Start = 0,
    /// At its end.
    End = 1,
}

/// The point below the satellite, in degrees.
#[derive(Clone, Copy, Debug, PartialEq)]
pub struct GroundPoint {
    /// North is positive.
    pub latitude: f64,
    /// East is positive.
    pub longitude: f64,
}

impl<'a> Product<'a> {
    /// Judges a finished product, and keeps where its records are.
    pub fn judged(bytes: &'a [u8]) -> Result<Product<'a>> {
        Product::listed(bytes, sys::wl_rows)
    }

    /// The same of a product that keeps to the Level 0 profile; `Profile` where a record does not.
    pub fn level0(bytes: &'a [u8]) -> Result<Product<'a>> {
        Product::listed(bytes, sys::wl_level0)
    }

    fn listed(bytes: &'a [u8], list: Lister) -> Result<Product<'a>> {
        let mut rows = vec![[0; sys::ROW]; verdict(bytes)? as usize];
        // SAFETY: as `ask` says.
        ask::<4>(|answer| unsafe { list(bytes.as_ptr(), bytes.len(), rows.as_mut_ptr(), rows.len(), answer) })?;
        Ok(Product { bytes, rows })
    }

    /// All its bytes.
    pub fn bytes(&self) -> &'a [u8] {
        self.bytes
    }

    /// How many records it has, the main header with them.
    pub fn len(&self) -> usize {
        self.rows.len()
    }

    /// It has one record at least.
    pub fn is_empty(&self) -> bool {
        false
    }

    /// Record k, counted from 0.
    pub fn record(&self, k: usize) -> Option<Record<'a>> {
        self.rows.get(k).map(|row| record_of(self.bytes, row))
    }

    /// Its records, in order.
    pub fn records(&self) -> impl ExactSizeIterator<Item = Record<'a>> + DoubleEndedIterator + '_ {
        self.rows.iter().map(|row| record_of(self.bytes, row))
    }

    /// A field of text, with its padding; `NoField` where its kind is another.
    pub fn text(&self, field: Field) -> Result<&'a str> {
        // SAFETY: as `ask` says.
        let answer = ask::<4>(|answer| unsafe {
            sys::wl_text_field(self.bytes.as_ptr(), self.bytes.len(), field as usize, answer)
        })?;
        let text = &self.bytes[answer[2] as usize..][..answer[3] as usize];
        Ok(std::str::from_utf8(text).expect("a text has bytes 32 to 126"))
    }

    /// A field that is a number; `None` where it is undefined, `NoField` where its kind is another.
    pub fn number(&self, field: Field) -> Result<Option<i64>> {
        // SAFETY: as `ask` says.
        let answer = ask::<4>(|answer| unsafe {
            sys::wl_number_field(self.bytes.as_ptr(), self.bytes.len(), field as usize, answer)
        })?;
        Ok((answer[2] == 1).then_some(answer[3] as i64))
    }

    /// A field that is a time; `None` where it is undefined, `NoField` where its kind is another.
    pub fn time(&self, field: Field) -> Result<Option<Moment>> {
        // SAFETY: as `ask` says.
        let answer = ask::<12>(|answer| unsafe {
            sys::wl_time_field(self.bytes.as_ptr(), self.bytes.len(), field as usize, answer)
        })?;
        Ok((answer[2] == 1).then(|| Moment {
            year: answer[3] as u16,
            month: answer[4] as u8,
            day: answer[5] as u8,
            hour: answer[6] as u8,
            minute: answer[7] as u8,
            second: answer[8] as u8,
            milli: answer[9] as u16,
        }))
    }

    /// A field in words, whatever its kind.
    pub fn shown(&self, field: Field) -> Result<String> {
        let shown = match field.kind() {
            FieldKind::Text => Some(self.text(field)?.to_string()),
            FieldKind::Time | FieldKind::LongTime => self.time(field)?.map(|moment| moment.to_string()),
            FieldKind::Unsigned | FieldKind::Count | FieldKind::Signed => {
                self.number(field)?.map(|number| number.to_string())
            }
        };
        Ok(shown.unwrap_or_else(|| "undefined".to_string()))
    }

    /// The point below the satellite at its start or end; `None` where either field is undefined.
    ///
    /// A cut keeps both points of its original, and a join those of its first product.
    pub fn ground_point(&self, which: Which) -> Result<Option<GroundPoint>> {
        let mut point = [0.0; 2];
        let (bytes, len) = (self.bytes.as_ptr(), self.bytes.len());
        // SAFETY: as `ask` says.
        let answer = ask::<4>(|answer| unsafe { sys::wl_ground_point(bytes, len, which as u8, &mut point, answer) })?;
        Ok((answer[2] == 1).then_some(GroundPoint { latitude: point[0], longitude: point[1] }))
    }

    /// The cut to the MDRs that start in the window, both ends in.
    pub fn cut(&self, first: Time, last: Time) -> Result<Vec<u8>> {
        let ((a, b, c), (d, e, f)) = (flat(Some(first)), flat(Some(last)));
        let (bytes, len) = (self.bytes.as_ptr(), self.bytes.len());
        // SAFETY: as `ask` says.
        written(len, |room| {
            ask(|answer| unsafe { sys::wl_cut(bytes, len, a, b, c, d, e, f, room.as_mut_ptr(), room.len(), answer) })
        })
    }

    /// This granule and the one that follows it in the pass, as one product.
    ///
    /// The result keeps ORBIT_END, SUBSAT_LATITUDE_END, SUBSAT_LONGITUDE_END and SENSING_END_THEORETICAL of the first.
    pub fn join(&self, next: &Product) -> Result<Vec<u8>> {
        self.joined(next, sys::wl_join_pass)
    }

    /// The same where SPHR and global records are the same in every byte, and nothing overlaps.
    pub fn join_identical(&self, next: &Product) -> Result<Vec<u8>> {
        self.joined(next, sys::wl_join)
    }

    fn joined(&self, next: &Product, join: Joiner) -> Result<Vec<u8>> {
        let (first, second) = (self.bytes, next.bytes);
        written(first.len() + second.len(), |room| {
            // SAFETY: as `ask` says.
            ask(|answer| unsafe {
                join(first.as_ptr(), first.len(), second.as_ptr(), second.len(), room.as_mut_ptr(), room.len(), answer)
            })
        })
    }

    /// `None` where this is a cut of the original, else the place that shows that it is not: 0 for a line of the main header, the start of a record
    /// that cannot be matched, or this one's length where one of the original's is missing.
    pub fn differs_from_cut_of(&self, original: &Product) -> Result<Option<u64>> {
        let (whole, cut) = (original.bytes, self.bytes);
        // SAFETY: as `ask` says.
        let answer = ask::<4>(|answer| unsafe {
            sys::wl_check_cut(whole.as_ptr(), whole.len(), cut.as_ptr(), cut.len(), answer)
        })?;
        Ok((answer[2] == 0).then_some(answer[3]))
    }
}

type Lister = unsafe extern "C" fn(*const u8, usize, *mut [u32; sys::ROW], usize, *mut [u64; 4]);
type Joiner = unsafe extern "C" fn(*const u8, usize, *const u8, usize, *mut u8, usize, *mut [u64; 4]);

fn record_of<'a>(bytes: &'a [u8], row: &[u32; sys::ROW]) -> Record<'a> {
    let [start, size, class, group, subclass, version, ordinal] = *row;
    let known = "an accepted product's record has a known class and group";
    Record {
        start: start as usize,
        class: Class::of(class as u8).expect(known),
        group: Group::of(group as u8).expect(known),
        subclass: subclass as u8,
        version: version as u8,
        ordinal,
        bytes: &bytes[start as usize..][..size as usize],
    }
}

impl<'a> TryFrom<&'a [u8]> for Product<'a> {
    type Error = Refused;

    fn try_from(bytes: &'a [u8]) -> Result<Product<'a>> {
        Product::judged(bytes)
    }
}
