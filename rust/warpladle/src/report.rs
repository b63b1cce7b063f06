//! The report of a list of products.
use crate::answers::ask;
use crate::{Class, Fault, Refused, Result};
use std::iter::Sum;
use warpladle_sys as sys;

/// What a list of products comes to. In whatever order they are added the report is the same, where none is answered with `ReportFull`: a report holds 4,096
/// products.
#[derive(Clone, Copy, Debug, PartialEq, Eq)]
pub struct Report {
    numbers: [u64; sys::REPORT],
}

impl Default for Report {
    fn default() -> Report {
        Report { numbers: [0; sys::REPORT] }
    }
}

impl Report {
    /// Of no products.
    pub fn new() -> Report {
        Report::default()
    }

    /// One product more, accepted or not: its own refusal is counted and given. `ReportFull` leaves the report as it is.
    pub fn add(&mut self, product: &[u8]) -> Result<Option<Refused>> {
        // SAFETY: as `ask` says.
        let answer = ask::<4>(|answer| unsafe {
            sys::wl_report_add(&mut self.numbers, product.as_ptr(), product.len(), answer)
        })?;
        Ok(Fault::of(answer[2]).map(|fault| Refused { fault, place: answer[3] }))
    }

    /// The products of another report too. `ReportFull` leaves the report as it is.
    pub fn merge(&mut self, other: &Report) -> Result<()> {
        // SAFETY: as `ask` says.
        ask::<4>(|answer| unsafe { sys::wl_report_merge(&mut self.numbers, &other.numbers, answer) })?;
        Ok(())
    }

    /// How many products were added.
    pub fn products(&self) -> u64 {
        self.numbers[0]
    }

    /// How many of them were accepted.
    pub fn accepted(&self) -> u64 {
        self.numbers[20]
    }

    /// How many were refused with a fault, which is one of 1 to 17.
    pub fn refused(&self, fault: Fault) -> u64 {
        match fault.number() {
            number @ 1..=17 => self.numbers[20 + number as usize],
            _ => 0,
        }
    }

    /// How many records of a class the accepted ones have.
    pub fn records(&self, class: Class) -> u64 {
        self.numbers[class as usize]
    }

    /// How many bytes these have.
    pub fn bytes(&self, class: Class) -> u64 {
        self.numbers[8 + class as usize]
    }

    /// Milliseconds of gap between one MDR's stop and the next one's start, within products.
    pub fn gap(&self) -> u64 {
        self.numbers[17]
    }

    /// Milliseconds of overlap.
    pub fn overlap(&self) -> u64 {
        self.numbers[18]
    }

    /// Pairs of MDRs with an undefined time between them.
    pub fn undefined(&self) -> u64 {
        self.numbers[19]
    }
}

/// The merge of them all; `ReportFull` where it would pass the limits of one.
impl<'a> Sum<&'a Report> for Result<Report> {
    fn sum<I: Iterator<Item = &'a Report>>(mut reports: I) -> Result<Report> {
        reports.try_fold(Report::new(), |mut all, report| all.merge(report).map(|()| all))
    }
}
