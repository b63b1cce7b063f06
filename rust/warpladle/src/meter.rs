//! Scaled numbers, as handheld meters read and show them.
use crate::answers::ask;
use crate::Result;
use warpladle_sys as sys;

/// integer / 10^scale; a scale below 0 multiplies.
#[derive(Clone, Copy, Debug, PartialEq, Eq, Hash)]
#[allow(missing_docs)]
pub struct Scaled {
    pub integer: i64,
    pub scale: i8,
}

/// What a meter shows of a scaled number.
#[derive(Clone, Copy, Debug, PartialEq)]
pub enum Reading {
    /// It is undefined.
    Missing,
    /// A whole number.
    Whole(f64),
    /// A number between two whole ones.
    Between(f64),
}

/// How many bytes the integer has, and whether it has a sign.
#[derive(Clone, Copy, Debug, PartialEq, Eq, Hash)]
#[allow(missing_docs)]
pub struct Form {
    pub width: usize,
    pub signed: bool,
}

impl Scaled {
    /// The scale and the integer after it, from `at` on; `None` where the number is undefined. Refused with `Outside`, then `Malformed`.
    ///
    /// ```
    /// use warpladle::meter::{Form, Reading, Scaled};
    /// let form = Form { width: 2, signed: false };
    /// let number = Scaled::read(&[1, 2, 0x8f], 0, form).unwrap();
    /// assert_eq!(number, Some(Scaled { integer: 655, scale: 1 }));
    /// assert_eq!(number.unwrap().reading().unwrap(), Reading::Between(65.5));
    /// ```
    pub fn read(bytes: &[u8], at: usize, form: Form) -> Result<Option<Scaled>> {
        let signed = u8::from(form.signed);
        // SAFETY: as `ask` says.
        let answer = ask::<6>(|answer| unsafe {
            sys::wl_read_scaled(bytes.as_ptr(), bytes.len(), at, form.width, signed, answer)
        })?;
        Ok((answer[2] == 1).then_some(Scaled { integer: answer[3] as i64, scale: answer[4] as i64 as i8 }))
    }

    /// The units of the last of so many decimals, a tie going away from zero. Refused with `Malformed`.
    ///
    /// ```
    /// use warpladle::meter::Scaled;
    /// assert_eq!(Scaled { integer: 149, scale: 2 }.round(1), Ok(15));
    /// assert_eq!(Scaled { integer: -5, scale: 1 }.round(0), Ok(-1));
    /// ```
    pub fn round(self, decimals: i8) -> Result<i64> {
        // SAFETY: as `ask` says.
        Ok(ask::<4>(|answer| unsafe { sys::wl_round(1, self.integer, self.scale, decimals, answer) })?[3] as i64)
    }

    /// What a meter shows: one division, never cut to a whole number. Refused with `Malformed` beyond 2^53 either way.
    pub fn reading(self) -> Result<Reading> {
        let mut value = 0.0;
        // SAFETY: as `ask` says.
        let answer = ask::<4>(|answer| unsafe { sys::wl_reading(1, self.integer, self.scale, &mut value, answer) })?;
        Ok(match answer[2] {
            0 => Reading::Missing,
            1 => Reading::Whole(value),
            _ => Reading::Between(value),
        })
    }
}
