//! Scaled numbers: I / 10^s, which for s below 0 is I times 10^-s (request Five).
use super::{big_endian, part, refused, write};
use crate::values::{Reading, Refusal, Scaled};

fn is_width(width: usize) -> bool {
    [2, 4, 8].contains(&width)
}

fn is_scale(s: i8) -> bool {
    (-15..=15).contains(&s)
}

fn is_decimals(d: i8) -> bool {
    (0..=15).contains(&d)
}

/// The lowest and the highest integer of the width.
fn bounds(width: usize, signed: bool) -> (i128, i128) {
    let count = 1i128 << (8 * width);
    if signed {
        (-count / 2, count / 2 - 1)
    } else {
        (0, count - 1)
    }
}

/// The lowest signed, or the highest unsigned.
fn undefined(width: usize, signed: bool) -> i128 {
    let (lowest, highest) = bounds(width, signed);
    if signed {
        lowest
    } else {
        highest
    }
}

fn power(exponent: i8) -> i128 {
    10i128.pow(exponent as u32)
}

/// The number as a fraction, for s of -15 to 15: an i64 times 10^15 is far below 2^127.
fn fraction(number: Scaled) -> (i128, i128) {
    let (integer, s) = (number.integer as i128, number.scale);
    (integer * power((-s).max(0)), power(s.max(0)))
}

pub fn read_scaled(bytes: &[u8], at: usize, width: usize, signed: bool) -> Result<Option<Scaled>, Refusal> {
    let part = part(bytes, at, 1 + width as u128)?;
    if !is_width(width) {
        return refused(21, 0);
    }
    let scale = part[0] as i8;
    let (_, highest) = bounds(width, signed);
    let mut integer = big_endian(&part[1..]) as i128;
    if integer > highest {
        integer -= 1 << (8 * width);
    }
    if integer == undefined(width, signed) {
        return Ok(None);
    }
    if !is_scale(scale) || integer >= 1 << 63 {
        return refused(21, 0);
    }
    Ok(Some(Scaled { integer: integer as i64, scale }))
}

pub fn write_scaled(room: &mut [u8], width: usize, signed: bool, number: Option<Scaled>) -> Result<usize, Refusal> {
    if !is_width(width) {
        return refused(21, 0);
    }
    let (lowest, highest) = bounds(width, signed);
    let (integer, scale) = match number {
        None => (undefined(width, signed), 0),
        Some(n) => {
            let integer = n.integer as i128;
            if integer < lowest || integer > highest || integer == undefined(width, signed) || !is_scale(n.scale) {
                return refused(21, 0);
            }
            (integer, n.scale)
        }
    };
    let sixteen = integer.to_be_bytes();
    write(room, &[&[scale as u8], &sixteen[16 - width..]].concat())
}

/// The whole number nearest to the number times 10^d, a tie going away from zero; none where an i128 does not hold what it takes, which is then far
/// out of range.
fn nearest(number: Scaled, decimals: i8) -> Option<i128> {
    let (above, below) = fraction(number);
    let above = above.checked_mul(2 * power(decimals))?;
    let size = (above.abs() + below) / (2 * below);
    Some(size * above.signum())
}

/// Decimals, then undefined, then the scale, then the range (E10).
pub fn round(number: Option<Scaled>, decimals: i8) -> Result<Option<i64>, Refusal> {
    if !is_decimals(decimals) {
        return refused(21, 0);
    }
    let Some(number) = number else {
        return Ok(None);
    };
    if !is_scale(number.scale) {
        return refused(21, 0);
    }
    match nearest(number, decimals).map(i64::try_from) {
        Some(Ok(units)) => Ok(Some(units)),
        _ => refused(21, 0),
    }
}

/// The f64 nearest to n / 10^s. A text is read with one rounding, and so is one division of two numbers that are exact.
pub(super) fn quotient(n: i64, s: i8) -> f64 {
    format!("{n}e{}", -s).parse().expect("a decimal number")
}

/// Undefined, then the scale, then the size (E12): of I, or of the product where s is below 0, which is whole.
pub fn reading(number: Option<Scaled>) -> Result<Reading, Refusal> {
    let Some(number) = number else {
        return Ok(Reading::Missing);
    };
    if !is_scale(number.scale) {
        return refused(21, 0);
    }
    let (above, below) = fraction(number);
    if above.abs() > 1 << 53 {
        return refused(21, 0);
    }
    let value = quotient(number.integer, number.scale);
    if above % below == 0 {
        Ok(Reading::Whole(value))
    } else {
        Ok(Reading::Between(value))
    }
}
