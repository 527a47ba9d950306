//! Drawn numbers and dots.

use super::fractions::{allan_deviation, time_deviation};
use super::{ask, greatest, Answer, Refusal};

/// The bits of the infinite double: every finite one that is not negative has fewer.
const INFINITE: u64 = 0x7FF << 52;

/// The size of a finite double, exactly: digits times 2^exponent.
struct Size {
    digits: u64,
    exponent: i32,
}

/// The size that the lower 63 bits of a finite double stand for.
fn size_of_bits(bits: u64) -> Size {
    let field = (bits >> 52 & 0x7FF) as i32;
    let fraction = bits & ((1 << 52) - 1);
    if field == 0 {
        Size { digits: fraction, exponent: -1074 }
    } else {
        Size { digits: 1 << 52 | fraction, exponent: field - 1075 }
    }
}

/// Whether the double with these bits, not negative, is not above r / 2^20, for r at least 1.
fn not_above(bits: u64, r: u64) -> bool {
    let Size { digits, exponent } = size_of_bits(bits);
    match exponent + 20 {
        shift @ 0..=63 => (digits as u128) << shift <= r as u128,
        64.. => false,
        shift @ -63..=-1 => digits as u128 <= (r as u128) << -shift,
        _ => true,
    }
}

/// The greatest double not above r / 2^20, for r at least 1: doubles that are not negative lie in the order of their bits.
fn greatest_not_above(r: u64) -> f64 {
    f64::from_bits(greatest(INFINITE - 1, |bits| not_above(bits, r)))
}

/// The greatest double not above r / 2^20, for r from 1 to 2^63.
pub fn drawn_number(r: u64) -> Answer<f64> {
    ask(r >= 1 && r <= 1 << 63, 3)?;
    Ok(greatest_not_above(r))
}

/// What stands at a place of a plot.
#[derive(Clone, Copy, Debug, PartialEq)]
pub enum Dot {
    Nought,
    Drawn(f64),
    TooFew,
}

fn dot(deviation: Answer<u64>) -> Answer<Dot> {
    match deviation {
        Err(Refusal { number: 1, .. }) => Ok(Dot::TooFew),
        Err(refusal) => Err(refusal),
        Ok(0) => Ok(Dot::Nought),
        Ok(r) => drawn_number(r).map(Dot::Drawn),
    }
}

/// The dot of an Allan deviation.
pub fn allan_dot(sum: u128, m: u64, count: u64) -> Answer<Dot> {
    dot(allan_deviation(sum, m, count))
}

/// The dot of a time deviation.
pub fn time_dot(sum: u128, m: u64, count: u64) -> Answer<Dot> {
    dot(time_deviation(sum, m, count))
}
