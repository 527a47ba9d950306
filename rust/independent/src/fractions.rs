//! Variances as fractions in lowest terms, and deviations.

use super::{ask, greatest, Answer, LARGEST_DEVIATION, LARGEST_FACTOR, MOST_SAMPLES, SUM_END};

/// A fraction in lowest terms.
#[derive(Clone, Copy, Debug, PartialEq, Eq)]
pub struct Fraction {
    pub numerator: u128,
    pub denominator: u128,
}

/// Refuses 5, 1, 2, 3 for a sum, factor and count.
fn ask_sum(sum: u128, m: u64, count: u64) -> Answer<()> {
    ask(m >= 1 && m <= LARGEST_FACTOR, 5)?;
    ask(count != 0, 1)?;
    ask(count <= MOST_SAMPLES, 2)?;
    ask(sum < SUM_END, 3)
}

pub(crate) fn allan_denominator(m: u64, count: u64) -> u128 {
    2 * m as u128 * m as u128 * count as u128
}

fn time_denominator(m: u64, count: u64) -> u128 {
    6 * m as u128 * m as u128 * count as u128
}

fn greatest_common_divisor(mut a: u128, mut b: u128) -> u128 {
    while b != 0 {
        (a, b) = (b, a % b);
    }
    a
}

fn lowest_terms(sum: u128, denominator: u128) -> Fraction {
    let divisor = greatest_common_divisor(sum, denominator);
    Fraction { numerator: sum / divisor, denominator: denominator / divisor }
}

/// A / (2 m^2 K) in lowest terms.
pub fn allan_fraction(sum: u128, m: u64, count: u64) -> Answer<Fraction> {
    ask_sum(sum, m, count)?;
    Ok(lowest_terms(sum, allan_denominator(m, count)))
}

/// B / (6 m^2 C) in lowest terms.
pub fn time_fraction(sum: u128, m: u64, count: u64) -> Answer<Fraction> {
    ask_sum(sum, m, count)?;
    Ok(lowest_terms(sum, time_denominator(m, count)))
}

/// A product of 256 bits: high half, low half.
pub fn product(x: u128, y: u128) -> (u128, u128) {
    const WORD: u128 = u64::MAX as u128;
    let (x1, x0, y1, y0) = (x >> 64, x & WORD, y >> 64, y & WORD);
    let (outer, inner) = (x1 * y0, x0 * y1);
    let middle = ((x0 * y0) >> 64) + (outer & WORD) + (inner & WORD);
    (x1 * y1 + (outer >> 64) + (inner >> 64) + (middle >> 64), (middle << 64) | ((x0 * y0) & WORD))
}

/// Whether r^2 D is not above A times 2^40.
pub fn not_above(r: u64, denominator: u128, sum: u128) -> bool {
    product(r as u128 * r as u128, denominator) <= product(sum, 1 << 40)
}

/// The greatest r with r^2 D not above A times 2^40; 3 where it is above 2^62.
fn deviation(sum: u128, denominator: u128) -> Answer<u64> {
    ask(!not_above(LARGEST_DEVIATION + 1, denominator, sum), 3)?;
    Ok(greatest(LARGEST_DEVIATION, |r| not_above(r, denominator, sum)))
}

/// The Allan deviation in units of 2^-20 picoseconds.
pub fn allan_deviation(sum: u128, m: u64, count: u64) -> Answer<u64> {
    ask_sum(sum, m, count)?;
    deviation(sum, allan_denominator(m, count))
}

/// The time deviation in units of 2^-20 picoseconds.
pub fn time_deviation(sum: u128, m: u64, count: u64) -> Answer<u64> {
    ask_sum(sum, m, count)?;
    deviation(sum, time_denominator(m, count))
}
