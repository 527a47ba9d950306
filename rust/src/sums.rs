//! The published sums, and the variances and deviations worked from them.

use crate::boundary::{self, DeviationAnswer, FractionAnswer, Part, SumAnswer, SumsAnswer};
use crate::refusals::{answered, Refusal};

/// A sum of squares, and how many squares. It is handed on as `sum.total` and `sum.count`.
#[must_use]
#[derive(Clone, Copy, Debug, PartialEq, Eq)]
pub struct Sum {
    /// The sum: A or B. It is below 2^126.
    pub total: u128,
    /// How many squares: K or C.
    pub count: u64,
}

/// Both sums, each where it is due.
#[must_use]
#[derive(Clone, Copy, Debug, PartialEq, Eq)]
pub struct Sums {
    /// The Allan sum A with its count K; none where that is 0, while no stretch has 2m+1 samples.
    pub allan: Option<Sum>,
    /// The modified sum B with its count C; none where that is 0, while no stretch has 3m samples.
    pub modified: Option<Sum>,
}

/// A fraction in lowest terms; nought is 0/1.
#[must_use]
#[derive(Clone, Copy, Debug, PartialEq, Eq)]
pub struct Fraction {
    /// What is divided.
    pub numerator: u128,
    /// What it is divided by, never nought.
    pub denominator: u64,
}

fn sum_of(answer: SumAnswer) -> Result<Sum, Refusal> {
    answered(answer.number, answer.place)?;
    Ok(Sum { total: answer.sum.into(), count: answer.count })
}

/// A part that is due.
pub(crate) fn due_part_of(part: Part) -> Sum {
    Sum { total: part.sum.into(), count: part.count }
}

/// A part's own number is 0, or 1 where it is not due.
pub(crate) fn part_of(part: Part) -> Option<Sum> {
    (part.number == 0).then(|| due_part_of(part))
}

pub(crate) fn sums_of(answer: SumsAnswer) -> Result<Sums, Refusal> {
    answered(answer.number, answer.place)?;
    Ok(Sums { allan: part_of(answer.allan), modified: part_of(answer.modified) })
}

fn fraction_of(answer: FractionAnswer) -> Result<Fraction, Refusal> {
    answered(answer.number, answer.place)?;
    Ok(Fraction { numerator: answer.numerator.into(), denominator: answer.denominator })
}

fn deviation_of(answer: DeviationAnswer) -> Result<u64, Refusal> {
    answered(answer.number, answer.place)?;
    Ok(answer.deviation)
}

/// The Allan sum A of squared second differences at factor m, with its count K = N-2m.
///
/// Refuses 5 (m not from 1 to 10,922), 2 (N above 32,768), 1 (N below 2m+1), 3 (at the first sample outside its range).
pub fn allan_sum(samples: &[i64], m: u64) -> Result<Sum, Refusal> {
    sum_of(unsafe { boundary::plg_allan_sum(samples.as_ptr(), samples.len(), m) })
}

/// The modified sum B of squared window sums at factor m, with its count C = N-3m+1. The modified variance is B / (2 m^4 C).
///
/// Refuses 5 (m not from 1 to 10,922), 2 (N above 32,768), 1 (N below 3m), 3 (at the first sample outside its range).
pub fn modified_sum(samples: &[i64], m: u64) -> Result<Sum, Refusal> {
    sum_of(unsafe { boundary::plg_modified_sum(samples.as_ptr(), samples.len(), m) })
}

/// The Allan variance A / (2 m^2 K) in lowest terms.
///
/// Refuses 5 (m not from 1 to 10,922), 1 (count 0), 2 (count above 32,768), 3 (sum of 2^126 or more), all at place 0.
pub fn allan_fraction(sum: u128, m: u64, count: u64) -> Result<Fraction, Refusal> {
    fraction_of(unsafe { boundary::plg_allan_fraction(sum.into(), m, count) })
}

/// The time variance B / (6 m^2 C) in lowest terms.
///
/// Refuses 5 (m not from 1 to 10,922), 1 (count 0), 2 (count above 32,768), 3 (sum of 2^126 or more), all at place 0.
pub fn time_fraction(sum: u128, m: u64, count: u64) -> Result<Fraction, Refusal> {
    fraction_of(unsafe { boundary::plg_time_fraction(sum.into(), m, count) })
}

/// The Allan deviation r in units of 2^-20 picoseconds per basic interval: the greatest whole number with r^2 (2 m^2 K) not above A times 2^40.
/// [`drawn_number`](crate::drawn_number) gives it as a double.
///
/// Refuses 5 (m not from 1 to 10,922), 1 (count 0), 2 (count above 32,768), 3 (sum of 2^126 or more), 3 (r above 2^62), all at place 0.
pub fn allan_deviation(sum: u128, m: u64, count: u64) -> Result<u64, Refusal> {
    deviation_of(unsafe { boundary::plg_allan_deviation(sum.into(), m, count) })
}

/// The time deviation r in units of 2^-20 picoseconds: the greatest whole number with r^2 (6 m^2 C) not above B times 2^40.
/// [`drawn_number`](crate::drawn_number) gives it as a double.
///
/// Refuses 5 (m not from 1 to 10,922), 1 (count 0), 2 (count above 32,768), 3 (sum of 2^126 or more), 3 (r above 2^62), all at place 0.
pub fn time_deviation(sum: u128, m: u64, count: u64) -> Result<u64, Refusal> {
    deviation_of(unsafe { boundary::plg_time_deviation(sum.into(), m, count) })
}
