//! The quieter of two records. The two variances are compared as the fractions that they are, each with its whole denominator.

use super::fractions::{allan_denominator, product};
use super::sums::allan_sum;
use super::Answer;

/// Which of two records is the quieter.
#[derive(Clone, Copy, Debug, PartialEq, Eq)]
pub enum Quieter {
    First,
    Second,
}

impl Quieter {
    pub fn number(self) -> u64 {
        match self {
            Quieter::First => 1,
            Quieter::Second => 2,
        }
    }
}

/// The one with the smaller Allan variance at factor m, on equality the first. The products have up to 140 bits.
pub fn quieter(first: &[i64], second: &[i64], m: u64) -> Answer<Quieter> {
    let one = allan_sum(first, m)?;
    let two = allan_sum(second, m)?;
    let not_above = product(one.total, allan_denominator(m, two.count)) <= product(two.total, allan_denominator(m, one.count));
    Ok(if not_above { Quieter::First } else { Quieter::Second })
}

/// The quieter record itself.
pub fn quieter_record<'a>(first: &'a [i64], second: &'a [i64], m: u64) -> Answer<&'a [i64]> {
    Ok(match quieter(first, second, m)? {
        Quieter::First => first,
        Quieter::Second => second,
    })
}
