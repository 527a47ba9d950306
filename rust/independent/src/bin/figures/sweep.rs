//! Sums, fractions and deviations of long records at many factors and lengths.

use independent::fractions::{allan_deviation, allan_fraction, time_deviation, time_fraction, Fraction};
use independent::sums::{allan_sum, modified_sum, Sum};
use independent::Answer;

use crate::print::{self, answer};
use crate::records;

pub fn figures() {
    for (name, record) in records::all() {
        for m in [1, 2, 3, 7, 100, 5_000, 10_922] {
            for length in [2 * m, 2 * m + 1, 3 * m - 1, 3 * m, records::LENGTH] {
                let (samples, heading) = (&record[..length], format!("{name} m {m} N {length}"));
                println!("{heading} Allan {}", answer(allan(samples, m as u64)));
                println!("{heading} modified {}", answer(modified(samples, m as u64)));
            }
        }
    }
}

fn allan(samples: &[i64], m: u64) -> Answer<String> {
    let sum = allan_sum(samples, m)?;
    Ok(words(sum, allan_fraction(sum.total, m, sum.count)?, allan_deviation(sum.total, m, sum.count)?))
}

fn modified(samples: &[i64], m: u64) -> Answer<String> {
    let sum = modified_sum(samples, m)?;
    Ok(words(sum, time_fraction(sum.total, m, sum.count)?, time_deviation(sum.total, m, sum.count)?))
}

fn words(sum: Sum, variance: Fraction, deviation: u64) -> String {
    format!("{}, {}, {deviation}", print::sum(sum), print::fraction(variance))
}
