//! The published sums, by their definitions: the modified one by running totals of the second differences.

use super::{ask, ask_samples, Answer, LARGEST_FACTOR, MOST_SAMPLES};

/// A sum of squares and how many squares.
#[derive(Clone, Copy, Debug, PartialEq, Eq)]
pub struct Sum {
    pub total: u128,
    pub count: u64,
}

/// Both sums, each none where there are too few samples for it.
#[derive(Clone, Copy, Debug, PartialEq, Eq)]
pub struct Sums {
    pub allan: Option<Sum>,
    pub modified: Option<Sum>,
}

/// Refuses 5, 2, 1, then 3 at the lowest index, for a record that needs `fewest` samples at factor m.
pub(crate) fn ask_record(samples: &[i64], m: u64, largest: u64, fewest: impl Fn(u64) -> u64) -> Answer<()> {
    let n = samples.len() as u64;
    ask(m >= 1 && m <= largest, 5)?;
    ask(n <= MOST_SAMPLES, 2)?;
    ask(n >= fewest(m), 1)?;
    ask_samples(samples)
}

/// d_i = x_(i+2m) - 2 x_(i+m) + x_i, for every i that the samples allow.
fn second_differences(samples: &[i64], m: usize) -> impl Iterator<Item = i128> + '_ {
    let x = move |i: usize| samples[i] as i128;
    (0..samples.len() - 2 * m).map(move |i| x(i + 2 * m) - 2 * x(i + m) + x(i))
}

/// A of a sound record.
pub(crate) fn allan_of(samples: &[i64], m: usize) -> Sum {
    let total = second_differences(samples, m).map(|d| (d * d) as u128).sum();
    Sum { total, count: (samples.len() - 2 * m) as u64 }
}

/// B of a sound record: S_j is the difference of two running totals.
pub(crate) fn modified_of(samples: &[i64], m: usize) -> Sum {
    let mut totals = vec![0i128];
    for d in second_differences(samples, m) {
        totals.push(totals[totals.len() - 1] + d);
    }
    let count = samples.len() - 3 * m + 1;
    let total = (0..count).map(|j| totals[j + m] - totals[j]).map(|s| (s * s) as u128).sum();
    Sum { total, count: count as u64 }
}

/// The Allan sum A and its count K.
pub fn allan_sum(samples: &[i64], m: u64) -> Answer<Sum> {
    ask_record(samples, m, LARGEST_FACTOR, |m| 2 * m + 1)?;
    Ok(allan_of(samples, m as usize))
}

/// The modified sum B and its count C.
pub fn modified_sum(samples: &[i64], m: u64) -> Answer<Sum> {
    ask_record(samples, m, LARGEST_FACTOR, |m| 3 * m)?;
    Ok(modified_of(samples, m as usize))
}
