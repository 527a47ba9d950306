//! The modified sum as its formula is written: each window sum worked anew from its m second differences, so that the time grows with N times m.
//! The tests and refusals are those of `straightforward`.

use crate::straightforward::Outcome;
use crate::timing::median;
use std::hint::black_box;

const END: i64 = 1 << 40;
/// Fewer than the others have, since a turn at m = 100 takes many times as long.
pub const TURNS: usize = 101;

#[inline(never)]
pub fn modified_sum(samples: &[i64], m: u64) -> Outcome<(u128, u64)> {
    if m < 1 || m > 10_922 {
        return Err((5, 0));
    }
    if samples.len() > 32_768 {
        return Err((2, 0));
    }
    if (samples.len() as u64) < 3 * m {
        return Err((1, 0));
    }
    if let Some(index) = samples.iter().position(|&x| x < -END || x > END) {
        return Err((3, index as u64));
    }
    Ok(modified_of(samples, m as usize))
}

fn modified_of(samples: &[i64], m: usize) -> (u128, u64) {
    let difference = |i: usize| samples[i + 2 * m] - 2 * samples[i + m] + samples[i];
    let count = samples.len() - 3 * m + 1;
    let mut total = 0u128;
    for j in 0..count {
        let window: i64 = (j..j + m).map(difference).sum();
        total += (window as i128 * window as i128) as u128;
    }
    (total, count as u64)
}

/// The median turn's nanoseconds, where the answer is the library's.
pub fn nanoseconds(samples: &[i64], m: u64) -> f64 {
    let ours = ploegelster::modified_sum(samples, m).expect("the record is sound");
    assert_eq!(Ok((ours.total, ours.count)), modified_sum(samples, m));
    median(TURNS, || modified_sum(black_box(samples), m))
}
