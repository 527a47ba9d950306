//! The drift figure, and a record with its drift removed.

use super::{ask, ask_at, ask_samples, in_sample_range, Answer, MOST_SAMPLES};

/// Drift as P over R.
#[derive(Clone, Copy, Debug, PartialEq, Eq)]
pub struct Drift {
    pub p: i128,
    pub r: u64,
}

fn ask_size(samples: &[i64]) -> Answer<()> {
    ask(samples.len() as u64 <= MOST_SAMPLES, 2)?;
    ask(samples.len() >= 3, 1)
}

/// P and R of a sound record. Three samples decide P: the first, one in the middle, and the last or, where N is even, the last but one.
fn figure(samples: &[i64]) -> Drift {
    let x = |i: usize| samples[i] as i128;
    let h = (samples.len() - 1) / 2;
    Drift { p: x(2 * h) - 2 * x(h) + x(0), r: h as u64 * h as u64 }
}

/// With h the whole part of (N-1)/2, P = x_(2h) - 2 x_h + x_0 and R = h^2. All N samples are tested, those too that P does not read.
pub fn drift_figure(samples: &[i64]) -> Answer<Drift> {
    ask_size(samples)?;
    ask_samples(samples)?;
    Ok(figure(samples))
}

/// x_i - floor(P i (i-1) / (2R)), floored once, toward minus infinity; gives how many were written. All N samples are tested first, then the results.
pub fn remove_drift(samples: &[i64], buffer: &mut [i64]) -> Answer<u64> {
    ask_size(samples)?;
    ask(buffer.len() >= samples.len(), 6)?;
    ask_samples(samples)?;
    let Drift { p, r } = figure(samples);
    let mut results = Vec::with_capacity(samples.len());
    for (index, &x) in samples.iter().enumerate() {
        let i = index as i128;
        let result = x as i128 - (p * i * (i - 1)).div_euclid(2 * r as i128);
        ask_at(in_sample_range(result), 3, index as u64)?;
        results.push(result as i64);
    }
    buffer[..results.len()].copy_from_slice(&results);
    Ok(results.len() as u64)
}
