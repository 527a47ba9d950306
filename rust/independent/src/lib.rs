//! A second implementation of the rules (docs/RULES.md), in plain Rust with whole numbers of 128 bits. Nothing here is shared with the library: it
//! was written from the rules and the project's documents, with no look at the library's code or definitions, so that the two can be compared.

pub mod channels;
pub mod compare;
pub mod drawn;
pub mod drift;
pub mod file;
pub mod floats;
pub mod fractions;
pub mod frequency;
pub mod meter;
pub mod noise;
pub mod salvage;
pub mod sheet;
pub mod sums;

#[cfg(test)]
mod figures;

/// A phase sample lies from -2^40 to 2^40.
pub const SAMPLE_END: i64 = 1 << 40;
/// A record has at most this many samples.
pub const MOST_SAMPLES: u64 = 32_768;
/// A frequency record has at most this many readings.
pub const MOST_READINGS: u64 = 32_767;
/// The factor m runs from 1 to this.
pub const LARGEST_FACTOR: u64 = 10_922;
/// A deviation is refused above this.
pub const LARGEST_DEVIATION: u64 = 1 << 62;
/// A sum handed in lies below this.
pub const SUM_END: u128 = 1 << 126;

/// Why a call was refused, by the rules' number, and where.
#[derive(Clone, Copy, Debug, PartialEq, Eq)]
pub struct Refusal {
    pub number: u64,
    pub place: u64,
}

pub type Answer<T> = Result<T, Refusal>;

/// Refuses with this number, at place 0, where a test fails.
pub(crate) fn ask(holds: bool, number: u64) -> Answer<()> {
    ask_at(holds, number, 0)
}

/// Refuses with this number at this place where a test fails.
pub(crate) fn ask_at(holds: bool, number: u64, place: u64) -> Answer<()> {
    if holds {
        Ok(())
    } else {
        Err(Refusal { number, place })
    }
}

pub(crate) fn in_sample_range(x: i128) -> bool {
    x >= -(SAMPLE_END as i128) && x <= SAMPLE_END as i128
}

/// Refuses 3 at the first sample outside the range.
pub(crate) fn ask_samples(samples: &[i64]) -> Answer<()> {
    match samples.iter().position(|&x| !in_sample_range(x as i128)) {
        Some(index) => Err(Refusal { number: 3, place: index as u64 }),
        None => Ok(()),
    }
}

/// The greatest whole number up to `top` that passes a test which 0 passes and which, once failed, stays failed.
pub fn greatest(top: u64, passes: impl Fn(u64) -> bool) -> u64 {
    let (mut low, mut high) = (0, top);
    while low < high {
        let middle = high - (high - low) / 2;
        if passes(middle) {
            low = middle;
        } else {
            high = middle - 1;
        }
    }
    low
}
