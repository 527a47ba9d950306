//! Noise types and bars.

use super::drawn::drawn_number;
use super::fractions::time_deviation;
use super::sums::{ask_record, modified_of};
use super::{ask, greatest, Answer, LARGEST_DEVIATION};

/// The factor of a record's noise type runs from 1 to this.
pub const LARGEST_NOISE_FACTOR: u64 = 5_461;

/// The five types, by the rules' names.
#[derive(Clone, Copy, Debug, PartialEq, Eq)]
pub enum Noise {
    WhitePhase,
    FlickerPhase,
    WhiteFrequency,
    FlickerFrequency,
    RandomWalkFrequency,
}

impl Noise {
    pub fn alpha(self) -> i64 {
        match self {
            Noise::WhitePhase => 2,
            Noise::FlickerPhase => 1,
            Noise::WhiteFrequency => 0,
            Noise::FlickerFrequency => -1,
            Noise::RandomWalkFrequency => -2,
        }
    }

    /// Kappa in hundredths.
    pub fn kappa(self) -> u64 {
        match self {
            Noise::WhitePhase | Noise::FlickerPhase => 99,
            Noise::WhiteFrequency => 87,
            Noise::FlickerFrequency => 77,
            Noise::RandomWalkFrequency => 75,
        }
    }

    /// The type with this alpha; no other number is one.
    pub fn of_alpha(alpha: i64) -> Option<Noise> {
        match alpha {
            2 => Some(Noise::WhitePhase),
            1 => Some(Noise::FlickerPhase),
            0 => Some(Noise::WhiteFrequency),
            -1 => Some(Noise::FlickerFrequency),
            -2 => Some(Noise::RandomWalkFrequency),
            _ => None,
        }
    }
}

/// The type by the time deviations at m and 2m.
pub fn noise_type(r1: u64, r2: u64) -> Answer<Noise> {
    ask(r1 <= LARGEST_DEVIATION && r2 <= LARGEST_DEVIATION, 3)?;
    ask(r1 != 0, 8)?;
    let at_or_under = |bound: u128| 4096 * r2 as u128 <= r1 as u128 * bound;
    Ok(if at_or_under(3444) {
        Noise::WhitePhase
    } else if at_or_under(4871) {
        Noise::FlickerPhase
    } else if at_or_under(6889) {
        Noise::WhiteFrequency
    } else if at_or_under(9742) {
        Noise::FlickerFrequency
    } else {
        Noise::RandomWalkFrequency
    })
}

/// The type of a record at factor m.
pub fn noise_of_record(samples: &[i64], m: u64) -> Answer<Noise> {
    ask_record(samples, m, LARGEST_NOISE_FACTOR, |m| 6 * m)?;
    let deviation_at = |m: u64| {
        let sum = modified_of(samples, m as usize);
        time_deviation(sum.total, m, sum.count)
    };
    noise_type(deviation_at(m)?, deviation_at(2 * m)?)
}

/// A bar row: three doubles, drawn from r-h, r and r+h.
#[derive(Clone, Copy, Debug, PartialEq)]
pub struct Bars {
    pub low: f64,
    pub mid: f64,
    pub high: f64,
}

/// The greatest h with h^2 M not above w^2, where w is kappa r, floored, for M at least 1.
pub fn half_width(r: u64, noise: Noise, intervals: u64) -> u64 {
    let w = noise.kappa() as u128 * r as u128 / 100;
    // A product that passes 128 bits is above.
    let not_above = |h: u64| match (h as u128 * h as u128).checked_mul(intervals as u128) {
        Some(product) => product <= w * w,
        None => false,
    };
    // All of 64 bits, not 0 to w or to r: that h is below r is found here and not assumed.
    greatest(u64::MAX, not_above)
}

/// The bars of deviation r over M intervals.
pub fn bars(r: u64, noise: Noise, intervals: u64) -> Answer<Bars> {
    ask(r != 0, 8)?;
    ask(r <= LARGEST_DEVIATION, 3)?;
    ask(intervals >= 10, 1)?;
    ask(intervals <= 32_767, 2)?;
    let h = half_width(r, noise, intervals);
    // The rules say that r-h is at least 1: were it nought or less, there would be no row to give.
    let lower = r.checked_sub(h).expect("h is not above r");
    let drawn = |r: u64| drawn_number(r).expect("an end from 1 to 2^63");
    Ok(Bars { low: drawn(lower), mid: drawn(r), high: drawn(r + h) })
}
