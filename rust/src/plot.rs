//! What is drawn: numbers, dots and bars, and the noise types that bars need.

use crate::boundary::{self, DotAnswer, NoiseAnswer};
use crate::refusals::{answered, Refusal};

/// What stands at a place of a plot.
#[must_use]
#[derive(Clone, Copy, Debug, PartialEq)]
pub enum Dot {
    /// A deviation, drawn in picoseconds.
    Drawn(f64),
    /// A deviation of nought.
    Nought,
    /// No deviation: the count is 0.
    TooFew,
}

/// A noise type.
#[must_use]
#[derive(Clone, Copy, Debug, PartialEq, Eq, Hash)]
pub enum Noise {
    /// Alpha 2.
    WhitePhase,
    /// Alpha 1.
    FlickerPhase,
    /// Alpha 0.
    WhiteFrequency,
    /// Alpha -1.
    FlickerFrequency,
    /// Alpha -2.
    RandomWalkFrequency,
}

impl Noise {
    /// The type with this alpha; only -2 to 2 are an alpha of one.
    pub fn from_alpha(alpha: i64) -> Option<Noise> {
        match alpha {
            2 => Some(Noise::WhitePhase),
            1 => Some(Noise::FlickerPhase),
            0 => Some(Noise::WhiteFrequency),
            -1 => Some(Noise::FlickerFrequency),
            -2 => Some(Noise::RandomWalkFrequency),
            _ => None,
        }
    }

    /// The type's alpha, from -2 to 2.
    pub fn alpha(self) -> i64 {
        match self {
            Noise::WhitePhase => 2,
            Noise::FlickerPhase => 1,
            Noise::WhiteFrequency => 0,
            Noise::FlickerFrequency => -1,
            Noise::RandomWalkFrequency => -2,
        }
    }
}

/// A bar row in picoseconds: three doubles, drawn from r-h, r and r+h.
#[must_use]
#[derive(Clone, Copy, Debug, PartialEq)]
pub struct Bars {
    /// Drawn from r-h, which is at least 1.
    pub low: f64,
    /// Drawn from r.
    pub mid: f64,
    /// Drawn from r+h.
    pub high: f64,
}

fn dot_of(answer: DotAnswer) -> Result<Dot, Refusal> {
    answered(answer.number, answer.place)?;
    match answer.kind {
        0 => Ok(Dot::Nought),
        1 => Ok(Dot::Drawn(answer.value)),
        2 => Ok(Dot::TooFew),
        // The library proves that an answered dot is one of these three.
        kind => unreachable!("no dot has the kind {kind}"),
    }
}

fn noise_of(answer: NoiseAnswer) -> Result<Noise, Refusal> {
    answered(answer.number, answer.place)?;
    match Noise::from_alpha(answer.alpha) {
        Some(noise) => Ok(noise),
        // The library proves that an answered alpha is one of the five.
        None => unreachable!("no noise type has the alpha {}", answer.alpha),
    }
}

/// The greatest double not above r / 2^20: a deviation r as a double, in picoseconds.
///
/// Refuses 3 (r not from 1 to 2^63; place 0).
pub fn drawn_number(r: u64) -> Result<f64, Refusal> {
    let answer = unsafe { boundary::plg_drawn_number(r) };
    answered(answer.number, answer.place)?;
    Ok(answer.value)
}

/// The dot of an Allan deviation; a count of 0 is the dot too few.
///
/// Refuses 5 (m not from 1 to 10,922), 2 (count above 32,768), 3 (sum of 2^126 or more), 3 (r above 2^62), all at place 0.
pub fn allan_dot(sum: u128, m: u64, count: u64) -> Result<Dot, Refusal> {
    dot_of(unsafe { boundary::plg_allan_dot(sum.into(), m, count) })
}

/// The dot of a time deviation; a count of 0 is the dot too few.
///
/// Refuses 5 (m not from 1 to 10,922), 2 (count above 32,768), 3 (sum of 2^126 or more), 3 (r above 2^62), all at place 0.
pub fn time_dot(sum: u128, m: u64, count: u64) -> Result<Dot, Refusal> {
    dot_of(unsafe { boundary::plg_time_dot(sum.into(), m, count) })
}

/// The noise type by the time deviations at m and 2m.
///
/// Refuses 3 (either above 2^62), 8 (r1 = 0), both at place 0.
pub fn noise_type(r1: u64, r2: u64) -> Result<Noise, Refusal> {
    noise_of(unsafe { boundary::plg_noise_type(r1, r2) })
}

/// The noise type of a record at factor m.
///
/// Refuses 5 (m not from 1 to 5,461), 2 (N above 32,768), 1 (N below 6m), 3 (at the first sample outside its range), 8 (a time deviation of nought at
/// m).
pub fn noise_of_record(samples: &[i64], m: u64) -> Result<Noise, Refusal> {
    noise_of(unsafe { boundary::plg_noise_of_record(samples.as_ptr(), samples.len(), m) })
}

/// The bars of deviation r, for noise of this type over M intervals, M the whole part of (N-1)/m: w is kappa, in hundredths, times r divided by 100,
/// floored; h is the greatest whole number with h^2 M not above w^2. Whatever is answered has h below r: no lower end is nought.
///
/// Refuses 8 (r = 0), 3 (r above 2^62), 1 (M below 10), 2 (M above 32,767), all at place 0.
pub fn bars(r: u64, noise: Noise, intervals: u64) -> Result<Bars, Refusal> {
    let answer = unsafe { boundary::plg_bars(r, noise.alpha(), intervals) };
    answered(answer.number, answer.place)?;
    let boundary::Bar { low, mid, high } = answer.bar;
    Ok(Bars { low, mid, high })
}
