//! Records turned into records: phase and frequency, drift, float readings.

use crate::boundary::{self, CountAnswer};
use crate::refusals::{answered, Refusal};
use crate::sums::{due_part_of, part_of, Sum};

/// Drift as P over R, in picoseconds per basic interval squared. With h the whole part of (N-1)/2, three samples decide P, as far apart as the record
/// allows: the first, one in the middle, and the last or, where N is even, the last but one.
#[must_use]
#[derive(Clone, Copy, Debug, PartialEq, Eq)]
pub struct Drift {
    /// P = x_(2h) - 2 x_h + x_0, the second difference at factor h and place 0.
    pub p: i64,
    /// R = h^2.
    pub r: u64,
}

/// Both sums of float readings, and how many of the readings were changed.
#[must_use]
#[derive(Clone, Copy, Debug, PartialEq, Eq)]
pub struct FloatSums {
    /// The Allan sum A with its count K: below 2m+1 readings the call is refused.
    pub allan: Sum,
    /// The modified sum B with its count C; none below 3m readings.
    pub modified: Option<Sum>,
    /// How many readings had a fraction. Where it is 0, every sample is its reading exactly.
    pub changed: u64,
}

pub(crate) fn count_of(answer: CountAnswer) -> Result<usize, Refusal> {
    answered(answer.number, answer.place)?;
    Ok(answer.count as usize)
}

/// Phases from frequency readings, written to the buffer: M readings give M+1 phases, from 0 on. Gives how many were written.
///
/// Refuses 2 (M above 32,767), 6 (buffer below M+1), 3 (at the first reading whose running phase leaves the sample range).
pub fn phase_from_frequency(readings: &[i64], buffer: &mut [i64]) -> Result<usize, Refusal> {
    count_of(unsafe { boundary::plg_phase_from_frequency(readings.as_ptr(), readings.len(), buffer.as_mut_ptr(), buffer.len()) })
}

/// Phases from frequency readings, from a start on, written to the buffer: M readings give M+1 phases, of which the first is the start. Gives how many
/// were written. With a record's first sample as the start, its differences give the record back.
///
/// ```
/// use ploegelster::{frequency_from_phase, phase_from_start};
///
/// let record = [5, 8, 7, 11];
/// let (mut readings, mut phases) = ([0; 3], [0; 4]);
/// frequency_from_phase(&record, &mut readings)?;
/// phase_from_start(record[0], &readings, &mut phases)?;
/// assert_eq!((readings, phases), ([3, -1, 4], record));
/// # Ok::<(), ploegelster::Refusal>(())
/// ```
///
/// Refuses 2 (M above 32,767), 6 (buffer below M+1), 3 (start outside the sample range, at place 0), 3 (at the first reading whose running phase leaves
/// the sample range).
pub fn phase_from_start(start: i64, readings: &[i64], buffer: &mut [i64]) -> Result<usize, Refusal> {
    count_of(unsafe { boundary::plg_phase_from_start(start, readings.as_ptr(), readings.len(), buffer.as_mut_ptr(), buffer.len()) })
}

/// Frequency readings from phases, written to the buffer: N samples give N-1 differences. Gives how many were written.
///
/// Refuses 2 (N above 32,768), 1 (N = 0), 6 (buffer below N-1), 3 (at the first sample outside its range).
pub fn frequency_from_phase(samples: &[i64], buffer: &mut [i64]) -> Result<usize, Refusal> {
    count_of(unsafe { boundary::plg_frequency_from_phase(samples.as_ptr(), samples.len(), buffer.as_mut_ptr(), buffer.len()) })
}

/// The drift figure P over R of samples 0, h and 2h, where h is the whole part of (N-1)/2: P = x_(2h) - 2 x_h + x_0 and R = h^2. Where N is even, the
/// last sample has no part in it.
///
/// Refuses 2 (N above 32,768), 1 (N below 3), 3 (at the first sample outside its range, whether P reads it or not).
pub fn drift_figure(samples: &[i64]) -> Result<Drift, Refusal> {
    let answer = unsafe { boundary::plg_drift_figure(samples.as_ptr(), samples.len()) };
    answered(answer.number, answer.place)?;
    Ok(Drift { p: answer.p, r: answer.r })
}

/// The record with its drift removed, written to the buffer: x_i - floor(P i (i-1) / (2R)), floored once, toward minus infinity, with P and R of
/// [`drift_figure`]. N samples give N results. Gives how many were written.
///
/// Refuses 2 (N above 32,768), 1 (N below 3), 6 (buffer below N), 3 (at the first sample outside its range), 3 (at the first result outside it).
pub fn remove_drift(samples: &[i64], buffer: &mut [i64]) -> Result<usize, Refusal> {
    count_of(unsafe { boundary::plg_remove_drift(samples.as_ptr(), samples.len(), buffer.as_mut_ptr(), buffer.len()) })
}

/// Samples from doubles, N of them, written to the buffer, both sums of them, and how many readings were changed. A reading becomes the nearest whole
/// number, on a tie the even one; it is changed where it has a fraction.
///
/// ```
/// use ploegelster::float_sums;
///
/// let mut samples = [0; 5];
/// let answer = float_sums(&[0.5, 1.5, -2.5, -0.0, 7.0], 1, &mut samples)?;
/// assert_eq!((samples, answer.changed), ([0, 2, -2, 0, 7], 3));
/// # Ok::<(), ploegelster::Refusal>(())
/// ```
///
/// Refuses 5 (m not from 1 to 10,922), 2 (N above 32,768), 1 (N below 2m+1), 6 (buffer below N), then at the lowest index 3 (infinite, or beyond the
/// sample range before rounding) or 4 (not a number).
pub fn float_sums(readings: &[f64], m: u64, buffer: &mut [i64]) -> Result<FloatSums, Refusal> {
    let answer = unsafe { boundary::plg_float_sums(readings.as_ptr(), readings.len(), m, buffer.as_mut_ptr(), buffer.len()) };
    answered(answer.number, answer.place)?;
    Ok(FloatSums { allan: due_part_of(answer.allan), modified: part_of(answer.modified), changed: answer.changed })
}
