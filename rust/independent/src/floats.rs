//! Float readings, rounded by comparing them with halves, and the sums of what they become. The machine is taken to round to the nearest and to leave
//! subnormals as they are, as it does where every program starts.

use super::sums::{allan_of, modified_of, Sum};
use super::{ask, greatest, Answer, Refusal, LARGEST_FACTOR, MOST_SAMPLES, SAMPLE_END};

/// Whether a reading becomes z or a number above it: it lies above the half below z, or on that half and z is even. The half is exact for every z of
/// the sample range, since it has at most 42 digits and a double holds 53.
fn becomes_at_least(z: i64, reading: f64) -> bool {
    let half_below = z as f64 - 0.5;
    reading > half_below || reading == half_below && z % 2 == 0
}

/// The sample that a reading becomes, or the number that refuses it.
pub fn sample_of(reading: f64) -> Result<i64, u64> {
    let end = SAMPLE_END as f64;
    if reading.is_nan() {
        return Err(4);
    }
    if reading < -end || reading > end {
        return Err(3);
    }
    // z is so many steps above -2^40, which every reading in range becomes at least.
    let z = |steps: u64| steps as i64 - SAMPLE_END;
    Ok(z(greatest(2 * SAMPLE_END as u64, |steps| becomes_at_least(z(steps), reading))))
}

/// Both sums, the modified one none where there are fewer than 3m readings, and how many readings were changed.
#[derive(Clone, Copy, Debug, PartialEq, Eq)]
pub struct FloatSums {
    pub allan: Sum,
    pub modified: Option<Sum>,
    pub changed: u64,
}

/// The samples of float readings, written to the buffer, the sums of them, and how many readings had a fraction.
pub fn float_sums(readings: &[f64], m: u64, buffer: &mut [i64]) -> Answer<FloatSums> {
    let n = readings.len() as u64;
    ask(m >= 1 && m <= LARGEST_FACTOR, 5)?;
    ask(n <= MOST_SAMPLES, 2)?;
    ask(n > 2 * m, 1)?;
    ask(buffer.len() >= readings.len(), 6)?;
    let mut samples = Vec::with_capacity(readings.len());
    let mut changed = 0;
    for (index, &reading) in readings.iter().enumerate() {
        let sample = sample_of(reading).map_err(|number| Refusal { number, place: index as u64 })?;
        // A sample is a double exactly, and either zero is equal to 0.
        if sample as f64 != reading {
            changed += 1;
        }
        samples.push(sample);
    }
    buffer[..samples.len()].copy_from_slice(&samples);
    let modified = (n >= 3 * m).then(|| modified_of(&samples, m as usize));
    Ok(FloatSums { allan: allan_of(&samples, m as usize), modified, changed })
}
