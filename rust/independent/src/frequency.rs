//! Phase from frequency, and back.

use super::{ask, ask_at, ask_samples, in_sample_range, Answer, MOST_READINGS, MOST_SAMPLES};

/// Phases from a start on, each reading added; gives how many were written.
pub fn phase_from_start(start: i64, readings: &[i64], buffer: &mut [i64]) -> Answer<u64> {
    ask(readings.len() as u64 <= MOST_READINGS, 2)?;
    ask(buffer.len() > readings.len(), 6)?;
    ask(in_sample_range(start as i128), 3)?;
    let mut phases = vec![start as i128];
    for (index, &reading) in readings.iter().enumerate() {
        let phase = phases[index] + reading as i128;
        ask_at(in_sample_range(phase), 3, index as u64)?;
        phases.push(phase);
    }
    for (entry, phase) in buffer.iter_mut().zip(&phases) {
        *entry = *phase as i64;
    }
    Ok(phases.len() as u64)
}

/// Phases from 0 on, which is in the sample range.
pub fn phase_from_frequency(readings: &[i64], buffer: &mut [i64]) -> Answer<u64> {
    phase_from_start(0, readings, buffer)
}

/// Differences of neighbours; gives how many were written.
pub fn frequency_from_phase(samples: &[i64], buffer: &mut [i64]) -> Answer<u64> {
    ask(samples.len() as u64 <= MOST_SAMPLES, 2)?;
    ask(!samples.is_empty(), 1)?;
    ask(buffer.len() + 1 >= samples.len(), 6)?;
    ask_samples(samples)?;
    for (entry, pair) in buffer.iter_mut().zip(samples.windows(2)) {
        *entry = pair[1] - pair[0];
    }
    Ok(samples.len() as u64 - 1)
}
