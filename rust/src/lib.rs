//! Ploegelster for Rust: proved clock statistics behind safe functions.
//!
//! A record is a slice of phase samples, whole picoseconds. From a record to its Allan deviation at factor 1, and what a refusal looks like:
//!
//! ```
//! use ploegelster::{allan_deviation, allan_sum, Ground, Refusal, SAMPLE_END};
//!
//! // in units of 2^-20 picoseconds per basic interval
//! fn deviation(samples: &[i64], m: u64) -> Result<u64, Refusal> {
//!     let sum = allan_sum(samples, m)?;
//!     allan_deviation(sum.total, m, sum.count)
//! }
//!
//! let mut samples = [0, 1, 4, 9, 16, 25, 36, 49, 64];
//! assert_eq!(deviation(&samples, 1)?, 1_482_910);
//!
//! samples[7] = SAMPLE_END + 1;
//! let refusal = deviation(&samples, 1).unwrap_err();
//! assert_eq!(refusal, Refusal { ground: Ground::OutOfRange, place: 7 });
//! assert_eq!(refusal.to_string(), "refused 3, a value outside its range, at 7");
//! # Ok::<(), Refusal>(())
//! ```
//!
//! Every input is answered, or refused by a [`Ground`] and a place, a call on a channel by a [`ChannelRefusal`]. A function lists what it refuses by
//! number, in the order in which the tests are made; the first that fails is the answer. After a refusal every lent buffer is as it was.
//!
//! Each function is the entry of the same name in include/ploegelster.h, with Rust's types for C's; [`boundary`] is the plain C interface under it.
//! The library's promises are proved of its own code. What this crate adds is plain Rust, and tested against a second implementation.

#![deny(missing_docs)]

// Every call of the library in this crate is sound: it keeps no state and calls nothing that does, and a slice meets all that it asks of a pointer and a
// length. It is not null, aligned, good for its length and, if it is lent for writing, lent to nobody else. Floating-point exceptions are masked in
// every Rust program.
pub mod boundary;

mod channels;
mod compare;
mod file;
mod meter;
mod plot;
mod records;
mod refusals;
mod sheet;
mod sums;

pub use boundary::{Meter, Totals, Wide};
pub use channels::{channel_gap, channel_report, channel_sample, channel_start, ChannelRefusal, BAD_CHANNEL};
pub use compare::{quieter, quieter_record, Quieter};
pub use file::{file_length, read_file, read_record, record_length, salvage, write_file, write_record, Contents, Kind, Record, Salvage};
pub use meter::{meter_gap, meter_report, meter_sample, meter_start};
pub use plot::{allan_dot, bars, drawn_number, noise_of_record, noise_type, time_dot, Bars, Dot, Noise};
pub use records::{drift_figure, float_sums, frequency_from_phase, phase_from_frequency, phase_from_start, remove_drift, Drift, FloatSums};
pub use refusals::{refusal_text, Ground, Refusal};
pub use sheet::{sheet_record, sheet_total, Sheet};
pub use sums::{allan_deviation, allan_fraction, allan_sum, modified_sum, time_deviation, time_fraction, Fraction, Sum, Sums};

/// A record has at most this many samples, and a count that is handed in is at most this.
pub const MOST_SAMPLES: usize = 32_768;

/// A frequency record has at most this many readings.
pub const MOST_READINGS: usize = 32_767;

/// The factor m runs from 1 to this.
pub const LARGEST_FACTOR: u64 = 10_922;

/// The factor of a record's noise type runs from 1 to this.
pub const LARGEST_NOISE_FACTOR: u64 = 5_461;

/// A phase sample lies from minus this to this, in picoseconds, ends allowed.
pub const SAMPLE_END: i64 = 1 << 40;

/// A frequency value of a file lies from minus this to this, in picoseconds per basic interval, ends allowed.
pub const FREQUENCY_END: i64 = 1 << 41;

/// A deviation lies from 0 to this.
pub const LARGEST_DEVIATION: u64 = 1 << 62;

/// Bars need at least this many intervals.
pub const FEWEST_INTERVALS: u64 = 10;

/// Bars take at most this many intervals.
pub const MOST_INTERVALS: u64 = 32_767;

/// A phase record on a sheet has at most this many samples.
pub const MOST_SHEET_SAMPLES: usize = 4_096;

/// A frequency record on a sheet has at most this many readings.
pub const MOST_SHEET_READINGS: usize = 4_095;

/// A total of a sheet that is handed in is at most this.
pub const LARGEST_TOTAL: u64 = 1 << 63;

/// This many bytes are always enough for the lines of a record on a sheet, and for the closing line.
pub const SHEET_ROOM: usize = 4_608;

/// This many channels share a ring; they are numbered from 0.
pub const CHANNELS: usize = 16;

/// A deviation counts in this many parts of a picosecond: 2^20.
pub const UNITS_A_PICOSECOND: u64 = 1 << 20;

impl From<u128> for Wide {
    fn from(value: u128) -> Wide {
        Wide { high: (value >> 64) as u64, low: value as u64 }
    }
}

impl From<Wide> for u128 {
    fn from(wide: Wide) -> u128 {
        (wide.high as u128) << 64 | wide.low as u128
    }
}
