//! The running meter, of a stream that may have gaps.

use crate::boundary::{self, Meter, MeterAnswer, Wide};
use crate::refusals::{answered, Refusal};
use crate::sums::{sums_of, Sums};

impl Meter {
    /// The meter of all noughts, which the first start replaces.
    pub const NOUGHTS: Meter = Meter { m: 0, n: 0, stretch: 0, k: 0, c: 0, a: Wide { high: 0, low: 0 }, b: Wide { high: 0, low: 0 }, window: 0 };
}

pub(crate) fn meter_of(answer: MeterAnswer) -> Result<Meter, Refusal> {
    answered(answer.number, answer.place)?;
    Ok(answer.meter)
}

/// A fresh meter at factor m in place of an old one. The ring becomes the meter's own: every sample call is lent it as the last one left it. It is
/// read for its length alone.
///
/// Refuses 5 (m not from 1 to 10,922), 6 (ring below 3m), both at place 0; the old meter stands.
pub fn meter_start(old: Meter, m: u64, ring: &[i64]) -> Result<Meter, Refusal> {
    meter_of(unsafe { boundary::plg_meter_start(old, m, ring.as_ptr(), ring.len()) })
}

/// The meter with one more sample of the present stretch, which is written to its slot of the ring, stretch mod 3m, and nowhere else.
///
/// Refuses 7 (m not from 1 to 10,922; n above 32,768; stretch, k or c above n; the window beyond m times 2^42; a high half of 2^62 or more; the ring
/// below 3m; or an old slot that is to be read out of range: those of numbers stretch-m and stretch-2m from stretch = 2m on, and of stretch-3m from 3m
/// on), 2 (n is 32,768), 3 (the sample out of its range), all at place 0; the meter that was handed in stands.
pub fn meter_sample(meter: Meter, ring: &mut [i64], x: i64) -> Result<Meter, Refusal> {
    meter_of(unsafe { boundary::plg_meter_sample(meter, ring.as_mut_ptr(), ring.len(), x) })
}

/// The meter after a gap in the stream: stretch and window are nought, all else is as it was, so that no second difference and no window spans the gap.
/// Call it wherever samples are missing, however many; a second call before the next sample changes nothing, nor does one before the first. No ring is
/// read or written: the next sample call is lent the same one.
///
/// Refuses 7 (as a sample call does, but for the ring), place 0; the meter that was handed in stands.
pub fn meter_gap(meter: Meter) -> Result<Meter, Refusal> {
    meter_of(unsafe { boundary::plg_meter_gap(meter) })
}

/// Both sums of the samples accepted since the start, each the total over the stretches between the gaps: A with K, B with C, each none where its term
/// count is 0.
///
/// Refuses 7 (as a sample call does, but for the ring), place 0.
pub fn meter_report(meter: Meter) -> Result<Sums, Refusal> {
    sums_of(unsafe { boundary::plg_meter_report(meter) })
}
