//! The running meter, of a stream that may have gaps. Its ring is lent; a refused call leaves both as they were.

use super::sums::{Sum, Sums};
use super::{ask, in_sample_range, Answer, LARGEST_FACTOR, MOST_SAMPLES};

/// What the meter holds between calls. Any content may be handed in.
#[derive(Clone, Copy, Debug, PartialEq, Eq)]
pub struct Meter {
    pub m: u64,
    /// How many samples were accepted since the start, in all.
    pub n: u64,
    /// How many of these are in the present stretch: s.
    pub stretch: u64,
    /// How many squares there are in A.
    pub k: u64,
    /// How many squares there are in B.
    pub c: u64,
    pub a: u128,
    pub b: u128,
    pub window: i64,
}

impl Meter {
    pub const NOUGHTS: Meter = Meter { m: 0, n: 0, stretch: 0, k: 0, c: 0, a: 0, b: 0, window: 0 };
}

/// Refuses 7 for the fields alone.
fn ask_fields(meter: &Meter) -> Answer<()> {
    ask(meter.m >= 1 && meter.m <= LARGEST_FACTOR, 7)?;
    ask(meter.n <= MOST_SAMPLES, 7)?;
    ask(meter.stretch <= meter.n, 7)?;
    ask(meter.k <= meter.n, 7)?;
    ask(meter.c <= meter.n, 7)?;
    ask((meter.window as i128).abs() <= (meter.m as i128) << 42, 7)?;
    ask(meter.a >> 64 < 1 << 62, 7)?;
    ask(meter.b >> 64 < 1 << 62, 7)
}

/// A fresh meter at factor m; the ring is looked at for its length alone.
pub fn start(m: u64, ring: &[i64]) -> Answer<Meter> {
    ask(m >= 1 && m <= LARGEST_FACTOR, 5)?;
    ask(ring.len() as u64 >= 3 * m, 6)?;
    Ok(Meter { m, ..Meter::NOUGHTS })
}

/// The meter with one more sample of the present stretch, which lands in its slot.
pub fn sample(meter: &Meter, ring: &mut [i64], x: i64) -> Answer<Meter> {
    ask_fields(meter)?;
    let Meter { m, n, stretch: s, .. } = *meter;
    ask(ring.len() as u64 >= 3 * m, 7)?;
    let slot = |number: u64| (number % (3 * m)) as usize;
    // How many of the samples m, 2m and 3m before this one are to be read.
    let depth = if s >= 3 * m {
        3
    } else if s >= 2 * m {
        2
    } else {
        0
    };
    let old: Vec<i128> = (1..=depth).map(|steps| ring[slot(s - steps * m)] as i128).collect();
    ask(old.iter().all(|&value| in_sample_range(value)), 7)?;
    ask(n < MOST_SAMPLES, 2)?;
    ask(in_sample_range(x as i128), 3)?;

    let mut next = Meter { n: n + 1, stretch: s + 1, ..*meter };
    if let [one, two, ..] = old[..] {
        let d = x as i128 - 2 * one + two;
        let leaving = if let [_, _, three] = old[..] { one - 2 * two + three } else { 0 };
        next.a += (d * d) as u128;
        next.k += 1;
        next.window += (d - leaving) as i64;
    }
    if next.stretch >= 3 * m {
        next.b += (next.window as i128 * next.window as i128) as u128;
        next.c += 1;
    }
    ring[slot(s)] = x;
    Ok(next)
}

/// The meter with a new stretch begun.
pub fn gap(meter: &Meter) -> Answer<Meter> {
    ask_fields(meter)?;
    Ok(Meter { stretch: 0, window: 0, ..*meter })
}

/// Both sums, each where it has terms.
pub fn report(meter: &Meter) -> Answer<Sums> {
    ask_fields(meter)?;
    let Meter { k, c, a, b, .. } = *meter;
    let allan = (k > 0).then_some(Sum { total: a, count: k });
    let modified = (c > 0).then_some(Sum { total: b, count: c });
    Ok(Sums { allan, modified })
}
