//! Error bars of deviations, with each noise type and at the ends of what is taken.

use independent::noise::{bars, Bars, Noise};

use crate::print::{answer, bits};

/// The types in the order of the rules' table.
const TYPES: [Noise; 5] = [Noise::WhitePhase, Noise::FlickerPhase, Noise::WhiteFrequency, Noise::FlickerFrequency, Noise::RandomWalkFrequency];

/// Deviation r, the place of the type and M.
const ROWS: [(u64, usize, u64); 20] = [
    (1_000_000, 3, 9),
    (1_000_000, 3, 10),
    (1_000_000, 3, 32_767),
    (1_000_000, 3, 32_768),
    (1_000_000, 0, 100),
    (1_000_000, 1, 100),
    (1_000_000, 2, 100),
    (1_000_000, 3, 100),
    (1_000_000, 4, 100),
    (0, 0, 100),
    (0, 0, 9),
    (1, 0, 10),
    (4, 0, 10),
    (5, 0, 10),
    (1 << 62, 0, 10),
    (1 << 62, 4, 32_767),
    ((1 << 62) + 1, 0, 10),
    ((1 << 62) + 1, 0, 9),
    ((1 << 53) + 1, 2, 11),
    (u64::MAX, 0, 32_768),
];

pub fn figures() {
    for (r, place, intervals) in ROWS {
        println!("bar of {r} with type {place}, M = {intervals}: {}", answer(bars(r, TYPES[place], intervals).map(row)));
    }
}

fn row(bars: Bars) -> String {
    format!("{} {} {}", bits(bars.low), bits(bars.mid), bits(bars.high))
}
