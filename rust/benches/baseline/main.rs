//! The library's time, as Markdown tables: against straightforward Rust, as ratios of one run, and by itself, as the record or the factor grows.
//! `docs/benchmarks.py` reads what is printed here.

mod growth;
mod naive;
mod ratios;
mod straightforward;
mod streams;
mod timing;

use std::hint::black_box;

const LENGTH: usize = 32_768;
const TURNS: usize = 1_001;

/// Samples of the whole range, from a fixed rule.
fn samples() -> Vec<i64> {
    let mut state = 1u64;
    let mut next = || {
        state = state.wrapping_mul(6_364_136_223_846_793_005).wrapping_add(1_442_695_040_888_963_407);
        (state >> 23) as i64 - (1 << 40)
    };
    (0..LENGTH).map(|_| next()).collect()
}

fn main() {
    let samples = samples();
    println!("Medians of {TURNS} turns, of the naive sum {}: nanoseconds a value of {LENGTH} in ratios, microseconds in times.\n", naive::TURNS);
    timing::warm_up(|| ploegelster::allan_sum(black_box(&samples), 1));
    ratios::table(&samples);
    growth::against_length(&samples);
    growth::against_factor(&samples);
}
