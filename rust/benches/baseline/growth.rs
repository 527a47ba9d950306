//! How the library's time for a whole record grows, with the length at one factor and with the factor at one length; no side to compare it with but
//! the naive modified sum, which shows what growth with the factor looks like.

use crate::streams::library_stream;
use crate::timing::median;
use crate::{naive, TURNS};
use std::hint::black_box;

const LENGTHS: [usize; 6] = [1_024, 2_048, 4_096, 8_192, 16_384, 32_768];
const FACTORS: [u64; 13] = [1, 2, 5, 10, 20, 50, 100, 200, 500, 1_000, 2_000, 5_000, 10_000];
/// Above it the naive sum is not timed: it would take most of the run.
const LARGEST_NAIVE: u64 = 100;

pub fn against_length(samples: &[i64]) {
    println!("\n## Time against N, at m = 1\n");
    println!("| N | Allan sum | modified sum | meter |");
    println!("|---|---|---|---|");
    for n in LENGTHS {
        println!("| {n} | {} |", times(&samples[..n], 1));
    }
}

pub fn against_factor(samples: &[i64]) {
    println!("\n## Time against m, at N = 32,768\n");
    println!("| m | Allan sum | modified sum | meter | naive modified sum |");
    println!("|---|---|---|---|---|");
    for m in FACTORS {
        let naive = if m <= LARGEST_NAIVE { microseconds(naive::nanoseconds(samples, m)) } else { String::new() };
        println!("| {m} | {} | {naive} |", times(samples, m));
    }
}

fn microseconds(nanoseconds: f64) -> String {
    format!("{:.2}", nanoseconds / 1000.0)
}

/// The cells of both sums and of a stream through the meter.
fn times(samples: &[i64], m: u64) -> String {
    let mut ring = vec![0; 3 * m as usize];
    let allan = median(TURNS, || ploegelster::allan_sum(black_box(samples), m).expect("the record is sound"));
    let modified = median(TURNS, || ploegelster::modified_sum(black_box(samples), m).expect("the record is sound"));
    let meter = median(TURNS, || library_stream(black_box(samples), m, &mut ring));
    [allan, modified, meter].map(microseconds).join(" | ")
}
