//! Fractions and plot dots of sums with a factor and a count, Allan and time.

use independent::drawn::{allan_dot, time_dot, Dot};
use independent::fractions::{allan_fraction, time_fraction};

use crate::print::{answer, bits, fraction, halves};

/// The sum, m and the count.
const ROWS: [(u128, u64, u64); 24] = [
    (16, 1, 4),
    (128, 2, 2),
    (256, 2, 1),
    (0, 1, 1),
    (0, 10_922, 32_768),
    (1, 10_922, 32_768),
    (7, 10_922, 32_768),
    (8, 10_922, 32_768),
    (22, 10_922, 32_768),
    (1, 1, 32_768),
    (1, 1, 1),
    (16, 1, 0),
    (16, 0, 4),
    (16, 0, 0),
    (16, 10_923, 0),
    (16, 1, 32_768),
    (16, 1, 32_769),
    (1 << 126, 1, 0),
    (1 << 126, 1, 1),
    (1 << 126, 1, 32_769),
    ((1 << 126) - 1, 1, 1),
    ((1 << 85) + (1 << 24), 1, 1),
    ((1 << 85) + (1 << 24) + 1, 1, 1),
    ((1 << 126) - 1, 10_922, 32_768),
];

pub fn figures() {
    for (sum, m, count) in ROWS {
        let words = format!("of {} of {count}, m = {m}", halves(sum));
        println!("Allan fraction {words}: {}", answer(allan_fraction(sum, m, count).map(fraction)));
        println!("time fraction {words}: {}", answer(time_fraction(sum, m, count).map(fraction)));
        println!("Allan dot {words}: {}", answer(allan_dot(sum, m, count).map(dot)));
        println!("time dot {words}: {}", answer(time_dot(sum, m, count).map(dot)));
    }
}

fn dot(dot: Dot) -> String {
    match dot {
        Dot::Nought => "nought".to_string(),
        Dot::Drawn(value) => bits(value),
        Dot::TooFew => "too few".to_string(),
    }
}
