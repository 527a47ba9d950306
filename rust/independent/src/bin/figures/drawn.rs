//! Drawn numbers, at the ends of what is drawn and where a double begins to leave digits out.

use independent::drawn::drawn_number;

use crate::print::{answer, bits};

const ROWS: [u64; 27] = [
    0,
    1,
    2,
    3,
    (1 << 20) - 1,
    1 << 20,
    (1 << 20) + 1,
    1_482_910,
    (1 << 53) - 1,
    1 << 53,
    (1 << 53) + 1,
    (1 << 53) + 2,
    (1 << 53) + 3,
    (1 << 54) - 1,
    (1 << 54) + 2,
    (1 << 54) + 3,
    (1 << 62) - 1,
    1 << 62,
    (1 << 62) + 1,
    (1 << 62) + 1_023,
    (1 << 62) + 1_024,
    (1 << 63) - 1_025,
    (1 << 63) - 1_024,
    (1 << 63) - 1,
    1 << 63,
    (1 << 63) + 1,
    u64::MAX,
];

pub fn figures() {
    for r in ROWS {
        println!("drawn number of {r}: {}", answer(drawn_number(r).map(bits)));
    }
}
