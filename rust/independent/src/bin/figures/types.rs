//! Noise types, of pairs of time deviations at each bound and one past it, and of long records.

use independent::noise::{noise_of_record, noise_type, Noise};
use independent::Answer;

use crate::print::answer;
use crate::records::{self, LENGTH};

/// The largest deviation.
const MOST: u64 = 1 << 62;

/// The greatest r1 for which 4096 times the largest deviation is above r1 times a bound.
const fn last_above(bound: u128) -> u64 {
    (4096 * MOST as u128 / bound) as u64
}

/// The time deviations at m and 2m.
const PAIRS: [(u64, u64); 30] = [
    (4096, 0),
    (4096, 3444),
    (4096, 3445),
    (4096, 4871),
    (4096, 4872),
    (4096, 6889),
    (4096, 6890),
    (4096, 9742),
    (4096, 9743),
    (1, 0),
    (1, 1),
    (1, 2),
    (1, 3),
    (0, 0),
    (0, 1),
    (0, MOST),
    (0, MOST + 1),
    (MOST + 1, 0),
    (MOST + 1, MOST + 1),
    (1, MOST),
    (1, MOST + 1),
    (MOST, 1),
    (MOST, MOST / 4096 * 3444),
    (MOST, MOST / 4096 * 3444 + 1),
    (MOST, MOST),
    (last_above(6889) + 1, MOST),
    (last_above(6889), MOST),
    (last_above(9742) + 1, MOST),
    (last_above(9742), MOST),
    (u64::MAX, u64::MAX),
];

/// Factors and lengths of records.
const SIZES: [(u64, usize); 17] = [
    (0, LENGTH),
    (1, 5),
    (1, 6),
    (1, LENGTH),
    (2, 11),
    (2, 12),
    (2, LENGTH),
    (3, LENGTH),
    (7, LENGTH),
    (100, 599),
    (100, 600),
    (100, LENGTH),
    (1_000, LENGTH),
    (5_461, 32_765),
    (5_461, 32_766),
    (5_461, LENGTH),
    (5_462, LENGTH),
];

pub fn figures() {
    for (r1, r2) in PAIRS {
        println!("noise type of {r1}, {r2}: {}", alpha(noise_type(r1, r2)));
    }
    for (name, record) in records::all() {
        for (m, length) in SIZES {
            println!("noise type of {name} m {m} N {length}: {}", alpha(noise_of_record(&record[..length], m)));
        }
    }
}

fn alpha(noise: Answer<Noise>) -> String {
    answer(noise.map(|noise| format!("alpha {}", noise.alpha())))
}
