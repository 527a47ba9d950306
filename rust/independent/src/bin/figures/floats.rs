//! Float readings: which samples they become, how many of them were changed, what the others are refused for, and what is left in the buffer.

use independent::floats::{float_sums, FloatSums};

use crate::print::{answer, part, sum, values};

const THREES: [&str; 29] = [
    "3, -1, 4",
    "2^40, 0, 0",
    "0, -2^40, 0",
    "0, 0, 2^40 + 1",
    "0, -2^40 - 1, 0",
    "0, -0, 0",
    "0.5, 0, 0",
    "0, -0.5, 0",
    "1.5, 0, 0",
    "0, -2.5, 0",
    "0, 0, 0.49999999999999994",
    "0.5, 1.5, -2.5",
    "2^40 - 0.5, 0, 0",
    "0, -2^40 + 0.5, 0",
    "2^40 + 0.5, 0, 0",
    "0, -2^40 - 0.5, 0",
    "0, 0, 2^40 + 2^-12",
    "0, 0, 2^40 - 2^-13",
    "0, infinite, 0",
    "-infinite, 0, 0",
    "0, 0, not a number",
    "0, 2^-1074, 0",
    "0, -2^-1074, 0",
    "2^1024 - 2^971, 0, 0",
    "0, not a number, 2^40 + 1",
    "0, 2^40 + 1, not a number",
    "0.5, not a number, 0",
    "infinite, not a number, 0.5",
    "not a number, infinite, 0",
];

pub fn figures() {
    for words in THREES {
        let readings: Vec<f64> = words.split(", ").map(reading).collect();
        let mut buffer = [7; 4];
        let said = sums(&readings, 1, &mut buffer);
        println!("float readings {words} at m = 1: {said}; buffer {}", values(&buffer));
    }
    let squares = [0.0, 1.0, 4.0, 9.0, 16.0, 25.0, 36.0, 49.0, 64.0];
    for (m, length, room) in [
        (0, 9, 9),
        (10_923, 9, 9),
        (10_922, 9, 9),
        (1, 2, 9),
        (1, 3, 9),
        (2, 4, 9),
        (2, 5, 9),
        (2, 6, 9),
        (3, 7, 9),
        (3, 8, 9),
        (3, 9, 9),
        (3, 9, 8),
        (1, 2, 0),
        (0, 9, 0),
    ] {
        let said = sums(&squares[..length], m, &mut vec![7; room]);
        println!("float readings, {length} squares, buffer of {room}, m = {m}: {said}");
    }
    for (length, m) in [(32_769, 1), (32_768, 10_922)] {
        let said = sums(&vec![0.0; length], m, &mut [7; 32_769]);
        println!("float readings, {length} noughts, m = {m}: {said}");
    }
}

/// The double that the words tell.
fn reading(words: &str) -> f64 {
    let end = 1_099_511_627_776.0;
    match words {
        "2^40" => end,
        "-2^40" => -end,
        "2^40 + 1" => end + 1.0,
        "-2^40 - 1" => -end - 1.0,
        "2^40 - 0.5" => end - 0.5,
        "-2^40 + 0.5" => -end + 0.5,
        "2^40 + 0.5" => end + 0.5,
        "-2^40 - 0.5" => -end - 0.5,
        "2^40 + 2^-12" => end + 1.0 / 4096.0,
        "2^40 - 2^-13" => end - 1.0 / 8192.0,
        "2^1024 - 2^971" => f64::MAX,
        "2^-1074" => f64::from_bits(1),
        "-2^-1074" => -f64::from_bits(1),
        "infinite" => f64::INFINITY,
        "-infinite" => f64::NEG_INFINITY,
        "not a number" => f64::NAN,
        digits => digits.parse().expect("a number in digits"),
    }
}

/// The two sums and how many readings were changed, or the refusal.
fn sums(readings: &[f64], m: u64, buffer: &mut [i64]) -> String {
    let words = |sums: FloatSums| format!("Allan {}, modified {}, changed {}", sum(sums.allan), part(sums.modified.ok_or(1)), sums.changed);
    answer(float_sums(readings, m, buffer).map(words))
}
