//! Which records are taken, and what the others are refused for.

use independent::sums::{allan_sum, modified_sum, Sum};
use independent::Answer;

use crate::print::answer;
use crate::records::END;

pub fn figures() {
    let records = [
        ("2^40, 0, 0", [END, 0, 0]),
        ("0, -2^40, 0", [0, -END, 0]),
        ("2^40 + 1, 0, 0", [END + 1, 0, 0]),
        ("0, 2^40 + 1, 0", [0, END + 1, 0]),
        ("0, 0, -2^40 - 1", [0, 0, -END - 1]),
        ("0, -2^40 - 1, 2^40 + 1", [0, -END - 1, END + 1]),
    ];
    for (words, samples) in records {
        println!("samples {words}: {}", verdict(allan_sum(&samples, 1)));
    }
    for m in 1..=3 {
        allan(m, 2 * m);
        allan(m, 2 * m + 1);
    }
    for m in 1..=3 {
        modified(m, 3 * m - 1);
        modified(m, 3 * m);
    }
    for m in [0, 10_923, 10_922] {
        allan(m, 32_768);
    }
    modified(10_922, 32_768);
    allan(1, 32_768);
    allan(1, 32_769);
}

fn verdict(sum: Answer<Sum>) -> String {
    answer(sum.map(|_| "taken"))
}

fn allan(m: usize, length: usize) {
    println!("Allan sum, m = {m}, {length} samples of nought: {}", verdict(allan_sum(&vec![0; length], m as u64)));
}

fn modified(m: usize, length: usize) {
    println!("modified sum, m = {m}, {length} samples of nought: {}", verdict(modified_sum(&vec![0; length], m as u64)));
}
