//! The entries that fill a lent buffer: phases of readings, differences of samples, samples without their drift. The drift's figure stands beside.

use independent::drift::{drift_figure, remove_drift};
use independent::frequency::{frequency_from_phase, phase_from_frequency};
use independent::sums::allan_sum;
use independent::Answer;

use crate::print::{answer, sum, values, written};
use crate::records::{self, END, LENGTH};

/// An entry with its words.
type Entry = (&'static str, fn(&[i64], &mut [i64]) -> Answer<u64>);

const PHASES: Entry = ("phases of", phase_from_frequency);
const DIFFERENCES: Entry = ("differences of", frequency_from_phase);
const REMOVAL: Entry = ("without drift", remove_drift);

const ROWS: [[i64; 4]; 19] = [
    [3, -1, 4, -1],
    [5, 8, 11, 14],
    [0, 0, 0, -1],
    [0, 0, 0, 1],
    [0, 1, 1, 0],
    [0, -1, 1, -3],
    [0, END, -END, END + 1],
    [0, END, -END, END],
    [END, -END, -END, END],
    [-END, END, END, -END],
    [-END, 2 * END, -2 * END, 2 * END],
    [END, 1, 0, 0],
    [-END, -1, 0, 0],
    [1, END - 1, -2 * END, -1],
    [2 * END + 1, 0, 0, 0],
    [1, i64::MAX, 0, 0],
    [-1, -i64::MAX, 0, 0],
    [0, 0, 0, END + 1],
    [-END - 1, 0, 0, END + 1],
];

/// Records for the drift alone: N odd and even, and once too large for the buffer.
const DRIFTS: [&[i64]; 8] = [
    &[0, 1, 4],
    &[END, -END, END],
    &[0, 0, 0, 0, -1],
    &[0, 0, 0, 0, 1],
    &[0, 1, 4, 9, 16, 25],
    &[0, 0, 0, 0, -1, END],
    &[0, 0, 0, 0, 0, END + 1],
    &[3, -1, 4, -1, 5, -9, 2],
];

/// An entry, how many noughts it is lent, and the length of its buffer.
const SIZES: [(Entry, usize, usize); 17] = [
    (PHASES, 0, 0),
    (PHASES, 0, 1),
    (PHASES, 32_767, 32_767),
    (PHASES, 32_767, 32_768),
    (PHASES, 32_768, 0),
    (PHASES, 32_768, 32_769),
    (DIFFERENCES, 0, 0),
    (DIFFERENCES, 1, 0),
    (DIFFERENCES, 2, 0),
    (DIFFERENCES, 32_768, 32_766),
    (DIFFERENCES, 32_768, 32_767),
    (DIFFERENCES, 32_769, 0),
    (REMOVAL, 2, 0),
    (REMOVAL, 3, 2),
    (REMOVAL, 3, 3),
    (REMOVAL, 32_768, 32_768),
    (REMOVAL, 32_769, 0),
];

pub fn figures() {
    for row in ROWS {
        let words = values(&row);
        for entry in [PHASES, DIFFERENCES, REMOVAL] {
            short(entry, &words, &row);
        }
        drift(&words, &row);
    }
    for samples in DRIFTS {
        let words = values(samples);
        short(REMOVAL, &words, samples);
        drift(&words, samples);
    }
    for ((name, fill), length, room) in SIZES {
        println!("{name} {length} noughts, buffer of {room}: {}", written(fill(&vec![0; length], &mut vec![7; room])));
    }
    for (words, record) in records::all() {
        long(PHASES, words, &record[..LENGTH - 1]);
        long(DIFFERENCES, words, &record);
        long(REMOVAL, words, &record);
        drift(words, &record);
        print!("back from differences, ");
        long(PHASES, words, &differences(&record));
    }
}

/// P and R of a record, or the refusal.
fn drift(words: &str, samples: &[i64]) {
    println!("drift of {words}: {}", answer(drift_figure(samples).map(|drift| format!("P {}, R {}", drift.p, drift.r))));
}

/// One line: what an entry answers, and the buffer as it is left.
fn short((name, fill): Entry, words: &str, row: &[i64]) {
    let mut buffer = [7; 6];
    let said = written(fill(row, &mut buffer));
    println!("{name} {words}: {said}; buffer {}", values(&buffer));
}

/// One line: what an entry answers, and the Allan sum at factor 7 of the buffer as it is left.
fn long((name, fill): Entry, words: &str, values: &[i64]) {
    let mut buffer = [7; LENGTH];
    let said = written(fill(values, &mut buffer));
    println!("{name} {words}: {said}; Allan sum of the buffer {}", answer(allan_sum(&buffer, 7).map(sum)));
}

fn differences(samples: &[i64]) -> Vec<i64> {
    let mut readings = vec![7; samples.len() - 1];
    frequency_from_phase(samples, &mut readings).expect("the record is sound");
    readings
}
