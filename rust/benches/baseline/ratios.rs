//! The table of ratios: the library against straightforward Rust, work by work. Both sides must give the same answer before they are timed.

use crate::streams::{library_stream, plain_stream, wrapped_stream};
use crate::timing::medians;
use crate::{naive, straightforward, LENGTH, TURNS};
use independent::file::{file_of, Kind};
use ploegelster::{Meter, Totals};
use std::hint::black_box;

const FACTORS: [u64; 3] = [1, 100, 5_000];
/// The one at which the naive sum is timed beside the other two.
const NAIVE_FACTOR: u64 = 100;

pub fn table(samples: &[i64]) {
    println!("## Ratios\n");
    println!("| work | m | library | plain Rust | naive Rust | ratio |");
    println!("|---|---|---|---|---|---|");
    for m in FACTORS {
        allan_sum(samples, m);
        modified_sum(samples, m);
    }
    for m in FACTORS {
        float_sums(&readings(samples), m);
    }
    for m in FACTORS {
        meter(samples, m, "meter, a sample", library_stream);
    }
    for m in FACTORS {
        meter(samples, m, "meter, a sample, by the wrapper", wrapped_stream);
    }
    file(samples);
    sheet(&samples[..ploegelster::MOST_SHEET_SAMPLES]);
}

/// The samples with none to nine tenths added, so that nine of ten readings have a fraction.
fn readings(samples: &[i64]) -> Vec<f64> {
    samples.iter().enumerate().map(|(i, &x)| x as f64 + (i % 10) as f64 / 10.0).collect()
}

/// A line of the table, from medians of whole turns: the naive sum's only where it was timed, and the ratio of the other two.
fn line(work: &str, m: u64, both: (f64, f64), naive: Option<f64>) {
    line_of(LENGTH, work, m, both, naive);
}

/// The same of so many values.
fn line_of(length: usize, work: &str, m: u64, (library, plain): (f64, f64), naive: Option<f64>) {
    let of_one = |median: f64| format!("{:.2}", median / length as f64);
    let factor = if m == 0 { String::new() } else { m.to_string() };
    let naive = naive.map_or(String::new(), of_one);
    println!("| {work} | {factor} | {} | {} | {naive} | {:.2} |", of_one(library), of_one(plain), library / plain);
}

/// Times both sides in turn and prints their line.
fn compare<T, U>(work: &str, m: u64, library: impl FnMut() -> T, plain: impl FnMut() -> U) {
    line(work, m, medians(TURNS, library, plain), None);
}

fn allan_sum(samples: &[i64], m: u64) {
    let ours = ploegelster::allan_sum(samples, m).expect("the record is sound");
    assert_eq!(Ok((ours.total, ours.count)), straightforward::allan_sum(samples, m));
    compare("Allan sum", m, || ploegelster::allan_sum(black_box(samples), m), || straightforward::allan_sum(black_box(samples), m));
}

fn modified_sum(samples: &[i64], m: u64) {
    let ours = ploegelster::modified_sum(samples, m).expect("the record is sound");
    assert_eq!(Ok((ours.total, ours.count)), straightforward::modified_sum(samples, m));
    let library = || ploegelster::modified_sum(black_box(samples), m);
    let both = medians(TURNS, library, || straightforward::modified_sum(black_box(samples), m));
    line("modified sum", m, both, (m == NAIVE_FACTOR).then(|| naive::nanoseconds(samples, m)));
}

fn float_sums(readings: &[f64], m: u64) {
    let (mut buffer, mut plain_buffer) = (vec![0; LENGTH], vec![0; LENGTH]);
    let ours = ploegelster::float_sums(readings, m, &mut buffer).expect("the readings are sound");
    let pair = |sum: ploegelster::Sum| (sum.total, sum.count);
    let ours = (pair(ours.allan), ours.modified.map(pair), ours.changed);
    assert_eq!(Ok(ours), straightforward::float_sums(readings, m, &mut plain_buffer));
    assert_eq!(buffer, plain_buffer);
    let library = || ploegelster::float_sums(black_box(readings), m, &mut buffer);
    compare("float sums", m, library, || straightforward::float_sums(black_box(readings), m, &mut plain_buffer));
}

fn meter(samples: &[i64], m: u64, work: &str, stream: fn(&[i64], u64, &mut [i64]) -> Meter) {
    let (mut ring, mut plain_ring) = (vec![0; 3 * m as usize], vec![0; 3 * m as usize]);
    let (ours, theirs) = (stream(samples, m, &mut ring), plain_stream(samples, m, &mut plain_ring));
    assert_eq!((ours.m, ours.n, ours.stretch, ours.k, ours.c), (theirs.m, theirs.n, theirs.stretch, theirs.k, theirs.c));
    assert_eq!((u128::from(ours.a), u128::from(ours.b), ours.window), (theirs.a, theirs.b, theirs.window));
    assert_eq!(ring, plain_ring);
    let library = || stream(black_box(samples), m, &mut ring);
    compare(work, m, library, || plain_stream(black_box(samples), m, &mut plain_ring));
}

fn file(samples: &[i64]) {
    let bytes = file_of(Kind::Phase, samples);
    let (mut buffer, mut plain_buffer) = (vec![0; LENGTH], vec![0; LENGTH]);
    let ours = ploegelster::read_file(&bytes, &mut buffer).expect("the file is sound");
    assert_eq!(Ok((ours.kind.number(), ours.count as u64)), straightforward::read_file(&bytes, &mut plain_buffer));
    assert_eq!(buffer, plain_buffer);
    let library = || ploegelster::read_file(black_box(&bytes), &mut buffer);
    compare("file read", 0, library, || straightforward::read_file(black_box(&bytes), &mut plain_buffer));
}

fn sheet(samples: &[i64]) {
    let bytes = file_of(Kind::Phase, samples);
    let (mut text, mut plain_buffer) = ([0; ploegelster::SHEET_ROOM], vec![0; samples.len()]);
    let none = Totals { k: 0, c: 0 };
    let ours = ploegelster::sheet_record(&bytes, none, &mut text).expect("the room is enough");
    assert_eq!(&text[..ours.length], straightforward::sheet(&bytes, &mut plain_buffer).as_bytes());
    let library = || ploegelster::sheet_record(black_box(&bytes), none, &mut text);
    let both = medians(TURNS, library, || straightforward::sheet(black_box(&bytes), &mut plain_buffer));
    line_of(samples.len(), "sheet", 0, both, None);
}
