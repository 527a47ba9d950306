//! Medians of many turns' times.

use std::hint::black_box;
use std::time::{Duration, Instant};

const WARMING: Duration = Duration::from_millis(200);

/// Works for a while unmeasured, since the first figures would be those of a processor that is not at its speed yet.
pub fn warm_up<T>(mut work: impl FnMut() -> T) {
    let start = Instant::now();
    while start.elapsed() < WARMING {
        black_box(work());
    }
}

/// The nanoseconds of one turn.
fn turn<T>(work: &mut impl FnMut() -> T) -> u64 {
    let start = Instant::now();
    black_box(work());
    start.elapsed().as_nanos() as u64
}

fn middle(mut times: Vec<u64>) -> f64 {
    times.sort();
    times[times.len() / 2] as f64
}

/// The median turn's nanoseconds.
pub fn median<T>(turns: usize, mut work: impl FnMut() -> T) -> f64 {
    middle((0..turns).map(|_| turn(&mut work)).collect())
}

/// The same for two sides that work in turn, each of them first in every other turn.
pub fn medians<T, U>(turns: usize, mut one: impl FnMut() -> T, mut other: impl FnMut() -> U) -> (f64, f64) {
    let (mut ones, mut others) = (Vec::new(), Vec::new());
    for number in 0..turns {
        if number % 2 == 0 {
            ones.push(turn(&mut one));
            others.push(turn(&mut other));
        } else {
            others.push(turn(&mut other));
            ones.push(turn(&mut one));
        }
    }
    (middle(ones), middle(others))
}
