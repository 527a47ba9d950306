//! What the test files share: numbers from fixed seeds, records sound and damaged, meters made by hand, values of files, the ends of blocks and ranges,
//! doubles of every class, painted buffers, and answers laid out as words to compare.
//!
//! A case is worked three times: over the plain C interface, by the wrapper, and by the second implementation, which the other two are compared with.

pub mod answers;
pub mod doubles;
pub mod ends;
pub mod files;
pub mod lent;
pub mod meters;
pub mod random;
pub mod raw;
pub mod records;

use answers::{expected, wrapped, Refused, Values, Words};
use independent::Answer;

pub const END: i64 = 1 << 40;

/// How many cases ran over the plain C interface and how many with the wrapper, and how often each number was given.
#[derive(Default)]
pub struct Tally {
    raw: u64,
    wrapped: u64,
    numbers: [u64; 12],
}

impl Tally {
    /// One case: both have the words of the second implementation's answer.
    pub fn same<T: Values, U: Values>(&mut self, raw: &impl Words, wrapper: &Result<U, impl Refused>, own: &Answer<T>, input: impl Fn() -> String) {
        self.same_raw(&raw.words(), &expected(own), &input);
        self.same_wrapped(wrapper, own, &input);
    }

    /// The half of a case that is the plain C interface's, laid out as words; the first is the number.
    pub fn same_raw(&mut self, raw: &[u64], own: &[u64], input: impl Fn() -> String) {
        assert_eq!(raw, own, "library left, second implementation right, for {}", input());
        self.raw += 1;
        self.numbers[own[0] as usize] += 1;
    }

    /// The half of a case that is the wrapper's.
    pub fn same_wrapped<T: Values, U: Values>(&mut self, wrapper: &Result<U, impl Refused>, own: &Answer<T>, input: impl Fn() -> String) {
        assert_eq!(wrapped(wrapper), expected(own), "wrapper left, second implementation right, for {}", input());
        self.wrapped += 1;
    }

    /// Exactly so many cases ran, each of them whole, and exactly these numbers were given.
    #[track_caller]
    pub fn ran(self, cases: u64, numbers: &[u64]) {
        self.ran_apart(cases, cases, numbers);
    }

    /// The same where the wrapper takes fewer inputs than C does.
    #[track_caller]
    pub fn ran_apart(self, raw: u64, wrapped: u64, numbers: &[u64]) {
        let given: Vec<u64> = (0..12).filter(|&number| self.numbers[number as usize] > 0).collect();
        let ran = (self.raw, self.wrapped, &given[..]);
        assert_eq!(ran, (raw, wrapped, numbers), "cases over the plain C interface, cases with the wrapper, and numbers that were given");
    }
}

/// A list for a message: whole where it is short.
pub fn shown<T: std::fmt::Debug>(list: &[T]) -> String {
    if list.len() <= 64 {
        format!("{list:?}")
    } else {
        format!("{} entries from {:?} to {:?}", list.len(), &list[..8], &list[list.len() - 8..])
    }
}

/// Each of these numbers with both neighbours, in order, each once.
pub fn with_neighbours(numbers: &[u64]) -> Vec<u64> {
    let mut all: Vec<u64> = numbers.iter().flat_map(|&x| [x.wrapping_sub(1), x, x.wrapping_add(1)]).collect();
    all.sort();
    all.dedup();
    all
}
