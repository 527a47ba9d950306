//! Numbers, sums and answers in the words of the lines.

use std::fmt::Display;

use independent::fractions::Fraction;
use independent::sums::Sum;
use independent::{Answer, Refusal};

/// What was answered, or the refusal's number and place.
pub fn answer(answer: Answer<impl Display>) -> String {
    match answer {
        Ok(answer) => answer.to_string(),
        Err(Refusal { number, place }) => format!("refused {number} at {place}"),
    }
}

/// How many entries were written, or the refusal.
pub fn written(count: Answer<u64>) -> String {
    answer(count.map(|count| format!("{count} written")))
}

/// The high and the low half.
pub fn halves(n: u128) -> String {
    format!("{}:{}", n >> 64, n as u64)
}

/// A sum and its count.
pub fn sum(sum: Sum) -> String {
    format!("{} of {}", halves(sum.total), sum.count)
}

/// A part of an answer: a sum, or its own number.
pub fn part(part: Result<Sum, u64>) -> String {
    part.map_or_else(|number| format!("refused {number}"), sum)
}

pub fn fraction(fraction: Fraction) -> String {
    format!("{}/{}", halves(fraction.numerator), fraction.denominator)
}

/// The 64 bits of a double.
pub fn bits(x: f64) -> String {
    format!("{:016x}", x.to_bits())
}

/// Numbers with a space between.
pub fn values(row: &[i64]) -> String {
    row.iter().map(i64::to_string).collect::<Vec<_>>().join(" ")
}
