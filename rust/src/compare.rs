//! The quieter of two records: the one with the smaller Allan variance.

use crate::boundary;
use crate::refusals::{answered, Refusal};

/// Which of two records is the quieter.
#[must_use]
#[derive(Clone, Copy, Debug, PartialEq, Eq, Hash)]
pub enum Quieter {
    /// 1: the first, also where the two variances are equal.
    First = 1,
    /// 2: the second.
    Second = 2,
}

impl Quieter {
    /// The one with this number; only 1 and 2 are numbers of one.
    pub fn from_number(number: u64) -> Option<Quieter> {
        match number {
            1 => Some(Quieter::First),
            2 => Some(Quieter::Second),
            _ => None,
        }
    }

    /// Its number, 1 or 2.
    pub fn number(self) -> u64 {
        self as u64
    }
}

/// Which of two records is the quieter at factor m: the one with the smaller Allan variance, on equality the first. The two variances A / (2 m^2 K) are
/// compared as exact fractions, so that records of different lengths may be compared, and none is drawn or rounded. The two may overlap or be the same.
///
/// ```
/// use ploegelster::{quieter, quieter_record, Quieter};
///
/// // 6 of 5 squares against 5 of 2: the variances are 3/5 and 5/4.
/// let (first, second) = ([0, 0, 0, 1, 0, 0, 0], [0, 0, 1, 0]);
/// assert_eq!(quieter(&first, &second, 1)?, Quieter::First);
/// assert_eq!(quieter(&second, &first, 1)?, Quieter::Second);
/// assert_eq!(quieter_record(&second, &first, 1)?, first);
/// # Ok::<(), ploegelster::Refusal>(())
/// ```
///
/// Refuses 5 (m not from 1 to 10,922); of the first record 2 (N above 32,768), 1 (N below 2m+1), 3 (at the first sample outside its range); then 2, 1, 3 of
/// the second. The place of a 3 is an index of the record that is refused: the second if [`allan_sum`](crate::allan_sum) answers for the first.
pub fn quieter(first: &[i64], second: &[i64], m: u64) -> Result<Quieter, Refusal> {
    let answer = unsafe { boundary::plg_quieter(first.as_ptr(), first.len(), second.as_ptr(), second.len(), m) };
    answered(answer.number, answer.place)?;
    match Quieter::from_number(answer.which) {
        Some(which) => Ok(which),
        // The library proves that an answered call names one of the two.
        None => unreachable!("no record of two has the number {}", answer.which),
    }
}

/// The quieter of two records itself, as [`quieter`] answers which it is: the slice that was handed in.
///
/// Refuses as [`quieter`] does.
pub fn quieter_record<'a>(first: &'a [i64], second: &'a [i64], m: u64) -> Result<&'a [i64], Refusal> {
    Ok(match quieter(first, second, m)? {
        Quieter::First => first,
        Quieter::Second => second,
    })
}
