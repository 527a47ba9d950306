//! Why a call was refused, and where.

use std::error::Error;
use std::fmt::{self, Display, Formatter};

/// Why a call was refused: one of the library's nine numbers.
#[non_exhaustive]
#[derive(Clone, Copy, Debug, PartialEq, Eq, Hash)]
pub enum Ground {
    /// 1: too few samples, a count of 0, or fewer than 10 intervals for bars. The place is 0.
    TooFew = 1,
    /// 2: too many samples, readings, counts or intervals, or a total of a sheet above 2^63. The place is 0.
    TooMany = 2,
    /// 3: a value outside its range. The place is the index of the first, else 0.
    OutOfRange = 3,
    /// 4: a float reading that is not a number. The place is its index.
    NotANumber = 4,
    /// 5: a factor outside its range. The place is 0.
    BadFactor = 5,
    /// 6: a lent buffer shorter than the output, or a ring, or a channel's share of one, shorter than 3m at a start. The place is 0.
    NoRoom = 6,
    /// 7: a meter that does not hold together. The place is 0.
    BadMeter = 7,
    /// 8: a deviation of nought where a ratio or a bar is asked. The place is 0.
    NoDeviation = 8,
    /// 9: bad bytes or a bad length in a file. The place is the byte's offset.
    BadFile = 9,
}

impl Ground {
    /// The ground with this number; only 1 to 9 are numbers of one.
    pub fn from_number(number: u64) -> Option<Ground> {
        match number {
            1 => Some(Ground::TooFew),
            2 => Some(Ground::TooMany),
            3 => Some(Ground::OutOfRange),
            4 => Some(Ground::NotANumber),
            5 => Some(Ground::BadFactor),
            6 => Some(Ground::NoRoom),
            7 => Some(Ground::BadMeter),
            8 => Some(Ground::NoDeviation),
            9 => Some(Ground::BadFile),
            _ => None,
        }
    }

    /// The ground's number, from 1 to 9.
    pub fn number(self) -> u64 {
        self as u64
    }
}

/// The ground in words, those of [`refusal_text`].
impl Display for Ground {
    fn fmt(&self, f: &mut Formatter<'_>) -> fmt::Result {
        f.write_str(refusal_text(self.number()))
    }
}

/// A refused call: why, and where.
#[derive(Clone, Copy, Debug, PartialEq, Eq, Hash)]
pub struct Refusal {
    /// Why.
    pub ground: Ground,
    /// Where: the index of a value, the offset of a byte, or 0, as the ground says.
    pub place: u64,
}

impl Refusal {
    /// The ground's number, from 1 to 9.
    pub fn number(self) -> u64 {
        self.ground.number()
    }
}

/// Number, words and place: `refused 3, a value outside its range, at 7`.
impl Display for Refusal {
    fn fmt(&self, f: &mut Formatter<'_>) -> fmt::Result {
        write!(f, "refused {}, {}, at {}", self.number(), self.ground, self.place)
    }
}

impl Error for Refusal {}

/// A number of an answer in words, 0 and such as the library never gives included.
pub fn refusal_text(number: u64) -> &'static str {
    match number {
        0 => "answered",
        1 => "too few samples, counts or intervals",
        2 => "too many samples, readings, counts or intervals",
        3 => "a value outside its range",
        4 => "a reading that is not a number",
        5 => "a factor outside its range",
        6 => "a lent buffer or ring that is too short",
        7 => "a meter that does not hold together",
        8 => "a deviation of nought where a ratio or a bar is asked",
        9 => "bad bytes or a bad length in a file",
        _ => "no number of this library",
    }
}

/// The refusal of an answer with this number and place, if it is one.
pub(crate) fn answered(number: u64, place: u64) -> Result<(), Refusal> {
    match Ground::from_number(number) {
        Some(ground) => Err(Refusal { ground, place }),
        None if number == 0 => Ok(()),
        // The library proves of every entry, for every input, which of 0 to 9 it gives, and a channel's 11 is told before this.
        None => unreachable!("no entry gives the number {number}"),
    }
}
