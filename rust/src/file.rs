//! The record file, as bytes.

use crate::boundary;
use crate::records::count_of;
use crate::refusals::{answered, Refusal};

/// What the values of a file are.
#[derive(Clone, Copy, Debug, PartialEq, Eq, Hash)]
pub enum Kind {
    /// Kind 0: phase samples, at most 32,768, each within 2^40 either way.
    Phase = 0,
    /// Kind 1: frequency values, at most 32,767, each within 2^41 either way.
    Frequency = 1,
}

impl Kind {
    /// The kind with this number; only 0 and 1 are numbers of one.
    pub fn from_number(number: u64) -> Option<Kind> {
        match number {
            0 => Some(Kind::Phase),
            1 => Some(Kind::Frequency),
            _ => None,
        }
    }

    /// The kind's number, 0 or 1.
    pub fn number(self) -> u64 {
        self as u64
    }
}

/// What a file of version 1 held.
#[must_use]
#[derive(Clone, Copy, Debug, PartialEq, Eq)]
pub struct Contents {
    /// What the values are.
    pub kind: Kind,
    /// How many values were written to the buffer.
    pub count: usize,
}

/// What a file of either version held.
#[must_use]
#[derive(Clone, Copy, Debug, PartialEq, Eq)]
pub struct Record {
    /// 1 or 2.
    pub version: u64,
    /// What the values are.
    pub kind: Kind,
    /// The starting phase, where the phases of a frequency record begin: see [`phase_from_start`](crate::phase_from_start). It is 0 in version 1, and
    /// for phase samples.
    pub start: i64,
    /// How many values were written to the buffer.
    pub count: usize,
}

/// What was salvaged of a damaged file.
#[must_use]
#[derive(Clone, Copy, Debug, PartialEq, Eq)]
pub struct Salvage {
    /// How many values the header of the damaged file says.
    pub old_count: usize,
    /// How many values were kept.
    pub new_count: usize,
    /// The damaged file's length in bytes less the new one's.
    pub left_over: usize,
    /// Whether a value outside its range was met, which ended the values kept.
    pub met: bool,
}

/// The length in bytes of the file of so many values, in version 1.
pub const fn file_length(count: usize) -> usize {
    count.saturating_mul(8).saturating_add(8)
}

/// The length in bytes of the file of so many values, in version 2.
pub const fn record_length(count: usize) -> usize {
    count.saturating_mul(8).saturating_add(16)
}

// The library proves that a file which is answered has one of the two kinds.
fn kind_of(number: u64) -> Kind {
    Kind::from_number(number).unwrap_or_else(|| unreachable!("no file has the kind {number}"))
}

/// The values of a file of version 1, written to the buffer. A file of version 2 is refused 9 at byte 3.
///
/// Refuses 9 (at the lowest wrong header byte, else at the length where the header is short), 2 (too many values for the kind), 9 (at the shorter
/// of the true and the right length), 6 (buffer below the count), 3 (at the index of the first value outside its range).
pub fn read_file(bytes: &[u8], buffer: &mut [i64]) -> Result<Contents, Refusal> {
    let answer = unsafe { boundary::plg_read_file(bytes.as_ptr(), bytes.len(), buffer.as_mut_ptr(), buffer.len()) };
    answered(answer.number, answer.place)?;
    Ok(Contents { kind: kind_of(answer.kind), count: answer.count as usize })
}

/// The values of a file of either version, written to the buffer.
///
/// Refuses 9 (at the lowest wrong byte of the first eight, else at the length where the header is short, which has 16 bytes in version 2, else at
/// place 8 where the kind is 0 and the start is not 0), 2 (too many values for the kind), 9 (at the shorter of the true and the right length), 6
/// (buffer below the count), 3 (start outside the sample range, at place 0), 3 (at the index of the first value outside its range). A 3 at place 0 is
/// the start's or the first value's.
pub fn read_record(bytes: &[u8], buffer: &mut [i64]) -> Result<Record, Refusal> {
    let answer = unsafe { boundary::plg_read_record(bytes.as_ptr(), bytes.len(), buffer.as_mut_ptr(), buffer.len()) };
    answered(answer.number, answer.place)?;
    Ok(Record { version: answer.version, kind: kind_of(answer.kind), start: answer.start, count: answer.count as usize })
}

/// The file, version 1, of a kind and its values, written to the buffer. Gives its length, that of [`file_length`].
///
/// Refuses 2 (too many values for the kind), 6 (buffer below the length), 3 (at the index of the first value outside its range).
pub fn write_file(kind: Kind, values: &[i64], buffer: &mut [u8]) -> Result<usize, Refusal> {
    count_of(unsafe { boundary::plg_write_file(kind.number(), values.as_ptr(), values.len(), buffer.as_mut_ptr(), buffer.len()) })
}

/// The file, version 2, of a kind, a starting phase and values, written to the buffer. Gives its length, that of [`record_length`].
///
/// ```
/// use ploegelster::{read_record, record_length, write_record, Kind};
///
/// let mut bytes = [0; record_length(3)];
/// write_record(Kind::Frequency, 5, &[3, -1, 4], &mut bytes)?;
/// let mut readings = [0; 3];
/// let record = read_record(&bytes, &mut readings)?;
/// assert_eq!((record.version, record.kind, record.start), (2, Kind::Frequency, 5));
/// assert_eq!(readings, [3, -1, 4]);
/// # Ok::<(), ploegelster::Refusal>(())
/// ```
///
/// Refuses 9 (kind 0 with a start that is not 0, at place 8), 2 (too many values for the kind), 6 (buffer below the length), 3 (start outside the sample
/// range, at place 0), 3 (at the index of the first value outside its range).
pub fn write_record(kind: Kind, start: i64, values: &[i64], buffer: &mut [u8]) -> Result<usize, Refusal> {
    count_of(unsafe { boundary::plg_write_record(kind.number(), start, values.as_ptr(), values.len(), buffer.as_mut_ptr(), buffer.len()) })
}

/// What can still be had of a damaged file of either version with a sound header, written to the buffer as a proper file of the same version, kind and
/// starting phase. The new file's length is the damaged one's less [`left_over`](Salvage::left_over); a buffer as long as the damaged file is always
/// long enough.
///
/// ```
/// use ploegelster::{read_file, salvage, write_file, Kind};
///
/// let mut bytes = [0; 32];
/// write_file(Kind::Phase, &[1, -1, 5], &mut bytes)?;
/// // the last four bytes were lost
/// let damaged = &bytes[..28];
/// let mut buffer = [0; 28];
/// let salvaged = salvage(damaged, &mut buffer)?;
/// assert_eq!((salvaged.old_count, salvaged.new_count, salvaged.left_over, salvaged.met), (3, 2, 4, false));
/// let file = &buffer[..damaged.len() - salvaged.left_over];
/// let mut samples = [0; 2];
/// assert_eq!(read_file(file, &mut samples)?.count, 2);
/// assert_eq!(samples, [1, -1]);
/// # Ok::<(), ploegelster::Refusal>(())
/// ```
///
/// Refuses 9 (at the lowest wrong byte of the first eight, else at the length where the header is short, which has 16 bytes in version 2, else at
/// place 8 where the kind is 0 and the start is not 0), 2 (the header's count too large for the kind), 6 (buffer below the new file's length), 3 (start
/// outside the sample range, at place 0). A wrong length and a value outside its range are no refusal here.
pub fn salvage(bytes: &[u8], buffer: &mut [u8]) -> Result<Salvage, Refusal> {
    let answer = unsafe { boundary::plg_salvage(bytes.as_ptr(), bytes.len(), buffer.as_mut_ptr(), buffer.len()) };
    answered(answer.number, answer.place)?;
    Ok(Salvage {
        old_count: answer.old_count as usize,
        new_count: answer.new_count as usize,
        left_over: answer.left_over as usize,
        met: answer.met != 0,
    })
}
