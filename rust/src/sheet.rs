//! The sheet of all factors, as text.

use crate::boundary::{self, Totals};
use crate::records::count_of;
use crate::refusals::{answered, Refusal};

impl Totals {
    /// The totals of all noughts, with which a sheet begins.
    pub const NOUGHTS: Totals = Totals { k: 0, c: 0 };
}

/// A record's lines on a sheet, as they were written.
#[must_use]
#[derive(Clone, Copy, Debug, PartialEq, Eq)]
pub struct Sheet {
    /// How many bytes of text were written.
    pub length: usize,
    /// The totals with the record's, to hand in with the next record or to [`sheet_total`].
    pub totals: Totals,
}

/// The lines of one record on a sheet, from the bytes of its file, of either version, written as text. A frequency record is turned into phase first, from
/// its start. There is a line for each factor m = 1, 2, 4, 8, .. while there are at least 2m+1 samples, with the columns m, Allan variance, K, Allan
/// deviation, time variance, C, time deviation and alpha. Variances are fractions. The three time columns each read `r1` under 3m samples; alpha reads `-`
/// under 6m samples, and `r8` where the time deviation at m is nought. The totals come back with K and C of all these lines more;
/// [`NOUGHTS`](Totals::NOUGHTS) are handed in with the first record of a sheet.
///
/// ```
/// use ploegelster::{file_length, sheet_record, sheet_total, write_file, Kind, Totals, SHEET_ROOM};
///
/// let mut bytes = [0; file_length(6)];
/// write_file(Kind::Phase, &[0, 1, 4, 9, 16, 25], &mut bytes)?;
/// let mut text = [0; SHEET_ROOM];
/// let sheet = sheet_record(&bytes, Totals::NOUGHTS, &mut text)?;
/// let lines = "1 2/1 4 1482910 2/3 4 856158 -2\n2 8/1 2 2965820 32/3 1 3424634 -\n";
/// assert_eq!(&text[..sheet.length], lines.as_bytes());
/// assert_eq!(sheet.totals, Totals { k: 6, c: 5 });
///
/// let length = sheet_total(sheet.totals, &mut text)?;
/// assert_eq!(&text[..length], b"total 6 5\n");
/// # Ok::<(), ploegelster::Refusal>(())
/// ```
///
/// A record that is refused as a whole has one line, as `refused 3 at 17`, and leaves the totals as they are: for what
/// [`read_record`](crate::read_record) refuses, though 2 where the header's count is above [`MOST_SHEET_SAMPLES`](crate::MOST_SHEET_SAMPLES) or
/// [`MOST_SHEET_READINGS`](crate::MOST_SHEET_READINGS), and never 6; for 3 at the index of the first reading whose phase leaves the sample range; for 1 at
/// place 0 under three samples. This is no refusal of the call. A file that cannot be opened or read is given as no bytes, and its line is
/// `refused 9 at 0`.
///
/// The call takes some 70,000 bytes of the stack.
///
/// Refuses 2 (a total that is handed in above [`LARGEST_TOTAL`](crate::LARGEST_TOTAL)), 6 (buffer below the text's length;
/// [`SHEET_ROOM`](crate::SHEET_ROOM) bytes are always enough), both at place 0; the totals that were handed in stand.
pub fn sheet_record(bytes: &[u8], totals: Totals, text: &mut [u8]) -> Result<Sheet, Refusal> {
    let answer = unsafe { boundary::plg_sheet_record(bytes.as_ptr(), bytes.len(), totals, text.as_mut_ptr(), text.len()) };
    answered(answer.number, answer.place)?;
    Ok(Sheet { length: answer.length as usize, totals: answer.totals })
}

/// The closing line of a sheet, written as text: `total`, K and C, with one space between and a line feed at the end. Gives how many bytes were written.
///
/// Refuses 6 (buffer below the line's length; [`SHEET_ROOM`](crate::SHEET_ROOM) bytes are always enough), at place 0.
pub fn sheet_total(totals: Totals, text: &mut [u8]) -> Result<usize, Refusal> {
    count_of(unsafe { boundary::plg_sheet_total(totals, text.as_mut_ptr(), text.len()) })
}
