//! The sheet of all factors: the lines of one record file, the closing line, and the whole sheet of several files.

use super::file::{ask_start, header, read_record, Kind, Record, Version};
use super::fractions::{allan_deviation, allan_fraction, time_deviation, time_fraction, Fraction};
use super::frequency::phase_from_start;
use super::noise::noise_of_record;
use super::sums::{allan_sum, modified_sum, Sum};
use super::{ask, Answer, Refusal};

/// A phase record on a sheet has at most this many samples.
pub const MOST_SHEET_SAMPLES: u64 = 4_096;
/// A frequency record on a sheet has at most this many readings.
pub const MOST_SHEET_READINGS: u64 = 4_095;
/// A total that is handed in is refused above this.
pub const LARGEST_TOTAL: u64 = 1 << 63;

/// K and C, added up over the lines of a sheet; noughts at first.
#[derive(Clone, Copy, Debug, Default, PartialEq, Eq)]
pub struct Totals {
    pub k: u64,
    pub c: u64,
}

/// What a record adds to a sheet.
#[derive(Clone, Debug, PartialEq, Eq)]
pub struct Lines {
    pub text: String,
    /// K and C of these lines alone.
    pub own: Totals,
}

/// A record's lines as they were written.
#[derive(Clone, Copy, Debug, PartialEq, Eq)]
pub struct Sheet {
    /// How many bytes of text.
    pub length: u64,
    /// The totals with the record's own.
    pub totals: Totals,
}

fn most_on_a_sheet(kind: Kind) -> u64 {
    match kind {
        Kind::Phase => MOST_SHEET_SAMPLES,
        Kind::Frequency => MOST_SHEET_READINGS,
    }
}

/// The samples of a record file, or why it is refused as a whole. Its count is held against a sheet's most where the reader tests it, behind the whole
/// header; the rest is the reader's, who has room enough.
fn samples_of(bytes: &[u8]) -> Answer<Vec<i64>> {
    let Record { kind, start, count, .. } = header(bytes, &[Version::One, Version::Two])?;
    ask_start(kind, start)?;
    ask(count <= most_on_a_sheet(kind), 2)?;
    let mut values = vec![0; count as usize];
    read_record(bytes, &mut values)?;
    let samples = match kind {
        Kind::Phase => values,
        Kind::Frequency => {
            let mut phases = vec![0; values.len() + 1];
            phase_from_start(start, &values, &mut phases)?;
            phases
        }
    };
    allan_sum(&samples, 1)?;
    Ok(samples)
}

/// Three columns: a variance, how many squares, a deviation.
fn columns(
    sum: Sum,
    m: u64,
    fraction: impl Fn(u128, u64, u64) -> Answer<Fraction>,
    deviation: impl Fn(u128, u64, u64) -> Answer<u64>,
) -> [String; 3] {
    let Sum { total, count } = sum;
    let Fraction { numerator, denominator } = fraction(total, m, count).expect("a sum of a sound record");
    let r = deviation(total, m, count).expect("a sum of a sound record");
    [format!("{numerator}/{denominator}"), count.to_string(), r.to_string()]
}

/// The line of a factor at which there are samples enough for the Allan sum, with its K and its C.
fn line(samples: &[i64], m: u64) -> (String, Totals) {
    let allan = allan_sum(samples, m).expect("2m+1 samples or more");
    let (time, c) = match modified_sum(samples, m) {
        Ok(modified) => (columns(modified, m, time_fraction, time_deviation), modified.count),
        Err(Refusal { number, .. }) => (["", "", ""].map(|_| format!("r{number}")), 0),
    };
    let alpha = match noise_of_record(samples, m) {
        Ok(noise) => noise.alpha().to_string(),
        Err(Refusal { number: 1, .. }) => "-".to_string(),
        Err(Refusal { number, .. }) => format!("r{number}"),
    };
    let all = [&[m.to_string()][..], &columns(allan, m, allan_fraction, allan_deviation), &time, &[alpha]].concat();
    (all.join(" ") + "\n", Totals { k: allan.count, c })
}

/// The lines of one record file.
pub fn lines(bytes: &[u8]) -> Lines {
    let mut lines = Lines { text: String::new(), own: Totals::default() };
    match samples_of(bytes) {
        Ok(samples) => {
            let mut m = 1;
            while samples.len() as u64 > 2 * m {
                let (text, Totals { k, c }) = line(&samples, m);
                lines.text += &text;
                lines.own.k += k;
                lines.own.c += c;
                m *= 2;
            }
        }
        Err(Refusal { number, place }) => lines.text = format!("refused {number} at {place}\n"),
    }
    lines
}

/// The closing line.
pub fn closing_line(totals: Totals) -> String {
    format!("total {} {}\n", totals.k, totals.c)
}

/// A text at the front of a buffer that has room for it; gives its length.
fn write(text: &str, buffer: &mut [u8]) -> Answer<u64> {
    ask(buffer.len() >= text.len(), 6)?;
    buffer[..text.len()].copy_from_slice(text.as_bytes());
    Ok(text.len() as u64)
}

/// The lines of one record file, written to the buffer, and the totals with the record's own.
pub fn sheet_record(bytes: &[u8], totals: Totals, buffer: &mut [u8]) -> Answer<Sheet> {
    ask(totals.k <= LARGEST_TOTAL && totals.c <= LARGEST_TOTAL, 2)?;
    let Lines { text, own } = lines(bytes);
    let length = write(&text, buffer)?;
    Ok(Sheet { length, totals: Totals { k: totals.k + own.k, c: totals.c + own.c } })
}

/// The closing line, written to the buffer; gives its length.
pub fn sheet_total(totals: Totals, buffer: &mut [u8]) -> Answer<u64> {
    write(&closing_line(totals), buffer)
}

/// The whole sheet of these files.
pub fn sheet(files: &[Vec<u8>]) -> String {
    let (mut text, mut totals) = (String::new(), Totals::default());
    for bytes in files {
        let Lines { text: more, own } = lines(bytes);
        text += &more;
        totals = Totals { k: totals.k + own.k, c: totals.c + own.c };
    }
    text + &closing_line(totals)
}
