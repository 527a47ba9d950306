//! What can still be had of a damaged record file, of either version: its values are taken out, and a new file is made of those that are kept.

use super::file::{ask_start, bytes_of, header, number_of, Record, Version};
use super::{ask, in_sample_range, Answer};

/// What was salvaged.
#[derive(Clone, Copy, Debug, PartialEq, Eq)]
pub struct Salvaged {
    /// The count that the header of the damaged file says.
    pub old_count: u64,
    /// How many values were kept.
    pub new_count: u64,
    /// The damaged file's length less the new one's.
    pub left_over: u64,
    /// Whether a value out of range is among those present.
    pub met: bool,
}

/// The proper file that can still be had of a damaged one with a sound header, written to the buffer.
pub fn salvage(bytes: &[u8], buffer: &mut [u8]) -> Answer<Salvaged> {
    let Record { version, kind, start, count } = header(bytes, &[Version::One, Version::Two])?;
    ask_start(kind, start)?;
    ask(count <= kind.most_values(), 2)?;
    // Eight bytes at a time; fewer at the end are no value.
    let present: Vec<i64> = bytes[version.header()..].chunks_exact(8).map(number_of).take(count as usize).collect();
    let outside = kind.first_outside(&present);
    let kept = match outside {
        Some(index) => &present[..index],
        None => &present,
    };
    let file = bytes_of(version, kind, start, kept);
    ask(buffer.len() >= file.len(), 6)?;
    ask(in_sample_range(start as i128), 3)?;
    buffer[..file.len()].copy_from_slice(&file);
    let left_over = (bytes.len() - file.len()) as u64;
    Ok(Salvaged { old_count: count, new_count: kept.len() as u64, left_over, met: outside.is_some() })
}
