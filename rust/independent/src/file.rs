//! The record file, versions 1 and 2, read and written.

use super::{ask, ask_at, in_sample_range, Answer, Refusal, MOST_READINGS, MOST_SAMPLES, SAMPLE_END};

/// Both versions begin with this many bytes of one layout; in version 2 the start comes next.
const FRONT: usize = 8;

/// The versions of a file: 2 has a starting phase.
#[derive(Clone, Copy, Debug, PartialEq, Eq)]
pub enum Version {
    One,
    Two,
}

impl Version {
    pub fn number(self) -> u16 {
        match self {
            Version::One => 1,
            Version::Two => 2,
        }
    }

    /// How long the header is, and so where the values begin.
    pub(crate) fn header(self) -> usize {
        match self {
            Version::One => FRONT,
            Version::Two => FRONT + 8,
        }
    }

    /// The length of the file of so many values.
    fn length(self, count: usize) -> usize {
        self.header() + 8 * count
    }
}

/// What a file holds.
#[derive(Clone, Copy, Debug, PartialEq, Eq)]
pub enum Kind {
    Phase,
    Frequency,
}

impl Kind {
    pub fn byte(self) -> u8 {
        match self {
            Kind::Phase => 0,
            Kind::Frequency => 1,
        }
    }

    fn of_number(number: u64) -> Option<Kind> {
        match number {
            0 => Some(Kind::Phase),
            1 => Some(Kind::Frequency),
            _ => None,
        }
    }

    pub(crate) fn most_values(self) -> u64 {
        match self {
            Kind::Phase => MOST_SAMPLES,
            Kind::Frequency => MOST_READINGS,
        }
    }

    /// The index of the first value outside the kind's range, if one is.
    pub(crate) fn first_outside(self, values: &[i64]) -> Option<usize> {
        let end = match self {
            Kind::Phase => SAMPLE_END,
            Kind::Frequency => 2 * SAMPLE_END,
        };
        values.iter().position(|value| !(-end..=end).contains(value))
    }

    /// Refuses 3 at the first value outside the kind's range.
    fn ask_values(self, values: &[i64]) -> Answer<()> {
        match self.first_outside(values) {
            Some(index) => Err(Refusal { number: 3, place: index as u64 }),
            None => Ok(()),
        }
    }
}

/// Refuses 9 at place 8 a start that phase samples do not have.
pub(crate) fn ask_start(kind: Kind, start: i64) -> Answer<()> {
    ask_at(kind == Kind::Frequency || start == 0, 9, 8)
}

/// The bytes of a file of either version; version 1 has no place for the start.
pub fn bytes_of(version: Version, kind: Kind, start: i64, values: &[i64]) -> Vec<u8> {
    let mut bytes = b"PHR".to_vec();
    bytes.extend(version.number().to_le_bytes());
    bytes.push(kind.byte());
    bytes.extend((values.len() as u16).to_le_bytes());
    if version == Version::Two {
        bytes.extend(start.to_le_bytes());
    }
    bytes.extend(values.iter().flat_map(|value| value.to_le_bytes()));
    bytes
}

/// The bytes of a file of version 1.
pub fn file_of(kind: Kind, values: &[i64]) -> Vec<u8> {
    bytes_of(Version::One, kind, 0, values)
}

/// The bytes of a file of version 2.
pub fn record_of(kind: Kind, start: i64, values: &[i64]) -> Vec<u8> {
    bytes_of(Version::Two, kind, start, values)
}

/// What a reading of version 1 alone gave.
#[derive(Clone, Copy, Debug, PartialEq, Eq)]
pub struct Read {
    pub kind: Kind,
    pub count: u64,
}

/// What a reading of either version gave.
#[derive(Clone, Copy, Debug, PartialEq, Eq)]
pub struct Record {
    pub version: Version,
    pub kind: Kind,
    pub start: i64,
    pub count: u64,
}

/// What a header says, for a reader of these versions, else 9 at its lowest wrong byte or where it ends. The start is not tested here.
pub(crate) fn header(bytes: &[u8], versions: &[Version]) -> Answer<Record> {
    let version_of = |byte: u8| versions.iter().copied().find(|version| version.number() == byte as u16);
    for (offset, &byte) in bytes.iter().take(6).enumerate() {
        let right = match offset {
            0 => byte == 0x50,
            1 => byte == 0x48,
            2 => byte == 0x52,
            3 => version_of(byte).is_some(),
            4 => byte == 0,
            _ => byte < 2,
        };
        ask_at(right, 9, offset as u64)?;
    }
    let length = bytes.len() as u64;
    ask_at(bytes.len() >= FRONT, 9, length)?;
    let version = version_of(bytes[3]).expect("byte 3 is right");
    ask_at(bytes.len() >= version.header(), 9, length)?;
    let kind = if bytes[5] == 0 { Kind::Phase } else { Kind::Frequency };
    let start = match version {
        Version::One => 0,
        Version::Two => number_of(&bytes[FRONT..FRONT + 8]),
    };
    Ok(Record { version, kind, start, count: u16::from_le_bytes([bytes[6], bytes[7]]) as u64 })
}

/// The number of 64 bits in these eight bytes, the low byte first.
pub(crate) fn number_of(eight: &[u8]) -> i64 {
    i64::from_le_bytes(eight.try_into().expect("eight bytes"))
}

/// The values of a file of one of these versions, written to the buffer. The start of version 1 is 0, so that no test of it refuses.
fn read(bytes: &[u8], versions: &[Version], buffer: &mut [i64]) -> Answer<Record> {
    let record = header(bytes, versions)?;
    let Record { version, kind, start, count } = record;
    ask_start(kind, start)?;
    ask(count <= kind.most_values(), 2)?;
    let right = version.length(count as usize);
    ask_at(bytes.len() == right, 9, bytes.len().min(right) as u64)?;
    ask(buffer.len() as u64 >= count, 6)?;
    ask(in_sample_range(start as i128), 3)?;
    let values: Vec<i64> = bytes[version.header()..].chunks(8).map(number_of).collect();
    kind.ask_values(&values)?;
    buffer[..values.len()].copy_from_slice(&values);
    Ok(record)
}

/// The values of a file of version 1, written to the buffer.
pub fn read_file(bytes: &[u8], buffer: &mut [i64]) -> Answer<Read> {
    let Record { kind, count, .. } = read(bytes, &[Version::One], buffer)?;
    Ok(Read { kind, count })
}

/// The values of a file of either version, written to the buffer.
pub fn read_record(bytes: &[u8], buffer: &mut [i64]) -> Answer<Record> {
    read(bytes, &[Version::One, Version::Two], buffer)
}

/// The file of a kind, a start and values, written to the buffer; gives its length.
fn write(version: Version, kind: u64, start: i64, values: &[i64], buffer: &mut [u8]) -> Answer<u64> {
    let kind = Kind::of_number(kind).ok_or(Refusal { number: 9, place: 5 })?;
    ask_start(kind, start)?;
    ask(values.len() as u64 <= kind.most_values(), 2)?;
    ask(buffer.len() >= version.length(values.len()), 6)?;
    ask(in_sample_range(start as i128), 3)?;
    kind.ask_values(values)?;
    let bytes = bytes_of(version, kind, start, values);
    buffer[..bytes.len()].copy_from_slice(&bytes);
    Ok(bytes.len() as u64)
}

/// The file, version 1, of a kind and its values, written to the buffer; gives its length.
pub fn write_file(kind: u64, values: &[i64], buffer: &mut [u8]) -> Answer<u64> {
    write(Version::One, kind, 0, values, buffer)
}

/// The file, version 2, of a kind, a start and values, written to the buffer; gives its length.
pub fn write_record(kind: u64, start: i64, values: &[i64], buffer: &mut [u8]) -> Answer<u64> {
    write(Version::Two, kind, start, values, buffer)
}
