//! Files of both versions and kinds, and their values, in their kind's range or about its ends.

use super::ends::within;
use super::random::Random;
use super::END;
use independent::file::{bytes_of, Kind, Version};

/// Both kinds.
pub const KINDS: [Kind; 2] = [Kind::Phase, Kind::Frequency];

/// Versions, kinds and starts of files that differ in more than their values.
pub const FILES: [(Version, Kind, i64); 8] = [
    (Version::One, Kind::Phase, 0),
    (Version::One, Kind::Frequency, 0),
    (Version::Two, Kind::Phase, 0),
    (Version::Two, Kind::Frequency, 0),
    (Version::Two, Kind::Frequency, 5),
    (Version::Two, Kind::Frequency, -1),
    (Version::Two, Kind::Frequency, END),
    (Version::Two, Kind::Frequency, -END),
];

/// The values of a kind lie from minus this to this.
pub fn end_of(kind: Kind) -> i64 {
    match kind {
        Kind::Phase => END,
        Kind::Frequency => 2 * END,
    }
}

/// The most values of a kind.
pub fn most(kind: Kind) -> usize {
    match kind {
        Kind::Phase => 32_768,
        Kind::Frequency => 32_767,
    }
}

/// A start of a sound file of this kind.
pub fn sound_start(random: &mut Random, kind: Kind) -> i64 {
    match kind {
        Kind::Phase => 0,
        Kind::Frequency => random.pick(&within(END)),
    }
}

/// Every file of two values with each two bytes of its header changed: whole, then cut behind the second of them; with the whole length beside both.
pub fn with_two_header_bytes_changed(mut each: impl FnMut(&[u8], usize)) {
    for (version, kind, start) in FILES {
        let sound = bytes_of(version, kind, start, &[1, -1]);
        let header = sound.len() - 16;
        for first in 0..header {
            for second in first + 1..header {
                for change in [1, 2, 0xFF] {
                    for other in [1, 2, 0xFF] {
                        let mut bytes = sound.clone();
                        bytes[first] ^= change;
                        bytes[second] ^= other;
                        each(&bytes, bytes.len());
                        each(&bytes[..=second], bytes.len());
                    }
                }
            }
        }
    }
}

/// Values of a kind, each within its range or, one in so many, about an end of either kind's range or of a word.
pub fn values(random: &mut Random, kind: Kind, count: usize, one_in: u64) -> Vec<i64> {
    let end = end_of(kind);
    let about = [-1, 0, 1].map(|step| [END, -END, 2 * END, -2 * END, i64::MAX - 1, i64::MIN + 1].map(|limit| limit + step)).concat();
    let size = random.sized(41) as i64;
    let size = size.min(end);
    (0..count).map(|_| if one_in > 0 && random.one_in(one_in) { random.pick(&about) } else { random.between(-size, size) }).collect()
}

/// A record file by its parts, sound or damaged, with no wrong byte among the first six of its header.
#[derive(Clone)]
pub struct Parts {
    pub version: Version,
    pub kind: Kind,
    pub start: i64,
    /// The count that the header says.
    pub written: usize,
    /// All whole values that follow the header.
    pub values: Vec<i64>,
    /// What follows these: fewer than eight bytes.
    pub rest: Vec<u8>,
}

impl Parts {
    /// Not damaged but for its values, if one is outside.
    pub fn whole(version: Version, kind: Kind, start: i64, values: &[i64]) -> Parts {
        Parts { version, kind, start, written: values.len(), values: values.to_vec(), rest: vec![] }
    }

    pub fn header(&self) -> usize {
        match self.version {
            Version::One => 8,
            Version::Two => 16,
        }
    }

    pub fn bytes(&self) -> Vec<u8> {
        let mut bytes = bytes_of(self.version, self.kind, self.start, &self.values);
        bytes[6..8].copy_from_slice(&(self.written as u16).to_le_bytes());
        bytes.extend(&self.rest);
        bytes
    }
}
