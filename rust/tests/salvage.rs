//! Damaged record files of both versions over the C boundary: what can still be had of them.

#[allow(dead_code)]
mod shared;

use independent::file::{bytes_of, record_of, Kind, Version};
use independent::salvage::salvage;
use independent::{greatest, Refusal};
use ploegelster::boundary::SalvageAnswer;
use shared::answers::Words;
use shared::ends::{self, beyond, block_counts, last_block_counts, within};
use shared::files::{end_of, most, sound_start, values, with_two_header_bytes_changed, Parts, FILES, KINDS};
use shared::lent::{Lent, Sides};
use shared::random::Random;
use shared::records::OUTSIDE;
use shared::{raw, shown, Tally, END};

/// Number, place, old count, new count, bytes left over, met.
type Told = [u64; 6];

fn refused(number: u64, place: usize) -> Told {
    [number, place as u64, 0, 0, 0, 0]
}

fn answered(old_count: usize, new_count: usize, left_over: usize, met: bool) -> Told {
    [0, 0, old_count as u64, new_count as u64, left_over as u64, met as u64]
}

/// A damaged file, with a buffer of this length. Gives the answer.
fn case(tally: &mut Tally, bytes: &[u8], room: usize) -> Told {
    let input = || format!("salvage, buffer of {room}, bytes {}", shown(bytes));
    let (mut lent, mut buffers) = (Lent::holding(bytes), Sides::painted(room));
    let own = salvage(bytes, buffers.own.part());
    let answer = raw::salvage(lent.part(), buffers.raw.part());
    tally.same(&answer, &ploegelster::salvage(lent.part(), buffers.wrapped.part()), &own, input);
    buffers.same_painted(own.is_err(), input);
    assert!(lent.holds(bytes), "bytes changed, {}", input());
    if answer.number == 0 {
        look_at(bytes, &answer, buffers.raw.part(), input);
    }
    answer.words().try_into().expect("six words")
}

/// What holds of every answer, found without the second implementation: the figures add up, the reader of either version takes the new file, this is
/// the old one's beginning but for its count, no value more could have been kept, and a second salvage changes nothing.
fn look_at(bytes: &[u8], answer: &SalvageAnswer, buffer: &[u8], input: impl Fn() -> String) {
    let number = |eight: &[u8]| i64::from_le_bytes(eight.try_into().expect("eight bytes"));
    let (header, start) = if bytes[3] == 2 { (16, number(&bytes[8..16])) } else { (8, 0) };
    let old = u16::from_le_bytes([bytes[6], bytes[7]]) as usize;
    let kept = answer.new_count as usize;
    assert!(answer.old_count == old as u64 && kept <= old, "counts, {}", input());
    let length = header + 8 * kept;
    assert_eq!(bytes.len() as u64, length as u64 + answer.left_over, "lengths, {}", input());
    let file = &buffer[..length];
    let mut values = vec![0; kept];
    let record = raw::read_record(file, &mut values);
    assert_eq!(record.words(), [0, 0, bytes[3] as u64, bytes[5] as u64, start as u64, kept as u64], "the new file read, {}", input());
    let mut whole = bytes[header..].chunks_exact(8).map(number);
    assert!(values.iter().copied().eq(whole.by_ref().take(kept)), "values read from the new file, {}", input());
    assert!((&file[..6], &file[8..]) == (&bytes[..6], &bytes[8..length]), "bytes of the new file, {}", input());
    // The next value is missing, or has no part in the old count, or is met.
    let end = if bytes[5] == 0 { END } else { 2 * END };
    let next = whole.next().filter(|_| kept < old);
    assert_eq!(answer.met, next.is_some() as u64, "met, {}", input());
    assert!(next.is_none_or(|value| value.unsigned_abs() > end as u64), "a value in range is not kept, {}", input());
    let mut again = Lent::painted(length);
    assert_eq!(raw::salvage(file, again.part()).words(), answered(kept, kept, 0, false), "salvaged again, {}", input());
    assert!(again.holds(file), "bytes salvaged again, {}", input());
}

/// Lengths of a buffer about that of the new file, and that of the old one.
fn rooms_about(length: usize, old: usize) -> Vec<usize> {
    let mut rooms = vec![0, length.saturating_sub(1), length, length + 1, old];
    rooms.sort();
    rooms.dedup();
    rooms
}

/// The same for any bytes. The new file's length is the least that is not refused 6, or 0 where something else is refused before.
fn rooms_of(bytes: &[u8]) -> Vec<usize> {
    let short = |room: u64| salvage(bytes, &mut vec![0; room as usize]) == Err(Refusal { number: 6, place: 0 });
    let least = greatest(bytes.len() as u64, |room| room == 0 || short(room - 1));
    rooms_about(least as usize, bytes.len())
}

/// What salvage makes of a file by its parts.
impl Parts {
    /// The same with so many bytes alone, at least those of the header.
    fn cut(&self, length: usize) -> Parts {
        let count = (length - self.header()) / 8;
        let rest = self.bytes()[self.header() + 8 * count..length].to_vec();
        Parts { values: self.values[..count].to_vec(), rest, ..self.clone() }
    }

    /// The same, where its last value is whole, with so many bytes behind it.
    fn with_more(&self, more: usize, byte: u8) -> Parts {
        let mut longer = self.clone();
        longer.values.resize(self.values.len() + more / 8, i64::from_le_bytes([byte; 8]));
        longer.rest = vec![byte; more % 8];
        longer
    }

    /// How many values are kept, and whether one outside is met.
    fn kept(&self) -> (usize, bool) {
        let present = &self.values[..self.written.min(self.values.len())];
        let outside = present.iter().position(|value| value.unsigned_abs() > end_of(self.kind) as u64);
        (outside.unwrap_or(present.len()), outside.is_some())
    }

    /// The length of the new file.
    fn length(&self) -> usize {
        self.header() + 8 * self.kept().0
    }

    /// What is told with a buffer of this length.
    fn told(&self, room: usize) -> Told {
        let (kept, met) = self.kept();
        if self.kind == Kind::Phase && self.start != 0 {
            refused(9, 8)
        } else if self.written > most(self.kind) {
            refused(2, 0)
        } else if room < self.length() {
            refused(6, 0)
        } else if self.start.unsigned_abs() > END as u64 {
            refused(3, 0)
        } else {
            answered(self.written, kept, 8 * (self.values.len() - kept) + self.rest.len(), met)
        }
    }

    /// A case with a buffer of each of these lengths.
    fn with_rooms(&self, tally: &mut Tally, rooms: &[usize]) {
        let bytes = self.bytes();
        for &room in rooms {
            assert_eq!(case(tally, &bytes, room), self.told(room), "buffer of {room}, bytes {}", shown(&bytes));
        }
    }

    /// Cases with buffers about the new file's length, and of the old one's.
    fn with_all_rooms(&self, tally: &mut Tally) {
        self.with_rooms(tally, &rooms_about(self.length(), self.header() + 8 * self.values.len() + self.rest.len()));
    }

    /// A case with a buffer just long enough.
    fn with_room(&self, tally: &mut Tally) {
        self.with_rooms(tally, &[self.length()]);
    }
}

/// Both versions with both kinds, from a start that is sound.
fn kinds_of_files(random: &mut Random) -> [(Version, Kind, i64); 4] {
    let start = sound_start(random, Kind::Frequency);
    [(Version::One, Kind::Phase, 0), (Version::One, Kind::Frequency, 0), (Version::Two, Kind::Phase, 0), (Version::Two, Kind::Frequency, start)]
}

/// None to four values: at the ends of the kind's range, and one beyond at each place.
fn short_lists(kind: Kind) -> Vec<Vec<i64>> {
    let end = end_of(kind);
    let mut lists = vec![vec![], vec![end, -end, -1, 0]];
    for count in 1..=4 {
        let sound: Vec<i64> = [end, -end, 1, -end][..count].to_vec();
        lists.push(sound.clone());
        for index in 0..count {
            let mut values = sound.clone();
            values[index] = if (index + count) % 2 == 0 { end + 1 } else { -end - 1 };
            lists.push(values);
        }
    }
    lists
}

/// What the rules give whole: three phase samples, the last beyond the range, and four bytes more.
#[test]
fn figures_of_the_rules() {
    let damaged = [
        0x50, 0x48, 0x52, 1, 0, 0, 3, 0, 1, 0, 0, 0, 0, 0, 0, 0, 0xFF, 0xFF, 0xFF, 0xFF, 0xFF, 0xFF, 0xFF, 0xFF, 1, 0, 0, 0, 0, 1, 0, 0, 0xAA, 0xBB,
        0xCC, 0xDD,
    ];
    let whole = [0x50, 0x48, 0x52, 1, 0, 0, 2, 0, 1, 0, 0, 0, 0, 0, 0, 0, 0xFF, 0xFF, 0xFF, 0xFF, 0xFF, 0xFF, 0xFF, 0xFF];
    for (bytes, words) in [(&damaged[..], [0, 0, 3, 2, 12, 1]), (&damaged[..28], [0, 0, 3, 2, 4, 0]), (&whole, [0, 0, 2, 2, 0, 0])] {
        let mut buffer = [9; 25];
        assert_eq!(raw::salvage(bytes, &mut buffer).words(), words);
        assert_eq!((&buffer[..24], buffer[24]), (&whole[..], 9));
        let mut tally = Tally::default();
        for room in [0, 23, 24, 25, bytes.len()] {
            assert_eq!(case(&mut tally, bytes, room), if room < 24 { refused(6, 0) } else { words });
        }
        tally.ran(5, &[0, 6]);
    }
}

#[test]
fn every_truncation_and_extension() {
    let mut tally = Tally::default();
    // A start that is refused as well, in range or not.
    let refused_starts = [(Kind::Frequency, END + 1), (Kind::Frequency, i64::MIN), (Kind::Phase, 1), (Kind::Phase, -END - 1)];
    for (version, kind, start) in FILES.into_iter().chain(refused_starts.map(|(kind, start)| (Version::Two, kind, start))) {
        for values in short_lists(kind) {
            let whole = Parts::whole(version, kind, start, &values);
            let bytes = whole.bytes();
            for length in 0..whole.header() {
                for room in [0, length, bytes.len()] {
                    assert_eq!(case(&mut tally, &bytes[..length], room), refused(9, length));
                }
            }
            for length in whole.header()..=bytes.len() {
                whole.cut(length).with_all_rooms(&mut tally);
            }
            for more in 1..=17 {
                for byte in [0, 1, 0x7F, 0xFF] {
                    whole.with_more(more, byte).with_room(&mut tally);
                }
            }
        }
    }
    tally.ran(42_696, &[0, 3, 6, 9]);
}

#[test]
fn every_byte_changed() {
    let mut tally = Tally::default();
    // A start of one byte is a change away from 0.
    for (version, kind, start) in FILES.into_iter().filter(|(_, _, start)| start % END == 0) {
        let end = end_of(kind);
        for values in [&[][..], &[end], &[-end, end], &[-end, 1, end + 1], &[end, -end, -1, 0]] {
            let sound = bytes_of(version, kind, start, values);
            for offset in 0..sound.len() {
                for byte in 0..=255 {
                    let mut bytes = sound.clone();
                    bytes[offset] = byte;
                    let few = (byte ^ sound[offset]).count_ones() == 1 || [0, 1, 2, 0x7F, 0x80, 0xFF].contains(&byte);
                    for room in if few { rooms_of(&bytes) } else { vec![bytes.len()] } {
                        case(&mut tally, &bytes, room);
                    }
                }
            }
        }
    }
    tally.ran(258_219, &[0, 2, 3, 6, 9]);
}

/// Headers of every length, of versions and kinds that there are and that there are not.
#[test]
fn every_header() {
    let mut tally = Tally::default();
    for version in [0u16, 1, 2, 3, 255, 256, 257, 258, 513, 0xFFFF] {
        for kind in [0, 1, 2, 255] {
            for count in [0, 1, 32_767, 32_768, 32_769, 65_535] {
                for start in [0, 1, -1, END, -END, END + 1, -END - 1, 2 * END + 1] {
                    let mut bytes = record_of(Kind::Phase, start, &[]);
                    bytes[3..5].copy_from_slice(&version.to_le_bytes());
                    bytes[5] = kind;
                    bytes[6..8].copy_from_slice(&(count as u16).to_le_bytes());
                    let wrong = [version & 255 != 1 && version & 255 != 2, version > 255, kind > 1];
                    let sound = KINDS.into_iter().find(|known| known.byte() == kind).and_then(|kind| match version {
                        // What is a start in version 2 is a value in version 1.
                        1 => Some(Parts { written: count, ..Parts::whole(Version::One, kind, 0, &[start]) }),
                        2 => Some(Parts { written: count, ..Parts::whole(Version::Two, kind, start, &[]) }),
                        _ => None,
                    });
                    for length in 0..=16 {
                        let first = (3..length.min(6)).find(|offset| wrong[offset - 3]);
                        for room in [0, 8, 16] {
                            let told = match &sound {
                                Some(file) if length >= file.header() => file.cut(length).told(room),
                                _ => refused(9, first.unwrap_or(length)),
                            };
                            assert_eq!(case(&mut tally, &bytes[..length], room), told, "buffer of {room}, bytes {:?}", &bytes[..length]);
                        }
                    }
                }
            }
        }
    }
    tally.ran(97_920, &[0, 2, 3, 6, 9]);
}

#[test]
fn two_header_bytes_changed() {
    let mut tally = Tally::default();
    with_two_header_bytes_changed(|bytes, whole| {
        case(&mut tally, bytes, whole);
    });
    tally.ran(13_968, &[0, 2, 3, 9]);
}

#[test]
fn sound_files_come_back() {
    let (mut tally, mut random) = (Tally::default(), Random::new(121));
    let counts: Vec<usize> = (0..=300).chain([511, 512, 32_766, 32_767, 32_768]).collect();
    for (version, kind, start) in FILES {
        for &count in counts.iter().filter(|&&count| count <= most(kind)) {
            let bytes = bytes_of(version, kind, start, &values(&mut random, kind, count, 0));
            assert_eq!(case(&mut tally, &bytes, bytes.len()), answered(count, count, 0, false));
            let mut buffer = vec![9; bytes.len()];
            assert_eq!(raw::salvage(&bytes, &mut buffer).number, 0);
            assert!(buffer == bytes, "{version:?}, {kind:?}, start {start}, {count} values");
        }
    }
    tally.ran(2_442, &[0]);
}

/// Counts about the most of a kind, whatever is present of the values.
#[test]
fn written_counts_at_their_limits() {
    let (mut tally, mut random) = (Tally::default(), Random::new(122));
    for (version, kind, start) in kinds_of_files(&mut random) {
        let all = values(&mut random, kind, 65_537, 0);
        let file = |written: usize, count: usize| Parts { written, ..Parts::whole(version, kind, start, &all[..count]) };
        for written in [0, 1, 255, 256, 32_766, 32_767, 32_768, 32_769, 65_535] {
            for count in [0, 1, 5, 256, 257] {
                for rest in [0, 1, 7] {
                    file(written, count).with_more(rest, 0x7F).with_all_rooms(&mut tally);
                }
            }
        }
        for written in 32_766..=32_769 {
            file(written, written).with_all_rooms(&mut tally);
            for (count, rest) in [(written - 1, 7), (written, 1), (written + 1, 0), (written + 3, 7)] {
                file(written, count).with_more(rest, 0x7F).with_room(&mut tally);
            }
            // The last value outside, and the first that the count leaves out.
            for index in [written - 1, written] {
                let mut damaged = file(written, written + 1);
                damaged.values[index] = random.pick(&[end_of(kind) + 1, -end_of(kind) - 1]);
                damaged.with_room(&mut tally);
            }
        }
        // More whole values than 16 bits count.
        for (written, count) in [(1, 65_535), (1, 65_536), (5, 65_536), (5, 65_537), (32_767, 65_537)] {
            file(written, count).with_room(&mut tally);
        }
    }
    tally.ran(2_600, &[0, 2, 6]);
}

/// The length at which all values are there, and those about it, for counts of one byte and of two.
#[test]
fn lengths_about_the_right_one() {
    let (mut tally, mut random) = (Tally::default(), Random::new(123));
    for (version, kind, start) in kinds_of_files(&mut random) {
        for count in [3, 9, 255, 256, 257, 1_000] {
            let all = values(&mut random, kind, count + 3, 0);
            let longest = Parts { written: count, ..Parts::whole(version, kind, start, &all) };
            let right = longest.header() + 8 * count;
            for length in right - 17..=right + 17 {
                let damaged = longest.cut(length);
                damaged.with_all_rooms(&mut tally);
                let kept = if length < right { (length - longest.header()) / 8 } else { count };
                assert_eq!(damaged.told(length), answered(count, kept, length - longest.header() - 8 * kept, false));
            }
        }
    }
    tally.ran(4_056, &[0, 6]);
}

/// Values at the ends of a kind's range and one past, also where they are in the range of the other kind: among those present, just behind the
/// written count, and cut.
#[test]
fn values_at_the_ends_of_their_range() {
    let mut tally = Tally::default();
    for (version, kind, start) in FILES {
        let end = end_of(kind);
        for index in 0..9 {
            for value in [end - 1, end, end + 1, 1 - end, -end, -end - 1, END + 1, -END - 1, 2 * END, -2 * END, 4 * END, i64::MAX, i64::MIN] {
                let mut values: Vec<i64> = (0..9).map(|i| if i % 2 == 0 { end - i } else { i - end }).collect();
                values[index] = value;
                let met = value < -end || value > end;
                let damaged = Parts::whole(version, kind, start, &values);
                damaged.with_all_rooms(&mut tally);
                assert_eq!(damaged.told(88), if met { answered(9, index, 72 - 8 * index, true) } else { answered(9, 9, 0, false) });
                let behind = Parts { written: index, ..damaged.clone() };
                behind.with_all_rooms(&mut tally);
                assert_eq!(behind.told(88), answered(index, index, 72 - 8 * index, false));
                for length in 1..8 {
                    let cut = damaged.cut(damaged.header() + 8 * index + length);
                    cut.with_room(&mut tally);
                    assert_eq!(cut.told(88), answered(9, index, length, false));
                }
            }
        }
    }
    tally.ran(15_408, &[0, 6]);
}

#[test]
fn every_start_of_frequency_values() {
    let mut tally = Tally::default();
    let (inside, outside) = (within(END), beyond(END));
    for (starts, number) in [(inside, 0), (outside, 3)] {
        for start in starts {
            for values in [&[][..], &[2 * END, -2 * END], &[2 * END + 1], &[0, -2 * END - 1, i64::MAX]] {
                let damaged = Parts::whole(Version::Two, Kind::Frequency, start, values);
                damaged.with_all_rooms(&mut tally);
                damaged.with_more(5, 0x7F).with_room(&mut tally);
                assert_eq!(damaged.told(damaged.length())[0], number);
                // Room is asked before the start, and the count before both.
                assert_eq!(damaged.told(damaged.length() - 1), refused(6, 0));
                let many = Parts { written: 32_768, ..damaged };
                many.with_rooms(&mut tally, &[0, many.length()]);
                assert_eq!(many.told(0), refused(2, 0));
            }
        }
    }
    tally.ran(26_280, &[0, 2, 3, 6]);
}

/// Each byte of the start alone, and what else is wrong later on: 9 at 8 all the same.
#[test]
fn phase_samples_have_no_start() {
    let mut tally = Tally::default();
    for offset in 0..8 {
        for byte in 1..=255 {
            let mut eight = [0; 8];
            eight[offset] = byte;
            let damaged = Parts::whole(Version::Two, Kind::Phase, i64::from_le_bytes(eight), &[1, -1]);
            let bytes = damaged.bytes();
            for file in [damaged.cut(16), damaged.cut(31), damaged.with_more(9, 0xFF), Parts { written: 32_769, ..damaged.clone() }] {
                file.with_room(&mut tally);
                assert_eq!(file.told(file.length()), refused(9, 8));
            }
            let outside = Parts { values: vec![END + 1, -1], ..damaged.clone() };
            outside.with_rooms(&mut tally, &[0, 32]);
            damaged.with_rooms(&mut tally, &[0, 15, 31, 32]);
            // A wrong byte before it, and a header that ends within it, are told first.
            assert_eq!(case(&mut tally, &[&bytes[..5], &[2], &bytes[6..]].concat(), 32), refused(9, 5));
            assert_eq!(case(&mut tally, &bytes[..15], 32), refused(9, 15));
        }
    }
    tally.ran(24_480, &[9]);
}

// What may be wrong at once: what is refused, in the order in which it is told, and what is not.
const HEADER_BYTE: u32 = 1;
const SHORT_HEADER: u32 = 2;
const START_OF_PHASES: u32 = 4;
const TOO_MANY: u32 = 8;
const ROOM: u32 = 16;
const START: u32 = 32;
const LENGTH: u32 = 64;
const VALUE: u32 = 128;

/// All sets of faults, and so each two of them.
#[test]
fn first_of_all_faults() {
    let (mut tally, mut random) = (Tally::default(), Random::new(124));
    let outside = KINDS.map(|kind| beyond(end_of(kind)));
    let always = HEADER_BYTE | SHORT_HEADER | TOO_MANY | ROOM | LENGTH | VALUE;
    for (version, kind, faults) in [
        (Version::One, Kind::Phase, always),
        (Version::One, Kind::Frequency, always),
        (Version::Two, Kind::Phase, always | START_OF_PHASES),
        (Version::Two, Kind::Frequency, always | START),
    ] {
        for set in (0..256).filter(|set| set & !faults == 0).flat_map(|set| [set; 24]) {
            let has = |fault: u32| set & fault != 0;
            let start = match (has(START_OF_PHASES), has(START)) {
                (true, _) => random.pick(&[1, -1, 256, END, -END, END + 1, 1 << 56, i64::MIN]),
                (_, true) => random.pick(&OUTSIDE),
                _ => sound_start(&mut random, kind),
            };
            let mut damaged = Parts::whole(version, kind, start, &values(&mut random, kind, 3, 0));
            if has(VALUE) {
                damaged.values[random.below(3) as usize] = random.pick(&outside[kind.byte() as usize]);
            }
            if has(TOO_MANY) {
                damaged.written = random.between(most(kind) as i64 + 1, 65_535) as usize;
            }
            if has(LENGTH) {
                damaged = match random.pick(&[-24, -8, -1, 1, 8, 9]) {
                    more @ 1.. => damaged.with_more(more as usize, random.word() as u8),
                    less => damaged.cut(damaged.header() + (24 + less) as usize),
                };
            }
            let length = damaged.length();
            let room = if has(ROOM) { random.below(length as u64) as usize } else { length + random.below(3) as usize };
            let mut bytes = damaged.bytes();
            let wrong = has(HEADER_BYTE).then(|| random.below(6) as usize);
            if let Some(offset) = wrong {
                bytes[offset] ^= random.pick(&[4, 8, 0x20, 0x80, 0xFC]);
            }
            if has(SHORT_HEADER) {
                // A wrong byte is still there.
                let shortest = wrong.map_or(0, |offset| offset + 1);
                bytes.truncate(random.between(shortest as i64, damaged.header() as i64 - 1) as usize);
            }
            let told = [
                wrong.map(|offset| refused(9, offset)),
                has(SHORT_HEADER).then_some(refused(9, bytes.len())),
                has(START_OF_PHASES).then_some(refused(9, 8)),
                has(TOO_MANY).then_some(refused(2, 0)),
                has(ROOM).then_some(refused(6, 0)),
                has(START).then_some(refused(3, 0)),
            ];
            let first = told.into_iter().flatten().next().unwrap_or(damaged.told(room));
            assert_eq!(case(&mut tally, &bytes, room), first, "buffer of {room}, bytes {bytes:?}");
        }
    }
    tally.ran(9_216, &[0, 2, 3, 6, 9]);
}

#[test]
fn files_where_a_block_of_values_ends() {
    let (mut tally, mut random) = (Tally::default(), Random::new(125));
    for (version, kind, start) in kinds_of_files(&mut random) {
        let end = end_of(kind);
        for count in block_counts() {
            let mut damaged = Parts::whole(version, kind, start, &(0..count).map(|_| random.between(-end, end)).collect::<Vec<_>>());
            damaged.with_room(&mut tally);
            damaged.cut(damaged.length() - 1).with_room(&mut tally);
            for index in [0, count / 2, count - 1] {
                let sound = std::mem::replace(&mut damaged.values[index], random.pick(&[end + 1, -end - 1]));
                damaged.with_all_rooms(&mut tally);
                damaged.values[index] = sound;
            }
        }
    }
    tally.ran(4_080, &[0, 6]);
}

/// The file of these values, with just as much room as the new one takes, where this is the first value outside, if one is.
fn range_case(tally: &mut Tally, (version, kind, start): (Version, Kind, i64), values: &[i64], first: Option<usize>) {
    let damaged = Parts::whole(version, kind, start, values);
    assert_eq!(damaged.kept(), (first.unwrap_or(values.len()), first.is_some()));
    damaged.with_room(tally);
}

#[test]
fn values_that_only_together_look_outside() {
    let (mut tally, mut random) = (Tally::default(), Random::new(126));
    for file in kinds_of_files(&mut random) {
        ends::all_within(end_of(file.1), |values| range_case(&mut tally, file, values, None));
    }
    tally.ran(18_000, &[0]);
}

#[test]
fn every_value_outside_at_every_index() {
    let (mut tally, mut random) = (Tally::default(), Random::new(127));
    for file in [FILES[0], FILES[4]] {
        ends::one_beyond(&mut random, end_of(file.1), |values, index| range_case(&mut tally, file, values, Some(index)));
    }
    tally.ran(108_108, &[0]);
}

#[test]
fn several_values_outside() {
    let (mut tally, mut random) = (Tally::default(), Random::new(128));
    for file in kinds_of_files(&mut random) {
        ends::several_beyond(&mut random, end_of(file.1), |values, index| range_case(&mut tally, file, values, Some(index)));
    }
    tally.ran(18_880, &[0]);
}

#[test]
fn long_files_with_values_outside_where_a_block_ends() {
    let (mut tally, mut random) = (Tally::default(), Random::new(129));
    for file in [FILES[1], FILES[2]] {
        let (end, longest) = (end_of(file.1), most(file.1));
        ends::long_beyond(&mut random, end, 5_000, |values, index| range_case(&mut tally, file, values, Some(index)));
        let mut values = vec![end; longest];
        for index in last_block_counts(longest).into_iter().filter(|&index| index < longest) {
            values[index] = random.pick(&[end + 1, -end - 1]);
            range_case(&mut tally, file, &values, Some(index));
            values[index] = -end;
        }
    }
    tally.ran(2_269, &[0]);
}

/// Several kinds of damage at once, each as chance has it.
#[test]
fn files_generated_and_damaged() {
    let (mut tally, mut random) = (Tally::default(), Random::new(130));
    let starts = [within(END), OUTSIDE.to_vec()].concat();
    for _ in 0..30_000 {
        let kind = random.pick(&KINDS);
        let most = random.pick(&[2, 5, 14, 14, 14, 300]);
        let count = random.below(most) as usize;
        let values = values(&mut random, kind, count, most);
        let start = match kind {
            Kind::Phase if !random.one_in(12) => 0,
            _ => random.pick(&starts),
        };
        let mut bytes = bytes_of(random.pick(&[Version::One, Version::Two]), kind, start, &values);
        if random.one_in(3) {
            // A count of a few more or fewer, and at times of anything.
            let written = if random.one_in(4) { random.word() as u16 } else { random.below(most + 5) as u16 };
            bytes[6..8].copy_from_slice(&written.to_le_bytes());
        }
        if random.one_in(3) {
            bytes.truncate(random.between(bytes.len() as i64 / 3, bytes.len() as i64) as usize);
        }
        if random.one_in(3) {
            let more = random.below(30);
            bytes.extend((0..more).map(|_| random.word() as u8));
        }
        // Bits that flipped among the values, and more seldom in the header.
        let header = if random.one_in(6) { 0 } else { 16.min(bytes.len()) };
        for _ in 0..random.below(4) {
            if bytes.len() > header {
                let offset = random.between(header as i64, bytes.len() as i64 - 1) as usize;
                bytes[offset] ^= 1 << random.below(8);
            }
        }
        let room = random.pick(&rooms_of(&bytes));
        case(&mut tally, &bytes, room);
        case(&mut tally, &bytes, bytes.len());
    }
    tally.ran(60_000, &[0, 2, 3, 6, 9]);
}
