//! Record files of both versions over the C boundary. The reader of version 1 alone and the reader of either version are given the same bytes; what
//! is written here is version 2, with its starting phase.

#[allow(dead_code)]
mod shared;

use independent::file::{self, bytes_of, file_of, record_of, Kind, Version};
use ploegelster::Record;
use shared::answers::{expected, Words};
use shared::ends::{self, beyond, block_counts, within};
use shared::files::{end_of, most, sound_start, values, with_two_header_bytes_changed, FILES, KINDS};
use shared::lent::{Lent, Sides};
use shared::random::Random;
use shared::records::rooms;
use shared::{raw, shown, Tally, END};

/// Number and place of an answer.
type Told = (u64, u64);

const ANSWERED: Told = (0, 0);

/// Both readers, with a buffer of this length: two cases. Gives number and place of the reader of either version.
fn read_case(tally: &mut Tally, bytes: &[u8], room: usize) -> Told {
    let input = || format!("read, buffer of {room}, bytes {}", shown(bytes));
    let (mut lent, mut older, mut newer) = (Lent::holding(bytes), Sides::painted(room), Sides::painted(room));
    let own = file::read_file(bytes, older.own.part());
    let file = raw::read_file(lent.part(), older.raw.part());
    tally.same(&file, &ploegelster::read_file(lent.part(), older.wrapped.part()), &own, input);
    older.same_painted(own.is_err(), input);
    let own = file::read_record(bytes, newer.own.part());
    let record = raw::read_record(lent.part(), newer.raw.part());
    tally.same(&record, &ploegelster::read_record(lent.part(), newer.wrapped.part()), &own, input);
    newer.same_painted(own.is_err(), input);
    assert!(lent.holds(bytes), "bytes changed, {}", input());
    if bytes.starts_with(b"PHR\x02") {
        assert_eq!(file.words(), [9, 3, 0, 0], "version 2, {}", input());
    } else {
        // The readers agree, and version 1 and start 0 are answered, or noughts beside a refusal.
        let version = if file.number == 0 { 1 } else { 0 };
        assert_eq!(record.words(), [file.number, file.place, version, file.kind, 0, file.count], "both readers, {}", input());
        assert_eq!(newer.raw.differs(&older.raw), None, "first other entry of the buffer, both readers, {}", input());
    }
    (record.number, record.place)
}

/// The writer of version 2, with a buffer of this length. Gives number and place.
fn write_case(tally: &mut Tally, kind: u64, start: i64, values: &[i64], room: usize) -> Told {
    let input = || format!("write, kind {kind}, start {start}, buffer of {room}, values {}", shown(values));
    let (mut lent, mut buffers) = (Lent::holding(values), Sides::painted(room));
    let own = file::write_record(kind, start, values, buffers.own.part());
    let raw = raw::write_record(kind, start, lent.part(), buffers.raw.part());
    tally.same_raw(&raw.words(), &expected(&own), input);
    // Another kind is refused; the wrapper takes no other, and its buffer stays painted.
    if let Some(kind) = ploegelster::Kind::from_number(kind) {
        tally.same_wrapped(&ploegelster::write_record(kind, start, lent.part(), buffers.wrapped.part()), &own, input);
    }
    buffers.same_painted(own.is_err(), input);
    assert!(lent.holds(values), "values changed, {}", input());
    (raw.number, raw.place)
}

/// The length of the file of so many values in version 2.
fn length_of(count: usize) -> usize {
    16 + 8 * count
}

/// The two files that the rules give byte by byte.
#[test]
fn files_that_the_rules_give_whole() {
    let first = [0x50, 0x48, 0x52, 1, 0, 0, 2, 0, 1, 0, 0, 0, 0, 0, 0, 0, 0xFF, 0xFF, 0xFF, 0xFF, 0xFF, 0xFF, 0xFF, 0xFF];
    let second = [0x50, 0x48, 0x52, 2, 0, 1, 2, 0, 5, 0, 0, 0, 0, 0, 0, 0, 1, 0, 0, 0, 0, 0, 0, 0, 0xFF, 0xFF, 0xFF, 0xFF, 0xFF, 0xFF, 0xFF, 0xFF];
    let mut tally = Tally::default();
    for room in rooms(2) {
        let told = if room < 2 { (6, 0) } else { ANSWERED };
        assert_eq!(read_case(&mut tally, &first, room), told);
        assert_eq!(read_case(&mut tally, &second, room), told);
    }
    for room in rooms(32) {
        assert_eq!(write_case(&mut tally, 1, 5, &[1, -1], room), if room < 32 { (6, 0) } else { ANSWERED });
    }
    tally.ran(25, &[0, 6, 9]);

    let mut buffer = [7; 3];
    assert_eq!(raw::read_file(&second, &mut buffer).words(), [9, 3, 0, 0]);
    assert_eq!(buffer, [7; 3]);
    assert_eq!(raw::read_record(&second, &mut buffer).words(), [0, 0, 2, 1, 5, 2]);
    assert_eq!(buffer, [1, -1, 7]);
    buffer = [7; 3];
    assert_eq!(raw::read_record(&first, &mut buffer).words(), [0, 0, 1, 0, 0, 2]);
    assert_eq!(buffer, [1, -1, 7]);
    let mut bytes = [9; 33];
    assert_eq!(raw::write_record(1, 5, &[1, -1], &mut bytes).words(), [0, 0, 32]);
    assert_eq!((&bytes[..32], bytes[32]), (&second[..], 9));
    assert_eq!(raw::write_file(0, &[1, -1], &mut bytes).words(), [0, 0, 24]);
    assert_eq!((&bytes[..24], &bytes[24..32], bytes[32]), (&first[..], &second[24..], 9));
}

#[test]
fn every_byte_changed() {
    let mut tally = Tally::default();
    for (version, kind, start) in FILES {
        for values in [&[][..], &[end_of(kind), -end_of(kind)]] {
            let sound = bytes_of(version, kind, start, values);
            assert_eq!(read_case(&mut tally, &sound, values.len() + 1), ANSWERED);
            for offset in 0..sound.len() {
                for change in 1..=255 {
                    let mut bytes = sound.clone();
                    bytes[offset] ^= change;
                    read_case(&mut tally, &bytes, values.len() + 1);
                }
            }
        }
    }
    tally.ran(179_552, &[0, 2, 3, 9]);
}

#[test]
fn two_header_bytes_changed() {
    let mut tally = Tally::default();
    with_two_header_bytes_changed(|bytes, _| {
        read_case(&mut tally, bytes, 2);
    });
    tally.ran(27_936, &[0, 2, 3, 9]);
}

#[test]
fn every_truncation_and_extension() {
    let (mut tally, mut random) = (Tally::default(), Random::new(101));
    // The length is told before a start out of range.
    for (version, kind, start) in FILES.into_iter().chain([(Version::Two, Kind::Frequency, END + 1), (Version::Two, Kind::Frequency, i64::MIN)]) {
        for count in [0, 1, 2, 9] {
            let whole = bytes_of(version, kind, start, &values(&mut random, kind, count, 0));
            for length in 0..whole.len() {
                let cut = &whole[..length];
                for room in [count, count.saturating_sub(1), count + 1] {
                    assert_eq!(read_case(&mut tally, cut, room), (9, length as u64));
                }
                // The same with a byte that the header must not have, where there is one.
                for offset in 0..length.min(6) {
                    let mut bytes = cut.to_vec();
                    bytes[offset] ^= 0x41;
                    assert_eq!(read_case(&mut tally, &bytes, count), (9, offset as u64));
                }
            }
            for more in 1..=17 {
                for byte in [0, 1, 0xFF] {
                    let longer = [&whole[..], &vec![byte; more]].concat();
                    assert_eq!(read_case(&mut tally, &longer, count), (9, whole.len() as u64));
                }
            }
            for room in rooms(count) {
                let told = if room < count {
                    (6, 0)
                } else if start.abs_diff(0) > END as u64 {
                    (3, 0)
                } else {
                    ANSWERED
                };
                assert_eq!(read_case(&mut tally, &whole, room), told);
            }
        }
    }
    tally.ran(30_448, &[0, 3, 6, 9]);
}

/// Eight to fifteen bytes of version 2, whatever stands where the start would be: neither it nor the count is looked at.
#[test]
fn headers_of_version_2_cut_within_the_start() {
    let (mut tally, mut random) = (Tally::default(), Random::new(102));
    for kind in KINDS {
        for count in [0u16, 1, 2, 32_767, 32_768, 32_769, 65_535] {
            for fill in [0, 1, 0x7F, 0x80, 0xFF, random.word() as u8] {
                for length in 8..=15 {
                    let mut bytes = record_of(kind, 0, &[]);
                    bytes[6..8].copy_from_slice(&count.to_le_bytes());
                    bytes[8..].fill(fill);
                    for room in [0, 2] {
                        assert_eq!(read_case(&mut tally, &bytes[..length], room), (9, length as u64));
                    }
                    // As long as a header of version 1 is.
                    bytes[3] = 1;
                    read_case(&mut tally, &bytes[..length], 2);
                }
            }
        }
    }
    tally.ran(4_032, &[0, 2, 9]);
}

/// Each byte of the start alone, and what else is wrong later on: 9 at 8 all the same.
#[test]
fn phase_samples_have_no_start() {
    let mut tally = Tally::default();
    let refused = (9, 8);
    for offset in 0..8 {
        for byte in 1..=255 {
            let mut eight = [0; 8];
            eight[offset] = byte;
            let start = i64::from_le_bytes(eight);
            let whole = record_of(Kind::Phase, start, &[1, -1]);
            assert_eq!(read_case(&mut tally, &whole, 3), refused);
            assert_eq!(read_case(&mut tally, &whole, 1), refused);
            assert_eq!(read_case(&mut tally, &whole[..31], 2), refused);
            assert_eq!(read_case(&mut tally, &whole[..16], 2), refused);
            assert_eq!(read_case(&mut tally, &[&whole[..], &[0]].concat(), 2), refused);
            let mut many = whole.clone();
            many[7] = 0x81;
            assert_eq!(read_case(&mut tally, &many, 2), refused);
            let outside = record_of(Kind::Phase, start, &[END + 1, -1]);
            assert_eq!(read_case(&mut tally, &outside, 2), refused);
            // A wrong byte before it, and a header that ends within it, are told first.
            many[5] = 2;
            assert_eq!(read_case(&mut tally, &many, 2), (9, 5));
            assert_eq!(read_case(&mut tally, &whole[..15], 2), (9, 15));
            assert_eq!(write_case(&mut tally, 0, start, &[1, -1], 33), refused);
            assert_eq!(write_case(&mut tally, 0, start, &[1, -1], 31), refused);
            assert_eq!(write_case(&mut tally, 0, start, &[END + 1, -1], 32), refused);
        }
        assert_eq!(write_case(&mut tally, 0, 1 << (8 * offset), &[0; 32_769], 0), refused);
    }
    tally.ran(42_848, &[9]);
}

#[test]
fn every_start_of_frequency_values() {
    let mut tally = Tally::default();
    let (inside, outside) = (within(END), beyond(END));
    assert!([-END, -1, 0, 1, END].iter().all(|start| inside.contains(start)));
    assert!([-END - 1, END + 1, 2 * END, -2 * END, i64::MIN, i64::MAX].iter().all(|start| outside.contains(start)));
    for (starts, told) in [(inside, ANSWERED), (outside, (3, 0))] {
        for start in starts {
            for values in [&[][..], &[2 * END, -2 * END], &[2 * END + 1], &[0, -2 * END - 1, i64::MAX]] {
                let count = values.len();
                let bytes = record_of(Kind::Frequency, start, values);
                // Beside a sound start the first value outside is told.
                let told = match values.iter().position(|value| value.abs() > 2 * END) {
                    Some(index) if told == ANSWERED => (3, index as u64),
                    _ => told,
                };
                assert_eq!(read_case(&mut tally, &bytes, count), told, "start {start}");
                assert_eq!(write_case(&mut tally, 1, start, values, bytes.len() + 1), told, "start {start}");
                // Room is asked before the start.
                if count > 0 {
                    assert_eq!(read_case(&mut tally, &bytes, count - 1), (6, 0), "start {start}");
                }
                assert_eq!(write_case(&mut tally, 1, start, values, bytes.len() - 1), (6, 0), "start {start}");
            }
        }
    }
    tally.ran(19_272, &[0, 3, 6, 9]);
}

/// Values at the ends of a kind's range and one past, also where they are in the range of the other kind, or of a start.
#[test]
fn values_at_the_ends_of_their_range() {
    let mut tally = Tally::default();
    for (version, kind, start) in FILES {
        let end = end_of(kind);
        for index in 0..9 {
            for value in [end - 1, end, end + 1, 1 - end, -end, -end - 1, END + 1, -END - 1, 2 * END, -2 * END, 4 * END, i64::MAX, i64::MIN] {
                let mut values: Vec<i64> = (0..9).map(|i| if i % 2 == 0 { end - i } else { i - end }).collect();
                values[index] = value;
                let told = if value < -end || value > end { (3, index as u64) } else { ANSWERED };
                assert_eq!(read_case(&mut tally, &bytes_of(version, kind, start, &values), 9), told, "{value}");
                if version == Version::Two {
                    assert_eq!(write_case(&mut tally, kind.byte() as u64, start, &values, length_of(9)), told, "{value}");
                }
            }
        }
    }
    tally.ran(2_574, &[0, 3, 9]);
}

// What may be wrong at once, in reading or in writing, in the order in which it is told.
const HEADER_BYTE: u32 = 1;
const SHORT_HEADER: u32 = 2;
const BAD_KIND: u32 = 4;
const START_OF_PHASES: u32 = 8;
const TOO_MANY: u32 = 16;
const LENGTH: u32 = 32;
const ROOM: u32 = 64;
const START: u32 = 128;
const VALUE: u32 = 256;

/// All sets of these faults.
fn sets(faults: u32) -> impl Iterator<Item = u32> {
    (0..512).filter(move |set| set & !faults == 0)
}

/// A start with this set of faults, of a file of this kind.
fn start_with(random: &mut Random, set: u32, kind: Kind) -> i64 {
    if set & START_OF_PHASES != 0 {
        random.pick(&[1, -1, 256, END, -END, END + 1, 1 << 56, i64::MIN])
    } else if set & START != 0 {
        random.pick(&[END + 1, -END - 1, 2 * END, -2 * END, 1 << 62, i64::MIN, i64::MAX])
    } else {
        sound_start(random, kind)
    }
}

/// Puts a value outside the kind's range, and gives what is told of it.
fn put_outside(random: &mut Random, kind: Kind, values: &mut [i64]) -> Told {
    let index = random.below(values.len() as u64) as usize;
    values[index] = random.pick(&[end_of(kind) + 1, -end_of(kind) - 1, 1 << 62, i64::MIN, i64::MAX]);
    (3, index as u64)
}

#[test]
fn first_of_all_faults_in_reading() {
    let (mut tally, mut random) = (Tally::default(), Random::new(103));
    let always = HEADER_BYTE | SHORT_HEADER | TOO_MANY | LENGTH | ROOM | VALUE;
    for (version, kind, faults) in [
        (Version::One, Kind::Phase, always),
        (Version::One, Kind::Frequency, always),
        (Version::Two, Kind::Phase, always | START_OF_PHASES),
        (Version::Two, Kind::Frequency, always | START),
    ] {
        let header = if version == Version::One { 8 } else { 16 };
        for set in sets(faults).flat_map(|set| [set; 24]) {
            let has = |fault: u32| set & fault != 0;
            let mut values = values(&mut random, kind, 3, 0);
            let outside = has(VALUE).then(|| put_outside(&mut random, kind, &mut values));
            let mut bytes = bytes_of(version, kind, start_with(&mut random, set, kind), &values);
            let right = bytes.len();
            let wrong = has(HEADER_BYTE).then(|| random.below(6) as usize);
            if let Some(offset) = wrong {
                bytes[offset] ^= random.pick(&[4, 8, 0x20, 0x80, 0xFC]);
            }
            if has(TOO_MANY) {
                let count = random.between(most(kind) as i64 + 1, 65_535) as u16;
                bytes[6..8].copy_from_slice(&count.to_le_bytes());
            }
            if has(LENGTH) {
                let other = random.pick(&[header, right - 8, right - 1, right + 1, right + 8, right + 9]);
                bytes.resize(other, 0);
            }
            if has(SHORT_HEADER) {
                // A wrong byte is still there.
                let shortest = wrong.map_or(0, |offset| offset + 1);
                bytes.truncate(random.between(shortest as i64, header as i64 - 1) as usize);
            }
            let told = [
                wrong.map(|offset| (9, offset as u64)),
                has(SHORT_HEADER).then_some((9, bytes.len() as u64)),
                has(START_OF_PHASES).then_some((9, 8)),
                has(TOO_MANY).then_some((2, 0)),
                has(LENGTH).then_some((9, bytes.len().min(right) as u64)),
                has(ROOM).then_some((6, 0)),
                has(START).then_some((3, 0)),
                outside,
            ];
            let first = told.into_iter().flatten().next().unwrap_or(ANSWERED);
            let room = if has(ROOM) { random.below(3) } else { 3 + random.below(3) };
            assert_eq!(read_case(&mut tally, &bytes, room as usize), first, "{version:?}, {kind:?}, bytes {bytes:?}");
        }
    }
    tally.ran(18_432, &[0, 2, 3, 6, 9]);
}

#[test]
fn first_of_all_faults_in_writing() {
    let (mut tally, mut random) = (Tally::default(), Random::new(104));
    let always = BAD_KIND | TOO_MANY | ROOM | VALUE;
    for (kind, faults) in [(Kind::Phase, always | START_OF_PHASES), (Kind::Frequency, always | START)] {
        // The longest take their time, and are tried once.
        for set in sets(faults).flat_map(|set| vec![set; if set & TOO_MANY == 0 { 120 } else { 1 }]) {
            let has = |fault: u32| set & fault != 0;
            let count = if has(TOO_MANY) { most(kind) + 1 } else { random.between(1, 5) as usize };
            let mut values = values(&mut random, kind, count, 0);
            let outside = has(VALUE).then(|| put_outside(&mut random, kind, &mut values));
            let start = start_with(&mut random, set, kind);
            let number = if has(BAD_KIND) { random.pick(&[2, 3, 255, 256, 257, 1 << 32, u64::MAX]) } else { kind.byte() as u64 };
            let right = length_of(count);
            let room = if has(ROOM) { random.pick(&[0, 1, 8, 16, right - 16, right - 8, right - 1]).min(right - 1) } else { right };
            let told = [
                has(BAD_KIND).then_some((9, 5)),
                has(START_OF_PHASES).then_some((9, 8)),
                has(TOO_MANY).then_some((2, 0)),
                has(ROOM).then_some((6, 0)),
                has(START).then_some((3, 0)),
                outside,
            ];
            let first = told.into_iter().flatten().next().unwrap_or(ANSWERED);
            assert_eq!(write_case(&mut tally, number, start, &values, room), first, "kind {number}, start {start}, values {}", shown(&values));
        }
    }
    tally.ran_apart(3_872, 1_936, &[0, 2, 3, 6, 9]);
}

#[test]
fn kinds_that_are_none() {
    let mut tally = Tally::default();
    for kind in (2..=300).chain([1 << 16, 1 << 32, 1 << 63, (1 << 32) + 1, (1 << 63) + 1, u64::MAX]) {
        for start in [0, 1, END, END + 1, i64::MIN] {
            for values in [&[][..], &[0], &[i64::MAX]] {
                for room in [0, 24, 40] {
                    assert_eq!(write_case(&mut tally, kind, start, values, room), (9, 5));
                }
            }
        }
    }
    tally.ran_apart(13_725, 0, &[9]);
}

#[test]
fn counts_at_their_limits() {
    let (mut tally, mut random) = (Tally::default(), Random::new(105));
    for kind in KINDS {
        for count in [0, 1, 32_767, 32_768, 32_769, 65_535] {
            let mut values = values(&mut random, kind, count, 0);
            let start = sound_start(&mut random, kind);
            let bytes = record_of(kind, start, &values);
            let many = count > most(kind);
            let told = |room: usize, right: usize| match (many, room < right) {
                (true, _) => (2, 0),
                (false, true) => (6, 0),
                (false, false) => ANSWERED,
            };
            // None, one short, exact, one long.
            let around = |right: usize| if many { vec![right] } else { vec![0, right.saturating_sub(1), right, right + 1] };
            for room in around(count) {
                assert_eq!(read_case(&mut tally, &bytes, room), told(room, count), "{count}");
            }
            for room in around(bytes.len()) {
                assert_eq!(write_case(&mut tally, kind.byte() as u64, start, &values, room), told(room, bytes.len()), "{count}");
            }
            assert_eq!(read_case(&mut tally, &file_of(kind, &values), count), told(count, count), "{count}");
            // A byte too few or too many for the largest count that there may be; for one more, 2 is told first.
            if count >= 32_767 && count <= 32_768 {
                let (less, more) = (bytes.len() as u64 - 1, bytes.len() as u64);
                assert_eq!(read_case(&mut tally, &bytes[..bytes.len() - 1], count), if many { (2, 0) } else { (9, less) }, "{count}");
                assert_eq!(read_case(&mut tally, &[&bytes[..], &[0]].concat(), count), if many { (2, 0) } else { (9, more) }, "{count}");
                values[count - 1] = -end_of(kind) - 1;
                let outside = if many { (2, 0) } else { (3, count as u64 - 1) };
                assert_eq!(read_case(&mut tally, &record_of(kind, start, &values), count), outside, "{count}");
                assert_eq!(write_case(&mut tally, kind.byte() as u64, start, &values, bytes.len()), outside, "{count}");
            }
        }
    }
    // A count of 65,536 or more has no header; only writing can meet it.
    for count in [65_536, 65_537, 65_538] {
        for kind in 0..3 {
            let told = if kind < 2 { (2, 0) } else { (9, 5) };
            assert_eq!(write_case(&mut tally, kind, 0, &vec![0; count], 64), told);
        }
    }
    tally.ran_apart(160, 157, &[0, 2, 3, 6, 9]);
}

/// A file of version 2 and its values, read and written with just as much room, where this is the first value outside the kind's range, if one is:
/// three cases.
fn range_case(tally: &mut Tally, kind: Kind, start: i64, values: &[i64], first: Option<usize>) {
    let bytes = record_of(kind, start, values);
    let told = first.map_or(ANSWERED, |index| (3, index as u64));
    assert_eq!(read_case(tally, &bytes, values.len()), told, "read, {kind:?}, values {}", shown(values));
    assert_eq!(write_case(tally, kind.byte() as u64, start, values, bytes.len()), told, "written, {kind:?}, values {}", shown(values));
}

#[test]
fn records_where_a_block_of_values_ends() {
    let (mut tally, mut random) = (Tally::default(), Random::new(106));
    for kind in KINDS {
        let end = end_of(kind);
        for count in block_counts() {
            let start = sound_start(&mut random, kind);
            let mut values: Vec<i64> = (0..count).map(|_| random.between(-end, end)).collect();
            range_case(&mut tally, kind, start, &values, None);
            for index in [0, count / 2, count - 1] {
                let sound = std::mem::replace(&mut values[index], random.pick(&[end + 1, -end - 1]));
                range_case(&mut tally, kind, start, &values, Some(index));
                values[index] = sound;
            }
        }
    }
    tally.ran(1_440, &[0, 3, 9]);
}

#[test]
fn several_values_outside() {
    let (mut tally, mut random) = (Tally::default(), Random::new(107));
    for kind in KINDS {
        let start = sound_start(&mut random, kind);
        ends::several_beyond(&mut random, end_of(kind), |values, index| range_case(&mut tally, kind, start, values, Some(index)));
    }
    tally.ran(28_320, &[3, 9]);
}

#[test]
fn files_generated_and_damaged() {
    let (mut tally, mut random) = (Tally::default(), Random::new(108));
    let starts = [within(END), vec![END + 1, -END - 1, 2 * END, -2 * END, i64::MAX, i64::MIN]].concat();
    for _ in 0..8_000 {
        let kind = random.pick(&KINDS);
        let count = random.below(12) as usize;
        let values = values(&mut random, kind, count, 12);
        let start = match kind {
            Kind::Phase if !random.one_in(8) => 0,
            _ => random.pick(&starts),
        };
        let mut bytes = bytes_of(random.pick(&[Version::One, Version::Two, Version::Two]), kind, start, &values);
        for _ in 0..random.below(3) {
            let offset = random.below(bytes.len() as u64) as usize;
            bytes[offset] = random.word() as u8;
        }
        match random.below(8) {
            0 => bytes.truncate(random.below(bytes.len() as u64 + 1) as usize),
            1 => bytes.extend(vec![random.word() as u8; random.below(20) as usize]),
            _ => {}
        }
        let room = random.pick(&rooms(count));
        read_case(&mut tally, &bytes, room);
        let kind = if random.one_in(12) { random.pick(&[2, 3, 255, 256, 257, 1 << 32, u64::MAX]) } else { kind.byte() as u64 };
        let room = if random.one_in(2) { random.pick(&rooms(length_of(count))) } else { length_of(count) };
        write_case(&mut tally, kind, start, &values, room);
    }
    tally.ran_apart(24_000, 23_347, &[0, 2, 3, 6, 9]);
}

#[test]
fn what_is_written_is_read() {
    let (mut cases, mut random) = (0, Random::new(109));
    for _ in 0..3_000 {
        let own_kind = random.pick(&KINDS);
        let kind = if own_kind == Kind::Phase { ploegelster::Kind::Phase } else { ploegelster::Kind::Frequency };
        let start = if random.one_in(2) { sound_start(&mut random, own_kind) } else { kind.number() as i64 * random.between(-END, END) };
        let count = random.below(50) as usize;
        let values = values(&mut random, own_kind, count, 0);
        let mut bytes = vec![0; ploegelster::record_length(count)];
        assert_eq!(ploegelster::write_record(kind, start, &values, &mut bytes), Ok(bytes.len()));
        let mut back = vec![0; count];
        assert_eq!(ploegelster::read_record(&bytes, &mut back), Ok(Record { version: 2, kind, start, count }));
        assert_eq!(back, values);
        // The file of version 1 is the same without its start.
        let mut older = vec![0; ploegelster::file_length(count)];
        assert_eq!(ploegelster::write_file(kind, &values, &mut older), Ok(older.len()));
        assert_eq!((&older[..3], older[3], &older[4..8], &older[8..]), (&bytes[..3], 1, &bytes[4..8], &bytes[16..]));
        assert_eq!(ploegelster::read_record(&older, &mut back), Ok(Record { version: 1, kind, start: 0, count }));
        assert_eq!(back, values);
        cases += 1;
    }
    assert_eq!(cases, 3_000);
}

/// A record of phases as a file: its differences and its first sample are written, and what is read gives the record back whole.
#[test]
fn a_record_of_phases_by_its_file() {
    let (mut cases, mut random) = (0, Random::new(110));
    for length in (1..=200).chain([32_768]) {
        let alternating: Vec<i64> = (0..length).map(|i| if i % 2 == 0 { -END } else { END }).collect();
        let any: Vec<i64> = (0..length).map(|_| random.between(-END, END)).collect();
        for phases in [alternating, any] {
            let mut readings = vec![0; length - 1];
            assert_eq!(ploegelster::frequency_from_phase(&phases, &mut readings), Ok(length - 1));
            let mut bytes = vec![0; ploegelster::record_length(length - 1)];
            assert_eq!(ploegelster::write_record(ploegelster::Kind::Frequency, phases[0], &readings, &mut bytes), Ok(bytes.len()));
            readings.fill(7);
            let record = ploegelster::read_record(&bytes, &mut readings).expect("a sound file");
            assert_eq!((record.start, record.count), (phases[0], length - 1));
            let mut back = vec![0; length];
            assert_eq!(ploegelster::phase_from_start(record.start, &readings, &mut back), Ok(length));
            assert!(back == phases, "phases {}", shown(&phases));
            cases += 1;
        }
    }
    assert_eq!(cases, 402);
}
