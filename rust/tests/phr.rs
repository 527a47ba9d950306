//! The crate `phr` over the C boundary: the record file of version 1, read and written.

#[allow(dead_code)]
mod shared;

use independent::file::{self, file_of, Kind};
use ploegelster::Contents;
use shared::answers::{expected, Words};
use shared::ends::{self, block_counts};
use shared::files::{end_of, values, KINDS};
use shared::lent::{Lent, Sides};
use shared::random::Random;
use shared::records::rooms;
use shared::{raw, shown, Tally};

fn read_case(tally: &mut Tally, bytes: &[u8], room: usize) {
    let input = || format!("read, buffer of {room}, bytes {}", shown(bytes));
    let (mut lent, mut buffers) = (Lent::holding(bytes), Sides::painted(room));
    let own = file::read_file(bytes, buffers.own.part());
    let raw = raw::read_file(lent.part(), buffers.raw.part());
    tally.same(&raw, &ploegelster::read_file(lent.part(), buffers.wrapped.part()), &own, input);
    buffers.same_painted(own.is_err(), input);
    assert!(lent.holds(bytes), "bytes changed, {}", input());
}

fn write_case(tally: &mut Tally, kind: u64, values: &[i64], room: usize) {
    let input = || format!("write, kind {kind}, buffer of {room}, values {}", shown(values));
    let (mut lent, mut buffers) = (Lent::holding(values), Sides::painted(room));
    let own = file::write_file(kind, values, buffers.own.part());
    tally.same_raw(&raw::write_file(kind, lent.part(), buffers.raw.part()).words(), &expected(&own), input);
    // Another kind is refused; the wrapper takes no other, and its buffer stays painted.
    if let Some(kind) = ploegelster::Kind::from_number(kind) {
        tally.same_wrapped(&ploegelster::write_file(kind, lent.part(), buffers.wrapped.part()), &own, input);
    }
    buffers.same_painted(own.is_err(), input);
    assert!(lent.holds(values), "values changed, {}", input());
}

#[test]
fn every_byte_changed() {
    let mut tally = Tally::default();
    for kind in KINDS {
        for values in [&[][..], &[end_of(kind), -end_of(kind), -1]] {
            let sound = file_of(kind, values);
            for offset in 0..sound.len() {
                for change in 0..=255 {
                    let mut bytes = sound.clone();
                    bytes[offset] ^= change;
                    read_case(&mut tally, &bytes, 3);
                }
            }
        }
    }
    tally.ran(20_480, &[0, 2, 3, 9]);
}

#[test]
fn two_header_bytes_changed() {
    let mut tally = Tally::default();
    for kind in KINDS {
        let sound = file_of(kind, &[1, -1]);
        for first in 0..8 {
            for second in first + 1..8 {
                for change in [1, 2, 0x20, 0x80, 0xFF] {
                    for other in [1, 2, 0x20, 0x80, 0xFF] {
                        let mut bytes = sound.clone();
                        bytes[first] ^= change;
                        bytes[second] ^= other;
                        read_case(&mut tally, &bytes, 2);
                        read_case(&mut tally, &bytes[..=second], 2);
                    }
                }
            }
        }
    }
    tally.ran(2_800, &[2, 9]);
}

#[test]
fn every_truncation_and_extension() {
    let (mut tally, mut random) = (Tally::default(), Random::new(41));
    for kind in KINDS {
        for count in [0, 1, 2, 9] {
            let whole = file_of(kind, &values(&mut random, kind, count, 0));
            for length in 0..=whole.len() {
                for room in rooms(count) {
                    read_case(&mut tally, &whole[..length], room);
                }
                // The same with a byte that the header must not have, where there is one.
                for offset in 0..length.min(6) {
                    let mut bytes = whole[..length].to_vec();
                    bytes[offset] ^= 0x41;
                    read_case(&mut tally, &bytes, count);
                }
            }
            for byte in 0..=255 {
                let longer = [&whole[..], &[byte]].concat();
                read_case(&mut tally, &longer, count);
            }
            for more in 2..=17 {
                let longer = [&whole[..], &vec![0; more]].concat();
                read_case(&mut tally, &longer, count);
            }
        }
    }
    tally.ran(4_912, &[0, 6, 9]);
}

#[test]
fn largest_counts() {
    let (mut tally, mut random) = (Tally::default(), Random::new(42));
    for kind in KINDS {
        for count in [32_766, 32_767, 32_768, 32_769, 65_535] {
            let mut values = values(&mut random, kind, count, 0);
            for damaged in [false, true] {
                if damaged {
                    values[random.pick(&[0, 1, count / 2, count - 2, count - 1])] = end_of(kind) + 1;
                }
                let bytes = file_of(kind, &values);
                for room in rooms(count) {
                    read_case(&mut tally, &bytes, room);
                }
                read_case(&mut tally, &bytes[..bytes.len() - 1], count);
                read_case(&mut tally, &[&bytes[..], &[0]].concat(), count);
                for room in rooms(bytes.len()) {
                    write_case(&mut tally, kind.byte() as u64, &values, room);
                }
            }
        }
    }
    // A count of 65,536 or more has no header; only writing can meet it.
    for count in [65_536, 65_537, 100_000] {
        for kind in 0..3 {
            write_case(&mut tally, kind, &vec![0; count], 8 + 8 * count);
        }
    }
    tally.ran_apart(249, 246, &[0, 2, 3, 6, 9]);
}

#[test]
fn files_generated_and_damaged() {
    let (mut tally, mut random) = (Tally::default(), Random::new(43));
    for _ in 0..16_000 {
        let kind = random.pick(&KINDS);
        let count = random.below(12) as usize;
        let values = values(&mut random, kind, count, 12);
        let mut bytes = file_of(kind, &values);
        for _ in 0..random.below(3) {
            let offset = random.below(bytes.len() as u64) as usize;
            bytes[offset] = random.word() as u8;
        }
        if random.one_in(4) {
            bytes.truncate(random.below(bytes.len() as u64 + 1) as usize);
        }
        let room = random.pick(&rooms(count));
        read_case(&mut tally, &bytes, room);
        let kind = if random.one_in(12) { random.pick(&[2, 3, 255, 256, 257, 1 << 32, u64::MAX]) } else { kind.byte() as u64 };
        let room = if random.one_in(2) { random.pick(&rooms(8 + 8 * count)) } else { 8 + 8 * count };
        write_case(&mut tally, kind, &values, room);
    }
    tally.ran_apart(32_000, 30_688, &[0, 2, 3, 6, 9]);
}

#[test]
fn one_value_outside_at_every_index() {
    let mut tally = Tally::default();
    for kind in KINDS {
        let end = end_of(kind);
        for index in 0..40 {
            for value in [end - 1, end, end + 1, 1 - end, -end, -end - 1, i64::MAX, i64::MIN] {
                let mut values: Vec<i64> = (0..40).map(|i| if i % 2 == 0 { end - i } else { i - end }).collect();
                values[index] = value;
                read_case(&mut tally, &file_of(kind, &values), 40);
                write_case(&mut tally, kind.byte() as u64, &values, 328);
            }
        }
    }
    tally.ran(1_280, &[0, 3]);
}

/// A file and its values, read and written with just as much room, where this is the first value outside the kind's range, if one is: two cases.
fn range_case(tally: &mut Tally, kind: Kind, values: &[i64], first: Option<usize>) {
    let bytes = file_of(kind, values);
    read_case(tally, &bytes, values.len());
    write_case(tally, kind.byte() as u64, values, bytes.len());
    let told = first.map_or((0, 0), |index| (3, index as u64));
    let read = raw::read_file(&bytes, &mut vec![0; values.len()]);
    assert_eq!((read.number, read.place), told, "read, {kind:?}, values {}", shown(values));
    let written = raw::write_file(kind.byte() as u64, values, &mut vec![0; bytes.len()]);
    assert_eq!((written.number, written.place), told, "written, {kind:?}, values {}", shown(values));
}

#[test]
fn files_where_a_block_of_values_ends() {
    let (mut tally, mut random) = (Tally::default(), Random::new(81));
    for kind in KINDS {
        let end = end_of(kind);
        for count in block_counts().into_iter().chain([32_766, 32_767]) {
            let any: Vec<i64> = (0..count).map(|_| random.between(-end, end)).collect();
            let alternating: Vec<i64> = (0..count).map(|i| if i % 2 == 0 { end } else { -end }).collect();
            for values in [vec![end; count], vec![-end; count], alternating, any] {
                range_case(&mut tally, kind, &values, None);
                let bytes = file_of(kind, &values);
                for room in [count - 1, count + 1, count + 40] {
                    read_case(&mut tally, &bytes, room);
                }
            }
        }
    }
    tally.ran(2_480, &[0, 6]);
}

#[test]
fn values_that_only_together_look_outside() {
    let mut tally = Tally::default();
    for kind in KINDS {
        ends::all_within(end_of(kind), |values| range_case(&mut tally, kind, values, None));
    }
    tally.ran(18_000, &[0]);
}

#[test]
fn every_value_outside_at_every_index() {
    let (mut tally, mut random) = (Tally::default(), Random::new(82));
    for kind in KINDS {
        ends::one_beyond(&mut random, end_of(kind), |values, index| range_case(&mut tally, kind, values, Some(index)));
    }
    tally.ran(216_216, &[3]);
}

#[test]
fn several_values_outside() {
    let (mut tally, mut random) = (Tally::default(), Random::new(83));
    for kind in KINDS {
        ends::several_beyond(&mut random, end_of(kind), |values, index| range_case(&mut tally, kind, values, Some(index)));
    }
    tally.ran(18_880, &[3]);
}

#[test]
fn long_files_with_values_outside_where_a_block_ends() {
    let (mut tally, mut random) = (Tally::default(), Random::new(84));
    for (kind, longest) in [(Kind::Phase, 32_768), (Kind::Frequency, 32_767)] {
        ends::long_beyond(&mut random, end_of(kind), longest, |values, index| range_case(&mut tally, kind, values, Some(index)));
    }
    tally.ran(4_512, &[3]);
}

#[test]
fn what_is_written_is_read() {
    let (mut cases, mut random) = (0, Random::new(44));
    for _ in 0..3_000 {
        let own_kind = random.pick(&KINDS);
        let kind = if own_kind == Kind::Phase { ploegelster::Kind::Phase } else { ploegelster::Kind::Frequency };
        let count = random.below(50) as usize;
        let values = values(&mut random, own_kind, count, 0);
        let mut bytes = vec![0; 8 + 8 * count];
        assert_eq!(ploegelster::write_file(kind, &values, &mut bytes), Ok(bytes.len()));
        let mut back = vec![0; count];
        assert_eq!(ploegelster::read_file(&bytes, &mut back), Ok(Contents { kind, count }));
        assert_eq!(back, values);
        cases += 1;
    }
    assert_eq!(cases, 3_000);
}
