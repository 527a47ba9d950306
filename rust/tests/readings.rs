//! The crate `readings` over the C boundary: float readings to samples and sums, and how many of them were changed.

#[allow(dead_code)]
mod shared;

use independent::floats;
use shared::doubles::{any_double, notable, readings};
use shared::ends::{block_counts, few_extremes};
use shared::lent::{Lent, Sides};
use shared::random::Random;
use shared::records::{factors, lengths, record, rooms};
use shared::{raw, shown, Tally, END};

/// One case. Gives how many readings were changed, where the call was answered.
fn case(tally: &mut Tally, readings: &[f64], m: u64, room: usize) -> Option<u64> {
    let input = || {
        let bits: Vec<u64> = readings.iter().map(|reading| reading.to_bits()).collect();
        format!("factor {m}, buffer of {room}, readings {}, bits {}", shown(readings), shown(&bits))
    };
    let (mut lent, mut buffers) = (Lent::holding(readings), Sides::painted(room));
    let own = floats::float_sums(readings, m, buffers.own.part());
    let raw = raw::float_sums(lent.part(), m, buffers.raw.part());
    tally.same(&raw, &ploegelster::float_sums(lent.part(), m, buffers.wrapped.part()), &own, input);
    buffers.same_painted(own.is_err(), input);
    assert!(lent.holds(readings), "readings changed, {}", input());
    (raw.number == 0).then_some(raw.changed)
}

/// What single readings become, as the rules tell it, without the second implementation: the sample and how many were changed, or the number.
#[test]
fn readings_that_the_rules_name() {
    let end = END as f64;
    let named = [
        (0.5, Ok((0, 1))),
        (-0.5, Ok((0, 1))),
        (0.49999999999999994, Ok((0, 1))),
        (1.5, Ok((2, 1))),
        (-2.5, Ok((-2, 1))),
        (end - 0.5, Ok((END, 1))),
        (-end + 0.5, Ok((-END, 1))),
        (5e-324, Ok((0, 1))),
        (-5e-324, Ok((0, 1))),
        (0.0, Ok((0, 0))),
        (-0.0, Ok((0, 0))),
        (end, Ok((END, 0))),
        (-end, Ok((-END, 0))),
        (end + 0.5, Err(3)),
        (-end - 0.5, Err(3)),
        (end.next_up(), Err(3)),
        (f64::INFINITY, Err(3)),
        (f64::NEG_INFINITY, Err(3)),
        (f64::NAN, Err(4)),
    ];
    for (reading, becomes) in named {
        for index in 0..3 {
            let (mut readings, mut samples, mut buffer) = ([7.0; 3], [7, 7, 7, 9], [9; 4]);
            readings[index] = reading;
            let answer = raw::float_sums(&readings, 1, &mut buffer);
            let told = match becomes {
                Ok((sample, changed)) => {
                    samples[index] = sample;
                    (0, 0, changed)
                }
                Err(number) => {
                    samples = [9; 4];
                    (number, index as u64, 0)
                }
            };
            assert_eq!((answer.number, answer.place, answer.changed), told, "{reading:?} at {index}");
            assert_eq!(buffer, samples, "{reading:?} at {index}");
        }
    }
}

#[test]
fn notable_readings_at_every_index() {
    let (mut tally, mut random) = (Tally::default(), Random::new(21));
    for reading in notable() {
        for length in [3, 7] {
            let sound = record(&mut random, length);
            let sound = readings(&mut random, &sound);
            for index in 0..length {
                let mut readings = sound.clone();
                readings[index] = reading;
                case(&mut tally, &readings, 1 + (length / 7) as u64, length);
            }
        }
    }
    tally.ran(64_780, &[0, 3, 4]);
}

/// Whatever stands before or between, the first reading that becomes no sample is told, and beside it no reading counts as changed.
#[test]
fn the_lowest_index_is_told() {
    let mut tally = Tally::default();
    let end = END as f64;
    let bad = [(f64::NAN, 4), (f64::INFINITY, 3), (-f64::NAN, 4), (f64::NEG_INFINITY, 3), (end + 0.5, 3), (-end.next_up(), 3), (1e300, 3)];
    for sound in [-0.0, 0.5, -1.5, 5e-324] {
        for first in 0..8 {
            for second in first + 1..8 {
                for (one, number) in bad {
                    for (other, _) in bad {
                        let mut readings = [sound; 8];
                        readings[first] = one;
                        readings[second] = other;
                        case(&mut tally, &readings, 2, 8);
                        let answer = raw::float_sums(&readings, 2, &mut [0; 8]);
                        assert_eq!((answer.number, answer.place, answer.changed), (number, first as u64, 0), "{readings:?}");
                    }
                }
            }
        }
    }
    tally.ran(5_488, &[3, 4]);
}

#[test]
fn limits_of_factor_length_and_room() {
    let (mut tally, mut random) = (Tally::default(), Random::new(22));
    for m in factors() {
        for length in lengths(m) {
            let sound = record(&mut random, length);
            let sound = readings(&mut random, &sound);
            for room in rooms(length) {
                let mut readings = sound.clone();
                if length > 0 && random.one_in(3) {
                    readings[random.below(length as u64) as usize] = random.pick(&[f64::NAN, 0.5, 1e30]);
                }
                case(&mut tally, &readings, m, room);
            }
        }
    }
    tally.ran(3_440, &[0, 1, 2, 3, 4, 5, 6]);
}

#[test]
fn readings_of_any_bits() {
    let (mut tally, mut random) = (Tally::default(), Random::new(23));
    let mut counts = [0; 6];
    for _ in 0..40_000 {
        let readings: Vec<f64> = (0..3 + random.below(3)).map(|_| any_double(&mut random)).collect();
        if let Some(changed) = case(&mut tally, &readings, 1, 6) {
            counts[changed as usize] += 1;
        }
    }
    assert!(counts.iter().all(|&times| times > 100), "{counts:?}");
    tally.ran(40_000, &[0, 3, 4]);
}

#[test]
fn short_and_long_records() {
    let (mut tally, mut random) = (Tally::default(), Random::new(24));
    for turn in 0..16_000 {
        let long = turn % 40 == 0;
        let m = if long { random.factor(10_922) } else { random.below(11) };
        let length = if long { random.between(2 * m as i64, 32_768) } else { random.between(0, 40) } as usize;
        let sound = record(&mut random, length);
        let mut readings = readings(&mut random, &sound);
        if length > 0 && random.one_in(4) {
            readings[random.below(length as u64) as usize] = any_double(&mut random);
        }
        let room = if random.one_in(4) { random.pick(&rooms(length)) } else { length };
        case(&mut tally, &readings, m, room);
    }
    tally.ran(16_000, &[0, 1, 3, 4, 5, 6]);
}

#[test]
fn sums_of_readings_where_a_block_of_terms_ends() {
    let (mut tally, mut random) = (Tally::default(), Random::new(76));
    for m in [1, 2, 5, 129] {
        for terms in block_counts() {
            for length in [terms + 2 * m, terms + 3 * m - 1] {
                for samples in few_extremes(&mut random, length, m) {
                    let readings = readings(&mut random, &samples);
                    case(&mut tally, &readings, m as u64, length);
                }
            }
        }
    }
    tally.ran(1_440, &[0]);
}

/// The count of the longest record is that of its fractions, from none of the readings to all of them.
#[test]
fn counts_up_to_every_reading() {
    let mut tally = Tally::default();
    for changed in [0, 1, 2, 255, 256, 257, 16_384, 32_767, 32_768] {
        for fraction in [0.5, -0.9, 5e-324] {
            // Those with a fraction lie at the end in one record, at the start in the other.
            let mut readings: Vec<f64> = (0..32_768).map(|i| if i < 32_768 - changed { -7.0 } else { fraction }).collect();
            assert_eq!(case(&mut tally, &readings, 1, 32_768), Some(changed));
            readings.reverse();
            assert_eq!(case(&mut tally, &readings, 1, 32_768), Some(changed));
        }
    }
    tally.ran(54, &[0]);
}
