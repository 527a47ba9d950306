//! The rules' figures to check by hand, in their order, worked by the second implementation alone.

use super::channels;
use super::compare::{quieter, quieter_record, Quieter};
use super::drawn::{allan_dot, drawn_number, time_dot, Dot};
use super::drift::{drift_figure, remove_drift, Drift};
use super::file::{file_of, read_file, read_record, record_of, write_file, write_record, Kind, Read, Record, Version};
use super::floats::{float_sums, sample_of, FloatSums};
use super::fractions::*;
use super::frequency::{frequency_from_phase, phase_from_frequency, phase_from_start};
use super::meter::{self, Meter};
use super::noise::{bars, half_width, noise_of_record, noise_type, Bars, Noise};
use super::salvage::{salvage, Salvaged};
use super::sheet::{lines, sheet, sheet_record, sheet_total, Sheet, Totals};
use super::sums::{allan_sum, modified_sum, Sum};
use super::{Answer, Refusal};

const END: i64 = 1 << 40;

fn refused<T>(number: u64, place: u64) -> Answer<T> {
    Err(Refusal { number, place })
}

fn sum(total: u128, count: u64) -> Answer<Sum> {
    Ok(Sum { total, count })
}

fn fraction(numerator: u128, denominator: u128) -> Answer<Fraction> {
    Ok(Fraction { numerator, denominator })
}

fn allan_variance(samples: &[i64], m: u64) -> Answer<Fraction> {
    allan_sum(samples, m).and_then(|sum| allan_fraction(sum.total, m, sum.count))
}

fn time_variance(samples: &[i64], m: u64) -> Answer<Fraction> {
    modified_sum(samples, m).and_then(|sum| time_fraction(sum.total, m, sum.count))
}

#[test]
fn squares() {
    let x = [0, 1, 4, 9, 16, 25];
    assert_eq!(allan_sum(&x, 1), sum(16, 4));
    assert_eq!(allan_variance(&x, 1), fraction(2, 1));
    assert_eq!(allan_deviation(16, 1, 4), Ok(1_482_910));
    assert_eq!(allan_sum(&x, 2), sum(128, 2));
    assert_eq!(allan_variance(&x, 2), fraction(8, 1));
    assert_eq!(modified_sum(&x, 2), sum(256, 1));
    assert_eq!(time_variance(&x, 2), fraction(32, 3));
}

#[test]
fn short_records() {
    assert_eq!(allan_variance(&[5, 8, 11, 14], 1), fraction(0, 1));
    let x = [0, 1, 0, 1, 0];
    assert_eq!(allan_sum(&x, 1), sum(12, 3));
    assert_eq!(allan_variance(&x, 1), fraction(2, 1));
    assert_eq!(allan_sum(&x, 2), sum(0, 1));
    assert_eq!(modified_sum(&x, 2), refused(1, 0));
    let x = [0, 0, 0, 1, 0, 0, 0];
    assert_eq!(allan_sum(&x, 1), sum(6, 5));
    assert_eq!(allan_variance(&x, 1), fraction(3, 5));
    assert_eq!(allan_sum(&x, 2), sum(4, 3));
    assert_eq!(allan_variance(&x, 2), fraction(1, 6));
    assert_eq!(modified_sum(&x, 2), sum(8, 2));
    assert_eq!(time_variance(&x, 2), fraction(1, 6));
    assert_eq!(allan_sum(&[END, -END, END], 1), sum(1 << 84, 1));
}

#[test]
fn readings_and_drift() {
    let mut buffer = [7; 6];
    assert_eq!(phase_from_frequency(&[3, -1, 4], &mut buffer), Ok(4));
    assert_eq!(buffer, [0, 3, 2, 6, 7, 7]);
    assert_eq!(frequency_from_phase(&[0, 3, 2, 6], &mut buffer), Ok(3));
    assert_eq!(buffer, [3, -1, 4, 6, 7, 7]);
    assert_eq!(phase_from_start(5, &[3, -1, 4], &mut buffer), Ok(4));
    assert_eq!(buffer, [5, 8, 7, 11, 7, 7]);
    assert_eq!(frequency_from_phase(&[5, 8, 7, 11], &mut buffer), Ok(3));
    assert_eq!(buffer, [3, -1, 4, 11, 7, 7]);
    assert_eq!(phase_from_start(END + 1, &[-1], &mut buffer), refused(3, 0));
    assert_eq!(phase_from_start(END, &[-1, 2], &mut buffer), refused(3, 1));
    assert_eq!(buffer, [3, -1, 4, 11, 7, 7]);
    let x = [0, 1, 4, 9, 16, 25];
    assert_eq!(drift_figure(&x), Ok(Drift { p: 8, r: 4 }));
    assert_eq!(remove_drift(&x, &mut buffer), Ok(6));
    assert_eq!(buffer, [0, 1, 2, 3, 4, 5]);
    let x = [0, 0, 0, -1];
    assert_eq!(drift_figure(&x), Ok(Drift { p: 0, r: 1 }));
    assert_eq!(remove_drift(&x, &mut buffer), Ok(4));
    assert_eq!(buffer, [0, 0, 0, -1, 4, 5]);
    let x = [0, 0, 0, 0, -1];
    assert_eq!(drift_figure(&x), Ok(Drift { p: -1, r: 4 }));
    assert_eq!(remove_drift(&x, &mut buffer), Ok(5));
    assert_eq!(buffer, [0, 0, 1, 1, 1, 5]);
    assert_eq!(remove_drift(&[0, END, -END, END + 1], &mut buffer), refused(3, 3));
    assert_eq!(buffer, [0, 0, 1, 1, 1, 5]);
}

#[test]
fn noise_and_bars() {
    assert_eq!(half_width(1_000_000, Noise::FlickerFrequency, 100), 77_000);
    assert_eq!(noise_type(4096, 4096), Ok(Noise::FlickerPhase));
    assert_eq!(noise_type(4096, 3444), Ok(Noise::WhitePhase));
    assert_eq!(noise_type(4096, 3445), Ok(Noise::FlickerPhase));
    assert_eq!(noise_type(0, 0), refused(8, 0));
    assert_eq!(bars(1_000_000, Noise::FlickerFrequency, 9), refused(1, 0));
    let row = bars(1_000_000, Noise::FlickerFrequency, 10).unwrap();
    assert!(row.low < row.mid && row.mid < row.high);
    assert_eq!(row.mid, 1_000_000.0 / 1_048_576.0);
    assert_eq!(half_width(4, Noise::WhitePhase, 10), 0);
    // The least deviation: h is 0, and no end is nought.
    let least = 1.0 / 1_048_576.0;
    assert_eq!(bars(1, Noise::WhitePhase, 10), Ok(Bars { low: least, mid: least, high: least }));
    // At M = 1 the search ends at w itself, for the largest deviation too.
    assert_eq!(half_width(1 << 62, Noise::WhitePhase, 1) as u128, (99 << 62) / 100);
    assert_eq!(noise_of_record(&[0; 6], 1), refused(8, 0));
    assert_eq!(noise_of_record(&[0, 1, 0, 1, 0, 1], 1), Ok(Noise::WhitePhase));
}

#[test]
fn limits() {
    assert_eq!(allan_sum(&[0, END, 0], 1), sum(1 << 82, 1));
    assert_eq!(allan_sum(&[0, END + 1, 0], 1), refused(3, 1));
    let m = 7;
    assert_eq!(allan_sum(&[0; 14], m), refused(1, 0));
    assert_eq!(allan_sum(&[0; 15], m), sum(0, 1));
}

#[test]
fn float_readings() {
    let end = END as f64;
    // What a single reading between noughts becomes, and how many were changed.
    let becomes = |reading: f64| {
        let mut buffer = [7; 4];
        float_sums(&[0.0, reading, 0.0], 1, &mut buffer).map(|sums| {
            assert_eq!((buffer[0], buffer[2], buffer[3]), (0, 0, 7));
            (buffer[1], sums.changed)
        })
    };
    for (reading, sample) in [(0.5, 0), (0.49999999999999994, 0), (1.5, 2), (-2.5, -2), (end - 0.5, END)] {
        assert_eq!(becomes(reading), Ok((sample, 1)));
    }
    for (reading, sample) in [(-0.5, 0), (5e-324, 0), (-5e-324, 0), (0.5f64.next_up(), 1), (2.5, 2), (-1.5, -2), (3.75, 4), (-end + 0.5, -END)] {
        assert_eq!(becomes(reading), Ok((sample, 1)));
    }
    for (reading, sample) in [(0.0, 0), (-0.0, 0), (-3.0, -3), (end, END), (-end, -END), (end - 1.0, END - 1)] {
        assert_eq!(becomes(reading), Ok((sample, 0)));
    }
    for reading in [end + 0.5, end + 1.0, end.next_up(), -end.next_up(), 1e300, f64::INFINITY, f64::NEG_INFINITY] {
        assert_eq!(becomes(reading), refused(3, 1));
    }
    assert_eq!(becomes(f64::NAN), refused(4, 1));
    let mut buffer = [1; 3];
    let square = Sum { total: 4, count: 1 };
    assert_eq!(float_sums(&[0.0, 1.0, 0.0], 1, &mut buffer), Ok(FloatSums { allan: square, modified: Some(square), changed: 0 }));
    assert_eq!(buffer, [0, 1, 0]);
    assert_eq!(float_sums(&[0.5, f64::NAN, end + 1.0], 1, &mut buffer), refused(4, 1));
    assert_eq!(buffer, [0, 1, 0]);
}

/// Wholes, halves and quarters about every power of 2 in the sample range, with their neighbours and both signs: by the rule's own words, and as the
/// standard library rounds.
#[test]
fn nearest_whole_numbers() {
    for power in 0..=40 {
        for quarters in -9..=9 {
            let middle = 2f64.powi(power) + quarters as f64 / 4.0;
            for size in [middle.next_down(), middle, middle.next_up()] {
                if size.abs() > END as f64 {
                    continue;
                }
                for reading in [size, -size] {
                    let z = sample_of(reading).unwrap();
                    // The distance is exact: z is 0, or neither is over twice the other.
                    let twice = 2.0 * (z as f64 - reading).abs();
                    assert!(twice < 1.0 || twice == 1.0 && z % 2 == 0, "{reading:?} became {z}");
                    assert_eq!(z, reading.round_ties_even() as i64, "{reading:?}");
                }
            }
        }
    }
}

#[test]
fn drawn_and_dots() {
    for r in [1u64, 2, 3, 1 << 20, (1 << 53) - 1, 1 << 53, 1 << 63] {
        assert_eq!(drawn_number(r), Ok(r as f64 / 1_048_576.0));
    }
    assert_eq!(drawn_number((1 << 53) + 1), drawn_number(1 << 53));
    assert_eq!(drawn_number((1 << 54) - 1), Ok(((1u64 << 53) - 1) as f64 / 524_288.0));
    assert_eq!(drawn_number(0), refused(3, 0));
    assert_eq!(drawn_number((1 << 63) + 1), refused(3, 0));
    assert_eq!(allan_dot(1, 1, 0), Ok(Dot::TooFew));
    assert_eq!(allan_dot(1, 0, 0), refused(5, 0));
    assert_eq!(allan_dot(0, 1, 1), Ok(Dot::Nought));
    assert_eq!(time_dot(16, 1, 4), drawn_number(856_158).map(Dot::Drawn));
    // The least sum whose deviation passes 2^62 at m = 1, K = 1, and the one before it.
    let least = (1u128 << 85) + (1 << 24) + 1;
    assert_eq!(allan_deviation(least - 1, 1, 1), Ok(1 << 62));
    assert_eq!(allan_deviation(least, 1, 1), refused(3, 0));
}

#[test]
fn meter_follows_the_sums() {
    let x = [3, 1, 4, -1, 5, -9, 2, 6, 5, 3, 5];
    for m in 1..=3u64 {
        let mut ring = [END + 9; 9];
        let mut now = meter::start(m, &ring).unwrap();
        for n in 0..=x.len() {
            let sums = meter::report(&now).unwrap();
            assert_eq!(sums.allan, allan_sum(&x[..n], m).ok());
            assert_eq!(sums.modified, modified_sum(&x[..n], m).ok());
            assert_eq!(meter::sample(&now, &mut ring, END + 1), refused(3, 0));
            if let Some(&x) = x.get(n) {
                now = meter::sample(&now, &mut ring, x).unwrap();
            }
        }
    }
}

/// A gap before every place of a stream in turn, and two where they fall together: the report is the total over the stretches.
#[test]
fn meter_adds_up_over_stretches() {
    let x = [3, 1, 4, -1, 5, -9, 2, 6, 5, 3, 5, -8, 9];
    let of_all = |stretches: [&[i64]; 3], sum: &dyn Fn(&[i64]) -> Answer<Sum>| {
        let sums: Vec<Sum> = stretches.into_iter().filter_map(|stretch| sum(stretch).ok()).collect();
        let total = Sum { total: sums.iter().map(|sum| sum.total).sum(), count: sums.iter().map(|sum| sum.count).sum() };
        (total.count > 0).then_some(total)
    };
    for m in 1..=3u64 {
        for first in 0..=x.len() {
            for second in first..=x.len() {
                let mut ring = [END + 9; 9];
                let mut now = meter::start(m, &ring).unwrap();
                for n in 0..=x.len() {
                    for _ in [first, second].into_iter().filter(|&gap| gap == n) {
                        now = meter::gap(&now).unwrap();
                    }
                    if let Some(&x) = x.get(n) {
                        now = meter::sample(&now, &mut ring, x).unwrap();
                    }
                }
                let sums = meter::report(&now).unwrap();
                let stretches = [&x[..first], &x[first..second], &x[second..]];
                assert_eq!(sums.allan, of_all(stretches, &|stretch| allan_sum(stretch, m)));
                assert_eq!(sums.modified, of_all(stretches, &|stretch| modified_sum(stretch, m)));
                assert_eq!((now.n, now.stretch), (13, (x.len() - second) as u64));
            }
        }
    }
    assert_eq!(meter::gap(&Meter::NOUGHTS), refused(7, 0));
}

/// 12 of 3 squares and 20 of 5 are both 2/1; 6 of 5 and 5 of 2 are 3/5 and 5/4.
#[test]
fn quieter_of_two() {
    let (short, long) = ([0, 1, 0, 1, 0], [0, 1, 0, 1, 0, 1, 0]);
    assert_eq!((allan_sum(&short, 1), allan_sum(&long, 1)), (sum(12, 3), sum(20, 5)));
    assert_eq!((allan_variance(&short, 1), allan_variance(&long, 1)), (fraction(2, 1), fraction(2, 1)));
    assert_eq!((quieter(&short, &long, 1), quieter(&long, &short, 1)), (Ok(Quieter::First), Ok(Quieter::First)));
    let (first, second) = ([0, 0, 0, 1, 0, 0, 0], [0, 0, 1, 0]);
    assert_eq!((allan_sum(&first, 1), allan_sum(&second, 1)), (sum(6, 5), sum(5, 2)));
    assert_eq!((allan_variance(&first, 1), allan_variance(&second, 1)), (fraction(3, 5), fraction(5, 4)));
    assert_eq!((quieter(&first, &second, 1), quieter(&second, &first, 1)), (Ok(Quieter::First), Ok(Quieter::Second)));
    assert_eq!((quieter_record(&first, &second, 1), quieter_record(&second, &first, 1)), (Ok(&first[..]), Ok(&first[..])));
    // The largest factor and the largest sums: products of more than 128 bits.
    let ends: Vec<i64> = (0..32_768).map(|i| if i / 10_922 % 2 == 0 { END } else { -END }).collect();
    let mut lower = ends.clone();
    lower[0] -= 1;
    assert_eq!((quieter(&ends, &lower, 10_922), quieter(&lower, &ends, 10_922)), (Ok(Quieter::Second), Ok(Quieter::First)));
    assert_eq!((quieter(&ends, &ends[1..], 10_922), quieter(&ends[1..], &ends, 10_922)), (Ok(Quieter::First), Ok(Quieter::First)));
}

#[test]
fn quieter_refused() {
    let (sound, bad) = ([0, 1, 0], [0, END, -END - 1, END + 1]);
    assert_eq!(quieter(&bad, &[], 0), refused(5, 0));
    assert_eq!(quieter(&[0; 32_769], &bad, 1), refused(2, 0));
    assert_eq!(quieter(&[END + 1; 2], &[0; 32_769], 1), refused(1, 0));
    assert_eq!(quieter(&bad, &[0; 32_769], 1), refused(3, 2));
    assert_eq!(quieter(&sound, &[END + 1; 32_769], 1), refused(2, 0));
    assert_eq!(quieter(&sound, &[END + 1; 2], 1), refused(1, 0));
    assert_eq!(quieter(&sound, &bad, 1), refused(3, 2));
    assert_eq!(quieter_record(&sound, &bad, 1), refused(3, 2));
}

/// Streams fed in turn on as many channels: each report is that of the stream's own sums, and each part of the ring has its own latest samples.
#[test]
fn channels_follow_the_sums() {
    let streams: Vec<Vec<i64>> = (0..16i64).map(|c| (0..20).map(|i| (i * i * (c + 3) + 5 * c * i) % 41 - c).collect()).collect();
    for (m, length) in [(1, 48), (1, 63), (2, 96), (3, 159)] {
        let mut ring = vec![END + 9; length];
        let reports = channels::fed_in_turn(m, &mut ring, &streams).unwrap();
        let share = length / 16;
        for (c, (stream, sums)) in streams.iter().zip(reports).enumerate() {
            assert_eq!((sums.allan, sums.modified), (allan_sum(stream, m).ok(), modified_sum(stream, m).ok()));
            for number in stream.len() - 3 * m as usize..stream.len() {
                assert_eq!(ring[c * share + number % (3 * m as usize)], stream[number]);
            }
        }
        assert_eq!(ring.iter().filter(|&&entry| entry == END + 9).count(), length - 48 * m as usize);
    }
}

#[test]
fn channels_refused() {
    let (mut ring, good) = ([7; 48], Meter { m: 1, ..Meter::NOUGHTS });
    assert_eq!(channels::start(16, 0, &[]), refused(11, 0));
    assert_eq!(channels::start(15, 0, &[]), refused(5, 0));
    assert_eq!(channels::start(15, 1, &ring[..47]), refused(6, 0));
    assert_eq!(channels::start(15, 1, &ring), Ok(good));
    assert_eq!(channels::sample(&Meter::NOUGHTS, 16, &mut ring, END + 1), refused(11, 0));
    assert_eq!(channels::sample(&good, 15, &mut ring[..47], END + 1), refused(7, 0));
    assert_eq!(channels::sample(&good, 15, &mut ring, END + 1), refused(3, 0));
    assert_eq!(channels::gap(&Meter::NOUGHTS, u64::MAX), refused(11, 0));
    assert_eq!(channels::gap(&Meter::NOUGHTS, 0), refused(7, 0));
    assert_eq!(channels::report(&Meter::NOUGHTS, 16), refused(11, 0));
    assert_eq!(channels::report(&Meter::NOUGHTS, 15), refused(7, 0));
    assert_eq!(ring, [7; 48]);
}

#[test]
fn whole_file() {
    let file = [
        0x50, 0x48, 0x52, 0x01, 0x00, 0x00, 0x02, 0x00, 0x01, 0x00, 0x00, 0x00, 0x00, 0x00, 0x00, 0x00, 0xFF, 0xFF, 0xFF, 0xFF, 0xFF, 0xFF, 0xFF,
        0xFF,
    ];
    assert_eq!(file_of(Kind::Phase, &[1, -1]), file);
    let (mut values, mut bytes) = ([7; 3], [9; 25]);
    assert_eq!(read_file(&file, &mut values), Ok(Read { kind: Kind::Phase, count: 2 }));
    assert_eq!(values, [1, -1, 7]);
    assert_eq!(write_file(0, &[1, -1], &mut bytes), Ok(24));
    assert_eq!((&bytes[..24], bytes[24]), (&file[..], 9));
    assert_eq!(write_file(2, &[1, -1], &mut bytes), refused(9, 5));
    assert_eq!(read_file(&[], &mut values), refused(9, 0));
    assert_eq!(read_file(&[0x50, 0x48, 0x52, 1, 1], &mut values), refused(9, 4));
    assert_eq!(read_file(&file[..23], &mut values), refused(9, 23));
}

#[test]
fn whole_file_with_a_start() {
    let file = [
        0x50, 0x48, 0x52, 0x02, 0x00, 0x01, 0x02, 0x00, 0x05, 0x00, 0x00, 0x00, 0x00, 0x00, 0x00, 0x00, 0x01, 0x00, 0x00, 0x00, 0x00, 0x00, 0x00,
        0x00, 0xFF, 0xFF, 0xFF, 0xFF, 0xFF, 0xFF, 0xFF, 0xFF,
    ];
    assert_eq!(record_of(Kind::Frequency, 5, &[1, -1]), file);
    let (mut values, mut bytes) = ([7; 3], [9; 33]);
    assert_eq!(read_file(&file, &mut values), refused(9, 3));
    assert_eq!(values, [7; 3]);
    assert_eq!(read_record(&file, &mut values), Ok(Record { version: Version::Two, kind: Kind::Frequency, start: 5, count: 2 }));
    assert_eq!(values, [1, -1, 7]);
    assert_eq!(write_record(1, 5, &[1, -1], &mut bytes), Ok(32));
    assert_eq!((&bytes[..32], bytes[32]), (&file[..], 9));
    assert_eq!(write_record(0, 5, &[1, -1], &mut bytes), refused(9, 8));
    assert_eq!(write_record(2, 5, &[1, -1], &mut bytes), refused(9, 5));
    assert_eq!(write_record(1, END + 1, &[1, -1], &mut bytes), refused(3, 0));
    assert_eq!(read_record(&file[..15], &mut values), refused(9, 15));
    assert_eq!(read_record(&file[..31], &mut values), refused(9, 31));
    assert_eq!(read_record(&file_of(Kind::Phase, &[4]), &mut values), Ok(Record { version: Version::One, kind: Kind::Phase, start: 0, count: 1 }));
    assert_eq!(values, [4, -1, 7]);
}

#[test]
fn salvaged_file() {
    let damaged = [&file_of(Kind::Phase, &[1, -1, END + 1])[..], &[0xAA; 4]].concat();
    let whole = file_of(Kind::Phase, &[1, -1]);
    let mut bytes = [9; 25];
    assert_eq!(salvage(&damaged, &mut bytes), Ok(Salvaged { old_count: 3, new_count: 2, left_over: 12, met: true }));
    assert_eq!((&bytes[..24], bytes[24]), (&whole[..], 9));
    bytes.fill(9);
    assert_eq!(salvage(&damaged[..28], &mut bytes), Ok(Salvaged { old_count: 3, new_count: 2, left_over: 4, met: false }));
    assert_eq!((&bytes[..24], bytes[24]), (&whole[..], 9));
    assert_eq!(salvage(&damaged, &mut bytes[..23]), refused(6, 0));
    assert_eq!(salvage(&damaged[..7], &mut bytes), refused(9, 7));
    assert_eq!(salvage(&record_of(Kind::Phase, 5, &[1]), &mut bytes), refused(9, 8));
    assert_eq!(salvage(&record_of(Kind::Frequency, END + 1, &[1]), &mut bytes), refused(3, 0));
}

#[test]
fn whole_sheet() {
    let squares = file_of(Kind::Phase, &[0, 1, 4, 9, 16, 25]);
    let whole = "1 2/1 4 1482910 2/3 4 856158 -2\n2 8/1 2 2965820 32/3 1 3424634 -\ntotal 6 5\n";
    assert_eq!(sheet(std::slice::from_ref(&squares)), whole);
    assert_eq!(sheet(&[]), "total 0 0\n");
    let mut text = [9; 80];
    let two = Totals { k: 6, c: 5 };
    assert_eq!(sheet_record(&squares, Totals::default(), &mut text), Ok(Sheet { length: 65, totals: two }));
    assert_eq!((&text[..65], &text[65..]), (&whole.as_bytes()[..65], &[9; 15][..]));
    assert_eq!(sheet_record(&squares, Totals { k: 0, c: (1 << 63) + 1 }, &mut []), refused(2, 0));
    assert_eq!(sheet_record(&squares, Totals { k: 1 << 63, c: 1 << 63 }, &mut text[..64]), refused(6, 0));
    text.fill(9);
    assert_eq!(sheet_total(two, &mut text[..9]), refused(6, 0));
    assert_eq!(sheet_total(two, &mut text), Ok(10));
    assert_eq!((&text[..10], text[10]), (&b"total 6 5\n"[..], 9));
    let refused_as_a_whole = |bytes: &[u8]| lines(bytes).text;
    assert_eq!(refused_as_a_whole(&[]), "refused 9 at 0\n");
    assert_eq!(refused_as_a_whole(&file_of(Kind::Phase, &[0; 2])), "refused 1 at 0\n");
    assert_eq!(refused_as_a_whole(&file_of(Kind::Phase, &[0; 4_097])), "refused 2 at 0\n");
    assert_eq!(refused_as_a_whole(&file_of(Kind::Frequency, &[0; 4_096])), "refused 2 at 0\n");
    assert_eq!(refused_as_a_whole(&record_of(Kind::Frequency, END, &[-1, 1, 1])), "refused 3 at 2\n");
    assert_eq!(refused_as_a_whole(&record_of(Kind::Phase, 1, &[0; 3])), "refused 9 at 8\n");
}
