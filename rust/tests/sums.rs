//! The crates `sums` and `variances` over the C boundary: sums, fractions and deviations.

#[allow(dead_code)]
mod shared;

use independent::{fractions, sums};
use ploegelster::{Ground, Refusal};
use shared::ends::{self, block_counts, borders, extremes, few_extremes, last_block_counts, powers, three_of, FACTORS};
use shared::lent::Lent;
use shared::random::Random;
use shared::records::{factors, lengths, maybe_damaged, record, OUTSIDE};
use shared::{raw, shown, with_neighbours, Tally, END};

/// Both sums of one record: two cases.
fn sums_case(tally: &mut Tally, samples: &[i64], m: u64) {
    let mut lent = Lent::holding(samples);
    let input = |entry: &str| format!("{entry}, factor {m}, samples {}", shown(samples));
    let own = sums::allan_sum(samples, m);
    tally.same(&raw::allan_sum(lent.part(), m), &ploegelster::allan_sum(lent.part(), m), &own, || input("Allan sum"));
    let own = sums::modified_sum(samples, m);
    tally.same(&raw::modified_sum(lent.part(), m), &ploegelster::modified_sum(lent.part(), m), &own, || input("modified sum"));
    assert!(lent.holds(samples), "{}", input("samples changed"));
}

#[test]
fn sums_at_every_limit() {
    let (mut tally, mut random) = (Tally::default(), Random::new(1));
    for m in factors() {
        for length in lengths(m) {
            let samples = record(&mut random, length);
            sums_case(&mut tally, &samples, m);
            let samples = maybe_damaged(&mut random, length, 1);
            sums_case(&mut tally, &samples, m);
        }
    }
    tally.ran(2_752, &[0, 1, 2, 3, 5]);
}

#[test]
fn sums_of_every_small_record() {
    let mut tally = Tally::default();
    for length in 0..=7 {
        for number in 0..3usize.pow(length) {
            let samples: Vec<i64> = (0..length).map(|i| [-END, 0, END][number / 3usize.pow(i) % 3]).collect();
            for m in 0..=3 {
                sums_case(&mut tally, &samples, m);
            }
        }
    }
    tally.ran(26_240, &[0, 1, 5]);
}

#[test]
fn sums_of_short_records() {
    let (mut tally, mut random) = (Tally::default(), Random::new(2));
    for _ in 0..20_000 {
        let m = random.below(13);
        let length = random.below(60) as usize;
        let samples = maybe_damaged(&mut random, length, 8);
        sums_case(&mut tally, &samples, m);
    }
    tally.ran(40_000, &[0, 1, 3, 5]);
}

#[test]
fn sums_with_one_value_outside_at_every_index() {
    let (mut tally, mut random) = (Tally::default(), Random::new(3));
    for (length, m) in [(3, 1), (64, 21), (301, 7), (1_500, 100)] {
        let sound = record(&mut random, length);
        for index in 0..length {
            for value in [-END, END, OUTSIDE[0], OUTSIDE[1], OUTSIDE[2], OUTSIDE[3]] {
                let mut samples = sound.clone();
                samples[index] = value;
                sums_case(&mut tally, &samples, m);
            }
        }
    }
    tally.ran(22_416, &[0, 3]);
}

#[test]
fn sums_of_long_records() {
    let (mut tally, mut random) = (Tally::default(), Random::new(4));
    for _ in 0..2_500 {
        let m = random.factor(10_922);
        let length = random.between(3 * m as i64 - 2, 32_768) as usize;
        let length = if random.one_in(2) { length } else { 32_768 };
        let samples = maybe_damaged(&mut random, length, 6);
        sums_case(&mut tally, &samples, m);
    }
    tally.ran(5_000, &[0, 1, 3]);
}

#[test]
fn sums_of_the_widest_records() {
    // Alternating blocks of ends make every difference as large as it can be, and every window too.
    let mut tally = Tally::default();
    for m in [1u64, 2, 3, 100, 5_000, 10_922] {
        let samples: Vec<i64> = (0..32_768).map(|i| if i / m % 2 == 0 { END } else { -END }).collect();
        sums_case(&mut tally, &samples, m);
        let samples: Vec<i64> = samples.iter().map(|x| -x).collect();
        sums_case(&mut tally, &samples, m);
    }
    tally.ran(24, &[0]);
}

#[test]
fn sums_where_a_block_of_terms_ends() {
    let (mut tally, mut random) = (Tally::default(), Random::new(61));
    for m in FACTORS {
        for terms in block_counts() {
            // So many terms of the Allan sum, and so many of the modified one.
            for length in [terms + 2 * m, terms + 3 * m - 1].into_iter().filter(|&length| length <= 32_768) {
                for samples in extremes(&mut random, length, m) {
                    sums_case(&mut tally, &samples, m as u64);
                }
            }
        }
    }
    tally.ran(16_002, &[0, 1]);
}

#[test]
fn sums_of_long_records_where_a_block_of_terms_ends() {
    let (mut tally, mut random) = (Tally::default(), Random::new(62));
    for m in FACTORS {
        for (before, largest) in [(2 * m, 32_768 - 2 * m), (3 * m - 1, 32_769 - 3 * m)] {
            for terms in last_block_counts(largest) {
                for samples in few_extremes(&mut random, terms + before, m) {
                    sums_case(&mut tally, &samples, m as u64);
                }
            }
        }
    }
    tally.ran(2_154, &[0, 1]);
}

#[test]
fn sums_of_every_number_of_terms() {
    let (mut tally, mut random) = (Tally::default(), Random::new(63));
    for m in [1, 2, 3, 5] {
        for terms in 1..=300 {
            for samples in few_extremes(&mut random, terms + 3 * m - 1, m) {
                sums_case(&mut tally, &samples, m as u64);
            }
        }
    }
    tally.ran(7_200, &[0]);
}

/// Records of noughts in which this sample is at an end and, where there are samples for it, in which this second difference is of the largest size.
fn single(length: usize, m: usize, index: usize, end: i64) -> Vec<Vec<i64>> {
    let mut sample = vec![0; length];
    sample[index] = end;
    if index + 2 * m >= length {
        return vec![sample];
    }
    let mut term = sample.clone();
    [term[index + m], term[index + 2 * m]] = [-end, end];
    vec![sample, term]
}

#[test]
fn sums_of_noughts_with_one_sample_or_term_at_an_end() {
    let mut tally = Tally::default();
    for (length, m) in [(35, 1), (36, 2), (67, 3), (131, 1), (132, 42), (260, 5)] {
        for index in 0..length {
            for end in [END, -END, END - 1] {
                for samples in single(length, m, index, end) {
                    sums_case(&mut tally, &samples, m as u64);
                }
            }
        }
    }
    for (length, m) in [(2_053, 2), (32_767, 129), (32_768, 1), (32_768, 10_922)] {
        for index in borders(length) {
            for samples in single(length, m, index, END) {
                sums_case(&mut tally, &samples, m as u64);
            }
        }
    }
    tally.ran(8_322, &[0]);
}

/// So many numbers that add up to this total, each as near to the others as can be.
fn spread(total: i64, many: usize) -> impl Fn(usize) -> i64 {
    let many = many as i64;
    move |i| total.div_euclid(many) + i64::from((i as i64) < total.rem_euclid(many))
}

#[test]
fn sums_of_equal_second_differences() {
    let mut tally = Tally::default();
    // Not more than m terms, or the next samples would lie outside the range: the parts of all of them are the same, and large together.
    for d in powers(4 * END) {
        for (m, terms) in [(1, 1), (33, 32), (1_025, 1_023), (1_025, 1_024), (1_025, 1_025)] {
            let samples: Vec<i64> = (0..2 * m + terms).map(|i| three_of(d)[i / m]).collect();
            sums_case(&mut tally, &samples, m as u64);
            let sum = ploegelster::allan_sum(&samples, m as u64).expect("every sample is in range");
            assert_eq!(sum.total, terms as u128 * (d as i128 * d as i128) as u128, "{terms} second differences of {d}");
        }
    }
    tally.ran(4_850, &[0, 1]);
}

#[test]
fn modified_sums_of_one_window_sum() {
    let mut tally = Tally::default();
    for m in FACTORS {
        for total in powers(m as i64 * 4 * END) {
            let d = spread(total, m);
            let samples: Vec<i64> = (0..3 * m).map(|i| three_of(d(i % m))[i / m]).collect();
            sums_case(&mut tally, &samples, m as u64);
            let sum = ploegelster::modified_sum(&samples, m as u64).expect("every sample is in range");
            assert_eq!(sum.total, (total as i128 * total as i128) as u128, "a window sum of {total} at factor {m}");
        }
    }
    tally.ran(11_104, &[0]);
}

#[test]
fn modified_sums_of_equal_window_sums() {
    let mut tally = Tally::default();
    // A second difference d_i that comes again m later leaves the window sum as it is: samples a, b, b, a have it twice, where it is a - b.
    for m in [1, 2, 3, 5, 31, 32, 127, 1_023, 1_024, 8_192] {
        for total in powers(m as i64 * 2 * END) {
            let d = spread(total, m);
            let ends = |i: usize| [d(i) / 2, d(i) / 2 - d(i)];
            let samples: Vec<i64> = (0..4 * m).map(|i| ends(i % m)[[0, 1, 1, 0][i / m]]).collect();
            sums_case(&mut tally, &samples, m as u64);
            let sum = ploegelster::modified_sum(&samples, m as u64).expect("every sample is in range");
            assert_eq!(sum.total, (m as u128 + 1) * (total as i128 * total as i128) as u128, "window sums of {total} at factor {m}");
        }
    }
    tally.ran(10_816, &[0]);
}

/// Both sums of a record, at a factor that it is long enough for, of which this is the first sample outside the range, if one is.
fn range_case(tally: &mut Tally, random: &mut Random, samples: &[i64], first: Option<usize>) {
    let m = random.between(1, samples.len() as i64 / 3) as u64;
    sums_case(tally, samples, m);
    let refusal = first.map(|index| Refusal { ground: Ground::OutOfRange, place: index as u64 });
    assert_eq!(ploegelster::allan_sum(samples, m).err(), refusal, "Allan sum, factor {m}, samples {}", shown(samples));
    assert_eq!(ploegelster::modified_sum(samples, m).err(), refusal, "modified sum, factor {m}, samples {}", shown(samples));
}

#[test]
fn sums_of_samples_that_only_together_look_outside() {
    let (mut tally, mut random) = (Tally::default(), Random::new(64));
    ends::all_within(END, |samples| range_case(&mut tally, &mut random, samples, None));
    tally.ran(9_000, &[0]);
}

#[test]
fn sums_with_every_value_outside_at_every_index() {
    let (mut tally, mut random, mut factors) = (Tally::default(), Random::new(65), Random::new(66));
    ends::one_beyond(&mut random, END, |samples, index| range_case(&mut tally, &mut factors, samples, Some(index)));
    tally.ran(108_486, &[3]);
}

#[test]
fn sums_with_several_values_outside() {
    let (mut tally, mut random, mut factors) = (Tally::default(), Random::new(67), Random::new(68));
    ends::several_beyond(&mut random, END, |samples, index| range_case(&mut tally, &mut factors, samples, Some(index)));
    tally.ran(9_440, &[3]);
}

#[test]
fn sums_of_long_records_with_values_outside_where_a_block_ends() {
    let (mut tally, mut random, mut factors) = (Tally::default(), Random::new(69), Random::new(70));
    ends::long_beyond(&mut random, END, 32_768, |samples, index| range_case(&mut tally, &mut factors, samples, Some(index)));
    tally.ran(2_098, &[3]);
}

/// Fractions and deviations of one sum, factor and count: four cases.
fn fractions_case(tally: &mut Tally, sum: u128, m: u64, count: u64) {
    let input = |entry: &str| format!("{entry}, sum {sum}, factor {m}, count {count}");
    let own = fractions::allan_fraction(sum, m, count);
    tally.same(&raw::allan_fraction(sum, m, count), &ploegelster::allan_fraction(sum, m, count), &own, || input("Allan fraction"));
    let own = fractions::time_fraction(sum, m, count);
    tally.same(&raw::time_fraction(sum, m, count), &ploegelster::time_fraction(sum, m, count), &own, || input("time fraction"));
    let own = fractions::allan_deviation(sum, m, count);
    tally.same(&raw::allan_deviation(sum, m, count), &ploegelster::allan_deviation(sum, m, count), &own, || input("Allan deviation"));
    let own = fractions::time_deviation(sum, m, count);
    tally.same(&raw::time_deviation(sum, m, count), &ploegelster::time_deviation(sum, m, count), &own, || input("time deviation"));
}

/// Sums with both neighbours: where a half or a limit begins, and the ends of all.
fn sum_limits() -> Vec<u128> {
    let around = |x: u128| [x.wrapping_sub(1), x, x.wrapping_add(1)];
    [0, 1 << 32, 1 << 63, 1 << 64, 1 << 85, 1 << 125, 1 << 126, 1 << 127].into_iter().flat_map(around).collect()
}

#[test]
fn fractions_at_every_limit() {
    let mut tally = Tally::default();
    for m in factors() {
        for count in with_neighbours(&[0, 1, 32_768, 1 << 16, 1 << 32, 1 << 63]) {
            for sum in sum_limits() {
                fractions_case(&mut tally, sum, m, count);
            }
        }
    }
    tally.ran(50_688, &[0, 1, 2, 3, 5]);
}

#[test]
fn fractions_of_generated_sums() {
    let (mut tally, mut random) = (Tally::default(), Random::new(5));
    for _ in 0..10_000 {
        let (m, count) = (random.factor(10_922), random.sized(15) + 1);
        fractions_case(&mut tally, random.wide(127), m, count);
        // One with factors in common with the denominator.
        let common = 6 * (m * m * count) as u128 / random.factor(60) as u128;
        let sum = (common * random.wide(80)) % (1 << 126);
        fractions_case(&mut tally, sum, m, count);
    }
    tally.ran(80_000, &[0, 3]);
}

/// The least sum with r^2 D not above it times 2^40, where 128 bits hold it.
fn least_sum(r: u64, denominator: u128) -> Option<u128> {
    let (high, low) = fractions::product(r as u128 * r as u128, denominator);
    let (low, carry) = low.overflowing_add((1 << 40) - 1);
    let high = high + carry as u128;
    (high >> 40 == 0).then_some(high << 88 | low >> 40)
}

#[test]
fn deviations_where_they_change() {
    let (mut tally, mut random) = (Tally::default(), Random::new(6));
    const TOP: u64 = 1 << 62;
    for turn in 0..8_000 {
        let (m, count) = if turn < 40 { (1, 1) } else { (random.factor(10_922), random.sized(15) + 1) };
        let r = if random.one_in(4) { random.pick(&[1, 2, TOP - 1, TOP, TOP + 1, TOP + 2]) } else { random.sized(62) + 1 };
        for denominator in [2 * m * m * count, 6 * m * m * count] {
            let Some(least) = least_sum(r, denominator as u128) else { continue };
            for sum in [least - 1, least, least + 1] {
                fractions_case(&mut tally, sum, m, count);
            }
        }
    }
    tally.ran(192_000, &[0, 3]);
}
