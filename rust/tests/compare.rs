//! The quieter of two records over the C boundary: the refusals of either record in their order, and variances that are equal, as near as two can be, or
//! far apart.

#[allow(dead_code)]
mod shared;

use independent::compare::{self, Quieter};
use independent::fractions::allan_deviation;
use independent::sums::{allan_sum, Sum};
use independent::{Answer, Refusal};
use shared::ends::{self, three_of, widest, FACTORS};
use shared::lent::Lent;
use shared::random::Random;
use shared::records::{damage, factors, maybe_damaged, record, OUTSIDE};
use shared::{raw, shown, Tally, END};

/// Two records where they lie, compared on all sides. The wrapper's record is the very slice that was handed in.
fn lent_case(tally: &mut Tally, first: &[i64], second: &[i64], m: u64) -> Answer<Quieter> {
    let own = compare::quieter(first, second, m);
    let input = || format!("factor {m}, first {}, second {}", shown(first), shown(second));
    tally.same(&raw::quieter(first, second, m), &ploegelster::quieter(first, second, m), &own, input);
    let slice = |record: &[i64]| (record.as_ptr(), record.len());
    let handed = ploegelster::quieter_record(first, second, m).map(slice).map_err(|refusal| (refusal.number(), refusal.place));
    let right = own.map(|which| slice(if which == Quieter::First { first } else { second }));
    assert_eq!(handed, right.map_err(|refusal| (refusal.number, refusal.place)), "the record itself, {}", input());
    own
}

/// Two records in memory of their own, compared; neither is changed, nor what lies around it.
fn quieter_case(tally: &mut Tally, first: &[i64], second: &[i64], m: u64) -> Answer<Quieter> {
    let [mut one, mut two] = [first, second].map(Lent::holding);
    let own = lent_case(tally, one.part(), two.part(), m);
    assert!(one.holds(first), "first record changed, factor {m}, {}", shown(first));
    assert!(two.holds(second), "second record changed, factor {m}, {}", shown(second));
    own
}

/// The same where the answer is known beforehand.
#[track_caller]
fn known_case(tally: &mut Tally, first: &[i64], second: &[i64], m: u64, right: Answer<Quieter>) {
    assert_eq!(quieter_case(tally, first, second, m), right, "factor {m}, first {}, second {}", shown(first), shown(second));
}

/// Two records of which the first is known to be the quieter, both ways round.
#[track_caller]
fn quieter_first(tally: &mut Tally, quiet: &[i64], loud: &[i64], m: u64) {
    known_case(tally, quiet, loud, m, Ok(Quieter::First));
    known_case(tally, loud, quiet, m, Ok(Quieter::Second));
}

/// Two records whose variances are known to be equal, both ways round: the first.
#[track_caller]
fn equal(tally: &mut Tally, one: &[i64], two: &[i64], m: u64) {
    known_case(tally, one, two, m, Ok(Quieter::First));
    known_case(tally, two, one, m, Ok(Quieter::First));
}

fn refused<T>(number: u64, place: u64) -> Answer<T> {
    Err(Refusal { number, place })
}

/// Whether a/b is not above c/d, by whole parts, and where these are equal by what is left, turned over.
fn not_above(mut a: u128, mut b: u128, mut c: u128, mut d: u128) -> bool {
    loop {
        if a / b != c / d {
            return a / b < c / d;
        }
        let (one, two) = (a % b, c % d);
        if one == 0 || two == 0 {
            return one == 0;
        }
        (a, b, c, d) = (d, two, b, one);
    }
}

/// The answer for two sound records is also what remainders say of their sums. Gives whether the sums alone, without their counts, would mislead.
fn misleading(first: &[i64], second: &[i64], m: u64, own: Answer<Quieter>) -> bool {
    let [one, two] = [first, second].map(|samples| allan_sum(samples, m).expect("a sound record"));
    let first_is = not_above(one.total, one.count as u128, two.total, two.count as u128);
    assert_eq!(own, Ok(if first_is { Quieter::First } else { Quieter::Second }), "{one:?} and {two:?}");
    (one.total <= two.total) != first_is
}

/// Lengths at which something changes at factor m; a factor out of range gets those of the nearest in range.
fn lengths(m: u64) -> [usize; 6] {
    let m = m.clamp(1, 10_922) as usize;
    [0, 2 * m, 2 * m + 1, 32_767, 32_768, 32_769]
}

#[test]
fn lengths_and_factors_at_every_limit() {
    let (mut tally, mut random) = (Tally::default(), Random::new(301));
    for m in factors() {
        let [sound, other] = [(); 2].map(|_| record(&mut random, 32_769));
        for (i, one) in lengths(m).into_iter().enumerate() {
            for (j, two) in lengths(m).into_iter().enumerate() {
                let ways = [(false, false), (true, false), (false, true), (true, true)];
                // At the ends of the factor's range every way; elsewhere one, since a factor out of range is refused whatever the records are.
                let ways = if m == 1 || m == 10_922 { &ways[..] } else { &ways[(i + j) % 4..][..1] };
                for &(first_damaged, second_damaged) in ways {
                    let [mut first, mut second] = [sound[..one].to_vec(), other[..two].to_vec()];
                    if first_damaged {
                        damage(&mut random, &mut first);
                    }
                    if second_damaged {
                        damage(&mut random, &mut second);
                    }
                    let _ = quieter_case(&mut tally, &first, &second, m);
                }
            }
        }
    }
    tally.ran(1_404, &[0, 1, 2, 3, 5]);
}

/// What a record may be refused for at factor m, each with its number and place: too long, too short, or a sample out of range, which is looked for last.
fn states(m: usize) -> Vec<(Vec<i64>, u64, u64)> {
    let (least, most) = (2 * m + 1, 32_768);
    let with = |length: usize, index: usize, value: i64| {
        let mut samples: Vec<i64> = (0..length).map(|i| (i * i % 1_009) as i64).collect();
        samples[index] = value;
        samples
    };
    vec![
        (with(least, 0, END), 0, 0),
        (with(most, most - 1, -END), 0, 0),
        (with(most + 1, 1, 0), 2, 0),
        (with(most + 1, 0, END + 1), 2, 0),
        (with(least - 1, 0, 0), 1, 0),
        (with(least - 1, 1, -END - 1), 1, 0),
        (vec![], 1, 0),
        (with(least, 0, END + 1), 3, 0),
        (with(least, least - 1, -END - 1), 3, least as u64 - 1),
        (with(most, 1, i64::MIN), 3, 1),
        (with(most, most - 1, i64::MAX), 3, most as u64 - 1),
    ]
}

#[test]
fn refusals_in_their_order() {
    let mut tally = Tally::default();
    for m in [1, 3, 10_922] {
        for (first, number, place) in states(m) {
            for (second, second_number, second_place) in states(m) {
                for bad in [0, 10_923, u64::MAX] {
                    known_case(&mut tally, &first, &second, bad, refused(5, 0));
                }
                let own = quieter_case(&mut tally, &first, &second, m as u64);
                // The first record's refusal, and the second's only where the first would be answered.
                let right = if number > 0 { (number, place) } else { (second_number, second_place) };
                assert_eq!(own.map_or_else(|refusal| (refusal.number, refusal.place), |_| (0, 0)), right);
            }
        }
    }
    tally.ran(1_452, &[0, 1, 2, 3, 5]);
}

#[test]
fn one_value_outside_at_every_index() {
    let (mut tally, mut random) = (Tally::default(), Random::new(302));
    // Where there are fewer terms than the factor says, as with 33 samples at factor 16, some samples are in no term.
    for (length, m) in [(3, 1), (8, 2), (17, 5), (33, 16), (35, 16), (41, 13)] {
        let sound = record(&mut random, length);
        for index in 0..length {
            for value in [-END, END, OUTSIDE[0], OUTSIDE[1], OUTSIDE[2], OUTSIDE[3]] {
                let mut samples = sound.clone();
                samples[index] = value;
                let other_length = 2 * m + 1 + random.below(9) as usize;
                let other = record(&mut random, other_length);
                let mut worse = other.clone();
                worse[random.below(other_length as u64) as usize] = random.pick(&OUTSIDE);
                let place = index as u64;
                if value == END || value == -END {
                    quieter_case(&mut tally, &samples, &other, m as u64).expect("both are in range");
                    quieter_case(&mut tally, &other, &samples, m as u64).expect("both are in range");
                } else {
                    known_case(&mut tally, &samples, &other, m as u64, refused(3, place));
                    known_case(&mut tally, &other, &samples, m as u64, refused(3, place));
                    known_case(&mut tally, &samples, &worse, m as u64, refused(3, place));
                    known_case(&mut tally, &samples, &[], m as u64, refused(3, place));
                }
            }
        }
    }
    tally.ran(2_740, &[0, 3]);
}

#[test]
fn two_values_outside_at_every_two_indices() {
    let mut tally = Tally::default();
    let (one, two, m) = (11, 14, 4);
    for i in 0..one {
        for j in 0..two {
            for value in [END + 1, -END - 1] {
                let [mut first, mut second] = [vec![5; one], vec![7; two]];
                first[i] = value;
                second[j] = -value;
                known_case(&mut tally, &first, &second, m, refused(3, i as u64));
                known_case(&mut tally, &second, &first, m, refused(3, j as u64));
                // Twice in one record: the first of the two.
                second[i] = value;
                known_case(&mut tally, &[3; 9], &second, m, refused(3, i.min(j) as u64));
                known_case(&mut tally, &second, &[3; 9], m, refused(3, i.min(j) as u64));
            }
        }
    }
    tally.ran(1_232, &[3]);
}

/// A record beside one that is refused 3 at this index, on either side of it.
fn range_case(tally: &mut Tally, random: &mut Random, samples: &[i64], index: usize) {
    let m = random.between(1, (samples.len() as i64 - 1) / 2).min(10_922) as u64;
    let sound_length = 2 * m as usize + 1 + random.below(20) as usize;
    let sound = record(random, sound_length);
    if random.one_in(2) {
        known_case(tally, samples, &sound, m, refused(3, index as u64));
    } else {
        known_case(tally, &sound, samples, m, refused(3, index as u64));
    }
}

#[test]
fn every_value_outside_at_every_index() {
    let (mut tally, mut random, mut sides) = (Tally::default(), Random::new(303), Random::new(304));
    ends::one_beyond(&mut random, END, |samples, index| range_case(&mut tally, &mut sides, samples, index));
    ends::several_beyond(&mut random, END, |samples, index| range_case(&mut tally, &mut sides, samples, index));
    tally.ran(58_963, &[3]);
}

#[test]
fn long_records_with_values_outside_where_a_block_ends() {
    let (mut tally, mut random, mut sides) = (Tally::default(), Random::new(305), Random::new(306));
    ends::long_beyond(&mut random, END, 32_768, |samples, index| range_case(&mut tally, &mut sides, samples, index));
    tally.ran(1_052, &[3]);
}

#[test]
fn samples_that_only_together_look_outside() {
    let mut tally = Tally::default();
    let mut before = vec![0; 3];
    ends::all_within(END, |samples| {
        let own = quieter_case(&mut tally, samples, &before, 1);
        misleading(samples, &before, 1, own);
        before = samples.to_vec();
    });
    tally.ran(4_500, &[0]);
}

/// Every record of this length with samples -1, 0 and 1.
fn every_record(length: u32) -> Vec<Vec<i64>> {
    (0..3usize.pow(length)).map(|number| (0..length).map(|i| number as i64 / 3i64.pow(i) % 3 - 1).collect()).collect()
}

#[test]
fn every_two_small_records() {
    let mut tally = Tally::default();
    let records = [every_record(3), every_record(4)].concat();
    let (mut misled, mut equals) = (0, 0);
    for first in &records {
        for second in &records {
            let own = quieter_case(&mut tally, first, second, 1);
            misled += misleading(first, second, 1, own) as u64;
            let [one, two] = [first, second].map(|samples| allan_sum(samples, 1).expect("a sound record"));
            equals += (one.count != two.count && one.total > 0 && one.total * two.count as u128 == two.total * one.count as u128) as u64;
        }
    }
    assert_eq!((misled, equals), (660, 312), "sums that mislead, and equal variances of different sums");
    tally.ran(11_664, &[0]);
}

#[test]
fn short_records() {
    let (mut tally, mut random) = (Tally::default(), Random::new(307));
    let mut misled = 0;
    for _ in 0..20_000 {
        let m = random.below(7);
        let [first, second] = [(); 2].map(|_| {
            let length = random.below(40) as usize;
            maybe_damaged(&mut random, length, 12)
        });
        let own = quieter_case(&mut tally, &first, &second, m);
        misled += (own.is_ok() && misleading(&first, &second, m, own)) as u64;
    }
    assert!(misled > 200, "{misled} pairs whose sums alone mislead");
    tally.ran(20_000, &[0, 1, 3, 5]);
}

#[test]
fn short_records_of_small_samples() {
    // Sums of a few squares of a few sizes: many a variance is the same, and many a smaller sum has the larger one.
    let (mut tally, mut random) = (Tally::default(), Random::new(313));
    let (mut misled, mut equals) = (0, 0);
    for _ in 0..12_000 {
        let m = random.below(5) + 1;
        let size = random.pick(&[1, 1, 2, 5]);
        let [first, second] = [(); 2].map(|_| {
            let length = 2 * m + 1 + random.below(9);
            (0..length).map(|_| random.between(0, size)).collect::<Vec<i64>>()
        });
        let own = quieter_case(&mut tally, &first, &second, m);
        misled += misleading(&first, &second, m, own) as u64;
        let [one, two] = [&first, &second].map(|samples| allan_sum(samples, m).expect("a sound record"));
        equals += (one.count != two.count && one.total > 0 && one.total * two.count as u128 == two.total * one.count as u128) as u64;
    }
    assert!(misled > 1_500 && equals > 150, "{misled} pairs whose sums alone mislead, {equals} of equal variances and different sums");
    tally.ran(12_000, &[0]);
}

#[test]
fn long_records() {
    let (mut tally, mut random) = (Tally::default(), Random::new(308));
    let mut misled = 0;
    for _ in 0..200 {
        let m = random.factor(10_922);
        let [first, second] = [(); 2].map(|_| {
            let length = if random.one_in(3) { 32_768 } else { random.between(2 * m as i64, 32_768) as usize };
            maybe_damaged(&mut random, length, 12)
        });
        let own = quieter_case(&mut tally, &first, &second, m);
        misled += (own.is_ok() && misleading(&first, &second, m, own)) as u64;
    }
    assert!(misled > 3, "{misled} pairs whose sums alone mislead");
    tally.ran(200, &[0, 3]);
}

/// A record whose second differences at factor m are all of one size, four times this one: at any length the variance is the same.
fn steady(length: usize, m: usize, size: i64) -> Vec<i64> {
    widest(length, m, |i| i % 3 > 0, || END - size)
}

/// The same with the sample at this index so much nearer to nought.
fn nearer(samples: &[i64], index: usize, by: i64) -> Vec<i64> {
    let mut samples = samples.to_vec();
    samples[index] -= by * samples[index].signum();
    samples
}

#[test]
fn equal_variances_of_different_sums() {
    let mut tally = Tally::default();
    for m in FACTORS {
        let lengths = [2 * m + 1, 2 * m + 2, 3 * m, 3 * m + 1, 32_768];
        let size = [END, END - 1, 1 << 20, 3, 1][m % 5];
        for (i, one) in lengths.into_iter().enumerate().filter(|&(_, length)| length > 2 * m) {
            for two in lengths.into_iter().skip(i).filter(|&length| length > 2 * m) {
                let [one, two] = [one, two].map(|length| steady(length, m, size));
                equal(&mut tally, &one, &two, m as u64);
                // One sample one picosecond nearer to nought: quieter, if only a little, whichever of the two is longer.
                quieter_first(&mut tally, &nearer(&one, 0, 1), &two, m as u64);
                quieter_first(&mut tally, &nearer(&two, two.len() - 1, 1), &one, m as u64);
            }
        }
    }
    tally.ran(900, &[0]);
}

/// So many whole numbers up to four times an end whose squares add up to this total, the largest first, where that many are enough.
fn squares(total: u128, many: usize) -> Option<Vec<i64>> {
    let mut roots = vec![0; many];
    let mut left = total;
    for root in &mut roots {
        let largest = left.isqrt().min(4 * END as u128);
        *root = largest as i64;
        left -= largest * largest;
    }
    (left == 0).then_some(roots)
}

/// A record with these second differences at factor m, in any order and of any sign, of which there are not more than m; what is in no term is any sample.
fn with_terms(random: &mut Random, roots: &[i64], m: usize) -> Vec<i64> {
    assert!(roots.len() <= m);
    let mut terms: Vec<i64> = roots.iter().map(|root| if random.one_in(2) { *root } else { -root }).collect();
    for i in (1..terms.len()).rev() {
        terms.swap(i, random.below(i as u64 + 1) as usize);
    }
    let sample = |i: usize| match terms.get(i % m) {
        Some(&d) => three_of(d)[i / m],
        None => random.between(-END, END),
    };
    (0..2 * m + roots.len()).map(sample).collect()
}

fn greatest_common_divisor(a: u128, b: u128) -> u128 {
    if b == 0 {
        a
    } else {
        greatest_common_divisor(b, a % b)
    }
}

/// The least sum from this one on, and the other, with A1 K2 - A2 K1 as near to nought as it can be on this side of it: below, equal or above.
fn nearest_sums(from: u128, k1: u128, k2: u128, side: i128) -> (u128, u128) {
    let common = greatest_common_divisor(k1, k2);
    let (k1, k2) = (k1 / common, k2 / common);
    let divided = |a1: u128| (a1 * k2) as i128 - side;
    let a1 = (from..).find(|&a1| divided(a1) >= 0 && divided(a1) % k1 as i128 == 0).expect("one in every K1");
    (a1, divided(a1) as u128 / k1)
}

/// Two records at factor m with so many terms and variances about as large as that of such a sum, as near to each other as they can be, or equal.
fn nearest_case(tally: &mut Tally, random: &mut Random, from: u128, k1: usize, k2: usize, m: usize) -> u64 {
    let mut same_deviations = 0;
    for side in [-1, 0, 1] {
        let (a1, a2) = nearest_sums(from, k1 as u128, k2 as u128, side);
        let (Some(one), Some(two)) = (squares(a1, k1), squares(a2, k2)) else { continue };
        let [first, second] = [one, two].map(|roots| with_terms(random, &roots, m));
        let [one, two] = [&first, &second].map(|samples| allan_sum(samples, m as u64).expect("a sound record"));
        assert_eq!((one, two), (Sum { total: a1, count: k1 as u64 }, Sum { total: a2, count: k2 as u64 }));
        let common = greatest_common_divisor(k1 as u128, k2 as u128) as i128;
        assert_eq!((a1 * k2 as u128) as i128 - (a2 * k1 as u128) as i128, side * common);
        match side {
            -1 => quieter_first(tally, &first, &second, m as u64),
            0 => equal(tally, &first, &second, m as u64),
            _ => quieter_first(tally, &second, &first, m as u64),
        }
        let [one, two] = [one, two].map(|sum| allan_deviation(sum.total, m as u64, sum.count));
        same_deviations += (side != 0 && one == two) as u64;
    }
    same_deviations
}

#[test]
fn variances_as_near_as_two_can_be() {
    let (mut tally, mut random) = (Tally::default(), Random::new(309));
    let mut same_deviations = 0;
    for _ in 0..2_500 {
        let m = random.below(60) as usize + 1;
        let [k1, k2] = [(); 2].map(|_| random.below(m as u64) as usize + 1);
        let from = random.wide(89) % ((k1 as u128) << 84);
        same_deviations += nearest_case(&mut tally, &mut random, from, k1, k2, m);
    }
    assert!(same_deviations > 500, "{same_deviations} pairs whose variances differ and whose deviations do not");
    tally.ran(9_428, &[0]);
}

#[test]
fn long_records_with_variances_as_near_as_two_can_be() {
    let (mut tally, mut random) = (Tally::default(), Random::new(310));
    let mut same_deviations = 0;
    for turn in 0..60 {
        let m = if turn % 2 == 0 { 10_922 } else { random.between(5_000, 10_922) as usize };
        let [k1, k2] = [(); 2].map(|_| random.between(20, m as i64) as usize);
        // The largest sums that leave a few terms for what is left over, and any.
        let largest = (k1 as u128 * (k2 - 15) as u128 / k2 as u128).min(k1 as u128 - 15) << 84;
        let from = if turn % 3 == 0 { largest - random.wide(80) } else { random.wide(98) % largest };
        same_deviations += nearest_case(&mut tally, &mut random, from, k1, k2, m);
    }
    assert!(same_deviations > 50, "{same_deviations} pairs whose variances differ and whose deviations do not");
    tally.ran(360, &[0]);
}

#[test]
fn sums_of_any_size_at_the_largest_factors() {
    // Far apart, so that what a product of too few bits would lose decides.
    let (mut tally, mut random) = (Tally::default(), Random::new(311));
    let mut misled = 0;
    for turn in 0..120 {
        let m = [10_922, 10_921, 8_192, 5_000][turn % 4];
        let [first, second] = [(); 2].map(|_| {
            let k = random.between(20, m as i64) as usize;
            let total = (k as u128 - 15) * (1 << 20) * random.word() as u128 + random.word() as u128;
            let roots = squares(total, k).expect("15 terms are enough for what is left");
            with_terms(&mut random, &roots, m)
        });
        let own = quieter_case(&mut tally, &first, &second, m as u64);
        misled += misleading(&first, &second, m as u64, own) as u64;
    }
    assert!(misled > 5, "{misled} pairs whose sums alone mislead");
    tally.ran(120, &[0]);
}

#[test]
fn smaller_sums_with_larger_variances() {
    let mut tally = Tally::default();
    // Many small terms add up to more than a few large ones.
    for m in FACTORS {
        for (many, few) in [(32_768, 2 * m + 1), (32_768, 2 * m + 2), (32_000, 2 * m + 3), (2 * m + 10, 2 * m + 3)] {
            for size in [1, 1_000, END / 2] {
                let (quiet, loud) = (steady(many, m, size), steady(few, m, size + 1));
                let [one, two] = [&quiet, &loud].map(|samples| allan_sum(samples, m as u64).expect("a sound record"));
                assert_eq!(one.total > two.total, size > 1 || one.count > 4 * two.count, "{one:?} and {two:?}");
                quieter_first(&mut tally, &quiet, &loud, m as u64);
            }
        }
    }
    tally.ran(240, &[0]);
}

#[test]
fn variances_of_nought() {
    let mut tally = Tally::default();
    let line = |length: usize, offset: i64, rate: i64| -> Vec<i64> { (0..length as i64).map(|i| offset + rate * i).collect() };
    for m in FACTORS {
        for (one, two) in [(2 * m + 1, 2 * m + 1), (2 * m + 1, 32_768), (2 * m + 5, 3 * m + 2)] {
            let lines = [line(one, END, 0), line(two, -END, 1 << 25), line(two, 5, -3)];
            for first in &lines {
                for second in &lines {
                    known_case(&mut tally, first, second, m as u64, Ok(Quieter::First));
                }
            }
            // The least that is above nought: one sample, one picosecond off the line, at an end of it or inside.
            for index in [0, m, two - 1] {
                let mut off = lines[2].clone();
                off[index] += 1;
                quieter_first(&mut tally, &lines[0], &off, m as u64);
            }
        }
    }
    tally.ran(450, &[0]);
}

#[test]
fn the_largest_sums() {
    let mut tally = Tally::default();
    for m in [1, 2, 3, 100, 5_000, 10_922] {
        let all = widest(32_768, m, |_| true, || 0);
        let other: Vec<i64> = all.iter().map(|x| -x).collect();
        let sum = allan_sum(&all, m as u64).expect("the ends are in range");
        assert_eq!(sum.total, (sum.count as u128) << 84);
        equal(&mut tally, &all, &other, m as u64);
        equal(&mut tally, &all, &all[..32_767], m as u64);
        equal(&mut tally, &all, &other[..2 * m + 1], m as u64);
        for index in [0, m, 2 * m, 32_767] {
            quieter_first(&mut tally, &nearer(&other, index, 1), &all, m as u64);
            quieter_first(&mut tally, &nearer(&all, index, 1), &other[1..], m as u64);
            quieter_first(&mut tally, &nearer(&all, index, END), &nearer(&other, index, 1), m as u64);
        }
    }
    tally.ran(180, &[0]);
}

#[test]
fn the_largest_sums_and_smaller_ones() {
    // Eighths of the largest size, at full length or nearly: what a sum or a product of a few bits too few would lose decides.
    let mut tally = Tally::default();
    for m in [1, 2, 10_922] {
        let sizes: Vec<i64> = (1..=8).map(|eighths| END / 8 * eighths).collect();
        for (i, &loud) in sizes.iter().enumerate() {
            for &quiet in &sizes[..i] {
                quieter_first(&mut tally, &steady(32_768, m, quiet), &steady(32_768 - i, m, loud), m as u64);
            }
        }
    }
    tally.ran(168, &[0]);
}

#[test]
fn the_same_memory_twice() {
    let (mut tally, mut random) = (Tally::default(), Random::new(312));
    for turn in 0..2_000 {
        let m = random.below(9) + 1;
        let length = random.below(50) as usize;
        let samples = maybe_damaged(&mut random, length, 6);
        let mut lent = Lent::holding(&samples);
        let memory = lent.part();
        // The whole of it twice: the first, or refused as a sum of it is. Then the same beginning, or the same end, at another length.
        let own = lent_case(&mut tally, memory, memory, m);
        assert_eq!(own, allan_sum(&samples, m).map(|_| Quieter::First), "turn {turn}");
        let shorter = random.below(length as u64 + 1) as usize;
        for (first, second) in [(&memory[..shorter], &memory[..]), (&memory[..], &memory[..shorter]), (&memory[..], &memory[shorter..])] {
            let own = lent_case(&mut tally, first, second, m);
            if own.is_ok() {
                misleading(first, second, m, own);
            }
        }
        assert!(lent.holds(&samples), "memory changed");
    }
    tally.ran(8_000, &[0, 1, 3]);
}

#[test]
fn parts_of_one_memory_that_overlap() {
    let mut tally = Tally::default();
    let sound: Vec<i64> = (0..24).map(|i: i64| [END, -END, 3, 0, i * i, -i][i as usize * 5 % 6]).collect();
    let mut bad = sound.clone();
    bad[11] = END + 1;
    let windows: Vec<(usize, usize)> =
        [0, 1, 2, 5, 8].into_iter().flat_map(|start| [4, 5, 6, 9, 12, 16].map(|length| (start, start + length))).collect();
    for samples in [&sound, &bad] {
        let mut lent = Lent::holding(samples);
        for m in [1, 2, 3] {
            for &(a, b) in &windows {
                for &(c, d) in &windows {
                    let memory = lent.part();
                    let own = lent_case(&mut tally, &memory[a..b], &memory[c..d], m);
                    let refusal = own.err().filter(|refusal| refusal.number == 3);
                    assert!(refusal.is_none_or(|refusal| [11 - a.min(11), 11 - c.min(11)].contains(&(refusal.place as usize))));
                    assert!(lent.holds(samples), "memory changed");
                }
            }
        }
    }
    tally.ran(5_400, &[0, 1, 3]);
}

#[test]
fn the_figures_of_the_rules() {
    let mut tally = Tally::default();
    equal(&mut tally, &[0, 1, 0, 1, 0], &[0, 1, 0, 1, 0, 1, 0], 1);
    quieter_first(&mut tally, &[0, 0, 0, 1, 0, 0, 0], &[0, 0, 1, 0], 1);
    known_case(&mut tally, &[END, 0, END], &[0, END + 1, 0], 1, refused(3, 1));
    tally.ran(5, &[0, 3]);
}
