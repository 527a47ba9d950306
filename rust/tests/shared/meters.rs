//! What the tests of the meter and of the channels share: the totals over the stretches of a stream, worked from scratch, and meters made by hand.

use super::answers::Values;
use super::random::Random;
use super::records::OUTSIDE;
use super::END;
use independent::meter::Meter;
use independent::sums::Sum;
use independent::Answer;

/// A sum and its count, added up over the stretches. One that is too short is refused 1 and gives nothing.
pub fn total(stretches: &[Vec<i64>], of: impl Fn(&[i64]) -> Answer<Sum>) -> Sum {
    let mut total = Sum { total: 0, count: 0 };
    for stretch in stretches {
        match of(stretch) {
            Ok(sum) => total = Sum { total: total.total + sum.total, count: total.count + sum.count },
            Err(refusal) => assert_eq!((refusal.number, refusal.place), (1, 0)),
        }
    }
    total
}

/// A total as a part of a report: 0 and the sum with its count, or 1 and noughts where it has no terms.
pub fn part(total: &Sum) -> Vec<u64> {
    match total.count {
        0 => vec![1, 0, 0, 0],
        _ => [vec![0], total.values()].concat(),
    }
}

/// The sum of the latest m second differences of a stretch, of all where there are fewer.
pub fn latest(stretch: &[i64], m: usize) -> i128 {
    let x = |i: usize| stretch[i] as i128;
    let differences = stretch.len().saturating_sub(2 * m);
    (differences.saturating_sub(m)..differences).map(|i| x(i + 2 * m) - 2 * x(i + m) + x(i)).sum()
}

/// A factor to work the limits of a meter made by hand from: its own, or a small one where its own is out of range, so that no ring gets too long.
pub fn worked_factor(m: u64) -> u64 {
    if m >= 1 && m <= 10_923 {
        m
    } else {
        3
    }
}

/// A number near a limit, or any.
pub fn near(random: &mut Random, limits: &[u64]) -> u64 {
    match random.below(8) {
        0 => random.word(),
        _ => random.pick(limits).wrapping_add(random.below(3)).wrapping_sub(1),
    }
}

/// A meter made by hand: each field at or about a limit now and then, else such as holds together.
pub fn hand_made(random: &mut Random) -> Meter {
    let odd = |random: &mut Random| random.one_in(12);
    let m = match random.below(40) {
        0 => near(random, &[0, 1, 10_922, 1 << 32, 1 << 63, u64::MAX / 3]),
        1 => 10_922,
        2 => random.factor(10_922),
        _ => random.below(9) + 1,
    };
    let due = worked_factor(m);
    let stretch = match odd(random) {
        true => near(random, &[0, 32_768, 1 << 16, 1 << 32]),
        false if random.one_in(3) => random.below(32_769),
        false => near(random, &[due, 2 * due, 3 * due, 4 * due, 32_767]).min(32_768),
    };
    let least = stretch.min(32_768);
    let n = match random.below(15) {
        0 => near(random, &[0, least, 32_768, 1 << 16, 1 << 32]),
        1 => 32_768,
        2..=5 => least,
        6..=8 => 32_767.max(least),
        _ => least + random.below(32_769 - least),
    };
    let count = |random: &mut Random| match random.below(20) {
        0 => near(random, &[0, n, 32_768, 1 << 32]),
        1..=4 => 0,
        5..=6 => n,
        _ => random.below(n.min(32_768) + 1),
    };
    let (k, c) = (count(random), count(random));
    let sum = |random: &mut Random| match odd(random) {
        true => (near(random, &[1 << 62, 1 << 63]) as u128) << 64 | near(random, &[0]) as u128,
        false if random.one_in(4) => ((1 << 62) - 1) << 64 | near(random, &[0]) as u128,
        false => random.wide(126),
    };
    let (a, b) = (sum(random), sum(random));
    let end = (due as i64) << 42;
    let window = match random.below(8) {
        0 => random.pick(&[i64::MIN, i64::MIN + 1, i64::MAX, 0, 1, -1]),
        1 => random.pick(&[end + 1, -end - 1]),
        2 => random.pick(&[end, -end, end - 1, 1 - end]),
        _ => random.between(-end, end),
    };
    Meter { m, n, stretch, k, c, a, b, window }
}

/// A sample for it, one in ten outside the range.
pub fn hand_made_sample(random: &mut Random) -> i64 {
    match random.below(10) {
        0 => random.pick(&OUTSIDE),
        1 => END,
        2 => -END,
        _ => random.between(-END, END),
    }
}
