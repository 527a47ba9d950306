//! Records of many kinds, and ways to damage them.

use super::random::Random;
use super::END;

/// Values outside the sample range: just outside, far outside, and such as look right in their lower halves.
pub const OUTSIDE: [i64; 8] = [END + 1, -END - 1, i64::MAX, i64::MIN, 2 * END, -2 * END, (1 << 62) + 5, i64::MIN + END];

/// A sound record of this length, of one of eight kinds.
pub fn record(random: &mut Random, length: usize) -> Vec<i64> {
    let kind = random.below(8);
    let size = random.sized(40) as i64;
    let mut last = random.between(-size, size);
    let (a, b) = (random.between(-size, size), random.between(-size, size));
    let next = |i: usize| match kind {
        0 => a,
        1 => random.between(-END, END),
        2 => random.between(-3, 3),
        3 => random.pick(&[-END, END]),
        4 => random.between(-size, size),
        5 => {
            last = (last + random.between(-size, size)).clamp(-END, END);
            last
        }
        6 => (a as i128 * i as i128 / 64 + b as i128).clamp(-END as i128, END as i128) as i64,
        _ => {
            let i = i as i128;
            (a as i128 * i * i / 4096 + b as i128 * i / 64 + random.between(-2, 2) as i128).clamp(-END as i128, END as i128) as i64
        }
    };
    (0..length).map(next).collect()
}

/// Puts one to three values outside the range, at any index, more often at the ends.
pub fn damage(random: &mut Random, samples: &mut [i64]) {
    if samples.is_empty() {
        return;
    }
    for _ in 0..=random.below(3) {
        let last = samples.len() - 1;
        let index = match random.below(6) {
            0 => 0,
            1 => last,
            _ => random.below(samples.len() as u64) as usize,
        };
        samples[index] = random.pick(&OUTSIDE);
    }
}

/// A record of this length, one in so many damaged.
pub fn maybe_damaged(random: &mut Random, length: usize, one_in: u64) -> Vec<i64> {
    let mut samples = record(random, length);
    if random.one_in(one_in) {
        damage(random, &mut samples);
    }
    samples
}

/// Factors at which something changes, each with both neighbours: the limits, and where 2m, 3m, 6m or m^2 passes a width.
pub fn factors() -> Vec<u64> {
    let passing = [1 << 15, 1 << 16, 1 << 31, 1 << 32, 1 << 63, u64::MAX / 3 + 1, u64::MAX / 6 + 1];
    super::with_neighbours(&[&[0, 1, 2, 3, 5_461, 10_922][..], &passing].concat())
}

/// The lengths at which something changes at factor m, each with both neighbours, also where 16 bits end; a factor out of range gets those of the
/// nearest in range.
pub fn lengths(m: u64) -> Vec<usize> {
    let m = m.clamp(1, 10_922);
    let all = super::with_neighbours(&[1, 2 * m, 2 * m + 1, 3 * m, 6 * m, 32_768, 1 << 16, (1 << 16) + 3 * m]);
    all.into_iter().map(|length| length as usize).collect()
}

/// Lengths of a buffer for an output of this length: none, one short, exact, one long, more.
pub fn rooms(output: usize) -> [usize; 5] {
    [0, output.saturating_sub(1), output, output + 1, output + 40]
}
