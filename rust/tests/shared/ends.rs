//! Where a block of terms or values ends, and where a range of values does: counts and indices about the one, records about the other.

use super::random::Random;
use super::{with_neighbours, END};

/// Lengths of the blocks in which a machine may work a record.
pub const BLOCKS: [usize; 10] = [2, 4, 8, 16, 32, 64, 128, 256, 512, 1_024];

/// Factors on either side of a block's length and far from one, up to the largest.
pub const FACTORS: [usize; 10] = [1, 2, 3, 5, 42, 127, 128, 129, 1_000, 10_922];

/// Counts one below, at and one above the first three multiples of every block's length.
pub fn block_counts() -> Vec<usize> {
    let ends: Vec<u64> = BLOCKS.iter().flat_map(|&block| [1, 2, 3].map(|times| (times * block) as u64)).collect();
    with_neighbours(&ends).into_iter().map(|count| count as usize).collect()
}

/// The same about the last multiple of every block's length up to a largest count, and none above that.
pub fn last_block_counts(largest: usize) -> Vec<usize> {
    let ends: Vec<u64> = BLOCKS.iter().map(|&block| (largest - largest % block) as u64).collect();
    let counts = with_neighbours(&ends).into_iter().map(|count| count as usize);
    counts.filter(|&count| count >= 1 && count <= largest).collect()
}

/// The first and the last index of a list of this length, and those about the first three ends and the last end of every block.
pub fn borders(length: usize) -> Vec<usize> {
    let mut indexes = [vec![0, length - 1], block_counts(), last_block_counts(length)].concat();
    indexes.retain(|&index| index < length);
    indexes.sort();
    indexes.dedup();
    indexes
}

/// A record in which sample i+m lies at the other end than sample i, so that every second difference at factor m is as large as it can be. The signs
/// of the first m samples are the signs of their differences; each sample stays so far short of its end.
pub fn widest(length: usize, m: usize, positive: impl Fn(usize) -> bool, mut short: impl FnMut() -> i64) -> Vec<i64> {
    let sample = |i: usize| if positive(i % m) != (i / m % 2 == 1) { END - short() } else { short() - END };
    (0..length).map(sample).collect()
}

/// Records whose second differences at factor m are of the largest size, of one sign for m terms at a time or of any signs, and one in which each
/// term has its own value.
pub fn few_extremes(random: &mut Random, length: usize, m: usize) -> Vec<Vec<i64>> {
    let signs: Vec<bool> = (0..m).map(|_| random.one_in(2)).collect();
    vec![
        widest(length, m, |_| true, || 0),
        // An end itself leaves nothing in the lower half of a difference; a little short of it both halves are large.
        widest(length, m, |i| signs[i], || random.between(0, 3)),
        (0..length).map(|_| random.between(-END, END)).collect(),
    ]
}

/// The same, and more: of the other sign, of a sign that changes with every term or once within m terms, and with a single step from end to end.
pub fn extremes(random: &mut Random, length: usize, m: usize) -> Vec<Vec<i64>> {
    let change = random.below(m as u64) as usize;
    let step = random.below(length as u64) as usize;
    let mut records = few_extremes(random, length, m);
    records.extend([
        widest(length, m, |_| false, || 0),
        widest(length, m, |i| i % 2 == 0, || 0),
        widest(length, m, |i| i < change, || random.between(0, 1)),
        (0..length).map(|i| if i < step { -END } else { END }).collect(),
    ]);
    records
}

/// Numbers up to a size either way at which the parts of a number change: every power of two, the size less a power of two, and their neighbours.
pub fn powers(size: i64) -> Vec<i64> {
    let powers: Vec<i64> = (0..62).map(|place| 1 << place).filter(|&power| power <= size).collect();
    let sizes = powers.iter().flat_map(|&power| [power, size - power]).chain([size]);
    let mut numbers: Vec<i64> = sizes.flat_map(|x| [x - 1, x, x + 1]).filter(|x| x.abs() <= size).flat_map(|x| [x, -x]).collect();
    numbers.sort();
    numbers.dedup();
    numbers
}

/// Three samples with this second difference, in range wherever any three are.
pub fn three_of(d: i64) -> [i64; 3] {
    let middle = -d.signum() * (d.abs() + 3) / 4;
    let rest = d + 2 * middle;
    [rest / 2, middle, rest - rest / 2]
}

/// Values in the range that goes to this end either way: the ends, the halves, nought, and what lies next to them.
pub fn within(end: i64) -> Vec<i64> {
    let half = end / 2;
    vec![-end, 1 - end, -half - 1, -half, 1 - half, -2, -1, 0, 1, 2, half - 1, half, half + 1, end - 1, end]
}

/// Values outside that range: the nearest, every power of two, what is a power of two from an end of the range or from the end of a word, and what
/// lies next to them.
pub fn beyond(end: i64) -> Vec<i64> {
    let (end, word) = (end as i128, 1i128 << 63);
    let powers = (0..64).map(|place| 1i128 << place);
    let sizes = powers.flat_map(|power| [power, end + power, word - power]).chain([word - end, word - 2 * end, word / 2 + end]);
    let mut values: Vec<i128> = sizes.flat_map(|size| [size - 1, size, size + 1]).flat_map(|size| [size, -size]).collect();
    values.retain(|value| value.abs() > end && *value >= -word && *value < word);
    values.sort();
    values.dedup();
    values.into_iter().map(|value| value as i64).collect()
}

/// Records of values in range only, two kinds of value in each: one alone among the others, both in turn, or one after the other. Their bits, taken
/// together, are those of many a value outside.
pub fn all_within(end: i64, mut case: impl FnMut(&[i64])) {
    for length in [3, 8, 17, 70] {
        for one in within(end) {
            for other in within(end) {
                for alone in [0, length / 2, length - 1] {
                    let mut values = vec![other; length];
                    values[alone] = one;
                    case(&values);
                }
                let values: Vec<i64> = (0..length).map(|i| if i % 2 == 0 { one } else { other }).collect();
                case(&values);
                let values: Vec<i64> = (0..length).map(|i| if i < length / 2 { one } else { other }).collect();
                case(&values);
            }
        }
    }
}

/// Short records with one value outside, every such value at every index, and what is in range as chance has it. A case is told the index.
pub fn one_beyond(random: &mut Random, end: i64, mut case: impl FnMut(&[i64], usize)) {
    let within = within(end);
    for length in [3, 9, 17, 34] {
        for index in 0..length {
            for value in beyond(end) {
                let mut values: Vec<i64> = (0..length).map(|_| random.pick(&within)).collect();
                values[index] = value;
                case(&values, index);
            }
        }
    }
}

/// Short records with two values outside at every two indices, or with all of them outside from an index on. Of two, the second may be the same, so
/// that they differ in nothing, or the first the other way round, so that they add up to nothing. A case is told the first index.
pub fn several_beyond(random: &mut Random, end: i64, mut case: impl FnMut(&[i64], usize)) {
    let (within, beyond) = (within(end), beyond(end));
    let length = 20;
    for first in 0..length {
        for _ in 0..8 {
            let sound: Vec<i64> = (0..length).map(|_| random.pick(&within)).collect();
            let mut values = sound.clone();
            values[first..].fill_with(|| random.pick(&beyond));
            case(&values, first);
            for second in first + 1..length {
                let one = random.pick(&beyond);
                for other in [one, one.checked_neg().unwrap_or(one), random.pick(&beyond)] {
                    let mut values = sound.clone();
                    [values[first], values[second]] = [one, other];
                    case(&values, first);
                }
            }
        }
    }
}

/// Long records with a value outside where a block ends or begins, alone, or with another later on, in the same block or not. A case is told the
/// first index.
pub fn long_beyond(random: &mut Random, end: i64, longest: usize, mut case: impl FnMut(&[i64], usize)) {
    let (within, beyond) = (within(end), beyond(end));
    for length in [1_027, 4_096, longest] {
        let mut values: Vec<i64> = (0..length).map(|_| random.pick(&within)).collect();
        for index in borders(length) {
            let sound = values[index];
            for value in [end + 1, -end - 1, random.pick(&beyond)] {
                values[index] = value;
                case(&values, index);
            }
            for later in [index + 1, index + random.sized(10) as usize + 1, length - 1] {
                if later > index && later < length {
                    let sound = std::mem::replace(&mut values[later], random.pick(&beyond));
                    case(&values, index);
                    values[later] = sound;
                }
            }
            values[index] = sound;
        }
    }
}
