//! Doubles of every class, and readings with fractions.

use super::random::Random;

/// Doubles of every class, each with both neighbours and both signs: every limit, and wholes, quarters and halves about an even number of every size,
/// so that ties lie on either side of it and of an odd one.
pub fn notable() -> Vec<f64> {
    let mut sizes = vec![0.0, 1e15, 1e300, f64::MIN_POSITIVE, f64::MAX, f64::from_bits((1 << 52) - 1)];
    sizes.extend((0..52).map(|place| f64::from_bits(1 << place)));
    sizes.extend((-60..70).map(|power| 2f64.powi(power)));
    for power in 0..53 {
        sizes.extend((-9..=9).map(|quarters| 2f64.powi(power) + quarters as f64 / 4.0));
    }
    let near: Vec<f64> = sizes.iter().flat_map(|size| [size.next_down(), size.next_up()]).collect();
    sizes.extend(near);
    sizes.push(f64::INFINITY);
    sizes.extend((0..52).map(|place| f64::from_bits(0x7FF << 52 | 1 << place)));
    let not_numbers = [3, 0xDEAD_BEEF, (1 << 51) - 1, (1 << 51) + 1, (1 << 52) - 1];
    sizes.extend(not_numbers.map(|payload| f64::from_bits(0x7FF << 52 | payload)));
    let mut bits: Vec<u64> = sizes.iter().flat_map(|size| [size.to_bits(), size.to_bits() ^ 1 << 63]).collect();
    bits.sort();
    bits.dedup();
    bits.into_iter().map(f64::from_bits).collect()
}

/// A double of any bits, most often near the sample range; it is often whole, a half, or next to a half, and at times infinite or not a number.
pub fn any_double(random: &mut Random) -> f64 {
    let size = if random.one_in(3) {
        let half = random.sized(42) as f64 / 2.0;
        random.pick(&[half.next_down(), half, half.next_up()])
    } else {
        let field = match random.below(16) {
            0 => 2047,
            1..4 => random.below(2048),
            _ => 1023 - 3 + random.below(48),
        };
        let fraction = (random.word() >> 12) & (u64::MAX << random.below(53));
        f64::from_bits(field << 52 | fraction)
    };
    f64::from_bits(size.to_bits() ^ random.below(2) << 63)
}

/// The samples as doubles, and with a fraction none of them, all, or one in so many.
pub fn readings(random: &mut Random, samples: &[i64]) -> Vec<f64> {
    let one_in = random.pick(&[0, 1, 2, 7]);
    let mut reading = |x: i64| {
        let whole = x as f64;
        if one_in == 0 || !random.one_in(one_in) {
            return whole;
        }
        let size = random.pick(&[0.5, 0.25, 0.75, 0.1, 0.9]);
        // Toward nought, so that the ends of the range stay in it.
        if x > 0 {
            whole - size
        } else {
            whole + size
        }
    };
    samples.iter().map(|&x| reading(x)).collect()
}
