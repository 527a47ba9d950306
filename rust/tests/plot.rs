//! The crates `plot` and `noise` over the C boundary: drawn numbers, dots, noise types and bars.

#[allow(dead_code)]
mod shared;

use independent::noise::{self, Noise};
use independent::{drawn, Refusal};
use ploegelster::boundary::Bar;
use shared::answers::{expected, Words};
use shared::ends;
use shared::lent::Lent;
use shared::random::Random;
use shared::records::{factors, lengths, maybe_damaged, record};
use shared::{raw, shown, with_neighbours, Tally, END};
use std::collections::BTreeSet;

const TOP: u64 = 1 << 62;

fn drawn_case(tally: &mut Tally, r: u64) {
    tally.same(&raw::drawn_number(r), &ploegelster::drawn_number(r), &drawn::drawn_number(r), || format!("drawn number, r {r}"));
}

#[test]
fn drawn_at_every_power() {
    let mut tally = Tally::default();
    for power in 0..64 {
        for offset in [0, 1, 2, 3, 511, 512, 513, 1023, 1024, 1025, 2047, 2048, 2049] {
            drawn_case(&mut tally, (1 << power) + offset);
            drawn_case(&mut tally, (1u64 << power).wrapping_sub(offset));
        }
    }
    tally.ran(1_664, &[0, 3]);
}

#[test]
fn drawn_of_generated_numbers() {
    let (mut tally, mut random) = (Tally::default(), Random::new(31));
    for _ in 0..20_000 {
        drawn_case(&mut tally, random.sized(64));
        // 53 digits kept, and those below them at and about the half and the ends.
        let below = random.below(11);
        let kept = (1 << 52 | random.word() >> 12) << below;
        let half = (1u64 << below) / 2;
        drawn_case(&mut tally, kept + random.pick(&[0, half.saturating_sub(1), half, (1 << below) - 1]));
    }
    tally.ran(40_000, &[0, 3]);
}

/// The dots of one sum, factor and count: two cases. Gives their kinds.
fn dot_case(tally: &mut Tally, sum: u128, m: u64, count: u64) -> [u64; 2] {
    let input = |entry: &str| format!("{entry}, sum {sum}, factor {m}, count {count}");
    let dots = [raw::allan_dot(sum, m, count), raw::time_dot(sum, m, count)];
    tally.same(&dots[0], &ploegelster::allan_dot(sum, m, count), &drawn::allan_dot(sum, m, count), || input("Allan dot"));
    tally.same(&dots[1], &ploegelster::time_dot(sum, m, count), &drawn::time_dot(sum, m, count), || input("time dot"));
    dots.map(|dot| dot.kind)
}

#[test]
fn dots_at_every_limit() {
    let mut tally = Tally::default();
    let mut kinds = Vec::new();
    let sums: Vec<u128> = [0, 1 << 64, 1 << 85, 1 << 126, 1 << 127].into_iter().flat_map(|x: u128| [x.wrapping_sub(1), x, x + 1]).collect();
    for m in factors() {
        for count in with_neighbours(&[0, 1, 32_768, 1 << 32]) {
            for &sum in &sums {
                kinds.extend(dot_case(&mut tally, sum, m, count));
            }
        }
    }
    for kind in 0..=2 {
        assert!(kinds.contains(&kind));
    }
    tally.ran(9_900, &[0, 2, 3, 5]);
}

#[test]
fn dots_of_generated_sums() {
    let (mut tally, mut random) = (Tally::default(), Random::new(32));
    let mut kinds = [0; 3];
    for _ in 0..15_000 {
        // Sums up to 2^5 give deviations of nought at large factors.
        let most_bits = random.pick(&[5, 127]);
        let (sum, m, count) = (random.wide(most_bits), random.factor(10_922), random.below(34_000));
        for kind in dot_case(&mut tally, sum, m, count) {
            kinds[kind as usize] += 1;
        }
    }
    for m in 1..=10_922 {
        // Where the deviation first passes nought: D at or about a sum times 2^40.
        let count = ((1u64 << 40) / (2 * m * m)).clamp(1, 32_768);
        for kind in dot_case(&mut tally, 1, m, count) {
            kinds[kind as usize] += 1;
        }
    }
    assert!(kinds[0] > 1_000 && kinds[1] > 1_000, "{kinds:?}");
    tally.ran(51_844, &[0, 2, 3]);
}

fn type_case(tally: &mut Tally, r1: u64, r2: u64) -> i64 {
    let raw = raw::noise_type(r1, r2);
    tally.same(&raw, &ploegelster::noise_type(r1, r2), &noise::noise_type(r1, r2), || format!("noise type, r1 {r1}, r2 {r2}"));
    raw.alpha
}

#[test]
fn types_at_every_limit() {
    let mut tally = Tally::default();
    let limits = with_neighbours(&[0, 1, 3_444, 4_096, 4_871, 6_889, 9_742, 1 << 32, 1 << 52, TOP, 1 << 63]);
    for &r1 in &limits {
        for &r2 in &limits {
            type_case(&mut tally, r1, r2);
        }
    }
    tally.ran(961, &[0, 3, 8]);
}

#[test]
fn types_at_every_bound() {
    let (mut tally, mut random) = (Tally::default(), Random::new(33));
    let mut seen = [0; 5];
    for _ in 0..5_000 {
        let r1 = if random.one_in(4) { random.sized(50) << 12 } else { random.sized(62) }.max(1);
        for bound in [3_444, 4_871, 6_889, 9_742] {
            let r2 = (r1 as u128 * bound / 4096) as u64;
            for r2 in [r2.saturating_sub(1), r2, r2 + 1] {
                seen[(type_case(&mut tally, r1, r2) + 2) as usize] += 1;
            }
        }
    }
    assert!(seen.iter().all(|&times| times > 1_000), "{seen:?}");
    tally.ran(60_000, &[0, 3]);
}

/// The noise type of one record. Gives its alpha, where there is one.
fn record_case(tally: &mut Tally, samples: &[i64], m: u64) -> Option<i64> {
    let input = || format!("noise of a record, factor {m}, samples {}", shown(samples));
    let mut lent = Lent::holding(samples);
    let raw = raw::noise_of_record(lent.part(), m);
    tally.same(&raw, &ploegelster::noise_of_record(lent.part(), m), &noise::noise_of_record(samples, m), input);
    assert!(lent.holds(samples), "samples changed, {}", input());
    (raw.number == 0).then_some(raw.alpha)
}

#[test]
fn noise_of_records_at_every_limit() {
    let (mut tally, mut random) = (Tally::default(), Random::new(34));
    for m in factors() {
        for length in lengths(m) {
            let samples = record(&mut random, length);
            record_case(&mut tally, &samples, m);
            let samples = maybe_damaged(&mut random, length, 1);
            record_case(&mut tally, &samples, m);
        }
    }
    tally.ran(1_376, &[0, 1, 2, 3, 5, 8]);
}

#[test]
fn noise_of_generated_records() {
    let (mut tally, mut random) = (Tally::default(), Random::new(35));
    let mut seen = [0; 5];
    for turn in 0..12_000 {
        let long = turn % 20 == 0;
        let m = if long { random.factor(5_461) } else { random.below(9) };
        let length = if long { random.between(6 * m as i64 - 1, 32_768) } else { random.between(0, 80) } as usize;
        let samples = maybe_damaged(&mut random, length, 10);
        if let Some(alpha) = record_case(&mut tally, &samples, m) {
            seen[(alpha + 2) as usize] += 1;
        }
    }
    assert!(seen.iter().all(|&times| times > 100), "{seen:?}");
    tally.ran(12_000, &[0, 1, 3, 5, 8]);
}

/// The noise type of a record is refused 3 at its first sample outside the range, and never where there is none.
#[test]
fn noise_of_records_about_the_ends_of_the_range() {
    let (mut tally, mut random, mut factors) = (Tally::default(), Random::new(74), Random::new(75));
    let mut case = |samples: &[i64], first: Option<usize>| {
        // A record of under 6 samples is too short for any factor.
        if samples.len() >= 6 {
            let m = factors.between(1, samples.len() as i64 / 6) as u64;
            record_case(&mut tally, samples, m);
            let raw = raw::noise_of_record(samples, m);
            let place = (raw.number == 3).then_some(raw.place as usize);
            assert_eq!(place, first, "noise of a record, factor {m}, samples {}", shown(samples));
        }
    };
    ends::all_within(END, |samples| case(samples, None));
    ends::one_beyond(&mut random, END, |samples, index| case(samples, Some(index)));
    ends::several_beyond(&mut random, END, |samples, index| case(samples, Some(index)));
    ends::long_beyond(&mut random, END, 32_768, |samples, index| case(samples, Some(index)));
    tally.ran(60_806, &[0, 3, 8]);
}

/// The bars of one deviation, alpha and M. Gives the row over the plain C interface, where there is one.
fn bars_case(tally: &mut Tally, r: u64, alpha: i64, intervals: u64) -> Option<Bar> {
    let input = || format!("bars, r {r}, alpha {alpha}, M {intervals}");
    // No other number than the five is a type: 3 at place 0, before all else. The wrapper takes no other.
    let own = Noise::of_alpha(alpha).ok_or(Refusal { number: 3, place: 0 }).and_then(|noise| noise::bars(r, noise, intervals));
    let raw = raw::bars(r, alpha, intervals);
    tally.same_raw(&raw.words(), &expected(&own), input);
    if let Some(noise) = ploegelster::Noise::from_alpha(alpha) {
        tally.same_wrapped(&ploegelster::bars(r, noise, intervals), &own, input);
    }
    (raw.number == 0).then_some(raw.bar)
}

#[test]
fn bars_at_every_limit() {
    let mut tally = Tally::default();
    let alphas = [-2, -1, 0, 1, 2, -3, 3, 254, 256, 258, 1 << 32, -(1 << 32) + 2, i64::MIN, i64::MIN + 2, i64::MAX];
    for r in with_neighbours(&[0, 1, 4, 100, 101, 1 << 32, 1 << 53, TOP, 1 << 63]) {
        for alpha in alphas {
            for intervals in with_neighbours(&[0, 10, 100, 32_767, 1 << 16, 1 << 32]) {
                bars_case(&mut tally, r, alpha, intervals);
            }
        }
    }
    tally.ran_apart(6_210, 2_070, &[0, 1, 2, 3, 8]);
}

#[test]
fn bars_of_generated_deviations() {
    let (mut tally, mut random) = (Tally::default(), Random::new(36));
    for _ in 0..20_000 {
        let alpha = random.between(-2, 2);
        bars_case(&mut tally, random.sized(62), alpha, random.between(10, 32_767) as u64);
        // A square M and a w that its root divides, or nearly: h changes about here.
        let root = random.between(4, 181) as u64;
        let r = (random.sized(48) + 1) * root * 100;
        bars_case(&mut tally, r - random.below(3), alpha, root * root);
    }
    tally.ran(40_000, &[0, 3, 8]);
}

/// So many inputs of bars, each once, of which none is refused: every combination of the ends, then generated ones.
fn accepted_bars(random: &mut Random, many: usize) -> BTreeSet<(u64, i64, u64)> {
    let deviations = [1, 2, 3, 4, 100, 101, (1 << 53) - 1, 1 << 53, (1 << 53) + 1, TOP - 1, TOP];
    // The ends of M, and the squares next to them with their neighbours: 16 is 4 times 4, 32,761 is 181 times 181.
    let intervals = [10, 11, 15, 16, 17, 32_760, 32_761, 32_762, 32_766, 32_767];
    let mut inputs = BTreeSet::new();
    for r in deviations {
        for alpha in -2..=2 {
            inputs.extend(intervals.map(|intervals| (r, alpha, intervals)));
        }
    }
    assert_eq!(inputs.len(), 550);
    while inputs.len() < many {
        let alpha = random.between(-2, 2);
        inputs.insert(if random.one_in(2) {
            // From 1 to 2^62, small as often as large; the deviations beside a square M are large. M is often small: there h is widest.
            let most_bits = random.pick(&[12, 62]);
            (random.sized(most_bits) + 1, alpha, random.sized(15).max(10))
        } else {
            // A square M and a w that its root divides, or nearly: h changes about here.
            let root = random.between(4, 181) as u64;
            ((random.sized(47) + 1) * root * 100 - random.below(3), alpha, root * root)
        });
    }
    inputs
}

/// Whatever is answered has h below r (K10), so that no lower end is nought and a row needs nothing beside its three doubles.
#[test]
fn half_width_is_below_the_deviation() {
    let (mut tally, mut random) = (Tally::default(), Random::new(37));
    for (r, alpha, intervals) in accepted_bars(&mut random, 120_000) {
        let input = || format!("r {r}, alpha {alpha}, M {intervals}");
        let row = bars_case(&mut tally, r, alpha, intervals).unwrap_or_else(|| panic!("refused: {}", input()));
        let noise = Noise::of_alpha(alpha).expect("one of the five");
        let h = noise::half_width(r, noise, intervals);
        assert!(h < r, "h {h} is not below r: {}", input());
        assert!(row.low > 0.0 && row.low <= row.mid && row.mid <= row.high, "{row:?}: {}", input());
    }
    tally.ran(120_000, &[0]);
}
