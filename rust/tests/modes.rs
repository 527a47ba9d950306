//! The caller's floating-point modes have no say: every entry that takes or gives a double, over the C boundary, in each rounding direction and with
//! subnormals treated in each way. The second implementation answers in the modes in which the program started.
#![cfg(target_arch = "x86_64")]

#[allow(dead_code)]
mod shared;

use independent::floats::float_sums;
use independent::noise::{self, Noise};
use independent::{drawn, Refusal};
use shared::answers::{expected, Words};
use shared::doubles::{any_double, notable, readings};
use shared::lent::Lent;
use shared::random::Random;
use shared::records::record;
use shared::{raw, shown, with_neighbours, Tally, END};
use std::arch::asm;
use std::hint::black_box;

const TOP: u64 = 1 << 62;

/// What happened, in the lowest bits of the register MXCSR: a call may set these.
const FLAGS: u32 = 0x3F;
/// Every floating-point exception masked.
const MASKED: u32 = 0x3F << 7;
/// Subnormals are taken for nought.
const TAKEN: u32 = 1 << 6;
/// Subnormals are given as nought.
const GIVEN: u32 = 1 << 15;

const ROUNDING: [(&str, u32); 4] = [("to the nearest", 0), ("down", 1 << 13), ("up", 2 << 13), ("toward nought", 3 << 13)];
const SUBNORMALS: [(&str, u32); 4] =
    [("untouched", 0), ("taken for nought", TAKEN), ("given as nought", GIVEN), ("neither taken nor given", TAKEN | GIVEN)];

/// A mode in words and as it stands in MXCSR.
struct Mode {
    words: String,
    bits: u32,
}

fn modes() -> Vec<Mode> {
    let mode = |(rounding, direction): (&str, u32), (treated, subnormals): (&str, u32)| Mode {
        words: format!("rounding {rounding}, subnormals {treated}"),
        bits: MASKED | direction | subnormals,
    };
    ROUNDING.into_iter().flat_map(|rounding| SUBNORMALS.map(|subnormals| mode(rounding, subnormals))).collect()
}

/// What a call answers in a mode, which it leaves as it was. The mode is set and taken back in one piece with the call, so that nothing but the call
/// is worked in it.
fn in_mode<T, F: FnOnce() -> T>(mode: &Mode, call: F) -> T {
    extern "C" fn work<T, F: FnOnce() -> T>(call_and_answer: &mut (Option<F>, Option<T>)) {
        let (call, answer) = call_and_answer;
        *answer = call.take().map(|call| call());
    }
    let mut call_and_answer = (Some(call), None);
    let [mut before, mut after] = [0u32; 2];
    unsafe {
        asm!(
            "stmxcsr [r12]",
            "ldmxcsr [r13]",
            "call {work}",
            "stmxcsr [r14]",
            "ldmxcsr [r12]",
            work = sym work::<T, F>,
            in("rdi") &mut call_and_answer,
            // Registers that a call keeps.
            in("r12") &mut before,
            in("r13") &mode.bits,
            in("r14") &mut after,
            clobber_abi("C"),
        );
    }
    assert_eq!(before & !FLAGS, MASKED, "the mode that a program starts in");
    assert_eq!(after & !FLAGS, mode.bits, "the mode after the call, {}", mode.words);
    call_and_answer.1.expect("the call was made")
}

/// The modes act in this process: sums that a double does not hold come out as the rounding says, and subnormals as they are treated.
#[test]
fn the_modes_act() {
    let little = 2f64.powi(-60);
    let (above, below) = (1f64.next_up(), 1f64.next_down());
    for mode in modes() {
        let sum = |a: f64, b: f64| in_mode(&mode, || black_box(black_box(a) + black_box(b)));
        let product = |a: f64, b: f64| in_mode(&mode, || black_box(black_box(a) * black_box(b)));
        let rounded = match mode.bits & 3 << 13 {
            0x0000 => [1.0, 1.0, -1.0],
            0x2000 => [1.0, below, -above],
            0x4000 => [above, 1.0, -1.0],
            _ => [1.0, below, -1.0],
        };
        assert_eq!([sum(1.0, little), sum(1.0, -little), sum(-1.0, -little)], rounded, "{}", mode.words);
        // A subnormal that is compared, and one with a product that is none.
        let equal = in_mode(&mode, || black_box(black_box(5e-324) == black_box(0.0)));
        let taken = mode.bits & TAKEN != 0;
        assert_eq!((equal, product(5e-324, 2f64.powi(60)) == 0.0), (taken, taken), "{}", mode.words);
        // A product that is subnormal, of numbers that are not.
        assert_eq!(product(f64::MIN_POSITIVE.next_up(), 0.75) == 0.0, mode.bits & GIVEN != 0, "{}", mode.words);
    }
}

#[test]
fn a_subnormal_is_a_fraction_in_every_mode() {
    for mode in modes() {
        for reading in [5e-324, -5e-324] {
            let mut samples = [7; 3];
            let answer = in_mode(&mode, || raw::float_sums(&[0.0, reading, 0.0], 1, &mut samples));
            assert_eq!(samples, [0, 0, 0], "{}", mode.words);
            assert_eq!(answer.words(), [0, 0, 0, 0, 0, 1, 0, 0, 0, 1, 1], "{}", mode.words);
        }
    }
}

/// Readings in every mode: sixteen cases.
fn readings_case(tally: &mut Tally, readings: &[f64], m: u64) {
    let mut own_buffer = Lent::painted(readings.len() + 1);
    let own = expected(&float_sums(readings, m, own_buffer.part()));
    for mode in modes() {
        let input = || format!("float sums, {}, factor {m}, readings {}", mode.words, shown(readings));
        let (mut lent, mut buffer) = (Lent::holding(readings), Lent::painted(readings.len() + 1));
        let (readings_part, buffer_part) = (lent.part(), buffer.part());
        let raw = in_mode(&mode, || raw::float_sums(readings_part, m, buffer_part));
        tally.same_raw(&raw.words(), &own, input);
        assert_eq!(buffer.differs(&own_buffer), None, "first other entry of the buffer, {}", input());
        assert!(lent.holds(readings), "readings changed, {}", input());
    }
}

#[test]
fn notable_readings_in_every_mode() {
    let mut tally = Tally::default();
    for (turn, reading) in notable().into_iter().enumerate() {
        let mut readings = [0.5, -7.0, 5e-324];
        readings[turn % 3] = reading;
        readings_case(&mut tally, &readings, 1);
    }
    tally.ran_apart(103_648, 0, &[0, 3, 4]);
}

#[test]
fn generated_readings_in_every_mode() {
    let (mut tally, mut random) = (Tally::default(), Random::new(51));
    for _ in 0..2_000 {
        let any: Vec<f64> = (0..3 + random.below(3)).map(|_| any_double(&mut random)).collect();
        readings_case(&mut tally, &any, 1);
        // All 64 bits of one reading by chance.
        let any = [0.0, f64::from_bits(random.word()), 0.0];
        readings_case(&mut tally, &any, 1);
    }
    for m in [1, 100, 10_922] {
        for _ in 0..4 {
            let sound = record(&mut random, 32_768);
            readings_case(&mut tally, &readings(&mut random, &sound), m);
        }
        // Every reading a half, ties to odd and to even in turn, as far as the range goes.
        let halves: Vec<f64> = (0..32_768).map(|i| END as f64 - 0.5 - (i as f64) * (1 << 26) as f64 - (i % 2) as f64).collect();
        readings_case(&mut tally, &halves, m);
    }
    tally.ran_apart(64_240, 0, &[0, 3, 4]);
}

/// A number drawn in every mode: sixteen cases.
fn drawn_case(tally: &mut Tally, r: u64) {
    let own = expected(&drawn::drawn_number(r));
    for mode in modes() {
        let raw = in_mode(&mode, || raw::drawn_number(r));
        tally.same_raw(&raw.words(), &own, || format!("drawn number, {}, r {r}", mode.words));
    }
}

#[test]
fn drawn_numbers_in_every_mode() {
    let (mut tally, mut random) = (Tally::default(), Random::new(52));
    for power in 0..64 {
        for offset in [0, 1, 2, 3, 511, 512, 513, 1023, 1024, 1025] {
            drawn_case(&mut tally, (1 << power) + offset);
            drawn_case(&mut tally, (1u64 << power).wrapping_sub(offset));
        }
    }
    for _ in 0..2_000 {
        drawn_case(&mut tally, random.sized(64));
    }
    tally.ran_apart(52_480, 0, &[0, 3]);
}

/// Both dots in every mode: thirty-two cases.
fn dots_case(tally: &mut Tally, sum: u128, m: u64, count: u64) {
    let own = [expected(&drawn::allan_dot(sum, m, count)), expected(&drawn::time_dot(sum, m, count))];
    for mode in modes() {
        let input = |entry: &str| format!("{entry}, {}, sum {sum}, factor {m}, count {count}", mode.words);
        let raw = in_mode(&mode, || raw::allan_dot(sum, m, count));
        tally.same_raw(&raw.words(), &own[0], || input("Allan dot"));
        let raw = in_mode(&mode, || raw::time_dot(sum, m, count));
        tally.same_raw(&raw.words(), &own[1], || input("time dot"));
    }
}

#[test]
fn dots_in_every_mode() {
    let (mut tally, mut random) = (Tally::default(), Random::new(53));
    let sums: Vec<u128> = [0, 1 << 64, 1 << 85, 1 << 126, 1 << 127].into_iter().flat_map(|x: u128| [x.wrapping_sub(1), x, x + 1]).collect();
    for m in with_neighbours(&[1, 10_922]) {
        for count in with_neighbours(&[0, 1, 32_768]) {
            for &sum in &sums {
                dots_case(&mut tally, sum, m, count);
            }
        }
    }
    for _ in 0..1_000 {
        // Sums up to 2^5 give deviations of nought at large factors.
        let most_bits = random.pick(&[5, 127]);
        let (sum, m, count) = (random.wide(most_bits), random.factor(10_922), random.below(34_000));
        dots_case(&mut tally, sum, m, count);
    }
    tally.ran_apart(52_160, 0, &[0, 2, 3, 5]);
}

/// A bar row in every mode: sixteen cases.
fn bars_case(tally: &mut Tally, r: u64, alpha: i64, intervals: u64) {
    let own = Noise::of_alpha(alpha).ok_or(Refusal { number: 3, place: 0 }).and_then(|noise| noise::bars(r, noise, intervals));
    let own = expected(&own);
    for mode in modes() {
        let raw = in_mode(&mode, || raw::bars(r, alpha, intervals));
        tally.same_raw(&raw.words(), &own, || format!("bars, {}, r {r}, alpha {alpha}, M {intervals}", mode.words));
    }
}

#[test]
fn bars_in_every_mode() {
    let (mut tally, mut random) = (Tally::default(), Random::new(54));
    for r in with_neighbours(&[0, 1, 4, 100, 1 << 53, TOP, 1 << 63]) {
        for alpha in -3..=3 {
            for intervals in with_neighbours(&[0, 10, 100, 32_767]) {
                bars_case(&mut tally, r, alpha, intervals);
            }
        }
    }
    for _ in 0..2_000 {
        bars_case(&mut tally, random.sized(62), random.between(-2, 2), random.between(10, 32_767) as u64);
    }
    tally.ran_apart(57_536, 0, &[0, 1, 2, 3, 8]);
}
