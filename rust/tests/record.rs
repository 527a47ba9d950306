//! The crates `frequency` and `drift` over the C boundary.

#[allow(dead_code)]
mod shared;

use independent::{drift, frequency, Answer};
use ploegelster::boundary::CountAnswer;
use ploegelster::{Drift, Ground, Refusal};
use shared::ends;
use shared::lent::{Lent, Sides};
use shared::random::Random;
use shared::records::{damage, maybe_damaged, record, rooms, OUTSIDE};
use shared::{raw, shown, Tally, END};

/// An entry that reads values and writes to a buffer, on all sides.
struct Entry {
    name: &'static str,
    raw: fn(&[i64], &mut [i64]) -> CountAnswer,
    wrapped: fn(&[i64], &mut [i64]) -> Result<usize, Refusal>,
    own: fn(&[i64], &mut [i64]) -> Answer<u64>,
}

const PHASE: Entry = Entry {
    name: "phase from frequency",
    raw: raw::phase_from_frequency,
    wrapped: ploegelster::phase_from_frequency,
    own: frequency::phase_from_frequency,
};

const FREQUENCY: Entry = Entry {
    name: "frequency from phase",
    raw: raw::frequency_from_phase,
    wrapped: ploegelster::frequency_from_phase,
    own: frequency::frequency_from_phase,
};

const REMOVAL: Entry = Entry { name: "drift removal", raw: raw::remove_drift, wrapped: ploegelster::remove_drift, own: drift::remove_drift };

/// One case of an entry, with a buffer of this length.
fn case(tally: &mut Tally, entry: &Entry, values: &[i64], room: usize) {
    let input = || format!("{}, buffer of {room}, values {}", entry.name, shown(values));
    let (mut lent, mut buffers) = (Lent::holding(values), Sides::painted(room));
    let own = (entry.own)(values, buffers.own.part());
    let raw = (entry.raw)(lent.part(), buffers.raw.part());
    tally.same(&raw, &(entry.wrapped)(lent.part(), buffers.wrapped.part()), &own, input);
    buffers.same_painted(own.is_err(), input);
    assert!(lent.holds(values), "values changed, {}", input());
}

fn phase_case(tally: &mut Tally, readings: &[i64], room: usize) {
    case(tally, &PHASE, readings, room);
}

fn frequency_case(tally: &mut Tally, samples: &[i64], room: usize) {
    case(tally, &FREQUENCY, samples, room);
}

fn removal_case(tally: &mut Tally, samples: &[i64], room: usize) {
    case(tally, &REMOVAL, samples, room);
}

fn figure_case(tally: &mut Tally, samples: &[i64]) {
    let mut lent = Lent::holding(samples);
    let (raw, wrapped) = (raw::drift_figure(lent.part()), ploegelster::drift_figure(lent.part()));
    tally.same(&raw, &wrapped, &drift::drift_figure(samples), || format!("drift figure, samples {}", shown(samples)));
    assert!(lent.holds(samples), "samples changed, {}", shown(samples));
}

/// One case of phases from a start. From 0 the answer and the buffer are those of phases from frequency. Gives number and place.
fn start_case(tally: &mut Tally, start: i64, readings: &[i64], room: usize) -> (u64, u64) {
    let input = || format!("phase from start, start {start}, buffer of {room}, readings {}", shown(readings));
    let (mut lent, mut buffers) = (Lent::holding(readings), Sides::painted(room));
    let own = frequency::phase_from_start(start, readings, buffers.own.part());
    let raw = raw::phase_from_start(start, lent.part(), buffers.raw.part());
    tally.same(&raw, &ploegelster::phase_from_start(start, lent.part(), buffers.wrapped.part()), &own, input);
    buffers.same_painted(own.is_err(), input);
    if start == 0 {
        let mut older = Lent::painted(room);
        assert_eq!(raw, raw::phase_from_frequency(lent.part(), older.part()), "phase from start left, from frequency right, {}", input());
        assert_eq!(buffers.raw.differs(&older), None, "first other entry of the buffer, phase from frequency, {}", input());
    }
    assert!(lent.holds(readings), "readings changed, {}", input());
    (raw.number, raw.place)
}

/// Readings whose running phase stays in range: the steps from a start to each sample of a record.
fn readings_from(random: &mut Random, start: i64, length: usize) -> Vec<i64> {
    let mut last = start;
    record(random, length).into_iter().map(|x| x - std::mem::replace(&mut last, x)).collect()
}

/// The same from 0.
fn readings(random: &mut Random, length: usize) -> Vec<i64> {
    readings_from(random, 0, length)
}

/// The readings with some of them moved, so that the phase may leave the range, by a little or by so much that a word would wrap.
fn moved(random: &mut Random, mut readings: Vec<i64>) -> Vec<i64> {
    for _ in 0..random.below(3) {
        if !readings.is_empty() {
            let index = random.below(readings.len() as u64) as usize;
            let steps = [1, -1, END, -END, 2 * END, -2 * END, 2 * END + 1, -2 * END - 1, i64::MAX, i64::MIN];
            readings[index] = readings[index].wrapping_add(random.pick(&steps));
        }
    }
    readings
}

const LENGTHS: [usize; 12] = [0, 1, 2, 3, 4, 5, 1_000, 32_766, 32_767, 32_768, 32_769, 40_000];

#[test]
fn limits_of_length_and_room() {
    let (mut tally, mut random) = (Tally::default(), Random::new(11));
    for length in LENGTHS {
        for output in [length.saturating_sub(1), length, length + 1] {
            for room in rooms(output) {
                let sound = readings(&mut random, length);
                phase_case(&mut tally, &sound, room);
                let other = moved(&mut random, sound);
                phase_case(&mut tally, &other, room);
                let samples = maybe_damaged(&mut random, length, 4);
                frequency_case(&mut tally, &samples, room);
                removal_case(&mut tally, &samples, room);
                figure_case(&mut tally, &samples);
            }
        }
    }
    tally.ran(900, &[0, 1, 2, 3, 6]);
}

#[test]
fn phases_that_reach_an_end_and_pass_it() {
    let mut tally = Tally::default();
    for end in [END, -END] {
        let unit = end.signum();
        for first in [0, 1, 7, END - 1, END] {
            // To the end exactly, then back, one short of it, and one past it.
            for last in [-unit, 0, unit, -2 * end, -2 * end - unit, 2 * end, i64::MAX, i64::MIN] {
                let readings = [first * unit, end - first * unit, last, 0];
                for length in 0..=4 {
                    phase_case(&mut tally, &readings[..length], 5);
                }
            }
        }
    }
    for reading in OUTSIDE.into_iter().chain([END, -END, END - 1, 1 - END]) {
        phase_case(&mut tally, &[reading], 2);
        phase_case(&mut tally, &[END, reading], 3);
        phase_case(&mut tally, &[-END, reading], 3);
    }
    tally.ran(436, &[0, 3]);
}

#[test]
fn one_value_outside_at_every_index() {
    let (mut tally, mut random) = (Tally::default(), Random::new(12));
    for length in [3, 40, 700] {
        let (samples, steps) = (record(&mut random, length), readings(&mut random, length));
        for index in 0..length {
            for value in [-END, END, OUTSIDE[0], OUTSIDE[1], OUTSIDE[2], OUTSIDE[3]] {
                let mut other = samples.clone();
                other[index] = value;
                frequency_case(&mut tally, &other, length);
                removal_case(&mut tally, &other, length);
                figure_case(&mut tally, &other);
                let mut other = steps.clone();
                other[index] = value;
                phase_case(&mut tally, &other, length + 1);
            }
        }
    }
    tally.ran(17_832, &[0, 3]);
}

#[test]
fn short_records() {
    let (mut tally, mut random) = (Tally::default(), Random::new(13));
    for _ in 0..12_000 {
        let length = random.below(40) as usize;
        let sound = readings(&mut random, length);
        let other = moved(&mut random, sound);
        let room = random.pick(&rooms(length + 1));
        phase_case(&mut tally, &other, room);
        let samples = maybe_damaged(&mut random, length, 8);
        let room = random.pick(&rooms(length.saturating_sub(1)));
        frequency_case(&mut tally, &samples, room);
        let room = random.pick(&rooms(length));
        removal_case(&mut tally, &samples, room);
        figure_case(&mut tally, &samples);
    }
    tally.ran(48_000, &[0, 1, 3, 6]);
}

#[test]
fn long_records() {
    let (mut tally, mut random) = (Tally::default(), Random::new(14));
    for _ in 0..800 {
        let length = random.between(1_000, 32_768) as usize;
        let sound = readings(&mut random, length);
        let other = moved(&mut random, sound);
        phase_case(&mut tally, &other, length + 1);
        let samples = maybe_damaged(&mut random, length, 6);
        frequency_case(&mut tally, &samples, length);
        removal_case(&mut tally, &samples, length);
        figure_case(&mut tally, &samples);
    }
    tally.ran(3_200, &[0, 3]);
}

/// h, the whole part of (N-1)/2: samples 0, h and 2h decide the drift of a record.
fn middle(length: usize) -> usize {
    (length - 1) / 2
}

/// A record whose drift is set by samples 0, h and 2h, with the rest within a size of nought.
fn drifting(random: &mut Random, length: usize) -> Vec<i64> {
    let size = random.sized(40) as i64;
    let mut samples: Vec<i64> = (0..length).map(|_| random.between(-size, size)).collect();
    let end = random.pick(&[END, END - 1, size, 1]);
    for index in [0, middle(length), 2 * middle(length)] {
        samples[index] = random.pick(&[end, -end, 0]);
    }
    samples
}

#[test]
fn results_that_leave_the_range() {
    let (mut tally, mut random) = (Tally::default(), Random::new(15));
    for _ in 0..20_000 {
        let length = random.between(3, 80) as usize;
        let mut samples = drifting(&mut random, length);
        if random.one_in(10) {
            damage(&mut random, &mut samples);
        }
        removal_case(&mut tally, &samples, length);
    }
    for _ in 0..300 {
        let length = random.between(20_000, 32_768) as usize;
        let samples = drifting(&mut random, length);
        removal_case(&mut tally, &samples, length);
    }
    tally.ran(20_300, &[0, 3]);
}

#[test]
fn drift_of_every_small_record() {
    let mut tally = Tally::default();
    for length in 3..=6u32 {
        for number in 0..5usize.pow(length) {
            let samples: Vec<i64> = (0..length).map(|i| (number / 5usize.pow(i) % 5) as i64 - 2).collect();
            removal_case(&mut tally, &samples, length as usize);
        }
    }
    tally.ran(19_500, &[0]);
}

/// The largest lengths, an odd and an even one of each h.
const LONGEST: [usize; 4] = [32_765, 32_766, 32_767, 32_768];

/// A record of these values at 0, h and 2h, and of one value elsewhere.
fn of_three(length: usize, three: [i64; 3], rest: i64) -> Vec<i64> {
    let h = middle(length);
    let mut samples = vec![rest; length];
    [samples[0], samples[h], samples[2 * h]] = three;
    samples
}

/// The record with another value at one index.
fn with(samples: &[i64], index: usize, value: i64) -> Vec<i64> {
    let mut samples = samples.to_vec();
    samples[index] = value;
    samples
}

/// The refusal of a value outside the range at this index.
fn outside(index: usize) -> Refusal {
    Refusal { ground: Ground::OutOfRange, place: index as u64 }
}

/// This result at this index, or the refusal if it is outside the range.
fn result_at(index: usize, result: i64) -> Result<i64, Refusal> {
    if result < -END || result > END {
        Err(outside(index))
    } else {
        Ok(result)
    }
}

/// A case of the figure, for which the library must give this P, and h^2 for R.
fn figure_is(tally: &mut Tally, samples: &[i64], p: i64) {
    figure_case(tally, samples);
    let h = middle(samples.len()) as u64;
    assert_eq!(ploegelster::drift_figure(samples), Ok(Drift { p, r: h * h }), "drift figure, samples {}", shown(samples));
}

/// A case of the figure with this P, and one of the removal; gives what the library makes of the record.
fn drift_case(tally: &mut Tally, samples: &[i64], p: i64) -> Result<Vec<i64>, Refusal> {
    figure_is(tally, samples, p);
    removal_case(tally, samples, samples.len());
    let mut results = vec![0; samples.len()];
    let written = ploegelster::remove_drift(samples, &mut results)?;
    assert_eq!(written, samples.len());
    Ok(results)
}

/// Both cases, where the removal must give this result at this index or, if it is outside the range, be refused there.
fn result_case(tally: &mut Tally, samples: &[i64], p: i64, index: usize, result: i64) {
    let removed = drift_case(tally, samples, p).map(|results| results[index]);
    assert_eq!(removed, result_at(index, result), "result {index} of the samples {}", shown(samples));
}

/// A record with a drift of this sign: samples 0 and 2h on one side of nought, sample h on the other.
fn bent(random: &mut Random, length: usize, sign: i64) -> Vec<i64> {
    let (mut samples, h) = (record(random, length), middle(length));
    let size = 1 + random.sized(40) as i64;
    for (index, side) in [(0, sign), (h, -sign), (2 * h, sign)] {
        samples[index] = side * random.between(1, size);
    }
    samples
}

#[test]
fn drift_at_the_limits_of_length_and_room() {
    let (mut tally, mut random) = (Tally::default(), Random::new(17));
    for length in [2, 3, 4, 5, 6, 7, 32_766, 32_767, 32_768, 32_769] {
        let (h, times) = (middle(length), if length <= 7 { 20 } else { 2 });
        for sign in [1, -1].repeat(times) {
            let sound = bent(&mut random, length, sign);
            if length >= 3 && length <= 32_768 {
                assert_eq!(ploegelster::drift_figure(&sound).map(|drift| drift.p.signum()), Ok(sign));
            }
            let mut damaged = sound.clone();
            damage(&mut random, &mut damaged);
            for samples in [sound, damaged] {
                figure_case(&mut tally, &samples);
                for room in [1, h, 2 * h, 2 * h + 1].into_iter().chain(rooms(length)) {
                    removal_case(&mut tally, &samples, room);
                }
            }
        }
    }
    tally.ran(5_120, &[0, 1, 2, 3, 6]);
}

#[test]
fn shortest_records_by_hand() {
    let mut tally = Tally::default();
    // Of three samples the last result is 2 x_1 - x_0, whatever x_2 is.
    for (first, second, result) in [
        (END, END, END),
        (END - 1, END, END + 1),
        (0, END / 2, END),
        (-1, END / 2, END + 1),
        (-END, -END, -END),
        (1 - END, -END, -END - 1),
        (0, -END / 2, -END),
        (1, -END / 2, -END - 1),
    ] {
        for third in [-END, 1 - END, -1, 0, 1, END - 1, END] {
            result_case(&mut tally, &[first, second, third], third - 2 * second + first, 2, result);
        }
    }
    // Of four, P times 3 is taken from the last; of five and six, R is 4, and P times 1, 3, 6 and 10 is divided by it.
    let rows: [(&[i64], i64, usize, i64); 18] = [
        (&[END - 1, END, END, -END], -1, 2, END + 1),
        (&[END, END, END - 1, END - 2], -1, 3, END + 1),
        (&[END, END, END - 1, END - 3], -1, 3, END),
        (&[-END, -END, 1 - END, 2 - END], 1, 3, -END - 1),
        (&[-END, -END, 1 - END, 3 - END], 1, 3, -END),
        (&[END, 0, END, END], 2 * END, 3, -5 * END),
        (&[END - 1, 0, END, 0, END], -1, 2, END + 1),
        (&[END, 0, END, 0, END], 0, 2, END),
        (&[END - 2, 0, END - 1, 0, END - 1], -1, 4, END + 1),
        (&[END - 1, 0, END - 1, 0, END - 2], -1, 4, END),
        (&[4 - END, 0, -END, 0, -END], 4, 2, -END - 1),
        (&[3 - END, 0, -END, 0, -END], 3, 4, -END - 4),
        (&[1 - END, 0, 1 - END, 0, 4 - END], 3, 4, -END),
        (&[0, 0, 0, END, -1], -1, 3, END + 1),
        (&[0, 0, 0, 0, -1, END], -1, 5, END + 3),
        (&[0, 0, 0, 0, -1, END - 2], -1, 5, END + 1),
        (&[0, 0, 0, 0, -1, END - 3], -1, 5, END),
        (&[0, 0, 0, 0, 1, 1 - END], 1, 5, -END - 1),
    ];
    for (samples, p, index, result) in rows {
        result_case(&mut tally, samples, p, index, result);
    }
    tally.ran(148, &[0, 3]);
}

#[test]
fn one_picosecond_at_the_first_index_that_can_leave() {
    let mut tally = Tally::default();
    // Results 0 and 1 are the samples, and result 2 is x_2 - floor(P / R).
    for length in (7..=120).chain(LONGEST) {
        let r = middle(length).pow(2) as i64;
        for (p, third, result) in [
            (-1, END, END + 1),
            (-1, END - 1, END),
            (0, END, END),
            (-r, END, END + 1),
            (-r - 1, END - 1, END + 1),
            (r, -END, -END - 1),
            (r, 1 - END, -END),
            (r - 1, -END, -END),
        ] {
            result_case(&mut tally, &with(&of_three(length, [p, 0, 0], 0), 2, third), p, 2, result);
        }
    }
    tally.ran(1_888, &[0, 3]);
}

#[test]
fn one_picosecond_at_the_last_index() {
    let mut tally = Tally::default();
    for length in (3..=120).chain(LONGEST) {
        let (h, last) = (middle(length) as i64, length - 1);
        if length % 2 == 1 {
            // The last result is x_(2h) - floor(P (2h-1) / h): at P = 1 that takes 1 away, and P = -1 adds 1 if h is 1, else 2.
            let up = if h == 1 { 1 } else { 2 };
            for (p, result) in [(1, -END - 1), (0, -END), (-1, -END + up)] {
                result_case(&mut tally, &of_three(length, [p, -END / 2, -END], 0), p, last, result);
            }
            for (p, result) in [(-1, END + up), (0, END), (1, END - 1)] {
                result_case(&mut tally, &of_three(length, [p, END / 2, END], 0), p, last, result);
            }
            // P = kh takes k (2h-1) away: from near one end to the other, and one past it.
            let k = 2 * END / (2 * h - 1);
            for sign in [1, -1] {
                for past in [0, 1] {
                    let three = [END - k * (h - 1) - 2 + past, -1, k * (2 * h - 1) - END - past].map(|x| sign * x);
                    result_case(&mut tally, &of_three(length, three, sign * END), sign * k * h, last, -sign * (END + past));
                }
            }
        } else {
            // It is x_(2h+1) - floor(P (2h+1) / h), of a sample that P does not read: P = 1 takes 3 away if h is 1, else 2, and P = -1 adds 3.
            let down = if h == 1 { 3 } else { 2 };
            let falling = [(1, down - END, -END), (1, down - END - 1, -END - 1), (0, -END, -END)];
            let rising = [(-1, END - 3, END), (-1, END - 2, END + 1), (0, END, END)];
            for (p, sample, result) in falling.into_iter().chain(rising) {
                result_case(&mut tally, &with(&of_three(length, [p, 0, 0], 0), last, sample), p, last, result);
            }
            // P = kh takes k (2h+1) away.
            let k = 2 * END / (2 * h + 1);
            for sign in [1, -1] {
                for past in [0, 1] {
                    let samples = of_three(length, [k * h, END / 2, END].map(|x| sign * x), sign * END);
                    let samples = with(&samples, last, sign * (k * (2 * h + 1) - END - past));
                    result_case(&mut tally, &samples, sign * k * h, last, -sign * (END + past));
                }
            }
        }
    }
    tally.ran(2_440, &[0, 3]);
}

/// Where the removal leaves the range, by the rule multiplied out: result i is below the range if P i (i-1) is at least 2R (x_i + 2^40 + 1), and
/// above it if P i (i-1) is below 2R (x_i - 2^40).
fn leaves_at(samples: &[i64], p: i64) -> Option<usize> {
    let (h, end) = (middle(samples.len()), END as i128);
    (0..samples.len()).find(|&i| {
        let (product, twice, x) = (p as i128 * (i * i - i) as i128, 2 * (h * h) as i128, samples[i] as i128);
        product >= twice * (x + end + 1) || product < twice * (x - end)
    })
}

#[test]
fn three_samples_at_the_ends_or_one_inside() {
    let mut tally = Tally::default();
    for length in (3..=40).chain([32_767, 32_768]) {
        let rests = if length <= 40 { &[0, 1, -1, END, -END][..] } else { &[0] };
        for number in 0..64 {
            let three = [1, 4, 16].map(|place| [END, END - 1, 1 - END, -END][number / place % 4]);
            let p = three[2] - 2 * three[1] + three[0];
            for &rest in rests {
                let samples = of_three(length, three, rest);
                let place = leaves_at(&samples, p);
                assert_eq!(drift_case(&mut tally, &samples, p).err(), place.map(outside), "samples {}", shown(&samples));
            }
        }
    }
    tally.ran(24_576, &[0, 3]);
}

#[test]
fn three_samples_near_one_end() {
    let mut tally = Tally::default();
    for length in (5..=60).chain(LONGEST) {
        let h = middle(length);
        for number in 0..8 {
            let [a, b, c] = [1, 2, 4].map(|place| number / place % 2);
            // Near the upper end any drift below nought lifts sample h by 1 at least.
            let p = 2 * b - a - c;
            let place = if p < 0 { Some(h) } else { None };
            let samples = of_three(length, [END - a, END - b, END - c], 0);
            assert_eq!(drift_case(&mut tally, &samples, p).err(), place.map(outside), "samples {}", shown(&samples));
            // Near the lower end a drift of 1 or 2 leaves sample h where it is, and takes 1 or 3 from sample 2h.
            let place = if a == 1 && b == 0 { Some(2 * h) } else { None };
            let samples = of_three(length, [a - END, b - END, c - END], 0);
            assert_eq!(drift_case(&mut tally, &samples, -p).err(), place.map(outside), "samples {}", shown(&samples));
        }
    }
    tally.ran(1_920, &[0, 3]);
}

#[test]
fn three_samples_at_both_ends() {
    let mut tally = Tally::default();
    // Noughts between leave as soon as 2 i (i-1) is above h^2, where P is 4 times 2^40 either way; above 2h^2, where it is 2 times that.
    for (h, place) in [(3, 3), (4, 4), (10, 8), (100, 72), (1_000, 708), (16_382, 11_585), (16_383, 11_586)] {
        for length in [2 * h + 1, 2 * h + 2] {
            for end in [END, -END] {
                let removed = drift_case(&mut tally, &of_three(length, [end, -end, end], 0), 4 * end);
                assert_eq!(removed.err(), Some(outside(place)), "h is {h}");
                let removed = drift_case(&mut tally, &of_three(length, [end, 0, end], 0), 2 * end);
                assert_eq!(removed.err(), Some(outside(h + 1)), "h is {h}");
            }
        }
    }
    // Here 2 i (i-1) is h^2, so that result i is x_i - floor(P/4): it stays with one sample and leaves with the next. Result i+1 leaves in any case.
    for (h, i) in [(12, 9), (70, 50), (408, 289), (2_378, 1_682), (13_860, 9_801)] {
        for (three, p, stays, leaves) in [
            ([END, -END, END], 4 * END, 0, -1),
            ([END - 1, -END, END], 4 * END - 1, -1, -2),
            ([END, 1 - END, END], 4 * END - 2, -1, -2),
            ([END - 1, 1 - END, END - 1], 4 * END - 4, -1, -2),
            ([-END, END, -END], -4 * END, 0, 1),
            ([1 - END, END, -END], 1 - 4 * END, 0, 1),
            ([-END, END - 1, -END], 2 - 4 * END, 0, 1),
            ([1 - END, END - 1, 1 - END], 4 - 4 * END, 1, 2),
        ] {
            for length in [2 * h + 1, 2 * h + 2] {
                for (sample, place) in [(stays, i + 1), (leaves, i)] {
                    let removed = drift_case(&mut tally, &with(&of_three(length, three, 0), i, sample), p);
                    assert_eq!(removed.err(), Some(outside(place)), "h is {h}, P is {p}, sample {i} is {sample}");
                }
            }
        }
    }
    tally.ran(432, &[0, 3]);
}

/// The record with a bad sample at this index, the first of its bad ones: both entries refuse it there, whether P reads it or not.
fn bad_sample(tally: &mut Tally, samples: &[i64], index: usize) {
    for value in OUTSIDE {
        let samples = with(samples, index, value);
        figure_case(tally, &samples);
        removal_case(tally, &samples, samples.len());
        assert_eq!(ploegelster::drift_figure(&samples), Err(outside(index)), "samples {}", shown(&samples));
        assert_eq!(ploegelster::remove_drift(&samples, &mut vec![0; samples.len()]), Err(outside(index)), "samples {}", shown(&samples));
    }
}

#[test]
fn bad_samples_are_refused_before_results() {
    let mut tally = Tally::default();
    for length in (3..=16).chain([32_767, 32_768]) {
        let h = middle(length);
        let mut indexes: Vec<usize> = if length <= 16 { (0..length).collect() } else { vec![0, h - 1, h, h + 1, 2 * h - 1, 2 * h, length - 1] };
        indexes.dedup();
        // Of one record no result leaves the range, of the other the first that can.
        let (flat, mut steep) = (vec![0; length], of_three(length, [END, -END, END], 0));
        if h > 1 {
            steep[2] = -END;
        }
        assert_eq!(drift_case(&mut tally, &flat, 0), Ok(flat.clone()));
        assert_eq!(drift_case(&mut tally, &steep, 4 * END), Err(outside(2)));
        for index in indexes {
            bad_sample(&mut tally, &flat, index);
            bad_sample(&mut tally, &steep, index);
            // All samples after it are bad too.
            let mut tail = steep.clone();
            tail[index..].fill(-END - 1);
            bad_sample(&mut tally, &tail, index);
        }
    }
    tally.ran(7_072, &[0, 3]);
}

#[test]
fn three_samples_decide_the_drift() {
    let (mut tally, mut random) = (Tally::default(), Random::new(18));
    for length in (3..=40).chain(LONGEST) {
        let h = middle(length);
        let indexes = if length <= 40 { (0..length).collect() } else { vec![0, 1, h - 1, h, h + 1, 2 * h - 1, 2 * h, length - 1] };
        for _ in 0..4 {
            let samples = record(&mut random, length);
            let p = samples[2 * h] - 2 * samples[h] + samples[0];
            figure_is(&mut tally, &samples, p);
            // One sample changes: P by as much at 0 and 2h, by twice as much the other way at h, and not at all elsewhere.
            for &index in &indexes {
                let times = [(0, 1), (h, -2), (2 * h, 1)].into_iter().find(|&(read, _)| read == index).map_or(0, |(_, times)| times);
                for value in [END, -END, random.between(-END, END)] {
                    figure_is(&mut tally, &with(&samples, index, value), p + times * (value - samples[index]));
                }
            }
            // All but these three change.
            let mut other = record(&mut random, length);
            for index in [0, h, 2 * h] {
                other[index] = samples[index];
            }
            figure_is(&mut tally, &other, p);
        }
    }
    tally.ran(10_524, &[0]);
}

#[test]
fn the_last_of_an_even_record_has_no_part_in_the_drift() {
    let (mut tally, mut random) = (Tally::default(), Random::new(19));
    for length in (4..=80).step_by(2).chain([32_766, 32_768]) {
        let (h, last) = (middle(length), length - 1);
        for _ in 0..4 {
            // So small that all results stay in range.
            let samples: Vec<i64> = (0..length).map(|_| random.between(-END / 16, END / 16)).collect();
            let p = samples[2 * h] - 2 * samples[h] + samples[0];
            let results = drift_case(&mut tally, &samples, p).expect("all results are in range");
            for value in [-END, 1 - END, -1, 0, 1, END - 1, END] {
                let result = results[last] + value - samples[last];
                let removed = drift_case(&mut tally, &with(&samples, last, value), p);
                assert!(removed == result_at(last, result).map(|result| with(&results, last, result)), "last sample {value}, {}", shown(&samples));
            }
        }
    }
    tally.ran(2_624, &[0, 3]);
}

#[test]
fn a_parabola_becomes_its_line() {
    let (mut tally, mut random) = (Tally::default(), Random::new(20));
    let mut parabola = |length: usize, first: i64, step: i64, k: i64| {
        let line: Vec<i64> = (0..length as i64).map(|i| first + step * i).collect();
        let samples: Vec<i64> = (0..).zip(&line).map(|(i, x)| x + k * (i * (i - 1) / 2)).collect();
        let removed = drift_case(&mut tally, &samples, k * middle(length).pow(2) as i64);
        assert!(removed == Ok(line), "from {first}, step {step}, k {k}, {}", shown(&samples));
    };
    for length in (3..=60).chain(LONGEST) {
        let last = length as i64 - 1;
        for _ in 0..10 {
            let mut within = |end: i64| random.between(-end, end);
            parabola(length, within(END / 4), within(END / 4 / last), within(END / (last * (last - 1))));
        }
    }
    // From one end of the range to the other.
    parabola(32_768, -END, 0, 4_096);
    parabola(32_768, END, 0, -4_096);
    parabola(3, -END, 0, 2 * END);
    parabola(3, END, 0, -2 * END);
    tally.ran(1_248, &[0]);
}

/// Every entry that tests a record, where this is the first sample outside the range, if one is: three cases.
fn range_case(tally: &mut Tally, samples: &[i64], first: Option<usize>) {
    frequency_case(tally, samples, samples.len());
    figure_case(tally, samples);
    removal_case(tally, samples, samples.len());
    let refusal = first.map(outside);
    assert_eq!(ploegelster::frequency_from_phase(samples, &mut vec![0; samples.len()]).err(), refusal, "samples {}", shown(samples));
    assert_eq!(ploegelster::drift_figure(samples).err(), refusal, "samples {}", shown(samples));
    // Of a sound record a result may still leave the range.
    if first.is_some() {
        assert_eq!(ploegelster::remove_drift(samples, &mut vec![0; samples.len()]).err(), refusal, "samples {}", shown(samples));
    }
}

#[test]
fn samples_that_only_together_look_outside() {
    let mut tally = Tally::default();
    ends::all_within(END, |samples| range_case(&mut tally, samples, None));
    tally.ran(13_500, &[0, 3]);
}

#[test]
fn every_value_outside_at_every_index() {
    let (mut tally, mut random) = (Tally::default(), Random::new(71));
    ends::one_beyond(&mut random, END, |samples, index| range_case(&mut tally, samples, Some(index)));
    tally.ran(162_729, &[3]);
}

#[test]
fn several_values_outside() {
    let (mut tally, mut random) = (Tally::default(), Random::new(72));
    ends::several_beyond(&mut random, END, |samples, index| range_case(&mut tally, samples, Some(index)));
    tally.ran(14_160, &[3]);
}

#[test]
fn long_records_with_values_outside_where_a_block_ends() {
    let (mut tally, mut random) = (Tally::default(), Random::new(73));
    ends::long_beyond(&mut random, END, 32_768, |samples, index| range_case(&mut tally, samples, Some(index)));
    tally.ran(3_156, &[3]);
}

#[test]
fn phase_to_frequency_to_phase() {
    let (mut cases, mut refusals, mut random) = (0, 0, Random::new(16));
    for _ in 0..3_000 {
        let length = random.between(1, 50) as usize;
        let samples = record(&mut random, length);
        let (mut steps, mut phases) = (vec![0; length - 1], vec![0; length]);
        assert_eq!(ploegelster::frequency_from_phase(&samples, &mut steps), Ok(length - 1));
        let answer = ploegelster::phase_from_frequency(&steps, &mut phases);
        let shifted: Vec<i64> = samples.iter().map(|x| x - samples[0]).collect();
        match shifted.iter().position(|x| x.abs() > END) {
            None => assert_eq!((answer, &phases), (Ok(length), &shifted)),
            Some(index) => {
                assert_eq!(answer, Err(Refusal { ground: Ground::OutOfRange, place: index as u64 - 1 }));
                refusals += 1;
            }
        }
        cases += 1;
    }
    assert_eq!(cases, 3_000);
    assert!(refusals > 100 && refusals < 2_900);
}

/// The figure of the rules: readings 3 -1 4 from the start 5.
#[test]
fn phases_from_the_start_5() {
    let mut buffer = [9; 6];
    assert_eq!(raw::phase_from_start(5, &[3, -1, 4], &mut buffer), CountAnswer { number: 0, place: 0, count: 4 });
    assert_eq!(buffer, [5, 8, 7, 11, 9, 9]);
    assert_eq!(raw::frequency_from_phase(&[5, 8, 7, 11], &mut buffer), CountAnswer { number: 0, place: 0, count: 3 });
    assert_eq!(buffer, [3, -1, 4, 11, 9, 9]);
    // No reading gives the start alone, and a start outside the range is refused, whatever follows.
    assert_eq!(raw::phase_from_start(-END, &[], &mut buffer), CountAnswer { number: 0, place: 0, count: 1 });
    assert_eq!(buffer, [-END, -1, 4, 11, 9, 9]);
    assert_eq!(raw::phase_from_start(-END - 1, &[1], &mut buffer), CountAnswer { number: 3, place: 0, count: 0 });
    assert_eq!(buffer, [-END, -1, 4, 11, 9, 9]);
}

#[test]
fn limits_of_length_and_room_from_a_start() {
    let (mut tally, mut random) = (Tally::default(), Random::new(111));
    for length in [0, 1, 2, 3, 1_000, 32_767, 32_768, 65_536] {
        for start in [0, END, -END, END + 1, i64::MIN] {
            let sound = readings_from(&mut random, start.clamp(-END, END), length);
            let other = moved(&mut random, sound.clone());
            for room in rooms(length + 1) {
                let told = if length > 32_767 {
                    (2, 0)
                } else if room <= length {
                    (6, 0)
                } else if start.clamp(-END, END) != start {
                    (3, 0)
                } else {
                    (0, 0)
                };
                assert_eq!(start_case(&mut tally, start, &sound, room), told, "start {start}, {length} readings, buffer of {room}");
            }
            start_case(&mut tally, start, &other, length + 1);
        }
    }
    tally.ran(240, &[0, 2, 3, 6]);
}

#[test]
fn every_start_alone_and_before_a_reading() {
    let mut tally = Tally::default();
    for start in ends::within(END) {
        assert_eq!(start_case(&mut tally, start, &[], 1), (0, 0));
        assert_eq!(start_case(&mut tally, start, &[], 0), (6, 0));
        for phase in ends::within(END) {
            assert_eq!(start_case(&mut tally, start, &[phase - start], 3), (0, 0));
            assert_eq!(start_case(&mut tally, start, &[phase - start, start - phase], 3), (0, 0));
        }
        // A phase far enough outside takes a reading that no word holds.
        for phase in ends::beyond(END) {
            if let Some(reading) = phase.checked_sub(start) {
                assert_eq!(start_case(&mut tally, start, &[reading], 2), (3, 0));
                assert_eq!(start_case(&mut tally, start, &[0, reading, 0], 4), (3, 1));
            }
        }
        for reading in [i64::MIN, i64::MIN + 1, i64::MAX - 1, i64::MAX] {
            assert_eq!(start_case(&mut tally, start, &[0, 0, reading], 4), (3, 2));
        }
    }
    for start in ends::beyond(END) {
        for readings in [&[][..], &[0], &[-start.signum()], &[start.checked_neg().unwrap_or(i64::MAX), 0], &[i64::MAX, i64::MIN]] {
            assert_eq!(start_case(&mut tally, start, readings, readings.len() + 1), (3, 0));
            assert_eq!(start_case(&mut tally, start, readings, readings.len()), (6, 0));
        }
    }
    tally.ran(32_648, &[0, 3, 6]);
}

/// From starts at the ends and between them, a reading that takes the phase to an end exactly, or one past it, at the first, a middle and the last
/// place.
#[test]
fn phases_from_a_start_that_reach_an_end_and_pass_it() {
    let mut tally = Tally::default();
    for length in [1, 2, 3, 17, 300, 32_767] {
        let starts = if length <= 300 { &[-END, 1 - END, -1, 0, 1, END - 1, END][..] } else { &[-END, END] };
        for &start in starts {
            for index in [0, length / 2, length - 1] {
                for end in [END, -END] {
                    for past in [0, 1] {
                        // One step inward and back before that place, and the same after it.
                        let stepped = |phase: i64, i: usize| if i % 2 == 1 { phase - phase.signum() } else { phase };
                        let at = |i: usize| match i.cmp(&(index + 1)) {
                            std::cmp::Ordering::Less => stepped(start, i),
                            std::cmp::Ordering::Equal => end + past * end.signum(),
                            std::cmp::Ordering::Greater => stepped(end, i - index - 1),
                        };
                        let phases: Vec<i64> = (0..=length).map(at).collect();
                        let readings: Vec<i64> = phases.windows(2).map(|pair| pair[1] - pair[0]).collect();
                        let told = if past == 1 { (3, index as u64) } else { (0, 0) };
                        assert_eq!(start_case(&mut tally, start, &readings, length + 1), told, "start {start}, readings {}", shown(&readings));
                        if past == 0 {
                            let mut buffer = vec![7; length + 1];
                            assert_eq!(ploegelster::phase_from_start(start, &readings, &mut buffer), Ok(length + 1));
                            assert!(buffer == phases, "start {start}, readings {}", shown(&readings));
                        }
                    }
                }
            }
        }
    }
    tally.ran(444, &[0, 3]);
}

/// Every set of what may be wrong at once; the first in the rules' order is told.
#[test]
fn first_of_all_faults_from_a_start() {
    let (mut tally, mut random) = (Tally::default(), Random::new(112));
    for set in 0..16 {
        let [many, no_room, bad_start, leaving] = [1, 2, 4, 8].map(|fault| set & fault != 0);
        // The longest take their time, and are tried less often.
        for _ in 0..if many { 3 } else { 200 } {
            let length = if many { random.pick(&[32_768, 32_769, 40_000]) } else { random.between(1, 12) as usize };
            let start = if bad_start { random.pick(&OUTSIDE) } else { random.pick(&ends::within(END)) };
            let mut steps = readings_from(&mut random, start.clamp(-END, END), length);
            let index = random.below(length as u64) as usize;
            if leaving {
                steps[index] = random.pick(&[2 * END + 1, -2 * END - 1, i64::MAX, i64::MIN]);
            }
            let room = if no_room { random.below(length as u64 + 1) as usize } else { length + 1 };
            let told = [many.then_some((2, 0)), no_room.then_some((6, 0)), bad_start.then_some((3, 0)), leaving.then_some((3, index as u64))];
            let first = told.into_iter().flatten().next().unwrap_or((0, 0));
            assert_eq!(start_case(&mut tally, start, &steps, room), first, "start {start}, readings {}", shown(&steps));
        }
    }
    tally.ran(1_624, &[0, 2, 3, 6]);
}

#[test]
fn short_records_from_a_start() {
    let (mut tally, mut random) = (Tally::default(), Random::new(113));
    for _ in 0..12_000 {
        let length = random.below(40) as usize;
        let start = match random.below(8) {
            0 => random.pick(&OUTSIDE),
            1 | 2 => 0,
            3 => random.pick(&[END, -END]),
            _ => random.between(-END, END),
        };
        let sound = readings_from(&mut random, start.clamp(-END, END), length);
        let other = moved(&mut random, sound);
        let room = random.pick(&rooms(length + 1));
        start_case(&mut tally, start, &other, room);
    }
    tally.ran(12_000, &[0, 3, 6]);
}

/// From phase to frequency to phase with the first sample as the start: the record, whatever it is.
#[test]
fn records_come_back_whole_from_their_start() {
    let (mut tally, mut random) = (Tally::default(), Random::new(114));
    let mut back = |samples: &[i64]| {
        let length = samples.len();
        let (mut steps, mut phases) = (vec![0; length - 1], vec![0; length]);
        assert_eq!(ploegelster::frequency_from_phase(samples, &mut steps), Ok(length - 1));
        assert_eq!(start_case(&mut tally, samples[0], &steps, length), (0, 0), "samples {}", shown(samples));
        assert_eq!(ploegelster::phase_from_start(samples[0], &steps, &mut phases), Ok(length));
        assert!(phases == samples, "samples {}", shown(samples));
    };
    for length in [1, 2, 3, 100, 32_767, 32_768] {
        for first in [END, -END] {
            let alternating: Vec<i64> = (0..length).map(|i| if i % 2 == 0 { first } else { -first }).collect();
            back(&alternating);
            back(&vec![first; length]);
        }
    }
    for _ in 0..4_000 {
        let length = random.between(1, 50) as usize;
        back(&record(&mut random, length));
    }
    tally.ran(4_024, &[0]);
}

/// From frequency to phase to frequency, from every start: the readings.
#[test]
fn readings_come_back_from_every_start() {
    let (mut cases, mut random) = (0, Random::new(115));
    let mut back = |start: i64, steps: &[i64]| {
        let (mut phases, mut again) = (vec![0; steps.len() + 1], vec![0; steps.len()]);
        assert_eq!(ploegelster::phase_from_start(start, steps, &mut phases), Ok(steps.len() + 1));
        assert_eq!(phases[0], start);
        assert_eq!(ploegelster::frequency_from_phase(&phases, &mut again), Ok(steps.len()));
        assert!(again == steps, "start {start}, readings {}", shown(steps));
        cases += 1;
    };
    for start in ends::within(END) {
        for _ in 0..200 {
            let length = random.below(50) as usize;
            back(start, &readings_from(&mut random, start, length));
        }
        let steps: Vec<i64> = (0..32_767).map(|i| if i % 2 == 0 { -start } else { start }).collect();
        back(start, &steps);
    }
    assert_eq!(cases, 3_015);
}
