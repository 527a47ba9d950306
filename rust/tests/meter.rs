//! The crate `meter` over the C boundary: sequences of calls, with gaps and without, and meters made by hand.

#[allow(dead_code)]
mod shared;

use independent::meter::{self, Meter};
use independent::sums::{allan_sum, modified_sum, Sum};
use independent::Answer;
use shared::answers::{expected_meter, Words};
use shared::lent::{Lent, Sides};
use shared::meters::{hand_made, hand_made_sample, latest, near, part, total, worked_factor};
use shared::random::Random;
use shared::records::{factors, record, OUTSIDE};
use shared::{raw, with_neighbours, Tally, END};

/// A start, compared: the ring stays as it was. Gives the meter that comes back, and whether the start was accepted.
fn start_case(tally: &mut Tally, old: &Meter, m: u64, ring: &mut Lent<i64>) -> (Meter, bool) {
    let before = ring.clone();
    let own = meter::start(m, ring.part());
    let raw = raw::meter_start(raw::meter(old), m, ring.part());
    let wrapped = ploegelster::meter_start(raw::meter(old), m, ring.part());
    let input = || format!("start, {old:?}, factor {m}, ring of {}", before.length());
    tally.same_raw(&raw.words(), &expected_meter(&own, old), input);
    tally.same_wrapped(&wrapped, &own, input);
    assert_eq!(ring.differs(&before), None, "ring changed by a start, {}", input());
    (own.unwrap_or(*old), own.is_ok())
}

/// A sample, with its answers compared; the rings are left to compare.
fn sample_answers(tally: &mut Tally, meter: &Meter, rings: &mut Sides<i64>, x: i64) -> (Meter, Answer<Meter>) {
    let own = meter::sample(meter, rings.own.part(), x);
    let raw = raw::meter_sample(raw::meter(meter), rings.raw.part(), x);
    let wrapped = ploegelster::meter_sample(raw::meter(meter), rings.wrapped.part(), x);
    let input = || format!("sample, {meter:?}, sample {x}, ring of {}", rings.length());
    tally.same_raw(&raw.words(), &expected_meter(&own, meter), input);
    tally.same_wrapped(&wrapped, &own, input);
    (own.unwrap_or(*meter), own)
}

/// A sample, compared: the ring has the sample in its slot, or is as it was. Gives the meter that comes back, and the second implementation's answer.
fn sample_case(tally: &mut Tally, meter: &Meter, rings: &mut Sides<i64>, x: i64) -> (Meter, Answer<Meter>) {
    let answers = sample_answers(tally, meter, rings, x);
    rings.same(|| format!("sample, {meter:?}, sample {x}, ring of {}", rings.length()));
    answers
}

/// A gap, compared: s and the window are nought and all else is as it was, or the meter comes back as it was handed in. Gives the meter that comes
/// back, and whether the gap was accepted.
fn gap_case(tally: &mut Tally, meter: &Meter) -> (Meter, bool) {
    let own = meter::gap(meter);
    let raw = raw::meter_gap(raw::meter(meter));
    let wrapped = ploegelster::meter_gap(raw::meter(meter));
    let input = || format!("gap, {meter:?}");
    tally.same_raw(&raw.words(), &expected_meter(&own, meter), input);
    tally.same_wrapped(&wrapped, &own, input);
    let right = match raw.number {
        0 => Meter { stretch: 0, window: 0, ..*meter },
        _ => *meter,
    };
    assert_eq!(raw.meter, raw::meter(&right), "{}", input());
    (right, own.is_ok())
}

fn report_case(tally: &mut Tally, meter: &Meter) {
    let lent = raw::meter(meter);
    tally.same(&raw::meter_report(lent), &ploegelster::meter_report(lent), &meter::report(meter), || format!("report, {meter:?}"));
}

/// A meter in use: what it holds, its ring on all sides, and the samples accepted since the latest accepted start, stretch by stretch.
#[derive(Clone)]
struct Sequence {
    meter: Meter,
    rings: Sides<i64>,
    /// The last is the present one.
    stretches: Vec<Vec<i64>>,
    accepted: u64,
    started: bool,
    /// The rings are compared whole after every so many samples, and at every refusal, gap and report.
    every: u64,
}

impl Sequence {
    fn new() -> Sequence {
        Sequence { meter: Meter::NOUGHTS, rings: Sides::painted(0), stretches: vec![vec![]], accepted: 0, started: false, every: 1 }
    }

    /// Started at factor m with a ring that is just long enough.
    fn started(tally: &mut Tally, m: u64) -> Sequence {
        let mut sequence = Sequence::new();
        sequence.start(tally, m, 3 * m as usize);
        sequence
    }

    /// The same for a long stream at a factor that may be large; a long ring is compared less often.
    fn started_long(tally: &mut Tally, m: u64) -> Sequence {
        Sequence { every: if m <= 100 { 1 } else { 100 }, ..Sequence::started(tally, m) }
    }

    fn start(&mut self, tally: &mut Tally, m: u64, length: usize) {
        let mut ring = Lent::painted(length);
        let (meter, accepted) = start_case(tally, &self.meter, m, &mut ring);
        self.meter = meter;
        if accepted {
            self.rings = Sides::of(ring);
            self.stretches = vec![vec![]];
            self.accepted = 0;
            self.started = true;
        }
    }

    /// How many samples are in the present stretch.
    fn stretch(&self) -> u64 {
        self.stretches[self.stretches.len() - 1].len() as u64
    }

    /// How many stretches have at least so many samples.
    fn stretches_from(&self, least: u64) -> usize {
        self.stretches.iter().filter(|stretch| stretch.len() as u64 >= least).count()
    }

    fn sample(&mut self, tally: &mut Tally, x: i64) {
        // Once started and until 32,768 are in, whatever the stretch, no sample in range is refused.
        let right = if !self.started {
            7
        } else if self.accepted == 32_768 {
            2
        } else if x.unsigned_abs() > END as u64 {
            3
        } else {
            0
        };
        let before = (right > 0).then(|| self.rings.own.clone());
        let (meter, own) = sample_answers(tally, &self.meter, &mut self.rings, x);
        assert_eq!(own.err().map_or(0, |refusal| refusal.number), right);
        if right > 0 || self.accepted.is_multiple_of(self.every) {
            self.rings.same(|| format!("sample {x} of {:?}", self.meter));
        }
        match before {
            Some(before) => assert_eq!(self.rings.own.differs(&before), None, "ring changed by a refusal"),
            None => {
                self.stretches.last_mut().expect("one is present").push(x);
                self.accepted += 1;
            }
        }
        self.meter = meter;
    }

    /// A sample lent a ring that is too short for the meter: 7.
    fn sample_with_short_ring(&mut self, tally: &mut Tally, x: i64) {
        let length = (3 * self.meter.m).saturating_sub(1) as usize;
        let mut rings = Sides::painted(length);
        let (_, own) = sample_case(tally, &self.meter, &mut rings, x);
        assert_eq!(own.err().map(|refusal| refusal.number), Some(7));
        assert!(rings.own.is_painted());
    }

    /// A gap, which is refused before any start alone, and which changes nothing where the present stretch has no sample yet.
    fn gap(&mut self, tally: &mut Tally) {
        let (meter, accepted) = gap_case(tally, &self.meter);
        assert_eq!(accepted, self.started);
        self.rings.same(|| format!("gap, {:?}", self.meter));
        if self.stretch() == 0 {
            assert_eq!(meter, self.meter, "a gap before the first sample of a stretch");
        } else {
            self.stretches.push(vec![]);
        }
        self.meter = meter;
    }

    /// A report, which is also the totals of the published sums of each stretch alone, worked from scratch; n, s, K, C and the window are theirs too.
    fn report(&self, tally: &mut Tally) {
        report_case(tally, &self.meter);
        self.rings.same(|| format!("report, {:?}", self.meter));
        if !self.started {
            assert_eq!(self.meter, Meter::NOUGHTS);
            return;
        }
        let m = self.meter.m;
        let allan = total(&self.stretches, |stretch| allan_sum(stretch, m));
        let modified = total(&self.stretches, |stretch| modified_sum(stretch, m));
        let words = raw::meter_report(raw::meter(&self.meter)).words();
        assert_eq!(words, [vec![0, 0], part(&allan), part(&modified)].concat(), "report of {:?}", self.meter);
        let Meter { n, stretch, k, c, window, .. } = self.meter;
        assert_eq!([n, stretch, k, c], [self.accepted, self.stretch(), allan.count, modified.count], "counts of {:?}", self.meter);
        assert_eq!(window as i128, latest(&self.stretches[self.stretches.len() - 1], m as usize), "window of {:?}", self.meter);
    }
}

#[test]
fn short_sequences() {
    let (mut tally, mut random) = (Tally::default(), Random::new(51));
    for _ in 0..1_500 {
        let mut sequence = Sequence::new();
        let stream = record(&mut random, 80);
        for &x in &stream {
            match random.below(40) {
                0 => {
                    let m = random.below(7);
                    let length = (3 * m + random.below(4)).saturating_sub(1) as usize;
                    sequence.start(&mut tally, m, length);
                }
                1 => sequence.start(&mut tally, random.below(6) + 1, 18),
                2 => sequence.start(&mut tally, 10_923 + random.sized(63), 40),
                3..=6 => sequence.sample(&mut tally, random.pick(&OUTSIDE)),
                7 => sequence.sample_with_short_ring(&mut tally, x),
                8..=15 => sequence.report(&mut tally),
                _ => sequence.sample(&mut tally, x),
            }
        }
        sequence.report(&mut tally);
    }
    tally.ran(121_500, &[0, 3, 5, 6, 7]);
}

#[test]
fn long_sequences() {
    let (mut tally, mut random) = (Tally::default(), Random::new(52));
    for (m, spare) in [(1, 0), (2, 1), (100, 0), (5_000, 7), (10_922, 0)] {
        let mut sequence = Sequence::new();
        sequence.sample(&mut tally, 0);
        sequence.report(&mut tally);
        // A first stretch that the second start throws away.
        sequence.start(&mut tally, 3, 9);
        for x in record(&mut random, 20) {
            sequence.sample(&mut tally, x);
        }
        sequence.start(&mut tally, m, 3 * m as usize + spare);
        sequence.every = if m < 10_000 { 1 } else { 20 };
        let stream = record(&mut random, 32_768);
        for (k, &x) in stream.iter().enumerate() {
            sequence.sample(&mut tally, x);
            let n = k as u64 + 1;
            if k % 2_999 == 0 || [2 * m - 1, 2 * m, 2 * m + 1, 3 * m - 1, 3 * m, 3 * m + 1, 32_767, 32_768].contains(&n) {
                sequence.report(&mut tally);
                sequence.sample(&mut tally, if n == 32_768 { 0 } else { random.pick(&OUTSIDE) });
            }
        }
        // Full: 2 for any sample, also one out of range.
        sequence.sample(&mut tally, END + 1);
        sequence.start(&mut tally, m, 3 * m as usize - 1);
        sequence.report(&mut tally);
        sequence.start(&mut tally, m, 3 * m as usize);
        sequence.report(&mut tally);
    }
    tally.ran(164_165, &[0, 2, 3, 6, 7]);
}

#[test]
fn widest_sequences() {
    // Blocks of ends: every difference, and every window, as large as it can be.
    let mut tally = Tally::default();
    for m in [1u64, 3, 1_000, 10_922] {
        let mut sequence = Sequence::started_long(&mut tally, m);
        let mut widest = 0;
        for k in 0..32_768 {
            sequence.sample(&mut tally, if k / m % 2 == 0 { END } else { -END });
            widest = widest.max(sequence.meter.window.abs());
        }
        assert_eq!(widest, (m as i64) << 42);
        sequence.report(&mut tally);
    }
    tally.ran(131_080, &[0]);
}

#[test]
fn short_sequences_with_gaps() {
    let (mut tally, mut random) = (Tally::default(), Random::new(54));
    let mut several = 0;
    for turn in 0..2_000 {
        let largest = random.pick(&[1, 2, 3, 5, 8]);
        // Gaps close together and far apart, so that stretches of every length come about.
        let apart = random.pick(&[3, 6, 12, 25, 60]);
        let mut sequence = Sequence::new();
        // One in four begins before any start.
        if turn % 4 > 0 {
            let (m, spare) = (random.below(largest) + 1, random.below(3));
            sequence.start(&mut tally, m, (3 * m + spare) as usize);
        }
        for x in record(&mut random, 120) {
            if random.one_in(apart) {
                sequence.gap(&mut tally);
                continue;
            }
            let m = random.below(largest) + 1;
            match random.below(60) {
                0 => sequence.start(&mut tally, m, 3 * m as usize + 2),
                1 => sequence.start(&mut tally, m, 3 * m as usize - 1),
                2 => sequence.start(&mut tally, 0, 40),
                3 => sequence.start(&mut tally, 10_923 + random.sized(63), 40),
                4..=7 => sequence.sample(&mut tally, random.pick(&OUTSIDE)),
                8 => sequence.sample_with_short_ring(&mut tally, x),
                9 => {
                    sequence.gap(&mut tally);
                    sequence.gap(&mut tally);
                }
                10..=19 => sequence.report(&mut tally),
                _ => sequence.sample(&mut tally, x),
            }
        }
        sequence.report(&mut tally);
        several += (sequence.started && sequence.stretches_from(3 * sequence.meter.m) > 1) as u64;
    }
    assert!(several > 700, "{several} reports of several stretches that are due");
    tally.ran(246_856, &[0, 3, 5, 6, 7]);
}

/// From here on in every way: the next sample with a gap before it and without, and so on to the last, with a report after every call.
fn every_way_on(tally: &mut Tally, sequence: &Sequence, samples: &[i64]) {
    let mut after_gap = sequence.clone();
    after_gap.gap(tally);
    after_gap.report(tally);
    let Some((&x, rest)) = samples.split_first() else {
        return;
    };
    for mut next in [sequence.clone(), after_gap] {
        next.sample(tally, x);
        next.report(tally);
        every_way_on(tally, &next, rest);
    }
}

#[test]
fn gaps_at_every_place_of_short_streams() {
    // Long enough for two stretches that both give something to A, and to B but at m = 3.
    let (mut tally, mut random) = (Tally::default(), Random::new(55));
    for (m, length) in [(1, 10), (2, 12), (3, 14)] {
        let stream: Vec<i64> = (0..length).map(|_| random.between(-END, END)).collect();
        let sequence = Sequence::started(&mut tally, m);
        every_way_on(&mut tally, &sequence, &stream);
    }
    tally.ran(172_017, &[0]);
}

#[test]
fn gaps_with_nothing_between() {
    let mut tally = Tally::default();
    let mut sequence = Sequence::new();
    // Before any start: 7, and the meter of noughts stays one.
    sequence.gap(&mut tally);
    sequence.gap(&mut tally);
    sequence.report(&mut tally);
    sequence.start(&mut tally, 0, 9);
    sequence.start(&mut tally, 3, 8);
    sequence.gap(&mut tally);
    for m in [1, 2, 3, 100] {
        for length in [0, 1, 2 * m - 1, 2 * m, 2 * m + 1, 3 * m - 1, 3 * m, 3 * m + 1, 7 * m] {
            sequence.start(&mut tally, m, 3 * m as usize);
            for turn in 0..3 {
                for k in 0..length {
                    sequence.sample(&mut tally, (k * k % 1_009 + turn) as i64 * (END / 2_000));
                }
                for _ in 0..3 {
                    sequence.gap(&mut tally);
                    sequence.report(&mut tally);
                    sequence.sample(&mut tally, END + 1);
                }
            }
        }
    }
    tally.ran(8_022, &[0, 3, 5, 6, 7]);
}

#[test]
fn gaps_where_a_sum_falls_due() {
    let (mut tally, mut random) = (Tally::default(), Random::new(56));
    for m in [4, 5, 42, 127, 128, 1_000, 2_184, 5_461, 10_922] {
        let turning = [2 * m - 1, 3 * m + 1, 2 * m, 3 * m, 2 * m + 1, 3 * m - 1];
        let mut sequence = Sequence::started_long(&mut tally, m);
        for length in turning {
            // As many stretches to a stream as it can hold.
            if sequence.accepted + length > 32_768 {
                sequence = Sequence::started_long(&mut tally, m);
            }
            // And after the gap enough to see that nothing reaches across it.
            let after = (m + 2).min(32_768 - sequence.accepted - length);
            for (n, x) in record(&mut random, (length + after) as usize).into_iter().enumerate() {
                if n as u64 == length {
                    sequence.gap(&mut tally);
                    sequence.report(&mut tally);
                    sequence.sample(&mut tally, random.pick(&OUTSIDE));
                }
                sequence.sample(&mut tally, x);
                if turning.contains(&sequence.stretch()) {
                    sequence.report(&mut tally);
                }
            }
            sequence.report(&mut tally);
            sequence.gap(&mut tally);
        }
    }
    tally.ran(368_752, &[0, 3]);
}

/// Refused 2 for every sample, in range or out of it.
fn full_case(tally: &mut Tally, sequence: &mut Sequence) {
    assert_eq!(sequence.accepted, 32_768);
    for x in [0, END, -END, END + 1, i64::MIN] {
        sequence.sample(tally, x);
    }
    sequence.report(tally);
}

#[test]
fn full_streams_with_gaps() {
    let (mut tally, mut random) = (Tally::default(), Random::new(57));
    // The last gap but one is after so many samples, the last when the meter is full: then s is nought, and n is what it was.
    let never = 1 << 40;
    for (m, apart, last) in [(1, 4, 32_767), (2, 20, 32_766), (3, 900, 32_760), (100, 700, 32_468), (10_922, never, 2), (10_922, never, 10_923)] {
        let mut sequence = Sequence::started_long(&mut tally, m);
        for x in record(&mut random, 32_768) {
            if random.one_in(apart) || sequence.accepted == last {
                sequence.gap(&mut tally);
            }
            sequence.sample(&mut tally, x);
            if random.one_in(3_000) {
                sequence.sample(&mut tally, random.pick(&OUTSIDE));
                sequence.report(&mut tally);
            }
        }
        full_case(&mut tally, &mut sequence);
        let before = raw::meter_report(raw::meter(&sequence.meter));
        sequence.gap(&mut tally);
        assert_eq!((sequence.meter.n, sequence.meter.stretch), (32_768, 0));
        assert_eq!(raw::meter_report(raw::meter(&sequence.meter)), before);
        full_case(&mut tally, &mut sequence);
        sequence.gap(&mut tally);
        full_case(&mut tally, &mut sequence);
        // A start makes room again.
        sequence.start(&mut tally, m, 3 * m as usize);
        sequence.sample(&mut tally, END);
        sequence.report(&mut tally);
    }
    tally.ran(206_804, &[0, 2, 3]);
}

#[test]
fn streams_that_differ_by_an_offset_and_a_rate_in_each_stretch() {
    let (mut tally, mut random) = (Tally::default(), Random::new(58));
    let mut differing = 0;
    for turn in 0..500 {
        let (m, length): (u64, i64) = match turn {
            0 => (1_000, 12_000),
            1 => (3_000, 32_768),
            2..=9 => (random.below(90) + 11, 1_000),
            _ => (random.below(6) + 1, 100),
        };
        let apart = random.pick(&[3, 5, 9]) * m;
        let [mut one, mut other] = [(); 2].map(|_| Sequence::started_long(&mut tally, m));
        // Samples within half the range, and shifts within the other half.
        let mut shift = (0, 0);
        for x in record(&mut random, length as usize) {
            if one.stretch() == 0 || random.one_in(apart) {
                one.gap(&mut tally);
                other.gap(&mut tally);
                let rate = random.between(-END / 4, END / 4) / length;
                shift = (random.between(-END / 4, END / 4), rate >> random.below(30));
            }
            let shifted = x / 2 + shift.0 + shift.1 * one.stretch() as i64;
            differing += (shifted != x / 2) as u64;
            one.sample(&mut tally, x / 2);
            other.sample(&mut tally, shifted);
            let reports = [&one, &other].map(|sequence| raw::meter_report(raw::meter(&sequence.meter)));
            assert_eq!(reports[0], reports[1], "{:?}", one.meter);
        }
        assert_eq!(one.meter, other.meter);
        one.report(&mut tally);
        other.report(&mut tally);
    }
    assert!(differing > 90_000, "{differing} samples differ");
    tally.ran(214_732, &[0]);
}

#[test]
fn what_a_gap_leaves_in_the_ring() {
    // Three meters at every gap: one goes on with its ring as it is, the others with junk in every slot, in range and out of it.
    let (mut tally, mut random) = (Tally::default(), Random::new(59));
    for _ in 0..300 {
        let m = random.below(8) + 1;
        let mut sequences = [(); 3].map(|_| Sequence::started(&mut tally, m));
        for _ in 0..random.below(4) + 2 {
            let length = random.below(5 * m) as usize;
            for x in record(&mut random, length) {
                for sequence in &mut sequences {
                    sequence.sample(&mut tally, x);
                }
                let [as_it_is, in_range, outside] = [&sequences[0], &sequences[1], &sequences[2]].map(|sequence| sequence.meter);
                assert_eq!((in_range, outside), (as_it_is, as_it_is));
            }
            let junk: Vec<i64> = (0..3 * m).map(|_| random.between(-END, END)).collect();
            let outside: Vec<i64> = (0..3 * m).map(|_| random.pick(&OUTSIDE)).collect();
            for sequence in &mut sequences {
                sequence.gap(&mut tally);
                sequence.report(&mut tally);
            }
            sequences[1].rings = Sides::of(Lent::holding(&junk));
            sequences[2].rings = Sides::of(Lent::holding(&outside));
        }
    }
    tally.ran(39_018, &[0]);
}

/// A ring for it: proper samples in the slots that are read, but for one now and then; in the others junk, or proper samples too.
fn hand_made_ring(random: &mut Random, meter: &Meter) -> Lent<i64> {
    let m = worked_factor(meter.m);
    let slots = 3 * m;
    let length = if random.one_in(12) { random.pick(&[0, slots - 1]) } else { slots + random.pick(&[0, 0, 1, 5]) };
    let mut ring = if random.one_in(2) { Lent::painted(length as usize) } else { Lent::holding(&record(random, length as usize)) };
    let damaged = random.below(40);
    for (steps, odd) in [(1, 0), (2, 1), (3, 2)] {
        if meter.stretch < steps * m {
            continue;
        }
        let slot = ((meter.stretch - steps * m) % slots) as usize;
        if let Some(entry) = ring.part().get_mut(slot) {
            let any = random.between(-END, END);
            *entry = if damaged == odd { random.pick(&OUTSIDE) } else { random.pick(&[-END, END, 0, any]) };
        }
    }
    ring
}

#[test]
fn meters_made_by_hand() {
    let (mut tally, mut random) = (Tally::default(), Random::new(53));
    let mut broken = 0;
    for _ in 0..30_000 {
        let mut meter = hand_made(&mut random);
        report_case(&mut tally, &meter);
        let (after_gap, _) = gap_case(&mut tally, &meter);
        let mut ring = hand_made_ring(&mut random, &meter);
        let m = if random.one_in(4) { near(&mut random, &[0, 10_922]) } else { random.below(9) };
        start_case(&mut tally, &meter, m, &mut ring);
        let mut rings = Sides::of(ring);
        if rings.length() < 100 {
            let _ = sample_case(&mut tally, &after_gap, &mut rings.clone(), hand_made_sample(&mut random));
        }
        for _ in 0..random.below(6) {
            let (next, own) = sample_case(&mut tally, &meter, &mut rings, hand_made_sample(&mut random));
            report_case(&mut tally, &next);
            // An accepted sample may leave a meter that no longer holds together: then a gap does not mend it.
            if own.is_ok() && meter::report(&next).is_err() {
                assert_eq!(gap_case(&mut tally, &next), (next, false));
                broken += 1;
            }
            meter = next;
        }
    }
    assert!(broken > 100, "{broken} meters stopped holding together");
    tally.ran(273_247, &[0, 2, 3, 5, 6, 7]);
}

/// A meter made by hand through every entry that takes one and may refuse it.
fn meter_case(tally: &mut Tally, meter: &Meter, rings: &mut Sides<i64>) {
    report_case(tally, meter);
    gap_case(tally, meter);
    let _ = sample_case(tally, meter, rings, 2);
}

#[test]
fn every_field_at_every_limit() {
    let mut tally = Tally::default();
    let highs = with_neighbours(&[0, 1 << 62, 1 << 63]);
    for m in factors() {
        let due = worked_factor(m);
        let end = (due as i64) << 42;
        let mut rings = Sides::of(Lent::holding(&vec![1; 3 * due as usize]));
        for n in with_neighbours(&[0, due, 2 * due, 3 * due, 32_768, 1 << 32, 1 << 63]) {
            let sound = Meter { m, n, stretch: n, k: n / 2, c: n / 3, a: 5, b: 7, window: 0 };
            let windows = [0, end - 1, end, end + 1, 1 - end, -end, -end - 1, i64::MIN, i64::MAX].map(|window| Meter { window, ..sound });
            let sums = highs.iter().flat_map(|&high| [0, u64::MAX].map(|low| (high as u128) << 64 | low as u128));
            let meters = sums.flat_map(|sum| [Meter { a: sum, ..sound }, Meter { b: sum, ..sound }]).chain(windows);
            for meter in meters {
                meter_case(&mut tally, &meter, &mut rings);
            }
        }
    }
    tally.ran(91_935, &[0, 2, 7]);
}

#[test]
fn every_count_at_every_limit() {
    // s, K and C each about n and about where something changes, one at a time and all together.
    let mut tally = Tally::default();
    for m in [0, 1, 2, 7, 1_000, 10_922, 10_923] {
        let due = worked_factor(m);
        let mut rings = Sides::of(Lent::holding(&vec![1; 3 * due as usize]));
        for n in with_neighbours(&[0, due, 2 * due, 3 * due, 32_768, 1 << 16, 1 << 32, 1 << 63]) {
            let sound = Meter { m, n, stretch: n / 2, k: n / 3, c: n / 4, a: 5, b: 7, window: -1 };
            for count in with_neighbours(&[0, due, 2 * due, 3 * due, n, 32_768, 1 << 32, 1 << 63]) {
                for meter in [
                    Meter { stretch: count, ..sound },
                    Meter { k: count, ..sound },
                    Meter { c: count, ..sound },
                    Meter { stretch: count, k: count, c: count, ..sound },
                    Meter { stretch: count, k: 0, c: 0, ..sound },
                ] {
                    meter_case(&mut tally, &meter, &mut rings);
                }
            }
        }
    }
    tally.ran(47_655, &[0, 2, 7]);
}

#[test]
fn reports_by_the_term_counts_alone() {
    let mut tally = Tally::default();
    for m in [1, 2, 3, 100, 10_922] {
        for n in [0, 1, 2 * m, 2 * m + 1, 3 * m - 1, 3 * m, 32_767, 32_768] {
            for stretch in [0, 1, 2 * m, 2 * m + 1, 3 * m - 1, 3 * m, 32_767, 32_768] {
                for k in [0, 1, n / 2, n] {
                    for c in [0, 1, n / 2, n] {
                        for (a, b) in [(0, 0), (5 << 64 | 3, 7 << 64 | 9), ((1 << 126) - 1, (1 << 126) - 2)] {
                            let meter = Meter { m, n, stretch, k, c, a, b, window: 0 };
                            report_case(&mut tally, &meter);
                            if n <= 32_768 && stretch.max(k).max(c) <= n {
                                let parts = [part(&Sum { total: a, count: k }), part(&Sum { total: b, count: c })];
                                assert_eq!(raw::meter_report(raw::meter(&meter)).words(), [vec![0, 0], parts.concat()].concat(), "{meter:?}");
                            }
                        }
                    }
                }
            }
        }
    }
    tally.ran(15_360, &[0, 7]);
}

#[test]
fn slots_that_are_read_and_slots_that_are_not() {
    // Every s up to 4m, and those about the full meter, beside many an n; one bad slot at a time, at every place of the ring.
    let mut tally = Tally::default();
    for m in 1..=4u64 {
        for stretch in (0..=4 * m).chain(32_760..=32_768) {
            let beside = [0, 1, 2, m, 2 * m, 3 * m, 3 * m + 1, 5 * m + 1].map(|more| stretch + more);
            let mut counts: Vec<u64> = beside.into_iter().chain([32_767, 32_768]).filter(|&n| n >= stretch && n <= 32_768).collect();
            counts.sort();
            counts.dedup();
            for n in counts {
                for bad in 0..3 * m as usize + 2 {
                    for value in [END, END + 1, -END, -END - 1, i64::MIN] {
                        for x in [3, END + 1] {
                            let meter = Meter { m, n, stretch, k: 1, c: 0, a: 11, b: 13, window: 17 };
                            let mut ring = Lent::holding(&vec![1; 3 * m as usize + 2]);
                            ring.part()[bad] = value;
                            let _ = sample_case(&mut tally, &meter, &mut Sides::of(ring), x);
                        }
                    }
                }
            }
        }
    }
    tally.ran(61_570, &[0, 2, 3, 7]);
}

#[test]
fn slots_by_the_stretch_and_not_by_all() {
    // Proper samples in the slots that s leads to alone, and in those that n leads to alone.
    let mut tally = Tally::default();
    let mut taken = [0; 2];
    for m in [1, 2, 3, 7, 500] {
        let slots = 3 * m as usize;
        for stretch in [0, 1, 2 * m - 1, 2 * m, 2 * m + 1, 3 * m - 1, 3 * m, 3 * m + 1, 6 * m, 20 * m] {
            for n in (stretch..stretch + 3 * m + 2).step_by(slots.div_ceil(30)).chain([32_767]) {
                let meter = Meter { m, n, stretch, k: 0, c: 0, a: 11, b: 13, window: 17 };
                for (side, leads) in [(0, stretch), (1, n)] {
                    let mut ring = Lent::painted(slots);
                    for (value, steps) in [(5, 1), (-7, 2), (11, 3)] {
                        if leads >= steps * m {
                            ring.part()[((leads - steps * m) % (3 * m)) as usize] = value;
                        }
                    }
                    let (_, own) = sample_case(&mut tally, &meter, &mut Sides::of(ring), 2);
                    // Slots that s leads to are good; those of n are where nothing is read, or where they are the same.
                    assert!(own.is_ok() || side == 1, "{meter:?}");
                    taken[side] += own.is_ok() as u64;
                }
            }
        }
    }
    assert_eq!(taken, [830, 412]);
    tally.ran(1_660, &[0, 7]);
}

#[test]
fn rings_at_every_limit() {
    let mut tally = Tally::default();
    let odd = Meter { m: u64::MAX, n: u64::MAX, stretch: u64::MAX, k: u64::MAX, c: u64::MAX, a: u128::MAX, b: u128::MAX, window: i64::MIN };
    for m in factors() {
        let slots = 3 * m.clamp(1, 10_922) as usize;
        for length in [0, 1, slots - 1, slots, slots + 1, 32_768] {
            let mut ring = Lent::painted(length);
            for old in [Meter::NOUGHTS, Meter { m: 3, n: 20, stretch: 9, k: 5, c: 4, a: 5, b: 6, window: -7 }, odd] {
                start_case(&mut tally, &old, m, &mut ring);
            }
            let one = Meter { m, n: 1, stretch: 1, ..Meter::NOUGHTS };
            let _ = sample_case(&mut tally, &one, &mut Sides::of(ring), 2);
        }
    }
    tally.ran(792, &[0, 5, 6, 7]);
}
