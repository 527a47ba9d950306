//! Sixteen channels in one ring over the C boundary: calls on all of them in any order, beside sixteen meters that each have a ring of their own; shares at
//! every limit; and meters made by hand.

#[allow(dead_code)]
mod shared;

use independent::channels::{self, share};
use independent::meter::{self, Meter};
use independent::sums::{allan_sum, modified_sum, Sums};
use independent::{Answer, Refusal};
use ploegelster::boundary::SumsAnswer;
use shared::answers::{expected_meter, Words};
use shared::lent::{Lent, Sides};
use shared::meters::{hand_made, hand_made_sample, latest, near, part, total};
use shared::random::Random;
use shared::records::{record, OUTSIDE};
use shared::{raw, with_neighbours, Tally, END};

/// Numbers of no channel: just above 15, and such as look right in their lower bits or with a sign.
const NO_CHANNELS: [u64; 11] = [16, 17, 31, 32, 48, 256, 1 << 16, 1 << 32, (1 << 32) + 15, 1 << 63, u64::MAX];

/// Every channel, and every number above that is none.
fn all_channels() -> impl Iterator<Item = u64> {
    (0..16).chain(NO_CHANNELS)
}

/// What a meter with a ring of its own answers, or 11 where there is no such channel.
fn alone<T>(channel: u64, answer: impl FnOnce() -> Answer<T>) -> Answer<T> {
    if channel > 15 {
        Err(Refusal { number: 11, place: 0 })
    } else {
        answer()
    }
}

/// The channel's part of a ring, copied; of no channel nothing.
fn part_of(ring: &[i64], channel: u64) -> Vec<i64> {
    let share = ring.len() / 16;
    match channel {
        0..=15 => ring[channel as usize * share..][..share].to_vec(),
        _ => vec![],
    }
}

/// A start, compared: the ring stays as it was. Gives the meter that comes back, and what a meter with a ring of its own answers.
fn start_case(tally: &mut Tally, old: &Meter, channel: u64, m: u64, ring: &mut Lent<i64>, apart: &[i64]) -> (Meter, Answer<Meter>) {
    let before = ring.clone();
    let right = alone(channel, || meter::start(m, apart));
    let own = channels::start(channel, m, ring.part());
    let raw = raw::channel_start(raw::meter(old), channel, m, ring.part());
    let wrapped = ploegelster::channel_start(raw::meter(old), channel, m, ring.part());
    let input = || format!("start, channel {channel}, {old:?}, factor {m}, share of {}", apart.len());
    assert_eq!(own, right, "second implementation's channel left, its meter right, {}", input());
    tally.same_raw(&raw.words(), &expected_meter(&right, old), input);
    tally.same_wrapped(&wrapped, &right, input);
    assert_eq!(ring.differs(&before), None, "ring changed by a start, {}", input());
    (right.unwrap_or(*old), right)
}

/// A sample, with its answers compared; the rings are left to compare. Gives what a start does.
fn sample_answers(tally: &mut Tally, meter: &Meter, channel: u64, rings: &mut Sides<i64>, apart: &mut [i64], x: i64) -> (Meter, Answer<Meter>) {
    let right = alone(channel, || meter::sample(meter, apart, x));
    let own = channels::sample(meter, channel, rings.own.part(), x);
    let raw = raw::channel_sample(raw::meter(meter), channel, rings.raw.part(), x);
    let wrapped = ploegelster::channel_sample(raw::meter(meter), channel, rings.wrapped.part(), x);
    let input = || format!("sample, channel {channel}, {meter:?}, sample {x}, ring of {}", rings.length());
    assert_eq!(own, right, "second implementation's channel left, its meter right, {}", input());
    tally.same_raw(&raw.words(), &expected_meter(&right, meter), input);
    tally.same_wrapped(&wrapped, &right, input);
    (right.unwrap_or(*meter), right)
}

/// A sample, compared: the channel's part is as the meter's own ring, and all the rest of the ring is as it was.
fn sample_case(tally: &mut Tally, meter: &Meter, channel: u64, rings: &mut Sides<i64>, x: i64) -> (Meter, Answer<Meter>) {
    let mut right = rings.own.clone();
    let mut apart = part_of(right.part(), channel);
    let answers = sample_answers(tally, meter, channel, rings, &mut apart, x);
    if channel <= 15 {
        right.part()[channel as usize * apart.len()..][..apart.len()].copy_from_slice(&apart);
    }
    let input = || format!("sample, channel {channel}, {meter:?}, sample {x}, ring of {}", rings.length());
    assert_eq!(rings.own.differs(&right), None, "first other entry of the ring, second implementation, {}", input());
    rings.same(input);
    answers
}

/// A gap, compared. Gives what a start does.
fn gap_case(tally: &mut Tally, meter: &Meter, channel: u64) -> (Meter, Answer<Meter>) {
    let right = alone(channel, || meter::gap(meter));
    let raw = raw::channel_gap(raw::meter(meter), channel);
    let wrapped = ploegelster::channel_gap(raw::meter(meter), channel);
    let input = || format!("gap, channel {channel}, {meter:?}");
    assert_eq!(channels::gap(meter, channel), right, "second implementation's channel left, its meter right, {}", input());
    tally.same_raw(&raw.words(), &expected_meter(&right, meter), input);
    tally.same_wrapped(&wrapped, &right, input);
    (right.unwrap_or(*meter), right)
}

/// A report, compared. Gives the library's answer.
fn report_case(tally: &mut Tally, meter: &Meter, channel: u64) -> SumsAnswer {
    let right: Answer<Sums> = alone(channel, || meter::report(meter));
    let (lent, input) = (raw::meter(meter), || format!("report, channel {channel}, {meter:?}"));
    assert_eq!(channels::report(meter, channel), right, "second implementation's channel left, its meter right, {}", input());
    let raw = raw::channel_report(lent, channel);
    tally.same(&raw, &ploegelster::channel_report(lent, channel), &right, input);
    raw
}

/// One channel in use: what its latest call gave back, and the ring of a meter beside it, which is as long as the share.
struct Channel {
    meter: Meter,
    apart: Vec<i64>,
    /// The samples accepted since the latest accepted start, stretch by stretch; the last is the present one.
    stretches: Vec<Vec<i64>>,
    accepted: u64,
    started: bool,
    /// What the library last reported of it.
    report: SumsAnswer,
}

/// Sixteen channels in use, and the ring that they share, on all sides.
struct Bank {
    channels: Vec<Channel>,
    rings: Sides<i64>,
    /// The entries behind the last part, which are nobody's.
    behind: Vec<i64>,
    /// The ring and the other channels are looked at after every so many calls, and at every refusal.
    every: u64,
    calls: u64,
}

impl Bank {
    /// No channel is started yet, and the ring is paint.
    fn new(length: usize) -> Bank {
        let mut ring = Lent::painted(length);
        let report = raw::channel_report(raw::meter(&Meter::NOUGHTS), 0);
        let entries = ring.part().to_vec();
        let channel =
            |c: u64| Channel { meter: Meter::NOUGHTS, apart: part_of(&entries, c), stretches: vec![vec![]], accepted: 0, started: false, report };
        let behind = entries[16 * share(length)..].to_vec();
        Bank { channels: (0..16).map(channel).collect(), rings: Sides::of(ring), behind, every: 1, calls: 0 }
    }

    /// How many entries each channel has.
    fn share(&self) -> usize {
        self.channels[0].apart.len()
    }

    /// The meter that goes with this number: a channel's own, or one of them where there is no such channel.
    fn meter(&self, channel: u64) -> Meter {
        self.channels[(channel % 16) as usize].meter
    }

    fn start(&mut self, tally: &mut Tally, channel: u64, m: u64) -> u64 {
        let (old, c) = (self.meter(channel), (channel % 16) as usize);
        let (meter, right) = start_case(tally, &old, channel, m, &mut self.rings.raw, &self.channels[c].apart);
        if right.is_ok() {
            let here = &mut self.channels[c];
            (here.meter, here.stretches, here.accepted, here.started) = (meter, vec![vec![]], 0, true);
        }
        self.called(channel, right.err())
    }

    fn sample(&mut self, tally: &mut Tally, channel: u64, x: i64) -> u64 {
        let meter = self.meter(channel);
        let here = &mut self.channels[(channel % 16) as usize];
        let (next, right) = sample_answers(tally, &meter, channel, &mut self.rings, &mut here.apart, x);
        // Once started and until 32,768 are in, whatever the stretch, no sample in range is refused.
        let number = if channel > 15 {
            11
        } else if !here.started {
            7
        } else if here.accepted == 32_768 {
            2
        } else if x.unsigned_abs() > END as u64 {
            3
        } else {
            0
        };
        assert_eq!(right.err().map_or(0, |refusal| refusal.number), number);
        if number == 0 {
            here.meter = next;
            here.stretches.last_mut().expect("one is present").push(x);
            here.accepted += 1;
        }
        self.called(channel, right.err())
    }

    fn gap(&mut self, tally: &mut Tally, channel: u64) -> u64 {
        let (next, right) = gap_case(tally, &self.meter(channel), channel);
        let here = &mut self.channels[(channel % 16) as usize];
        assert_eq!(right.is_ok(), channel <= 15 && here.started);
        if right.is_ok() {
            here.meter = next;
            if here.stretches.last().is_some_and(|stretch| !stretch.is_empty()) {
                here.stretches.push(vec![]);
            }
        }
        self.called(channel, right.err())
    }

    /// A report, which is also the totals of the published sums of each stretch alone, worked from scratch.
    fn report(&mut self, tally: &mut Tally, channel: u64) -> u64 {
        let report = report_case(tally, &self.meter(channel), channel);
        let here = &self.channels[(channel % 16) as usize];
        if channel <= 15 && here.started {
            let m = here.meter.m;
            let allan = total(&here.stretches, |stretch| allan_sum(stretch, m));
            let modified = total(&here.stretches, |stretch| modified_sum(stretch, m));
            assert_eq!(report.words(), [vec![0, 0], part(&allan), part(&modified)].concat(), "channel {channel}, {:?}", here.meter);
            let present = &here.stretches[here.stretches.len() - 1];
            let Meter { n, stretch, k, c, window, .. } = here.meter;
            assert_eq!([n, stretch, k, c], [here.accepted, present.len() as u64, allan.count, modified.count], "counts of {:?}", here.meter);
            assert_eq!(window as i128, latest(present, m as usize), "window of {:?}", here.meter);
        } else {
            assert_eq!(report.number, if channel > 15 { 11 } else { 7 });
        }
        self.called(channel, (report.number > 0).then_some(Refusal { number: report.number, place: report.place }))
    }

    /// Calls with a meter that does not hold together, the channel's own with one field past its limit: 7, and the channel goes on as it was.
    fn damaged(&mut self, tally: &mut Tally, channel: u64, field: u64) -> u64 {
        let sound = self.meter(channel);
        let end = (sound.m as i64) << 42;
        let meter = match field {
            0 => Meter { m: 0, ..sound },
            1 => Meter { m: 10_923, ..sound },
            2 => Meter { n: 32_769, ..sound },
            3 => Meter { stretch: sound.n + 1, ..sound },
            4 => Meter { k: sound.n + 1, ..sound },
            5 => Meter { c: sound.n + 1, ..sound },
            6 => Meter { a: 1 << 126, ..sound },
            7 => Meter { b: u128::MAX, ..sound },
            8 => Meter { window: end + 1, ..sound },
            _ => Meter { window: -end - 1, ..sound },
        };
        let number = if channel > 15 { 11 } else { 7 };
        let here = &mut self.channels[(channel % 16) as usize];
        let (back, right) = sample_answers(tally, &meter, channel, &mut self.rings, &mut here.apart, 1);
        assert_eq!((back, right.err().map(|refusal| refusal.number)), (meter, Some(number)));
        assert_eq!(gap_case(tally, &meter, channel), (back, right));
        assert_eq!(report_case(tally, &meter, channel).number, number);
        self.called(channel, right.err())
    }

    /// After a call on a channel. Gives the number that was given.
    fn called(&mut self, channel: u64, refusal: Option<Refusal>) -> u64 {
        self.calls += 1;
        if channel <= 15 {
            let here = &mut self.channels[channel as usize];
            here.report = raw::channel_report(raw::meter(&here.meter), channel);
        }
        if refusal.is_some() || self.calls.is_multiple_of(self.every) {
            self.look_over(channel);
        }
        assert_eq!(refusal.map_or(0, |refusal| refusal.place), 0);
        refusal.map_or(0, |refusal| refusal.number)
    }

    /// The ring, whole, is the sixteen rings one after the other, with what lay behind them; and every other channel's report is what it was.
    fn look_over(&mut self, channel: u64) {
        let share = self.share();
        self.rings.same(|| format!("after a call on channel {channel}"));
        let ring = self.rings.own.part();
        for (c, here) in self.channels.iter().enumerate() {
            assert_eq!(ring[c * share..][..share], here.apart, "part of channel {c} after a call on channel {channel}");
            let report = raw::channel_report(raw::meter(&here.meter), c as u64);
            assert_eq!(report, here.report, "report of channel {c} after a call on channel {channel}");
        }
        assert_eq!(ring[16 * share..], self.behind, "behind the last part after a call on channel {channel}");
    }
}

/// One call of many, on a channel or on none; a factor is at most this one, or too large. Most calls are samples, few are starts.
fn any_call(tally: &mut Tally, random: &mut Random, bank: &mut Bank, largest: u64, x: i64) {
    let channel = if random.one_in(12) { random.pick(&NO_CHANNELS) } else { random.below(16) };
    match random.below(60) {
        0 | 1 => bank.start(tally, channel, random.below(largest + 2)),
        2 => bank.start(tally, channel, largest + 1 + random.below(3)),
        3 if random.one_in(2) => bank.start(tally, channel, 10_923 + random.sized(63)),
        3 => bank.damaged(tally, channel, random.below(10)),
        4..=6 => bank.gap(tally, channel),
        7..=12 => bank.report(tally, channel),
        13..=15 => bank.sample(tally, channel, random.pick(&OUTSIDE)),
        _ => bank.sample(tally, channel, x),
    };
}

#[test]
fn calls_in_any_order() {
    let (mut tally, mut random) = (Tally::default(), Random::new(401));
    let mut several = 0;
    for turn in 0..300 {
        let largest = random.below(4) + 1;
        // Just long enough for the largest factor, or a little longer, with every number of entries behind the last part.
        let mut bank = Bank::new(16 * (3 * largest + random.below(3)) as usize + turn % 16);
        // One in four banks begins before any start.
        for channel in 0..16 {
            if turn % 4 > 0 && !random.one_in(8) {
                bank.start(&mut tally, channel, random.below(largest) + 1);
            }
        }
        for x in record(&mut random, 600) {
            any_call(&mut tally, &mut random, &mut bank, largest, x);
        }
        for channel in 0..16 {
            bank.report(&mut tally, channel);
        }
        let due = |channel: &&Channel| channel.started && channel.stretches.iter().filter(|one| one.len() as u64 >= 3 * channel.meter.m).count() > 1;
        several += bank.channels.iter().filter(due).count();
    }
    assert!(several > 500, "{several} reports of several stretches that are due");
    tally.ran(190_966, &[0, 3, 5, 6, 7, 11]);
}

#[test]
fn each_channel_by_itself_and_all_in_turn() {
    let (mut tally, mut random) = (Tally::default(), Random::new(402));
    for m in [1, 2, 7] {
        for spare in [0, 1, 15, 16, 40] {
            let length = 48 * m as usize + spare;
            for only in 0..16 {
                let mut bank = Bank::new(length);
                assert_eq!(bank.start(&mut tally, only, m), 0);
                for x in record(&mut random, 4 * m as usize) {
                    bank.sample(&mut tally, only, x);
                }
                bank.report(&mut tally, only);
                let written = bank.rings.raw.part().iter().filter(|x| x.abs() <= END).count();
                assert_eq!(written, 3 * m as usize);
            }
            let mut bank = Bank::new(length);
            for channel in 0..16 {
                assert_eq!(bank.start(&mut tally, channel, m), 0);
            }
            for (turn, x) in record(&mut random, 64 * m as usize).into_iter().enumerate() {
                // From the first to the last, and back again.
                let channel = if turn % 32 < 16 { turn % 16 } else { 15 - turn % 16 };
                assert_eq!(bank.sample(&mut tally, channel as u64, x), 0);
            }
            for channel in all_channels() {
                bank.report(&mut tally, channel);
                bank.gap(&mut tally, channel);
                bank.sample(&mut tally, channel, 5);
                bank.report(&mut tally, channel);
            }
            let written = bank.rings.raw.part().iter().filter(|x| x.abs() <= END).count();
            assert_eq!(written, 48 * m as usize);
        }
    }
    tally.ran(8_740, &[0, 11]);
}

#[test]
fn shares_at_every_limit() {
    let mut tally = Tally::default();
    for m in [1u64, 2, 7] {
        let slots = 3 * m as usize;
        let about = [16 * slots - 16, 16 * slots - 15, 16 * slots - 1, 16 * slots, 16 * slots + 1, 16 * slots + 15, 16 * slots + 16, 17 * slots];
        let mut lengths = [&[0, 1, 15, 16, 17, 31, 32, 47, 48, 49, slots, slots + 1][..], &about].concat();
        lengths.sort();
        lengths.dedup();
        for length in lengths {
            let share = length / 16;
            for channel in all_channels() {
                let mut bank = Bank::new(length);
                for factor in [0, m - 1, m, m + 1, length as u64 / 3, 10_922, 10_923, u64::MAX / 3 + 1, u64::MAX] {
                    let number = bank.start(&mut tally, channel, factor);
                    let right = match (channel, factor) {
                        (16.., _) => 11,
                        (_, 0 | 10_923..) => 5,
                        _ if share < 3 * factor as usize => 6,
                        _ => 0,
                    };
                    assert_eq!(number, right, "channel {channel}, factor {factor}, ring of {length}");
                    // A meter of this factor that was started elsewhere: 7 where the share is too short for it.
                    let mut rings = Sides::painted(length);
                    let fresh = Meter { m: factor, ..Meter::NOUGHTS };
                    let (_, own) = sample_case(&mut tally, &fresh, channel, &mut rings, -5);
                    assert_eq!(own.err().map_or(0, |refusal| refusal.number), if right == 5 || right == 6 { 7 } else { right });
                }
                // What was started last goes on.
                for x in 0..slots as i64 + 2 {
                    bank.sample(&mut tally, channel, x * x);
                }
                bank.report(&mut tally, channel);
            }
        }
    }
    tally.ran(47_628, &[0, 5, 6, 7, 11]);
}

#[test]
fn the_largest_factor_on_some_channels() {
    let (mut tally, mut random) = (Tally::default(), Random::new(403));
    // One entry a share too few, just enough, more; and shares that pass 15 and 16 bits.
    for length in [524_240, 524_255, 524_256, 524_257, 524_271, 524_272, 524_293, 1_048_627] {
        let mut bank = Bank::new(length);
        bank.every = 40;
        let enough = length >= 524_256;
        for channel in [0, 1, 2, 7, 14, 15, 16, u64::MAX] {
            for m in [10_922, 10_923] {
                let right = match channel {
                    16.. => 11,
                    _ if m == 10_923 => 5,
                    _ => 6 * !enough as u64,
                };
                assert_eq!(bank.start(&mut tally, channel, m), right);
            }
            for x in record(&mut random, 20) {
                let right = if channel > 15 { 11 } else { 7 * !enough as u64 };
                // A refusal looks over the whole ring: a few are enough.
                if right == 0 || random.one_in(10) {
                    assert_eq!(bank.sample(&mut tally, channel, x), right);
                }
            }
        }
        // Some that fit into the share of every such ring.
        for (channel, m) in [(3, 10_921), (4, 1), (13, 5_461)] {
            assert_eq!(bank.start(&mut tally, channel, m), 0);
            for x in record(&mut random, 50) {
                assert_eq!(bank.sample(&mut tally, channel, x), 0);
            }
            bank.report(&mut tally, channel);
        }
        bank.look_over(0);
    }
    tally.ran(2_159, &[0, 5, 6, 7, 11]);
}

/// Full: 2 for every sample, in range or out of it, and 11 all the same where there is no such channel. A gap does not make room.
fn full_case(tally: &mut Tally, bank: &mut Bank, channel: u64) {
    assert_eq!(bank.channels[channel as usize].accepted, 32_768);
    for _ in 0..2 {
        for x in [0, END, END + 1, i64::MIN] {
            assert_eq!(bank.sample(tally, channel, x), 2);
        }
        assert_eq!(bank.sample(tally, channel + 16, 0), 11);
        assert_eq!(bank.report(tally, channel), 0);
        assert_eq!(bank.gap(tally, channel), 0);
    }
    let meter = bank.channels[channel as usize].meter;
    assert_eq!((meter.n, meter.stretch), (32_768, 0));
}

#[test]
fn full_streams_on_some_channels() {
    let (mut tally, mut random) = (Tally::default(), Random::new(404));
    let small: &[(u64, u64, u64)] = &[(0, 1, 32_768), (6, 3, 32_768), (7, 2, 9_000), (15, 2, 32_768)];
    let large: &[(u64, u64, u64)] = &[(0, 10_922, 32_768), (9, 5_461, 5_000), (15, 10_922, 32_768)];
    for (length, every, streams) in [(16 * 9 + 5, 16, small), (524_256 + 9, 8_000, large)] {
        let mut bank = Bank::new(length);
        bank.every = every;
        for &(channel, m, _) in streams {
            assert_eq!(bank.start(&mut tally, channel, m), 0);
        }
        let samples: Vec<Vec<i64>> = streams.iter().map(|&(_, _, many)| record(&mut random, many as usize)).collect();
        for turn in 0..32_768 {
            for (&(channel, m, _), samples) in streams.iter().zip(&samples) {
                let Some(&x) = samples.get(turn) else { continue };
                if m < 100 && random.one_in(900) {
                    bank.gap(&mut tally, channel);
                }
                assert_eq!(bank.sample(&mut tally, channel, x), 0);
                if random.one_in(12_000) {
                    bank.report(&mut tally, channel);
                }
            }
        }
        for &(channel, _, many) in streams {
            bank.report(&mut tally, channel);
            if many == 32_768 {
                full_case(&mut tally, &mut bank, channel);
            } else {
                // One that is not full goes on beside those that are.
                assert_eq!(bank.sample(&mut tally, channel, END), 0);
            }
        }
        // A start makes room again, on that channel alone.
        assert_eq!(bank.start(&mut tally, 15, 1), 0);
        assert_eq!(bank.sample(&mut tally, 15, END), 0);
        assert_eq!(bank.sample(&mut tally, 0, END), 2);
        bank.look_over(15);
    }
    tally.ran(178_050, &[0, 2, 11]);
}

#[test]
fn refusals_in_their_order() {
    let mut tally = Tally::default();
    let sound = Meter { m: 1, n: 9, stretch: 5, k: 4, c: 3, a: 5, b: 7, window: -1 };
    let full = Meter { n: 32_768, ..sound };
    let broken = Meter { k: 10, ..sound };
    let odd = Meter { m: u64::MAX, n: u64::MAX, stretch: u64::MAX, k: u64::MAX, c: u64::MAX, a: u128::MAX, b: u128::MAX, window: i64::MIN };
    let number = |answer: Answer<Meter>| answer.err().map_or(0, |refusal| refusal.number);
    for channel in all_channels() {
        let first = |number: u64| if channel > 15 { 11 } else { number };
        for length in [0, 15, 47, 48, 63, 64] {
            let enough = length >= 48;
            let mut ring = Lent::holding(&vec![3; length]);
            let apart = part_of(ring.part(), channel);
            for old in [sound, full, broken, odd, Meter::NOUGHTS] {
                for (m, right) in [(0, 5), (1, if enough { 0 } else { 6 }), (2, 6), (10_922, 6), (10_923, 5), (u64::MAX, 5)] {
                    let (meter, own) = start_case(&mut tally, &old, channel, m, &mut ring, &apart);
                    assert_eq!(number(own), first(right));
                    assert_eq!(meter, if own.is_ok() { Meter { m, ..Meter::NOUGHTS } } else { old });
                }
            }
            assert!(ring.holds(&vec![3; length]), "ring changed by a start");
            for (meter, holds) in [(sound, true), (full, true), (broken, false), (odd, false), (Meter::NOUGHTS, false)] {
                for x in [2, END, END + 1, i64::MIN] {
                    let mut rings = Sides::of(Lent::holding(&vec![3; length]));
                    let right = if !holds || !enough {
                        7
                    } else if meter == full {
                        2
                    } else {
                        3 * (x.unsigned_abs() > END as u64) as u64
                    };
                    let (back, own) = sample_case(&mut tally, &meter, channel, &mut rings, x);
                    assert_eq!(number(own), first(right));
                    assert!(own.is_ok() || back == meter && rings.own.holds(&vec![3; length]));
                }
                let (back, own) = gap_case(&mut tally, &meter, channel);
                assert_eq!(number(own), first(7 * !holds as u64));
                assert_eq!(back, if own.is_ok() { Meter { stretch: 0, window: 0, ..meter } } else { meter });
                let report = report_case(&mut tally, &meter, channel);
                assert_eq!((report.number, report.place), (first(7 * !holds as u64), 0));
                // Beside a refusal each part is noughts, its own number too.
                assert!(report.number == 0 || report.words()[2..].iter().all(|&word| word == 0));
            }
        }
    }
    tally.ran(9_720, &[0, 2, 3, 5, 6, 7, 11]);
}

#[test]
fn slots_that_are_read_and_slots_that_are_not() {
    // One bad entry at a time, at every place of the ring: the channel's own part, a neighbour's, and behind the last.
    let mut tally = Tally::default();
    let mut sevens = 0;
    for (m, length) in [(1u64, 55), (2, 112)] {
        let (slots, share) = (3 * m, length / 16);
        for channel in [0, 1, 7, 14, 15] {
            for stretch in [0, 1, 2 * m - 1, 2 * m, 2 * m + 1, 3 * m - 1, 3 * m, 3 * m + 1, 4 * m] {
                let meter = Meter { m, n: stretch + 1, stretch, k: 1, c: 0, a: 11, b: 13, window: 17 };
                let base = channel as usize * share;
                let steps = [1, 2, 3].into_iter().filter(|steps| stretch >= 2 * m && stretch >= steps * m);
                let read: Vec<usize> = steps.map(|steps| base + ((stretch - steps * m) % slots) as usize).collect();
                for bad in 0..length {
                    for value in [END + 1, -END - 1] {
                        let mut ring = Lent::holding(&vec![1; length]);
                        ring.part()[bad] = value;
                        let (_, own) = sample_case(&mut tally, &meter, channel, &mut Sides::of(ring), 3);
                        assert_eq!(own.is_err(), read.contains(&bad), "entry {bad}, channel {channel}, {meter:?}");
                        sevens += own.is_err() as u64;
                    }
                }
                // Every entry but those that are read: nothing of it matters.
                let mut ring = Lent::painted(length);
                read.iter().for_each(|&entry| ring.part()[entry] = 1);
                let (_, own) = sample_case(&mut tally, &meter, channel, &mut Sides::of(ring), 3);
                assert!(own.is_ok());
            }
        }
    }
    assert_eq!(sevens, 310);
    tally.ran(15_120, &[0, 7]);
}

/// A meter made by hand through every entry of a channel.
fn every_entry(tally: &mut Tally, meter: &Meter, channel: u64, m: u64, rings: &mut Sides<i64>, x: i64) -> (Meter, Answer<Meter>) {
    let _ = report_case(tally, meter, channel);
    let _ = gap_case(tally, meter, channel);
    let apart = part_of(rings.raw.part(), channel);
    let _ = start_case(tally, meter, channel, m, &mut rings.raw, &apart);
    sample_case(tally, meter, channel, rings, x)
}

#[test]
fn every_field_at_every_limit() {
    let mut tally = Tally::default();
    let highs = with_neighbours(&[0, 1 << 62, 1 << 63]);
    let mut turn = 0;
    for m in [0, 1, 2, 7, 10_922, 10_923, 1 << 32, u64::MAX] {
        let due = if m == 0 || m > 10_923 { 3 } else { m };
        // A whole ring for the largest factor is long: there a few of the limits are enough.
        let large = due > 10_000;
        let mut rings = Sides::of(Lent::holding(&vec![1; 48 * due as usize + 5]));
        let end = (due as i64) << 42;
        let numbers =
            if large { vec![0, 2 * due, 3 * due, 32_768, 32_769] } else { with_neighbours(&[0, 2 * due, 3 * due, 32_768, 1 << 32, 1 << 63]) };
        for n in numbers {
            let sound = Meter { m, n, stretch: n / 2, k: n / 2, c: n / 3, a: 5, b: 7, window: 0 };
            let windows = [0, end, end + 1, -end, -end - 1, i64::MIN, i64::MAX].map(|window| Meter { window, ..sound });
            let sums = highs.iter().map(|&high| (high as u128) << 64 | u64::MAX as u128);
            let sums = sums.flat_map(|sum| [Meter { a: sum, ..sound }, Meter { b: sum, ..sound }]);
            let counts = [0, n, n.wrapping_add(1), 1 << 32 | n, u64::MAX].into_iter();
            let counts = counts.flat_map(|count| [Meter { stretch: count, ..sound }, Meter { k: count, ..sound }, Meter { c: count, ..sound }]);
            for meter in windows.into_iter().chain(sums).chain(counts) {
                turn += 1;
                if large && turn % 5 > 0 {
                    continue;
                }
                let channel = if turn % 11 == 0 { NO_CHANNELS[turn % NO_CHANNELS.len()] } else { turn as u64 % 16 };
                let _ = every_entry(&mut tally, &meter, channel, [due, 0, due + 1][turn % 3], &mut rings, 2);
            }
        }
    }
    tally.ran(16_960, &[0, 2, 5, 6, 7, 11]);
}

#[test]
fn meters_made_by_hand() {
    let (mut tally, mut random) = (Tally::default(), Random::new(405));
    let mut broken = 0;
    for _ in 0..8_000 {
        let mut meter = hand_made(&mut random);
        let channel = if random.one_in(12) { random.pick(&NO_CHANNELS) } else { random.below(16) };
        // The share is right for the factor, one short or a little longer; for a large factor it is much too short.
        let slots = if meter.m >= 1 && meter.m <= 60 { 3 * meter.m } else { 9 };
        let share = if random.one_in(12) { slots - 1 } else { slots + random.pick(&[0, 0, 1, 5]) };
        let length = (16 * share + random.below(16)) as usize;
        let mut ring = if random.one_in(3) { Lent::painted(length) } else { Lent::holding(&record(&mut random, length)) };
        if random.one_in(8) {
            let any = random.below(length as u64) as usize;
            ring.part()[any] = random.pick(&OUTSIDE);
        }
        let mut rings = Sides::of(ring);
        for _ in 0..=random.below(4) {
            let m = if random.one_in(4) { near(&mut random, &[0, share / 3, 10_922]) } else { random.below(share / 3 + 2) };
            let (next, own) = every_entry(&mut tally, &meter, channel, m, &mut rings, hand_made_sample(&mut random));
            // An accepted sample may leave a meter that no longer holds together: then a gap does not mend it.
            if own.is_ok() && meter::report(&next).is_err() {
                assert_eq!(gap_case(&mut tally, &next, channel).0, next);
                broken += 1;
            }
            meter = next;
        }
    }
    assert!(broken > 20, "{broken} meters stopped holding together");
    tally.ran(81_215, &[0, 2, 3, 5, 6, 7, 11]);
}

#[test]
fn rings_of_another_length() {
    // Where the length changes, the share does, and with it where a part lies: a call goes by the length that it is lent.
    let (mut tally, mut random) = (Tally::default(), Random::new(406));
    let mut moved = 0;
    for _ in 0..400 {
        let m = random.below(3) + 1;
        // Small samples, or the window would soon be beyond its limit: what leaves it is not what came in.
        let memory: Vec<i64> = record(&mut random, 300).into_iter().map(|x| x / 1_000).collect();
        let mut lent = Lent::holding(&memory);
        let (mut length, channel) = (16 * 3 * m as usize, random.below(16));
        let apart = part_of(&lent.part()[..length], channel);
        let mut ring = Lent::holding(&lent.part()[..length]);
        let (mut meter, own) = start_case(&mut tally, &Meter::NOUGHTS, channel, m, &mut ring, &apart);
        assert!(own.is_ok());
        for x in record(&mut random, 20) {
            if random.one_in(4) {
                length = random.pick(&[48, 63, 64, 96, 112, 144, 160, 255, 300]);
                moved += 1;
            }
            let mut rings = Sides::of(Lent::holding(&lent.part()[..length]));
            let (next, own) = sample_case(&mut tally, &meter, channel, &mut rings, x / 1_000);
            assert_eq!(own.is_ok(), length / 16 >= 3 * m as usize);
            lent.part()[..length].copy_from_slice(rings.raw.part());
            meter = next;
        }
    }
    assert!(moved > 1_500, "{moved} changes of the length");
    tally.ran(8_400, &[0, 7]);
}

#[test]
fn each_channel_is_the_meter_with_its_part() {
    // The library's own meter, lent the channel's part, gives the same answers and leaves the same ring.
    let (mut tally, mut random) = (Tally::default(), Random::new(407));
    for turn in 0..40 {
        let m = turn % 3 + 1;
        let length = 48 * m as usize + turn as usize % 16;
        let mut rings = Sides::painted(length);
        let mut parted = Lent::painted(length);
        let mut meters = [Meter::NOUGHTS; 16];
        for x in record(&mut random, 400) {
            let c = random.below(16) as usize;
            let (meter, lent, entries) = (meters[c], raw::meter(&meters[c]), 3 * m as usize * c..3 * m as usize * (c + 1));
            let (next, answer) = if meter.m == 0 || random.one_in(60) {
                let (next, _) = start_case(&mut tally, &meter, c as u64, m, &mut rings.raw, &vec![0; 3 * m as usize]);
                (next, raw::meter_start(lent, m, &parted.part()[entries]))
            } else if random.one_in(12) {
                assert_eq!(report_case(&mut tally, &meter, c as u64), raw::meter_report(lent));
                (gap_case(&mut tally, &meter, c as u64).0, raw::meter_gap(lent))
            } else {
                let x = if random.one_in(20) { random.pick(&OUTSIDE) } else { x };
                (sample_case(&mut tally, &meter, c as u64, &mut rings, x).0, raw::meter_sample(lent, &mut parted.part()[entries], x))
            };
            assert_eq!(raw::meter(&next), answer.meter, "channel {c}");
            assert_eq!(rings.raw.differs(&parted), None, "ring, channel {c}");
            meters[c] = next;
        }
    }
    tally.ran(17_225, &[0, 3]);
}
