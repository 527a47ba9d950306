//! Sixteen channels in one lent ring: a call on a channel is the meter's call with the channel's part of the ring.

use super::meter::{self, Meter};
use super::sums::Sums;
use super::{ask, Answer};

/// The channels are numbered from 0 to one below this.
pub const CHANNELS: u64 = 16;

/// How many entries of a ring of this length each channel has.
pub fn share(length: usize) -> usize {
    length / CHANNELS as usize
}

/// The channel's entries of a ring of this length; 11 where there is no such channel.
pub fn part(channel: u64, length: usize) -> Answer<std::ops::Range<usize>> {
    ask(channel < CHANNELS, 11)?;
    let (c, share) = (channel as usize, share(length));
    Ok(c * share..(c + 1) * share)
}

/// A fresh meter at factor m; the ring is looked at for its length alone.
pub fn start(channel: u64, m: u64, ring: &[i64]) -> Answer<Meter> {
    let part = part(channel, ring.len())?;
    meter::start(m, &ring[part])
}

/// The meter with one more sample, which lands in its slot of the channel's part.
pub fn sample(meter: &Meter, channel: u64, ring: &mut [i64], x: i64) -> Answer<Meter> {
    let part = part(channel, ring.len())?;
    meter::sample(meter, &mut ring[part], x)
}

/// The meter with a new stretch begun.
pub fn gap(meter: &Meter, channel: u64) -> Answer<Meter> {
    part(channel, 0)?;
    meter::gap(meter)
}

/// Both sums, each where it has terms.
pub fn report(meter: &Meter, channel: u64) -> Answer<Sums> {
    part(channel, 0)?;
    meter::report(meter)
}

/// The reports of as many channels as there are streams, from channel 0 on, each started at factor m and fed one sample a turn.
pub fn fed_in_turn(m: u64, ring: &mut [i64], streams: &[Vec<i64>]) -> Answer<Vec<Sums>> {
    let mut meters = Vec::new();
    for channel in 0..streams.len() as u64 {
        meters.push(start(channel, m, ring)?);
    }
    let longest = streams.iter().map(Vec::len).max().unwrap_or(0);
    for turn in 0..longest {
        for (channel, stream) in streams.iter().enumerate() {
            if let Some(&x) = stream.get(turn) {
                meters[channel] = sample(&meters[channel], channel as u64, ring, x)?;
            }
        }
    }
    meters.iter().zip(0..).map(|(meter, channel)| report(meter, channel)).collect()
}
