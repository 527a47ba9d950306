//! Sixteen meters in one lent ring, each on a channel of its own.
//!
//! The share is the whole part of a sixteenth of the ring's length, and channel c has the entries from c times the share up to, and without, (c+1) times
//! the share. The caller keeps a meter a channel and lends the same ring, at the same length, to every call: then each channel is a meter of its own.

use std::error::Error;
use std::fmt::{self, Display, Formatter};

use crate::boundary::{self, Meter, MeterAnswer};
use crate::meter::meter_of;
use crate::refusals::Refusal;
use crate::sums::{sums_of, Sums};

/// The number of a refused call on a channel above 15. Calls on channels alone give it: it is the number of no [`Ground`](crate::Ground), and
/// [`refusal_text`](crate::refusal_text) has no words for it.
pub const BAD_CHANNEL: u64 = 11;

/// Why a call on a channel was refused.
#[derive(Clone, Copy, Debug, PartialEq, Eq, Hash)]
pub enum ChannelRefusal {
    /// 11: a channel above 15. The place is 0.
    BadChannel,
    /// What the meter's own call, with the channel's part as its ring, is refused for.
    Meter(Refusal),
}

impl ChannelRefusal {
    /// The refusal's number: 11, or the number of the ground of the meter's own.
    pub fn number(self) -> u64 {
        match self {
            ChannelRefusal::BadChannel => BAD_CHANNEL,
            ChannelRefusal::Meter(refusal) => refusal.number(),
        }
    }

    /// Where: 0 in each case that there is.
    pub fn place(self) -> u64 {
        match self {
            ChannelRefusal::BadChannel => 0,
            ChannelRefusal::Meter(refusal) => refusal.place,
        }
    }
}

/// Number, words and place: `refused 11, a channel above 15, at 0`, or as the meter's own refusal.
impl Display for ChannelRefusal {
    fn fmt(&self, f: &mut Formatter<'_>) -> fmt::Result {
        match self {
            ChannelRefusal::BadChannel => write!(f, "refused {BAD_CHANNEL}, a channel above 15, at 0"),
            ChannelRefusal::Meter(refusal) => refusal.fmt(f),
        }
    }
}

impl Error for ChannelRefusal {}

impl From<Refusal> for ChannelRefusal {
    fn from(refusal: Refusal) -> ChannelRefusal {
        ChannelRefusal::Meter(refusal)
    }
}

/// Whether an answer with this number is of a channel that there is.
fn of_a_channel(number: u64) -> Result<(), ChannelRefusal> {
    match number {
        BAD_CHANNEL => Err(ChannelRefusal::BadChannel),
        _ => Ok(()),
    }
}

fn channels_meter_of(answer: MeterAnswer) -> Result<Meter, ChannelRefusal> {
    of_a_channel(answer.number)?;
    Ok(meter_of(answer)?)
}

/// A fresh meter at factor m on a channel, in place of an old one. The ring is that of all sixteen channels: its *share* is a sixteenth of its length, the
/// whole part, and channel c has the entries from c times the share up to, and without, (c+1) times the share. A ring of
/// [`CHANNELS`](crate::CHANNELS) times 3m entries is enough for sixteen meters of factor m. It is read for its length alone. A meter is not marked with its
/// channel: hand it in with the one it was started on, and lend the same ring, at the same length, to every call.
///
/// ```
/// use ploegelster::{channel_gap, channel_report, channel_sample, channel_start, Meter, CHANNELS};
///
/// let mut ring = [0; CHANNELS * 3];
/// let mut meters = [Meter::NOUGHTS; CHANNELS];
/// for channel in [0, 15] {
///     meters[channel] = channel_start(meters[channel], channel as u64, 1, &ring)?;
/// }
/// for (x, y) in [(0, 0), (1, 0), (4, 1), (9, 0)] {
///     meters[0] = channel_sample(meters[0], 0, &mut ring, x)?;
///     meters[15] = channel_sample(meters[15], 15, &mut ring, y)?;
/// }
/// meters[15] = channel_gap(meters[15], 15)?;
/// let sums = [channel_report(meters[0], 0)?, channel_report(meters[15], 15)?].map(|sums| sums.allan.map(|sum| (sum.total, sum.count)));
/// assert_eq!(sums, [Some((8, 2)), Some((5, 2))]);
/// assert_eq!((&ring[..3], &ring[45..]), (&[9, 1, 4][..], &[0, 0, 1][..]));
/// assert!(channel_report(meters[0], 16).is_err());
/// # Ok::<(), ploegelster::ChannelRefusal>(())
/// ```
///
/// Refuses 11 (channel above 15), 5 (m not from 1 to 10,922), 6 (share below 3m), all at place 0; the old meter stands.
pub fn channel_start(old: Meter, channel: u64, m: u64, ring: &[i64]) -> Result<Meter, ChannelRefusal> {
    channels_meter_of(unsafe { boundary::plg_channel_start(old, channel, m, ring.as_ptr(), ring.len()) })
}

/// The meter with one more sample of the present stretch, which is written to its slot of the channel's part of the ring, stretch mod 3m, and nowhere else.
///
/// Refuses 11 (channel above 15), then 7, 2 and 3 as [`meter_sample`](crate::meter_sample) does with the channel's part as the ring, all at place 0; the
/// meter that was handed in stands.
pub fn channel_sample(meter: Meter, channel: u64, ring: &mut [i64], x: i64) -> Result<Meter, ChannelRefusal> {
    channels_meter_of(unsafe { boundary::plg_channel_sample(meter, channel, ring.as_mut_ptr(), ring.len(), x) })
}

/// The meter after a gap in the channel's stream, as [`meter_gap`](crate::meter_gap) gives it. No ring is read or written.
///
/// Refuses 11 (channel above 15), 7, both at place 0; the meter that was handed in stands.
pub fn channel_gap(meter: Meter, channel: u64) -> Result<Meter, ChannelRefusal> {
    channels_meter_of(unsafe { boundary::plg_channel_gap(meter, channel) })
}

/// Both sums of the samples that the channel accepted since its start, as [`meter_report`](crate::meter_report) gives them.
///
/// Refuses 11 (channel above 15), 7, both at place 0.
pub fn channel_report(meter: Meter, channel: u64) -> Result<Sums, ChannelRefusal> {
    let answer = unsafe { boundary::plg_channel_report(meter, channel) };
    of_a_channel(answer.number)?;
    Ok(sums_of(answer)?)
}
