//! The plain C interface of the library, as in include/ploegelster.h: its structs, field by field, and its functions, which are unsafe. The safe
//! functions of this crate call these and nothing else.
//!
//! In every answer `number` is 0 where the call was answered, else the refusal's number, and `place` says where. Beside a refusal every other value
//! is nought, a meter comes back as it was handed in, as do the totals of a sheet, and no byte of a lent buffer has changed. What each function
//! gives, and what it refuses in which order, stands in the header and with the safe function of the same name.
//!
//! # Safety
//!
//! What the caller owes, and nothing else:
//!
//! - a pointer is not null, is aligned for its type, and is good for as many entries as the length beside it says, also where that length is 0;
//!   what is only read (samples, readings, bytes, values) has been given values;
//! - a buffer that the call may write overlaps no other buffer of the same call, and nobody else uses it before the call returns;
//! - floating-point exceptions are masked, as they are where every program starts. The modes are the caller's own, and change no bit of an answer.

/// A whole number of 128 bits: high * 2^64 + low.
#[repr(C)]
#[derive(Clone, Copy, Debug, PartialEq, Eq)]
pub struct Wide {
    /// The upper 64 bits.
    pub high: u64,
    /// The lower 64 bits.
    pub low: u64,
}

/// How many entries of the lent buffer were written.
#[must_use]
#[repr(C)]
#[derive(Clone, Copy, Debug, PartialEq, Eq)]
pub struct CountAnswer {
    /// 0, or the refusal's number.
    pub number: u64,
    /// Where it was refused.
    pub place: u64,
    /// How many entries.
    pub count: u64,
}

/// A sum of squares, and how many squares.
#[must_use]
#[repr(C)]
#[derive(Clone, Copy, Debug, PartialEq, Eq)]
pub struct SumAnswer {
    /// 0, or the refusal's number.
    pub number: u64,
    /// Where it was refused.
    pub place: u64,
    /// The sum.
    pub sum: Wide,
    /// How many squares.
    pub count: u64,
}

/// One sum as a part of an answer: its own number is 1, beside noughts, where the sum is not due.
#[repr(C)]
#[derive(Clone, Copy, Debug, PartialEq, Eq)]
pub struct Part {
    /// 0, or 1 where the sum is not due.
    pub number: u64,
    /// The sum.
    pub sum: Wide,
    /// How many squares.
    pub count: u64,
}

/// Both sums; number and place are the call's own.
#[must_use]
#[repr(C)]
#[derive(Clone, Copy, Debug, PartialEq, Eq)]
pub struct SumsAnswer {
    /// 0, or the refusal's number.
    pub number: u64,
    /// Where it was refused.
    pub place: u64,
    /// The Allan sum A with its count K.
    pub allan: Part,
    /// The modified sum B with its count C.
    pub modified: Part,
}

/// Both sums of float readings; number and place are the call's own.
#[must_use]
#[repr(C)]
#[derive(Clone, Copy, Debug, PartialEq, Eq)]
pub struct FloatSumsAnswer {
    /// 0, or the refusal's number.
    pub number: u64,
    /// Where it was refused.
    pub place: u64,
    /// The Allan sum A with its count K.
    pub allan: Part,
    /// The modified sum B with its count C.
    pub modified: Part,
    /// How many readings had a fraction.
    pub changed: u64,
}

/// Which of two records is the quieter.
#[must_use]
#[repr(C)]
#[derive(Clone, Copy, Debug, PartialEq, Eq)]
pub struct QuieterAnswer {
    /// 0, or the refusal's number.
    pub number: u64,
    /// Where it was refused, in the record that is refused.
    pub place: u64,
    /// 1 the first, 2 the second; 0 beside a refusal alone.
    pub which: u64,
}

/// A fraction in lowest terms.
#[must_use]
#[repr(C)]
#[derive(Clone, Copy, Debug, PartialEq, Eq)]
pub struct FractionAnswer {
    /// 0, or the refusal's number.
    pub number: u64,
    /// Where it was refused.
    pub place: u64,
    /// What is divided.
    pub numerator: Wide,
    /// What it is divided by; nought beside a refusal alone.
    pub denominator: u64,
}

/// A deviation in units of 2^-20 picoseconds.
#[must_use]
#[repr(C)]
#[derive(Clone, Copy, Debug, PartialEq, Eq)]
pub struct DeviationAnswer {
    /// 0, or the refusal's number.
    pub number: u64,
    /// Where it was refused.
    pub place: u64,
    /// The deviation r.
    pub deviation: u64,
}

/// The drift figure P over R, with h the whole part of (N-1)/2.
#[must_use]
#[repr(C)]
#[derive(Clone, Copy, Debug, PartialEq, Eq)]
pub struct DriftAnswer {
    /// 0, or the refusal's number.
    pub number: u64,
    /// Where it was refused.
    pub place: u64,
    /// P = x_(2h) - 2 x_h + x_0.
    pub p: i64,
    /// R = h^2.
    pub r: u64,
}

/// A double to draw.
#[must_use]
#[repr(C)]
#[derive(Clone, Copy, Debug, PartialEq)]
pub struct DrawnAnswer {
    /// 0, or the refusal's number.
    pub number: u64,
    /// Where it was refused.
    pub place: u64,
    /// The double.
    pub value: f64,
}

/// What stands at a place of a plot.
#[must_use]
#[repr(C)]
#[derive(Clone, Copy, Debug, PartialEq)]
pub struct DotAnswer {
    /// 0, or the refusal's number.
    pub number: u64,
    /// Where it was refused.
    pub place: u64,
    /// 0 nought, 1 drawn, 2 too few.
    pub kind: u64,
    /// The double of a drawn dot, else 0.0.
    pub value: f64,
}

/// A noise type by its alpha.
#[must_use]
#[repr(C)]
#[derive(Clone, Copy, Debug, PartialEq, Eq)]
pub struct NoiseAnswer {
    /// 0, or the refusal's number.
    pub number: u64,
    /// Where it was refused.
    pub place: u64,
    /// 2 white phase, 1 flicker phase, 0 white frequency, -1 flicker frequency, -2 random walk frequency.
    pub alpha: i64,
}

/// A bar row: three doubles, drawn from r-h, r and r+h.
#[repr(C)]
#[derive(Clone, Copy, Debug, PartialEq)]
pub struct Bar {
    /// Drawn from r-h, which is at least 1 where the call was answered.
    pub low: f64,
    /// Drawn from r.
    pub mid: f64,
    /// Drawn from r+h.
    pub high: f64,
}

/// A bar row. Where the call was answered, each of the three doubles is a drawn number, above nought.
#[must_use]
#[repr(C)]
#[derive(Clone, Copy, Debug, PartialEq)]
pub struct BarsAnswer {
    /// 0, or the refusal's number.
    pub number: u64,
    /// Where it was refused.
    pub place: u64,
    /// The row.
    pub bar: Bar,
}

/// The running meter. At first all noughts; after that, as the latest call gave it back. Any content is answered or refused.
#[must_use]
#[repr(C)]
#[derive(Clone, Copy, Debug, PartialEq, Eq)]
pub struct Meter {
    /// The factor.
    pub m: u64,
    /// How many samples were accepted since the start, in all.
    pub n: u64,
    /// How many of these were accepted since the latest gap.
    pub stretch: u64,
    /// How many squares there are in A.
    pub k: u64,
    /// How many squares there are in B.
    pub c: u64,
    /// The Allan sum A.
    pub a: Wide,
    /// The modified sum B.
    pub b: Wide,
    /// The sum of the latest second differences since the gap, all of them up to m.
    pub window: i64,
}

/// A meter as a call leaves it.
#[must_use]
#[repr(C)]
#[derive(Clone, Copy, Debug, PartialEq, Eq)]
pub struct MeterAnswer {
    /// 0, or the refusal's number.
    pub number: u64,
    /// Where it was refused.
    pub place: u64,
    /// The meter; beside a refusal as it was handed in.
    pub meter: Meter,
}

/// The kind of a file, and how many values it holds.
#[must_use]
#[repr(C)]
#[derive(Clone, Copy, Debug, PartialEq, Eq)]
pub struct ReadAnswer {
    /// 0, or the refusal's number.
    pub number: u64,
    /// Where it was refused.
    pub place: u64,
    /// 0 phase, 1 frequency.
    pub kind: u64,
    /// How many values.
    pub count: u64,
}

/// A record file of either version.
#[must_use]
#[repr(C)]
#[derive(Clone, Copy, Debug, PartialEq, Eq)]
pub struct RecordAnswer {
    /// 0, or the refusal's number.
    pub number: u64,
    /// Where it was refused.
    pub place: u64,
    /// 1 or 2.
    pub version: u64,
    /// 0 phase, 1 frequency.
    pub kind: u64,
    /// The starting phase; 0 in version 1.
    pub start: i64,
    /// How many values.
    pub count: u64,
}

/// What was salvaged of a damaged file.
#[must_use]
#[repr(C)]
#[derive(Clone, Copy, Debug, PartialEq, Eq)]
pub struct SalvageAnswer {
    /// 0, or the refusal's number.
    pub number: u64,
    /// Where it was refused.
    pub place: u64,
    /// How many values the input's header says.
    pub old_count: u64,
    /// How many values were kept.
    pub new_count: u64,
    /// The input's length less the new file's.
    pub left_over: u64,
    /// 1 where a value outside its range was met, else 0.
    pub met: u64,
}

/// The totals of a sheet: K and C added up over its lines. At first all noughts; after that, as the latest record's answer gives them.
#[must_use]
#[repr(C)]
#[derive(Clone, Copy, Debug, PartialEq, Eq)]
pub struct Totals {
    /// K added up.
    pub k: u64,
    /// C added up.
    pub c: u64,
}

/// The lines of a record on a sheet.
#[must_use]
#[repr(C)]
#[derive(Clone, Copy, Debug, PartialEq, Eq)]
pub struct SheetAnswer {
    /// 0, or the refusal's number.
    pub number: u64,
    /// Where it was refused.
    pub place: u64,
    /// How many bytes of text.
    pub length: u64,
    /// The totals with the record's; beside a refusal as they were handed in.
    pub totals: Totals,
}

extern "C" {
    /// The Allan sum A at factor m, with its count K.
    pub fn plg_allan_sum(samples: *const i64, samples_length: usize, m: u64) -> SumAnswer;
    /// The modified sum B at factor m, with its count C.
    pub fn plg_modified_sum(samples: *const i64, samples_length: usize, m: u64) -> SumAnswer;
    /// The Allan variance in lowest terms.
    pub fn plg_allan_fraction(sum: Wide, m: u64, count: u64) -> FractionAnswer;
    /// The time variance in lowest terms.
    pub fn plg_time_fraction(sum: Wide, m: u64, count: u64) -> FractionAnswer;
    /// The Allan deviation.
    pub fn plg_allan_deviation(sum: Wide, m: u64, count: u64) -> DeviationAnswer;
    /// The time deviation.
    pub fn plg_time_deviation(sum: Wide, m: u64, count: u64) -> DeviationAnswer;
    /// The quieter of two records at factor m. They are only read, and may overlap or be the same.
    pub fn plg_quieter(first: *const i64, first_length: usize, second: *const i64, second_length: usize, m: u64) -> QuieterAnswer;

    /// Phases from frequency readings, written to the buffer.
    pub fn plg_phase_from_frequency(readings: *const i64, readings_length: usize, buffer: *mut i64, buffer_length: usize) -> CountAnswer;
    /// Phases from frequency readings, from a start on, written to the buffer.
    pub fn plg_phase_from_start(start: i64, readings: *const i64, readings_length: usize, buffer: *mut i64, buffer_length: usize) -> CountAnswer;
    /// Frequency readings from phases, written to the buffer.
    pub fn plg_frequency_from_phase(samples: *const i64, samples_length: usize, buffer: *mut i64, buffer_length: usize) -> CountAnswer;
    /// The drift figure.
    pub fn plg_drift_figure(samples: *const i64, samples_length: usize) -> DriftAnswer;
    /// The record with its drift removed, written to the buffer.
    pub fn plg_remove_drift(samples: *const i64, samples_length: usize, buffer: *mut i64, buffer_length: usize) -> CountAnswer;

    /// Samples from doubles, written to the buffer, both sums of them, and how many readings were changed.
    pub fn plg_float_sums(readings: *const f64, readings_length: usize, m: u64, buffer: *mut i64, buffer_length: usize) -> FloatSumsAnswer;

    /// The greatest double not above r / 2^20.
    pub fn plg_drawn_number(r: u64) -> DrawnAnswer;
    /// The dot of an Allan deviation.
    pub fn plg_allan_dot(sum: Wide, m: u64, count: u64) -> DotAnswer;
    /// The dot of a time deviation.
    pub fn plg_time_dot(sum: Wide, m: u64, count: u64) -> DotAnswer;
    /// The noise type by the time deviations at m and 2m.
    pub fn plg_noise_type(r1: u64, r2: u64) -> NoiseAnswer;
    /// The noise type of a record at factor m.
    pub fn plg_noise_of_record(samples: *const i64, samples_length: usize, m: u64) -> NoiseAnswer;
    /// The bars of deviation r, for noise of type alpha over M intervals.
    pub fn plg_bars(r: u64, alpha: i64, intervals: u64) -> BarsAnswer;

    /// A fresh meter at factor m in place of an old one.
    pub fn plg_meter_start(old: Meter, m: u64, ring: *const i64, ring_length: usize) -> MeterAnswer;
    /// The meter with one more sample of the present stretch, which is written to its slot of the ring.
    pub fn plg_meter_sample(meter: Meter, ring: *mut i64, ring_length: usize, x: i64) -> MeterAnswer;
    /// The meter after a gap in the stream.
    pub fn plg_meter_gap(meter: Meter) -> MeterAnswer;
    /// Both sums of the samples accepted since the start, each the total over the stretches.
    pub fn plg_meter_report(meter: Meter) -> SumsAnswer;

    /// A fresh meter at factor m on a channel, in place of an old one.
    pub fn plg_channel_start(old: Meter, channel: u64, m: u64, ring: *const i64, ring_length: usize) -> MeterAnswer;
    /// The meter with one more sample of the present stretch, which is written to its slot of the channel's part of the ring.
    pub fn plg_channel_sample(meter: Meter, channel: u64, ring: *mut i64, ring_length: usize, x: i64) -> MeterAnswer;
    /// The meter after a gap in the channel's stream.
    pub fn plg_channel_gap(meter: Meter, channel: u64) -> MeterAnswer;
    /// Both sums of the samples that the channel accepted since its start, each the total over the stretches.
    pub fn plg_channel_report(meter: Meter, channel: u64) -> SumsAnswer;

    /// The values of a file of version 1, written to the buffer.
    pub fn plg_read_file(bytes: *const u8, bytes_length: usize, buffer: *mut i64, buffer_length: usize) -> ReadAnswer;
    /// The file, version 1, of a kind and its values, written to the buffer.
    pub fn plg_write_file(kind: u64, values: *const i64, values_length: usize, buffer: *mut u8, buffer_length: usize) -> CountAnswer;
    /// The values of a file of either version, written to the buffer.
    pub fn plg_read_record(bytes: *const u8, bytes_length: usize, buffer: *mut i64, buffer_length: usize) -> RecordAnswer;
    /// The file, version 2, of a kind, a starting phase and values, written to the buffer.
    pub fn plg_write_record(kind: u64, start: i64, values: *const i64, values_length: usize, buffer: *mut u8, buffer_length: usize) -> CountAnswer;
    /// The proper file that can still be had of a damaged one of either version, written to the buffer.
    pub fn plg_salvage(bytes: *const u8, bytes_length: usize, buffer: *mut u8, buffer_length: usize) -> SalvageAnswer;

    /// The lines of one record on a sheet, from the bytes of its file, written as text.
    pub fn plg_sheet_record(bytes: *const u8, bytes_length: usize, totals: Totals, text: *mut u8, text_length: usize) -> SheetAnswer;
    /// The closing line of a sheet, written as text.
    pub fn plg_sheet_total(totals: Totals, text: *mut u8, text_length: usize) -> CountAnswer;
}
