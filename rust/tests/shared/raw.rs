//! The entries over the plain C interface, with slices for pointers and lengths. Nothing of the wrapper is used here.

use ploegelster::boundary::*;

fn wide(x: u128) -> Wide {
    Wide { high: (x >> 64) as u64, low: x as u64 }
}

pub fn allan_sum(samples: &[i64], m: u64) -> SumAnswer {
    unsafe { plg_allan_sum(samples.as_ptr(), samples.len(), m) }
}

pub fn modified_sum(samples: &[i64], m: u64) -> SumAnswer {
    unsafe { plg_modified_sum(samples.as_ptr(), samples.len(), m) }
}

pub fn allan_fraction(sum: u128, m: u64, count: u64) -> FractionAnswer {
    unsafe { plg_allan_fraction(wide(sum), m, count) }
}

pub fn time_fraction(sum: u128, m: u64, count: u64) -> FractionAnswer {
    unsafe { plg_time_fraction(wide(sum), m, count) }
}

pub fn allan_deviation(sum: u128, m: u64, count: u64) -> DeviationAnswer {
    unsafe { plg_allan_deviation(wide(sum), m, count) }
}

pub fn time_deviation(sum: u128, m: u64, count: u64) -> DeviationAnswer {
    unsafe { plg_time_deviation(wide(sum), m, count) }
}

pub fn quieter(first: &[i64], second: &[i64], m: u64) -> QuieterAnswer {
    unsafe { plg_quieter(first.as_ptr(), first.len(), second.as_ptr(), second.len(), m) }
}

pub fn phase_from_frequency(readings: &[i64], buffer: &mut [i64]) -> CountAnswer {
    unsafe { plg_phase_from_frequency(readings.as_ptr(), readings.len(), buffer.as_mut_ptr(), buffer.len()) }
}

pub fn phase_from_start(start: i64, readings: &[i64], buffer: &mut [i64]) -> CountAnswer {
    unsafe { plg_phase_from_start(start, readings.as_ptr(), readings.len(), buffer.as_mut_ptr(), buffer.len()) }
}

pub fn frequency_from_phase(samples: &[i64], buffer: &mut [i64]) -> CountAnswer {
    unsafe { plg_frequency_from_phase(samples.as_ptr(), samples.len(), buffer.as_mut_ptr(), buffer.len()) }
}

pub fn drift_figure(samples: &[i64]) -> DriftAnswer {
    unsafe { plg_drift_figure(samples.as_ptr(), samples.len()) }
}

pub fn remove_drift(samples: &[i64], buffer: &mut [i64]) -> CountAnswer {
    unsafe { plg_remove_drift(samples.as_ptr(), samples.len(), buffer.as_mut_ptr(), buffer.len()) }
}

pub fn float_sums(readings: &[f64], m: u64, buffer: &mut [i64]) -> FloatSumsAnswer {
    unsafe { plg_float_sums(readings.as_ptr(), readings.len(), m, buffer.as_mut_ptr(), buffer.len()) }
}

pub fn drawn_number(r: u64) -> DrawnAnswer {
    unsafe { plg_drawn_number(r) }
}

pub fn allan_dot(sum: u128, m: u64, count: u64) -> DotAnswer {
    unsafe { plg_allan_dot(wide(sum), m, count) }
}

pub fn time_dot(sum: u128, m: u64, count: u64) -> DotAnswer {
    unsafe { plg_time_dot(wide(sum), m, count) }
}

pub fn noise_type(r1: u64, r2: u64) -> NoiseAnswer {
    unsafe { plg_noise_type(r1, r2) }
}

pub fn noise_of_record(samples: &[i64], m: u64) -> NoiseAnswer {
    unsafe { plg_noise_of_record(samples.as_ptr(), samples.len(), m) }
}

pub fn bars(r: u64, alpha: i64, intervals: u64) -> BarsAnswer {
    unsafe { plg_bars(r, alpha, intervals) }
}

/// The meter with the fields of the second implementation's.
pub fn meter(meter: &independent::meter::Meter) -> Meter {
    let independent::meter::Meter { m, n, stretch, k, c, a, b, window } = *meter;
    Meter { m, n, stretch, k, c, a: wide(a), b: wide(b), window }
}

pub fn meter_start(old: Meter, m: u64, ring: &[i64]) -> MeterAnswer {
    unsafe { plg_meter_start(old, m, ring.as_ptr(), ring.len()) }
}

pub fn meter_sample(meter: Meter, ring: &mut [i64], x: i64) -> MeterAnswer {
    unsafe { plg_meter_sample(meter, ring.as_mut_ptr(), ring.len(), x) }
}

pub fn meter_gap(meter: Meter) -> MeterAnswer {
    unsafe { plg_meter_gap(meter) }
}

pub fn meter_report(meter: Meter) -> SumsAnswer {
    unsafe { plg_meter_report(meter) }
}

pub fn channel_start(old: Meter, channel: u64, m: u64, ring: &[i64]) -> MeterAnswer {
    unsafe { plg_channel_start(old, channel, m, ring.as_ptr(), ring.len()) }
}

pub fn channel_sample(meter: Meter, channel: u64, ring: &mut [i64], x: i64) -> MeterAnswer {
    unsafe { plg_channel_sample(meter, channel, ring.as_mut_ptr(), ring.len(), x) }
}

pub fn channel_gap(meter: Meter, channel: u64) -> MeterAnswer {
    unsafe { plg_channel_gap(meter, channel) }
}

pub fn channel_report(meter: Meter, channel: u64) -> SumsAnswer {
    unsafe { plg_channel_report(meter, channel) }
}

pub fn read_file(bytes: &[u8], buffer: &mut [i64]) -> ReadAnswer {
    unsafe { plg_read_file(bytes.as_ptr(), bytes.len(), buffer.as_mut_ptr(), buffer.len()) }
}

pub fn write_file(kind: u64, values: &[i64], buffer: &mut [u8]) -> CountAnswer {
    unsafe { plg_write_file(kind, values.as_ptr(), values.len(), buffer.as_mut_ptr(), buffer.len()) }
}

pub fn read_record(bytes: &[u8], buffer: &mut [i64]) -> RecordAnswer {
    unsafe { plg_read_record(bytes.as_ptr(), bytes.len(), buffer.as_mut_ptr(), buffer.len()) }
}

pub fn write_record(kind: u64, start: i64, values: &[i64], buffer: &mut [u8]) -> CountAnswer {
    unsafe { plg_write_record(kind, start, values.as_ptr(), values.len(), buffer.as_mut_ptr(), buffer.len()) }
}

pub fn salvage(bytes: &[u8], buffer: &mut [u8]) -> SalvageAnswer {
    unsafe { plg_salvage(bytes.as_ptr(), bytes.len(), buffer.as_mut_ptr(), buffer.len()) }
}

/// The totals with the fields of the second implementation's.
pub fn totals(totals: &independent::sheet::Totals) -> Totals {
    Totals { k: totals.k, c: totals.c }
}

pub fn sheet_record(bytes: &[u8], totals: Totals, text: &mut [u8]) -> SheetAnswer {
    unsafe { plg_sheet_record(bytes.as_ptr(), bytes.len(), totals, text.as_mut_ptr(), text.len()) }
}

pub fn sheet_total(totals: Totals, text: &mut [u8]) -> CountAnswer {
    unsafe { plg_sheet_total(totals, text.as_mut_ptr(), text.len()) }
}
