//! The same work written straightforwardly, with the same tests and refusals: plain loops, whole numbers of 128 bits for the sums, no unsafe code.

const END: i64 = 1 << 40;

/// A sum with its count, or the number and place of a refusal.
pub type Outcome<T> = Result<T, (u64, u64)>;

fn check_size(length: usize, m: u64, fewest: u64) -> Outcome<()> {
    if m < 1 || m > 10_922 {
        return Err((5, 0));
    }
    if length > 32_768 {
        return Err((2, 0));
    }
    if (length as u64) < fewest {
        return Err((1, 0));
    }
    Ok(())
}

fn check(samples: &[i64], m: u64, fewest: u64) -> Outcome<()> {
    check_size(samples.len(), m, fewest)?;
    match samples.iter().position(|&x| x < -END || x > END) {
        Some(index) => Err((3, index as u64)),
        None => Ok(()),
    }
}

#[inline(never)]
pub fn allan_sum(samples: &[i64], m: u64) -> Outcome<(u128, u64)> {
    check(samples, m, m.saturating_mul(2).saturating_add(1))?;
    Ok(allan_of(samples, m as usize))
}

fn allan_of(samples: &[i64], m: usize) -> (u128, u64) {
    let count = samples.len() - 2 * m;
    let mut total = 0u128;
    for i in 0..count {
        let d = samples[i + 2 * m] - 2 * samples[i + m] + samples[i];
        total += (d as i128 * d as i128) as u128;
    }
    (total, count as u64)
}

#[inline(never)]
pub fn modified_sum(samples: &[i64], m: u64) -> Outcome<(u128, u64)> {
    check(samples, m, m.saturating_mul(3))?;
    Ok(modified_of(samples, m as usize))
}

fn modified_of(samples: &[i64], m: usize) -> (u128, u64) {
    let difference = |i: usize| samples[i + 2 * m] - 2 * samples[i + m] + samples[i];
    let mut window: i64 = (0..m).map(difference).sum();
    let mut total = (window as i128 * window as i128) as u128;
    let count = samples.len() - 3 * m + 1;
    for j in 1..count {
        window += difference(j + m - 1) - difference(j - 1);
        total += (window as i128 * window as i128) as u128;
    }
    (total, count as u64)
}

/// Both sums with their counts, the modified one where it is due, and how many readings were changed.
pub type FloatSums = ((u128, u64), Option<(u128, u64)>, u64);

/// The sums of float readings, their samples written to the buffer once all are known to be good.
#[inline(never)]
pub fn float_sums(readings: &[f64], m: u64, buffer: &mut [i64]) -> Outcome<FloatSums> {
    check_size(readings.len(), m, m.saturating_mul(2).saturating_add(1))?;
    if buffer.len() < readings.len() {
        return Err((6, 0));
    }
    for (index, &reading) in readings.iter().enumerate() {
        if reading.is_nan() {
            return Err((4, index as u64));
        }
        if reading < -END as f64 || reading > END as f64 {
            return Err((3, index as u64));
        }
    }
    let samples = &mut buffer[..readings.len()];
    let mut changed = 0;
    for (sample, &reading) in samples.iter_mut().zip(readings) {
        let whole = reading.round_ties_even();
        if whole != reading {
            changed += 1;
        }
        *sample = whole as i64;
    }
    let m = m as usize;
    let modified = if samples.len() >= 3 * m { Some(modified_of(samples, m)) } else { None };
    Ok((allan_of(samples, m), modified, changed))
}

#[derive(Clone, Copy)]
pub struct Meter {
    pub m: u64,
    pub n: u64,
    pub stretch: u64,
    pub k: u64,
    pub c: u64,
    pub a: u128,
    pub b: u128,
    pub window: i64,
}

/// The meter with one more sample of the present stretch; the ring is lent.
#[inline(never)]
pub fn sample(meter: Meter, ring: &mut [i64], x: i64) -> Outcome<Meter> {
    let Meter { m, n, stretch: s, mut k, mut c, mut a, mut b, mut window } = meter;
    if m < 1 || m > 10_922 || n > 32_768 || s > n || k > n || c > n {
        return Err((7, 0));
    }
    if window.unsigned_abs() > m << 42 || a >> 126 != 0 || b >> 126 != 0 || (ring.len() as u64) < 3 * m {
        return Err((7, 0));
    }
    let inside = |x: i64| x >= -END && x <= END;
    let slot = |i: u64| (i % (3 * m)) as usize;
    let (mut one, mut two, mut three) = (0, 0, 0);
    if s >= 2 * m {
        (one, two) = (ring[slot(s - m)], ring[slot(s - 2 * m)]);
    }
    if s >= 3 * m {
        three = ring[slot(s)];
    }
    if !inside(one) || !inside(two) || !inside(three) {
        return Err((7, 0));
    }
    if n == 32_768 {
        return Err((2, 0));
    }
    if !inside(x) {
        return Err((3, 0));
    }
    if s >= 2 * m {
        let d = x - 2 * one + two;
        a += (d as i128 * d as i128) as u128;
        k += 1;
        window += d;
        if s >= 3 * m {
            window -= one - 2 * two + three;
        }
        if s + 1 >= 3 * m {
            b += (window as i128 * window as i128) as u128;
            c += 1;
        }
    }
    ring[slot(s)] = x;
    Ok(Meter { m, n: n + 1, stretch: s + 1, k, c, a, b, window })
}

/// The kind and count of a file, its values written to the buffer once all are known to be good.
#[inline(never)]
pub fn read_file(bytes: &[u8], buffer: &mut [i64]) -> Outcome<(u64, u64)> {
    for (offset, &byte) in bytes.iter().take(6).enumerate() {
        let right = if offset == 5 { byte < 2 } else { byte == [0x50, 0x48, 0x52, 1, 0][offset] };
        if !right {
            return Err((9, offset as u64));
        }
    }
    if bytes.len() < 8 {
        return Err((9, bytes.len() as u64));
    }
    let kind = bytes[5] as usize;
    let count = u16::from_le_bytes([bytes[6], bytes[7]]) as usize;
    if count > [32_768, 32_767][kind] {
        return Err((2, 0));
    }
    let right = 8 + 8 * count;
    if bytes.len() != right {
        return Err((9, right.min(bytes.len()) as u64));
    }
    if buffer.len() < count {
        return Err((6, 0));
    }
    let values = || bytes[8..].chunks_exact(8).map(|eight| i64::from_le_bytes(eight.try_into().unwrap()));
    let end = [END, 2 * END][kind];
    if let Some(index) = values().position(|value| value < -end || value > end) {
        return Err((3, index as u64));
    }
    for (entry, value) in buffer.iter_mut().zip(values()) {
        *entry = value;
    }
    Ok((kind as u64, count as u64))
}

/// The deviation of the variance `sum` / `below`, in units of 2^-20: of a record within the bounds the square of it has fewer than 128 bits.
fn deviation(sum: u128, below: u128) -> u64 {
    (((sum / below) << 40) + ((sum % below) << 40) / below).isqrt() as u64
}

/// A variance in lowest terms.
fn fraction(sum: u128, below: u128) -> String {
    let (mut a, mut b) = (sum, below);
    while b != 0 {
        (a, b) = (b, a % b);
    }
    format!("{}/{}", sum / a, below / a)
}

fn time_deviation(samples: &[i64], m: usize) -> u64 {
    let (b, c) = modified_of(samples, m);
    deviation(b, 6 * (m * m) as u128 * c as u128)
}

fn alpha(samples: &[i64], m: usize) -> String {
    if samples.len() < 6 * m {
        return "-".to_string();
    }
    let (r1, r2) = (time_deviation(samples, m) as u128, time_deviation(samples, 2 * m) as u128);
    if r1 == 0 {
        return "r8".to_string();
    }
    let above = [3_444, 4_871, 6_889, 9_742].iter().filter(|&&bound| 4_096 * r2 > r1 * bound).count();
    (2 - above as i64).to_string()
}

/// The lines of a phase record on a sheet, from its file.
#[inline(never)]
pub fn sheet(bytes: &[u8], buffer: &mut [i64]) -> String {
    let mut text = String::new();
    let refused = |(number, place): (u64, u64)| format!("refused {number} at {place}\n");
    let count = match read_file(bytes, buffer) {
        Ok((_, count)) => count as usize,
        Err(refusal) => return refused(refusal),
    };
    let samples = &buffer[..count];
    if let Err(refusal) = check(samples, 1, 3) {
        return refused(refusal);
    }
    let mut m = 1;
    while samples.len() > 2 * m {
        let (a, k) = allan_of(samples, m);
        let below = 2 * (m * m) as u128 * k as u128;
        text += &format!("{m} {} {k} {} ", fraction(a, below), deviation(a, below));
        if samples.len() < 3 * m {
            text += "r1 r1 r1 ";
        } else {
            let (b, c) = modified_of(samples, m);
            let below = 6 * (m * m) as u128 * c as u128;
            text += &format!("{} {c} {} ", fraction(b, below), deviation(b, below));
        }
        text += &alpha(samples, m);
        text += "\n";
        m *= 2;
    }
    text
}
