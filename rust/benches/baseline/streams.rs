//! A whole stream of samples through a meter: the library's over both interfaces, and the plain one.

use crate::straightforward;
use ploegelster::{boundary, Meter};

/// A whole stream through the library's meter, over the plain C interface.
pub fn library_stream(samples: &[i64], m: u64, ring: &mut [i64]) -> Meter {
    let mut meter = ploegelster::meter_start(Meter::NOUGHTS, m, ring).expect("the factor and the ring are good");
    for &x in samples {
        let answer = unsafe { boundary::plg_meter_sample(meter, ring.as_mut_ptr(), ring.len(), x) };
        assert_eq!(answer.number, 0);
        meter = answer.meter;
    }
    meter
}

/// The same through the wrapper, which copies each meter once more.
pub fn wrapped_stream(samples: &[i64], m: u64, ring: &mut [i64]) -> Meter {
    let mut meter = ploegelster::meter_start(Meter::NOUGHTS, m, ring).expect("the factor and the ring are good");
    for &x in samples {
        meter = ploegelster::meter_sample(meter, ring, x).expect("a sample in range is taken");
    }
    meter
}

pub fn plain_stream(samples: &[i64], m: u64, ring: &mut [i64]) -> straightforward::Meter {
    let mut meter = straightforward::Meter { m, n: 0, stretch: 0, k: 0, c: 0, a: 0, b: 0, window: 0 };
    for &x in samples {
        meter = straightforward::sample(meter, ring, x).expect("a sample in range is taken");
    }
    meter
}
