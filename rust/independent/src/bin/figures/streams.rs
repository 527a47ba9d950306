//! Streams fed to the running meter, sample by sample, beside the sums of the whole record.

use independent::meter::{self, Meter};
use independent::sums::{allan_sum, modified_sum, Sum, Sums};
use independent::Answer;

use crate::print::part;
use crate::records::{self, END};

pub fn figures() {
    let [ends, blocks, _, scattered, _] = records::all();
    for (name, record) in [ends, blocks, scattered] {
        for (m, length) in [(1, 2), (1, 3), (2, 5), (2, 6), (7, 100), (500, 1_501), (500, 32_768), (10_922, 32_768)] {
            let (samples, heading) = (&record[..length], format!("stream {name} m {m} N {length}"));
            let Sums { allan, modified } = metered(samples, m);
            println!("{heading} meter {} {}", part(allan.ok_or(1)), part(modified.ok_or(1)));
            println!("{heading} record {} {}", whole(allan_sum(samples, m)), whole(modified_sum(samples, m)));
        }
    }
}

/// The report of a meter that is started, fed the samples, started again on the same ring and fed them once more.
fn metered(samples: &[i64], m: u64) -> Sums {
    let mut ring = [0; 32_766];
    fed(samples, m, &mut ring);
    meter::report(&fed(samples, m, &mut ring)).expect("the meter holds together")
}

/// A fresh meter with all samples, and one out of range before each, which it refuses.
fn fed(samples: &[i64], m: u64, ring: &mut [i64]) -> Meter {
    let mut now = meter::start(m, ring).expect("the factor and the ring are good");
    for x in samples.iter().flat_map(|&x| [END + 1, x]) {
        now = meter::sample(&now, ring, x).unwrap_or(now);
    }
    now
}

fn whole(sum: Answer<Sum>) -> String {
    part(sum.map_err(|refusal| refusal.number))
}
