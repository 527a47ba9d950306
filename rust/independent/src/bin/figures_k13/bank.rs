//! Sixteen channels fed in turn, each at a factor of its own, with a gap on every other one: here sixteen meters, each with a ring of its own.

use independent::meter;
use independent::Refusal;

use crate::print::{answer, part};
use crate::records;

const SHARE: usize = 768 / 16;
const TURNS: usize = 200;

pub fn figures() {
    let [_, _, _, (_, samples), _] = records::all();
    for c in 0..16 {
        let mut ring = [0; SHARE];
        let mut now = meter::start(c + 1, &ring).expect("the factor and the ring are good");
        for (turn, &x) in samples[..TURNS].iter().enumerate() {
            if c % 2 == 1 && turn % 50 == 0 {
                now = meter::gap(&now).expect("the meter holds together");
            }
            now = meter::sample(&now, &mut ring, x).expect("the sample is in range");
        }
        let sums = meter::report(&now).expect("the meter holds together");
        println!("channel {c}: {} {}", part(sums.allan.ok_or(1)), part(sums.modified.ok_or(1)));
    }
    println!("channel 16: {}", answer(Err::<u64, _>(Refusal { number: 11, place: 0 })));
}
