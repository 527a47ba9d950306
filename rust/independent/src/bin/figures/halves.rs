//! Numbers in two halves, at the ends of what they hold.

use independent::fractions::not_above;
use independent::greatest;

const MOST: u128 = u64::MAX as u128;

pub fn figures() {
    line("(2^64 - 1) squared", MOST * MOST);
    line("2^41 squared", (1 << 41) * (1 << 41));
    line("2^64 - 1 and 1", MOST + 1);
    line("2^128 - 1 and 1", u128::MAX.wrapping_add(1));
    quotient("2^126 by 7", 1 << 126, 7);
    quotient("2^128 - 1 by 2^64 - 1", u128::MAX, MOST);
    quotient("5 by 0", 5, 0);
    for (words, a) in [("2^126 - 1", (1 << 126) - 1), ("2^126", 1 << 126), ("2^128 - 1", u128::MAX)] {
        println!("root of {words}: {}", greatest(u64::MAX, |r| r as u128 * r as u128 <= a));
    }
    for r in [1_482_910, 1_482_911] {
        let verdict = if not_above(r, 8, 16) { "not above" } else { "above" };
        println!("{r} squared times 8, 16 times 2^40: {verdict}");
    }
}

fn line(words: &str, n: u128) {
    println!("{words}: high {}, low {}", n >> 64, n as u64);
}

fn quotient(words: &str, a: u128, d: u128) {
    match a.checked_div(d) {
        Some(quotient) => line(&format!("{words}: remainder {}, quotient", a % d), quotient),
        None => println!("{words}: not defined"),
    }
}
