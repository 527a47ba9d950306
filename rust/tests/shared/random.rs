//! Numbers from a fixed seed, by the rule called splitmix64: a counter that grows by a fixed odd number, and two multiplications that mix it.

pub struct Random(u64);

impl Random {
    pub fn new(seed: u64) -> Random {
        Random(seed)
    }

    pub fn word(&mut self) -> u64 {
        self.0 = self.0.wrapping_add(0x9E37_79B9_7F4A_7C15);
        let mut z = self.0;
        z = (z ^ (z >> 30)).wrapping_mul(0xBF58_476D_1CE4_E5B9);
        z = (z ^ (z >> 27)).wrapping_mul(0x94D0_49BB_1331_11EB);
        z ^ (z >> 31)
    }

    /// From 0 to one below `end`.
    pub fn below(&mut self, end: u64) -> u64 {
        ((self.word() as u128 * end as u128) >> 64) as u64
    }

    /// From `low` to `high`, ends allowed.
    pub fn between(&mut self, low: i64, high: i64) -> i64 {
        let span = (high as i128 - low as i128 + 1) as u128;
        (low as i128 + ((self.word() as u128 * span) >> 64) as i128) as i64
    }

    pub fn one_in(&mut self, n: u64) -> bool {
        self.below(n) == 0
    }

    pub fn pick<T: Copy>(&mut self, list: &[T]) -> T {
        list[self.below(list.len() as u64) as usize]
    }

    /// Any number of at most so many bits, each size as likely.
    pub fn sized(&mut self, most_bits: u64) -> u64 {
        match self.below(most_bits + 1) {
            0 => 0,
            bits => self.word() >> (64 - bits),
        }
    }

    /// Any number of at most so many bits, up to 128.
    pub fn wide(&mut self, most_bits: u64) -> u128 {
        let both = (self.word() as u128) << 64 | self.word() as u128;
        match self.below(most_bits + 1) {
            0 => 0,
            bits => both >> (128 - bits),
        }
    }

    /// A factor from 1 to `largest`, small ones as likely as large.
    pub fn factor(&mut self, largest: u64) -> u64 {
        self.sized(14).clamp(1, largest)
    }
}

#[test]
fn first_numbers() {
    // The first three numbers that the rule gives from seed 1234567.
    let mut random = Random::new(1234567);
    assert_eq!([random.word(), random.word(), random.word()], [6457827717110365317, 3203168211198807973, 9817491932198370423]);
}
