//! Buffers as they are lent: a part of some memory, with painted entries before and after it.

/// Entries on either side of what is lent.
const GUARD: usize = 9;

pub trait Entry: Copy {
    /// What stands in a buffer before a call; no proper value of a record.
    fn paint(index: usize) -> Self;
    fn bits(self) -> u64;
}

impl Entry for i64 {
    fn paint(index: usize) -> i64 {
        0x5A5A_0000_0000_0000 ^ (index as i64).wrapping_mul(0x10_0000_0001)
    }

    fn bits(self) -> u64 {
        self as u64
    }
}

impl Entry for u8 {
    fn paint(index: usize) -> u8 {
        (index * 37) as u8 ^ 0xA5
    }

    fn bits(self) -> u64 {
        self as u64
    }
}

impl Entry for f64 {
    fn paint(index: usize) -> f64 {
        f64::from_bits(0x7FF8_0000_0000_0000 + index as u64)
    }

    fn bits(self) -> u64 {
        self.to_bits()
    }
}

#[derive(Clone)]
pub struct Lent<T> {
    memory: Vec<T>,
    length: usize,
}

impl<T: Entry> Lent<T> {
    /// A buffer of paint.
    pub fn painted(length: usize) -> Lent<T> {
        Lent { memory: (0..length + 2 * GUARD).map(T::paint).collect(), length }
    }

    /// A buffer that holds these entries, with paint around them.
    pub fn holding(entries: &[T]) -> Lent<T> {
        let after = GUARD + entries.len();
        let memory = (0..GUARD).map(T::paint).chain(entries.iter().copied()).chain((after..after + GUARD).map(T::paint));
        Lent { memory: memory.collect(), length: entries.len() }
    }

    /// How many entries are lent.
    pub fn length(&self) -> usize {
        self.length
    }

    /// What is lent.
    pub fn part(&mut self) -> &mut [T] {
        &mut self.memory[GUARD..GUARD + self.length]
    }

    /// The first entry, of all the memory, in which two buffers differ, counted from the start of what is lent.
    pub fn differs(&self, other: &Lent<T>) -> Option<isize> {
        assert_eq!(self.length, other.length);
        let both = self.memory.iter().zip(&other.memory);
        both.into_iter().position(|(a, b)| a.bits() != b.bits()).map(|index| index as isize - GUARD as isize)
    }

    /// Whether these entries stand in what is lent, with paint around them.
    pub fn holds(&self, entries: &[T]) -> bool {
        self.differs(&Lent::holding(entries)).is_none()
    }

    /// Whether all of it is paint.
    pub fn is_painted(&self) -> bool {
        self.differs(&Lent::painted(self.length)).is_none()
    }
}

/// A buffer for each side of a comparison, the same at first.
#[derive(Clone)]
pub struct Sides<T> {
    /// Lent over the plain C interface.
    pub raw: Lent<T>,
    /// Lent to the wrapper.
    pub wrapped: Lent<T>,
    /// Lent to the second implementation.
    pub own: Lent<T>,
}

impl<T: Entry> Sides<T> {
    pub fn of(lent: Lent<T>) -> Sides<T> {
        Sides { raw: lent.clone(), wrapped: lent.clone(), own: lent }
    }

    pub fn painted(length: usize) -> Sides<T> {
        Sides::of(Lent::painted(length))
    }

    /// How many entries each of them has.
    pub fn length(&self) -> usize {
        self.own.length()
    }

    /// All three hold the same, inside what is lent and around it.
    pub fn same(&self, input: impl Fn() -> String) {
        assert_eq!(self.raw.differs(&self.own), None, "first other entry of the buffer, plain C interface, {}", input());
        assert_eq!(self.wrapped.differs(&self.own), None, "first other entry of the buffer, wrapper, {}", input());
    }

    /// All three hold the same, and are as they were painted where the call was refused.
    pub fn same_painted(&self, refused: bool, input: impl Fn() -> String) {
        self.same(&input);
        assert!(!refused || self.own.is_painted(), "buffer changed by a refusal, {}", input());
    }
}
