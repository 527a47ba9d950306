//! Answers of all sides laid out as words: number, place, then every value in the header's order. Doubles are their bits.

use independent::compare::Quieter;
use independent::drawn::Dot;
use independent::drift::Drift;
use independent::file::{Read, Record};
use independent::floats::FloatSums;
use independent::fractions::Fraction;
use independent::meter::Meter;
use independent::noise::{Bars, Noise};
use independent::salvage::Salvaged;
use independent::sheet::{Sheet, Totals};
use independent::sums::{Sum, Sums};
use independent::Answer;
use ploegelster::boundary;

/// An answer over the plain C interface.
pub trait Words {
    fn words(&self) -> Vec<u64>;
}

impl Words for boundary::CountAnswer {
    fn words(&self) -> Vec<u64> {
        vec![self.number, self.place, self.count]
    }
}

impl Words for boundary::SumAnswer {
    fn words(&self) -> Vec<u64> {
        vec![self.number, self.place, self.sum.high, self.sum.low, self.count]
    }
}

fn part_words(part: &boundary::Part) -> [u64; 4] {
    [part.number, part.sum.high, part.sum.low, part.count]
}

impl Words for boundary::SumsAnswer {
    fn words(&self) -> Vec<u64> {
        [&[self.number, self.place][..], &part_words(&self.allan), &part_words(&self.modified)].concat()
    }
}

impl Words for boundary::FloatSumsAnswer {
    fn words(&self) -> Vec<u64> {
        [&[self.number, self.place][..], &part_words(&self.allan), &part_words(&self.modified), &[self.changed]].concat()
    }
}

impl Words for boundary::QuieterAnswer {
    fn words(&self) -> Vec<u64> {
        vec![self.number, self.place, self.which]
    }
}

impl Words for boundary::FractionAnswer {
    fn words(&self) -> Vec<u64> {
        vec![self.number, self.place, self.numerator.high, self.numerator.low, self.denominator]
    }
}

impl Words for boundary::DeviationAnswer {
    fn words(&self) -> Vec<u64> {
        vec![self.number, self.place, self.deviation]
    }
}

impl Words for boundary::DriftAnswer {
    fn words(&self) -> Vec<u64> {
        vec![self.number, self.place, self.p as u64, self.r]
    }
}

impl Words for boundary::DrawnAnswer {
    fn words(&self) -> Vec<u64> {
        vec![self.number, self.place, self.value.to_bits()]
    }
}

impl Words for boundary::DotAnswer {
    fn words(&self) -> Vec<u64> {
        vec![self.number, self.place, self.kind, self.value.to_bits()]
    }
}

impl Words for boundary::NoiseAnswer {
    fn words(&self) -> Vec<u64> {
        vec![self.number, self.place, self.alpha as u64]
    }
}

impl Words for boundary::BarsAnswer {
    fn words(&self) -> Vec<u64> {
        vec![self.number, self.place, self.bar.low.to_bits(), self.bar.mid.to_bits(), self.bar.high.to_bits()]
    }
}

impl Words for boundary::MeterAnswer {
    fn words(&self) -> Vec<u64> {
        let boundary::Meter { m, n, stretch, k, c, a, b, window } = self.meter;
        vec![self.number, self.place, m, n, stretch, k, c, a.high, a.low, b.high, b.low, window as u64]
    }
}

impl Words for boundary::ReadAnswer {
    fn words(&self) -> Vec<u64> {
        vec![self.number, self.place, self.kind, self.count]
    }
}

impl Words for boundary::RecordAnswer {
    fn words(&self) -> Vec<u64> {
        vec![self.number, self.place, self.version, self.kind, self.start as u64, self.count]
    }
}

impl Words for boundary::SalvageAnswer {
    fn words(&self) -> Vec<u64> {
        vec![self.number, self.place, self.old_count, self.new_count, self.left_over, self.met]
    }
}

impl Words for boundary::SheetAnswer {
    fn words(&self) -> Vec<u64> {
        vec![self.number, self.place, self.length, self.totals.k, self.totals.c]
    }
}

/// What the second implementation answers, or the wrapper, in as many words as the library's answer has beside number and place.
pub trait Values {
    const LENGTH: usize;
    fn values(&self) -> Vec<u64>;
}

fn high(x: u128) -> u64 {
    (x >> 64) as u64
}

fn low(x: u128) -> u64 {
    x as u64
}

/// A count or a deviation.
impl Values for u64 {
    const LENGTH: usize = 1;
    fn values(&self) -> Vec<u64> {
        vec![*self]
    }
}

impl Values for Sum {
    const LENGTH: usize = 3;
    fn values(&self) -> Vec<u64> {
        vec![high(self.total), low(self.total), self.count]
    }
}

/// A sum as a part of an answer: 0 and the sum, or 1 and noughts.
fn part<T: Values>(part: Option<&T>) -> Vec<u64> {
    match part {
        Some(sum) => [vec![0], sum.values()].concat(),
        None => [vec![1], vec![0; T::LENGTH]].concat(),
    }
}

impl Values for Sums {
    const LENGTH: usize = 8;
    fn values(&self) -> Vec<u64> {
        [part(self.allan.as_ref()), part(self.modified.as_ref())].concat()
    }
}

impl Values for FloatSums {
    const LENGTH: usize = 9;
    fn values(&self) -> Vec<u64> {
        [part(Some(&self.allan)), part(self.modified.as_ref()), vec![self.changed]].concat()
    }
}

impl Values for Quieter {
    const LENGTH: usize = 1;
    fn values(&self) -> Vec<u64> {
        vec![self.number()]
    }
}

impl Values for Fraction {
    const LENGTH: usize = 3;
    fn values(&self) -> Vec<u64> {
        assert_eq!(high(self.denominator), 0);
        vec![high(self.numerator), low(self.numerator), low(self.denominator)]
    }
}

impl Values for Drift {
    const LENGTH: usize = 2;
    fn values(&self) -> Vec<u64> {
        vec![self.p as i64 as u64, self.r]
    }
}

/// A drawn number.
impl Values for f64 {
    const LENGTH: usize = 1;
    fn values(&self) -> Vec<u64> {
        vec![self.to_bits()]
    }
}

impl Values for Dot {
    const LENGTH: usize = 2;
    fn values(&self) -> Vec<u64> {
        match self {
            Dot::Nought => vec![0, 0],
            Dot::Drawn(value) => vec![1, value.to_bits()],
            Dot::TooFew => vec![2, 0],
        }
    }
}

impl Values for Noise {
    const LENGTH: usize = 1;
    fn values(&self) -> Vec<u64> {
        vec![self.alpha() as u64]
    }
}

impl Values for Bars {
    const LENGTH: usize = 3;
    fn values(&self) -> Vec<u64> {
        vec![self.low.to_bits(), self.mid.to_bits(), self.high.to_bits()]
    }
}

impl Values for Meter {
    const LENGTH: usize = 10;
    fn values(&self) -> Vec<u64> {
        let Meter { m, n, stretch, k, c, a, b, window } = *self;
        vec![m, n, stretch, k, c, high(a), low(a), high(b), low(b), window as u64]
    }
}

impl Values for Read {
    const LENGTH: usize = 2;
    fn values(&self) -> Vec<u64> {
        vec![self.kind.byte() as u64, self.count]
    }
}

impl Values for Record {
    const LENGTH: usize = 4;
    fn values(&self) -> Vec<u64> {
        vec![self.version.number() as u64, self.kind.byte() as u64, self.start as u64, self.count]
    }
}

impl Values for Salvaged {
    const LENGTH: usize = 4;
    fn values(&self) -> Vec<u64> {
        vec![self.old_count, self.new_count, self.left_over, self.met as u64]
    }
}

impl Values for Sheet {
    const LENGTH: usize = 3;
    fn values(&self) -> Vec<u64> {
        vec![self.length, self.totals.k, self.totals.c]
    }
}

/// How many entries the wrapper says were written.
impl Values for usize {
    const LENGTH: usize = 1;
    fn values(&self) -> Vec<u64> {
        vec![*self as u64]
    }
}

impl Values for ploegelster::Sum {
    const LENGTH: usize = 3;
    fn values(&self) -> Vec<u64> {
        vec![high(self.total), low(self.total), self.count]
    }
}

impl Values for ploegelster::Sums {
    const LENGTH: usize = 8;
    fn values(&self) -> Vec<u64> {
        [part(self.allan.as_ref()), part(self.modified.as_ref())].concat()
    }
}

impl Values for ploegelster::FloatSums {
    const LENGTH: usize = 9;
    fn values(&self) -> Vec<u64> {
        [part(Some(&self.allan)), part(self.modified.as_ref()), vec![self.changed]].concat()
    }
}

impl Values for ploegelster::Quieter {
    const LENGTH: usize = 1;
    fn values(&self) -> Vec<u64> {
        vec![self.number()]
    }
}

impl Values for ploegelster::Fraction {
    const LENGTH: usize = 3;
    fn values(&self) -> Vec<u64> {
        vec![high(self.numerator), low(self.numerator), self.denominator]
    }
}

impl Values for ploegelster::Drift {
    const LENGTH: usize = 2;
    fn values(&self) -> Vec<u64> {
        vec![self.p as u64, self.r]
    }
}

impl Values for ploegelster::Dot {
    const LENGTH: usize = 2;
    fn values(&self) -> Vec<u64> {
        match self {
            ploegelster::Dot::Nought => vec![0, 0],
            ploegelster::Dot::Drawn(value) => vec![1, value.to_bits()],
            ploegelster::Dot::TooFew => vec![2, 0],
        }
    }
}

impl Values for ploegelster::Noise {
    const LENGTH: usize = 1;
    fn values(&self) -> Vec<u64> {
        vec![self.alpha() as u64]
    }
}

impl Values for ploegelster::Bars {
    const LENGTH: usize = 3;
    fn values(&self) -> Vec<u64> {
        vec![self.low.to_bits(), self.mid.to_bits(), self.high.to_bits()]
    }
}

impl Values for ploegelster::Meter {
    const LENGTH: usize = 10;
    fn values(&self) -> Vec<u64> {
        let ploegelster::Meter { m, n, stretch, k, c, a, b, window } = *self;
        vec![m, n, stretch, k, c, a.high, a.low, b.high, b.low, window as u64]
    }
}

impl Values for ploegelster::Contents {
    const LENGTH: usize = 2;
    fn values(&self) -> Vec<u64> {
        vec![self.kind.number(), self.count as u64]
    }
}

impl Values for ploegelster::Record {
    const LENGTH: usize = 4;
    fn values(&self) -> Vec<u64> {
        vec![self.version, self.kind.number(), self.start as u64, self.count as u64]
    }
}

impl Values for ploegelster::Salvage {
    const LENGTH: usize = 4;
    fn values(&self) -> Vec<u64> {
        vec![self.old_count as u64, self.new_count as u64, self.left_over as u64, self.met as u64]
    }
}

impl Values for ploegelster::Sheet {
    const LENGTH: usize = 3;
    fn values(&self) -> Vec<u64> {
        vec![self.length as u64, self.totals.k, self.totals.c]
    }
}

fn laid_out<T: Values>(answer: Result<&T, [u64; 2]>) -> Vec<u64> {
    match answer {
        Ok(values) => [vec![0, 0], values.values()].concat(),
        Err(refusal) => [refusal.to_vec(), vec![0; T::LENGTH]].concat(),
    }
}

/// Number, place and values of the second implementation, with noughts beside a refusal.
pub fn expected<T: Values>(answer: &Answer<T>) -> Vec<u64> {
    laid_out(answer.as_ref().map_err(|refusal| [refusal.number, refusal.place]))
}

/// A refusal of the wrapper's: its number and its place.
pub trait Refused {
    fn number_and_place(&self) -> [u64; 2];
}

impl Refused for ploegelster::Refusal {
    fn number_and_place(&self) -> [u64; 2] {
        [self.number(), self.place]
    }
}

impl Refused for ploegelster::ChannelRefusal {
    fn number_and_place(&self) -> [u64; 2] {
        [self.number(), self.place()]
    }
}

/// The same of the wrapper.
pub fn wrapped<T: Values>(answer: &Result<T, impl Refused>) -> Vec<u64> {
    laid_out(answer.as_ref().map_err(Refused::number_and_place))
}

/// The same of a meter over the plain C interface, where a refusal hands it back as it came.
pub fn expected_meter(answer: &Answer<Meter>, old: &Meter) -> Vec<u64> {
    match answer {
        Ok(meter) => [vec![0, 0], meter.values()].concat(),
        Err(refusal) => [vec![refusal.number, refusal.place], old.values()].concat(),
    }
}

/// The same of a record's lines over the plain C interface, where a refusal hands the totals back as they came.
pub fn expected_sheet(answer: &Answer<Sheet>, old: &Totals) -> Vec<u64> {
    match answer {
        Ok(sheet) => [vec![0, 0], sheet.values()].concat(),
        Err(refusal) => vec![refusal.number, refusal.place, 0, old.k, old.c],
    }
}
