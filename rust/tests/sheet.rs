//! The sheet of all factors over the C boundary: the lines of record files of both versions, sound and damaged, the closing line, and whole sheets.

#[allow(dead_code)]
mod shared;

use independent::file::{bytes_of, file_of, record_of, Kind, Version};
use independent::sheet::{closing_line, lines, sheet, sheet_record, sheet_total, Sheet, Totals};
use independent::Answer;
use ploegelster::boundary::SumAnswer;
use shared::answers::{expected_sheet, Words};
use shared::ends::{beyond, extremes, within};
use shared::files::{end_of, sound_start, values, with_two_header_bytes_changed, Parts, FILES, KINDS};
use shared::lent::{Lent, Sides};
use shared::random::Random;
use shared::records::{record, OUTSIDE};
use shared::{raw, shown, with_neighbours, Tally, END};
use std::collections::BTreeSet;

const NOUGHTS: Totals = Totals { k: 0, c: 0 };
/// The largest total that is taken.
const TOP: u64 = 1 << 63;
/// A text of this length has room for whatever one call writes.
const ROOM_ENOUGH: usize = 4_608;

// ---- cases

/// One record's lines, with these totals and a text of this length. Gives the answer and what was written.
fn case(tally: &mut Tally, bytes: &[u8], totals: Totals, room: usize) -> (Answer<Sheet>, String) {
    let input = || format!("sheet of a record, {totals:?}, text of {room}, bytes {}", shown(bytes));
    let (mut lent, mut texts) = (Lent::holding(bytes), Sides::painted(room));
    let own = sheet_record(bytes, totals, texts.own.part());
    let answer = raw::sheet_record(lent.part(), raw::totals(&totals), texts.raw.part());
    tally.same_raw(&answer.words(), &expected_sheet(&own, &totals), input);
    tally.same_wrapped(&ploegelster::sheet_record(lent.part(), raw::totals(&totals), texts.wrapped.part()), &own, input);
    texts.same_painted(own.is_err(), input);
    assert!(lent.holds(bytes), "bytes changed, {}", input());
    (own, String::from_utf8(texts.raw.part()[..answer.length as usize].to_vec()).expect("plain text"))
}

/// One record's lines at the front of a sheet, with room for them and for so much more. What is written is looked at too, and given.
fn lines_case(tally: &mut Tally, bytes: &[u8], more: usize) -> String {
    let (own, text) = case(tally, bytes, NOUGHTS, lines(bytes).text.len() + more);
    look_at(bytes, &text, own.expect("room enough").totals);
    text
}

/// A closing line, with a text of this length. Gives what was written.
fn closing_case(tally: &mut Tally, totals: Totals, room: usize) -> String {
    let input = || format!("closing line, {totals:?}, text of {room}");
    let mut texts = Sides::painted(room);
    let own = sheet_total(totals, texts.own.part());
    let answer = raw::sheet_total(raw::totals(&totals), texts.raw.part());
    tally.same(&answer, &ploegelster::sheet_total(raw::totals(&totals), texts.wrapped.part()), &own, input);
    texts.same_painted(own.is_err(), input);
    String::from_utf8(texts.raw.part()[..answer.count as usize].to_vec()).expect("plain text")
}

/// The samples of a file by the library's other entries, or the number and place of the refusal.
fn samples_by_entries(bytes: &[u8]) -> Result<Vec<i64>, [u64; 2]> {
    let mut values = vec![0; 4_096];
    let mut read = |bytes: &[u8]| {
        let answer = raw::read_record(bytes, &mut values);
        (answer, values[..answer.count as usize].to_vec())
    };
    if bytes.len() >= 8 {
        // With a count that no kind has, the reader refuses the header or that count.
        let mut many = bytes.to_vec();
        many[6..8].fill(0xFF);
        let (answer, _) = read(&many);
        if answer.number == 9 {
            return Err([9, answer.place]);
        }
        let count = u16::from_le_bytes([bytes[6], bytes[7]]);
        if count > if bytes[5] == 0 { 4_096 } else { 4_095 } {
            return Err([2, 0]);
        }
    }
    let (answer, values) = read(bytes);
    if answer.number != 0 {
        return Err([answer.number, answer.place]);
    }
    let mut samples = values;
    if answer.kind == 1 {
        let mut phases = vec![0; samples.len() + 1];
        let turned = raw::phase_from_start(answer.start, &samples, &mut phases);
        if turned.number != 0 {
            return Err([turned.number, turned.place]);
        }
        samples = phases;
    }
    match raw::allan_sum(&samples, 1) {
        SumAnswer { number: 0, .. } => Ok(samples),
        SumAnswer { number, place, .. } => Err([number, place]),
    }
}

/// A column that is a number, written as a number is.
fn number(column: &str) -> u128 {
    let number: u128 = column.parse().unwrap_or_else(|_| panic!("a number: {column:?}"));
    assert_eq!(number.to_string(), column);
    number
}

/// A column that is a fraction: its numerator in halves, and its denominator.
fn fraction(column: &str) -> [u64; 3] {
    let (numerator, denominator) = column.split_once('/').unwrap_or_else(|| panic!("a fraction: {column:?}"));
    let (numerator, denominator) = (number(numerator), number(denominator));
    [(numerator >> 64) as u64, numerator as u64, denominator.try_into().expect("64 bits")]
}

/// What holds of every text, found without the second implementation: its length, its lines, and every column by the entry that gives its figure.
fn look_at(bytes: &[u8], text: &str, totals: Totals) {
    assert!(text.len() <= ROOM_ENOUGH && text.ends_with('\n') && text.is_ascii(), "{text:?}");
    let samples = match samples_by_entries(bytes) {
        Ok(samples) => samples,
        Err([number, place]) => {
            assert_eq!((text, totals), (&format!("refused {number} at {place}\n")[..], NOUGHTS), "bytes {}", shown(bytes));
            return;
        }
    };
    let n = samples.len() as u64;
    let mut added = NOUGHTS;
    let mut m = 1;
    for line in text[..text.len() - 1].split('\n') {
        let columns: Vec<&str> = line.split(' ').collect();
        let [factor, allan, k, deviation, time, c, time_deviation, alpha] = columns[..] else { panic!("eight columns: {line:?}") };
        assert!(number(factor) == m as u128 && n > 2 * m, "factor of {line:?}, {n} samples");
        let sum = raw::allan_sum(&samples, m);
        let total = u128::from(sum.sum);
        assert_eq!((sum.number, sum.count as u128), (0, number(k)), "{line:?}");
        assert_eq!(raw::allan_fraction(total, m, sum.count).words()[2..], fraction(allan), "{line:?}");
        assert_eq!(raw::allan_deviation(total, m, sum.count).deviation as u128, number(deviation), "{line:?}");
        added.k += sum.count;
        let sum = raw::modified_sum(&samples, m);
        if n < 3 * m {
            assert_eq!((sum.number, [time, c, time_deviation]), (1, ["r1"; 3]), "{line:?}");
        } else {
            let total = u128::from(sum.sum);
            assert_eq!((sum.number, sum.count as u128), (0, number(c)), "{line:?}");
            assert_eq!(raw::time_fraction(total, m, sum.count).words()[2..], fraction(time), "{line:?}");
            assert_eq!(raw::time_deviation(total, m, sum.count).deviation as u128, number(time_deviation), "{line:?}");
            added.c += sum.count;
        }
        let noise = raw::noise_of_record(&samples, m);
        let column = match noise.number {
            0 => ["-2", "-1", "0", "1", "2"][(noise.alpha + 2) as usize],
            8 => "r8",
            _ => "-",
        };
        assert_eq!((alpha, alpha == "-"), (column, n < 6 * m), "{line:?}");
        m *= 2;
    }
    assert!(n <= 2 * m, "factors up to {m}, {n} samples");
    assert_eq!(totals, added, "{n} samples");
}

// ---- files

/// A record as files of both kinds and versions. Phases of version 1 begin at 0, so that there the first sample becomes 0.
fn files_of(samples: &[i64]) -> Vec<Vec<u8>> {
    let mut files = vec![file_of(Kind::Phase, samples), record_of(Kind::Phase, 0, samples)];
    if let Some(&start) = samples.first() {
        let mut readings: Vec<i64> = samples.windows(2).map(|pair| pair[1] - pair[0]).collect();
        files.push(record_of(Kind::Frequency, start, &readings));
        if let Some(first) = readings.first_mut() {
            *first += start;
        }
        files.push(file_of(Kind::Frequency, &readings));
    }
    files
}

/// Records of this length: constant, straight, curved, from end to end, and by chance.
fn records_of(random: &mut Random, length: usize) -> Vec<Vec<i64>> {
    let of = |sample: &dyn Fn(i64) -> i64| (0..length as i64).map(sample).collect::<Vec<i64>>();
    let mut records = vec![
        of(&|_| END),
        of(&|_| -7),
        of(&|i| 3 * i + 5),
        of(&|i| i * i),
        of(&|i| i % 2),
        of(&|i| if i % 2 == 0 { END } else { -END }),
        of(&|i| if i / 2 % 2 == 0 { -END } else { END }),
    ];
    records.extend([3, END].map(|end| (0..length).map(|_| random.between(-end, end)).collect::<Vec<i64>>()));
    records.extend([(); 2].map(|_| record(random, length)));
    records
}

/// A file of any kind, whole or damaged, of few values and more seldom of many.
fn by_lot(random: &mut Random) -> Vec<u8> {
    let most = random.pick(&[4, 8, 14, 14, 40, 40, 300]);
    let count = 1 + random.below(most) as usize;
    let kind = random.pick(&KINDS);
    let mut bytes = if random.one_in(3) {
        // Readings that were not made from phases: these may leave the range.
        let start = if kind == Kind::Phase && !random.one_in(12) { 0 } else { random.pick(&[within(END), OUTSIDE.to_vec()].concat()) };
        let values = values(random, kind, count, 4 * most);
        bytes_of(random.pick(&[Version::One, Version::Two]), kind, start, &values)
    } else {
        let samples = record(random, count);
        files_of(&samples).swap_remove(random.below(4) as usize)
    };
    if random.one_in(12) {
        let written = if random.one_in(2) { random.word() as u16 } else { random.below(most + 5) as u16 };
        bytes[6..8].copy_from_slice(&written.to_le_bytes());
    }
    if random.one_in(12) {
        bytes.truncate(random.below(bytes.len() as u64) as usize);
    }
    if random.one_in(12) {
        let more = random.below(30);
        bytes.extend((0..more).map(|_| random.word() as u8));
    }
    if random.one_in(6) && !bytes.is_empty() {
        let offset = random.below(bytes.len() as u64) as usize;
        bytes[offset] ^= 1 << random.below(8);
    }
    bytes
}

impl Parts {
    /// The index of the first reading whose phase leaves the range, if one does.
    fn leaves(&self) -> Option<usize> {
        let mut phase = self.start as i128;
        let mut phases = self.values.iter().map(|&reading| {
            phase += reading as i128;
            phase
        });
        phases.position(|phase| phase.unsigned_abs() > END as u128).filter(|_| self.kind == Kind::Frequency)
    }

    /// The line of a record that is refused as a whole, by the order of the rules; none where it is not refused.
    fn refusal(&self) -> Option<String> {
        let frequency = self.kind == Kind::Frequency;
        let right = self.header() + 8 * self.written;
        let length = self.header() + 8 * self.values.len() + self.rest.len();
        let outside = self.values.iter().position(|value| value.unsigned_abs() > end_of(self.kind) as u64);
        let (number, place) = if !frequency && self.start != 0 {
            (9, 8)
        } else if self.written > if frequency { 4_095 } else { 4_096 } {
            (2, 0)
        } else if length != right {
            (9, length.min(right))
        } else if self.start.unsigned_abs() > END as u64 {
            (3, 0)
        } else if let Some(index) = outside.or(self.leaves()) {
            (3, index)
        } else if self.written + (frequency as usize) < 3 {
            (1, 0)
        } else {
            return None;
        };
        Some(format!("refused {number} at {place}\n"))
    }

    /// A case with just as much room as the lines take.
    fn lines_case(&self, tally: &mut Tally) {
        let text = lines_case(tally, &self.bytes(), 0);
        assert_eq!(text.starts_with("refused").then_some(&text), self.refusal().as_ref(), "bytes {}", shown(&self.bytes()));
    }
}

// ---- tests

const SQUARES: [i64; 6] = [0, 1, 4, 9, 16, 25];

/// The text of a sheet of one phase record, and of its frequency record.
fn whole_sheet(samples: &[i64], text: &str) {
    for bytes in [file_of(Kind::Phase, samples), record_of(Kind::Phase, 0, samples), files_of(samples).swap_remove(2)] {
        let [mut buffer, mut line] = [[9; ROOM_ENOUGH]; 2];
        let answer = raw::sheet_record(&bytes, raw::totals(&NOUGHTS), &mut buffer);
        let closing = raw::sheet_total(answer.totals, &mut line);
        assert_eq!((answer.number, closing.number), (0, 0));
        let (length, end) = (answer.length as usize, closing.count as usize);
        assert_eq!(std::str::from_utf8(&[&buffer[..length], &line[..end]].concat()), Ok(text));
        assert!(buffer[length..].iter().chain(&line[end..]).all(|&byte| byte == 9), "what stands behind the text");
        assert_eq!(sheet(&[bytes]), text);
    }
}

/// What the rules give whole, and what comes of their other figures.
#[test]
fn figures_of_the_rules() {
    whole_sheet(&SQUARES, "1 2/1 4 1482910 2/3 4 856158 -2\n2 8/1 2 2965820 32/3 1 3424634 -\ntotal 6 5\n");
    whole_sheet(&[5, 8, 11, 14], "1 0/1 2 0 0/1 2 0 -\ntotal 2 2\n");
    whole_sheet(&[5, 8, 11, 14, 17, 20], "1 0/1 4 0 0/1 4 0 r8\n2 0/1 2 0 0/1 1 0 -\ntotal 6 5\n");
    whole_sheet(&[0, 1, 0, 1, 0], "1 2/1 3 1482910 2/3 3 856158 -\n2 0/1 1 0 r1 r1 r1 -\ntotal 4 3\n");
    whole_sheet(&[0, 0, 0, 1, 0, 0, 0], "1 3/5 5 812223 1/5 5 468937 1\n2 1/6 3 428079 1/6 2 428079 -\ntotal 8 7\n");
    let ends = "1 9671406556917033397649408/1 1 3260954456333195553 9671406556917033397649408/3 1 1882712933179080188 -\ntotal 1 1\n";
    whole_sheet(&[END, -END, END], ends);
    for few in [&[][..], &[7], &[1, -1]] {
        assert_eq!(sheet(&[file_of(Kind::Phase, few)]), "refused 1 at 0\ntotal 0 0\n");
    }
    assert_eq!(sheet(&[]), "total 0 0\n");
    assert_eq!(sheet(&[vec![], file_of(Kind::Phase, &[1, -1, END + 1])]), "refused 9 at 0\nrefused 3 at 2\ntotal 0 0\n");
    assert_eq!(lines(&file_of(Kind::Frequency, &[3, -1, 4])).text, lines(&file_of(Kind::Phase, &[0, 3, 2, 6])).text);
}

/// Up to 40 samples, of all kinds and versions.
#[test]
fn every_length_of_short_records() {
    let (mut tally, mut random) = (Tally::default(), Random::new(141));
    for length in 0..=40 {
        for samples in records_of(&mut random, length) {
            for (turn, bytes) in files_of(&samples).iter().enumerate() {
                let text = lines_case(&mut tally, bytes, turn);
                assert_eq!(text == "refused 1 at 0\n", length < 3);
            }
        }
    }
    tally.ran(1_782, &[0]);
}

/// The lengths at which a factor comes, its time columns and its alpha, up to the most and one more.
#[test]
fn lengths_at_which_a_column_changes() {
    let (mut tally, mut random) = (Tally::default(), Random::new(142));
    let lengths: BTreeSet<u64> = (0..12).flat_map(|power| with_neighbours(&[2 << power, (2 << power) + 1, 3 << power, 6 << power])).collect();
    for length in lengths.into_iter().filter(|&length| length <= 4_097).map(|length| length as usize) {
        for turn in 0..if length < 500 { 4 } else { 1 } {
            let samples = record(&mut random, length);
            let files = files_of(&samples);
            for bytes in if length < 500 { &files[..] } else { &files[1 + (length + turn) % 2..][..2] } {
                let text = lines_case(&mut tally, bytes, turn);
                match length {
                    0..=2 => assert_eq!(text, "refused 1 at 0\n"),
                    4_097 => assert_eq!(text, "refused 2 at 0\n"),
                    _ => assert_eq!(text.lines().count() as u32, (length - 1).ilog2()),
                }
            }
        }
    }
    tally.ran(816, &[0]);
}

/// Counts in the header about the most on a sheet and the most of all, whatever follows.
#[test]
fn written_counts_at_their_limits() {
    let (mut tally, mut random) = (Tally::default(), Random::new(143));
    let refused_starts = [(Version::Two, Kind::Frequency, END + 1), (Version::Two, Kind::Phase, 1), (Version::Two, Kind::Phase, i64::MIN)];
    let counts = with_neighbours(&[1, 4, 256, 4_095, 4_096, 8_192, 32_767, 32_768, 36_864]).into_iter().chain([65_535]);
    for written in counts.map(|count| count as usize) {
        for (version, kind, start) in FILES.into_iter().chain(refused_starts) {
            for count in [0, 1, 3, 5] {
                for rest in [0, 1, 7] {
                    let values: Vec<i64> = (0..count).map(|i| i * i - i).collect();
                    Parts { written, rest: vec![0x7F; rest], ..Parts::whole(version, kind, start, &values) }.lines_case(&mut tally);
                }
            }
        }
    }
    // All values there, about the most, and a byte or a value less or more.
    for (version, kind, start) in [FILES[0], FILES[1], FILES[2], FILES[4]] {
        for written in 4_094..=4_098 {
            let samples: Vec<i64> = (0..written as i64 + 1).map(|_| random.between(-9, 9)).collect();
            let whole = Parts::whole(version, kind, start, &samples[..written]);
            whole.lines_case(&mut tally);
            Parts { rest: vec![0], ..whole.clone() }.lines_case(&mut tally);
            Parts { values: samples.clone(), ..whole.clone() }.lines_case(&mut tally);
            Parts { values: samples[..written - 1].to_vec(), rest: vec![0; 7], ..whole.clone() }.lines_case(&mut tally);
            let mut outside = whole;
            outside.values[written - 1] = random.pick(&beyond(end_of(kind)));
            outside.lines_case(&mut tally);
        }
    }
    tally.ran(3_268, &[0]);
}

/// A file is read no further than its count says, and a longer one is wrong where the right length ends, however long it is.
#[test]
fn bytes_behind_the_longest_file() {
    let mut tally = Tally::default();
    for (version, kind, start) in [FILES[0], FILES[1], FILES[2], FILES[4]] {
        let most = if kind == Kind::Phase { 4_096 } else { 4_095 };
        for count in [3, most, most + 1] {
            let values: Vec<i64> = (0..count).map(|i| i % 3 - 1).collect();
            let whole = bytes_of(version, kind, start, &values);
            for length in [32_784, 32_785, 32_786, 32_787, 65_536, 300_000] {
                let line = if count > most { "refused 2 at 0\n".to_string() } else { format!("refused 9 at {}\n", whole.len()) };
                for byte in [0, 0x7F, 0xFF].into_iter().filter(|_| length > whole.len()) {
                    let longer = [&whole[..], &vec![byte; length - whole.len()]].concat();
                    assert_eq!(lines_case(&mut tally, &longer, 0), line);
                }
            }
        }
    }
    tally.ran(195, &[0]);
}

/// Values at the ends of a kind's range and one past, also where they are in the range of the other kind, at each index.
#[test]
fn values_at_the_ends_of_their_range() {
    let mut tally = Tally::default();
    for (version, kind, start) in FILES {
        let end = end_of(kind);
        for index in 0..9 {
            for value in [end - 1, end, end + 1, 1 - end, -end, -end - 1, END, -END, END + 1, -END - 1, 2 * END, -2 * END, i64::MAX, i64::MIN] {
                for other in [0, 1, end] {
                    let mut values: Vec<i64> = (0..9).map(|i| if i % 2 == 0 { other } else { -other }).collect();
                    values[index] = value;
                    Parts::whole(version, kind, start, &values).lines_case(&mut tally);
                }
            }
        }
    }
    tally.ran(3_024, &[0]);
}

/// Each value outside its range, alone and at any index of a longer record, is told there.
#[test]
fn every_value_outside() {
    let (mut tally, mut random) = (Tally::default(), Random::new(144));
    for (version, kind, start) in [FILES[0], FILES[4]] {
        for value in beyond(end_of(kind)) {
            for length in [1, 3, 17, 130] {
                let index = random.below(length) as usize;
                let mut values: Vec<i64> = (0..length).map(|_| random.between(-4, 4)).collect();
                values[index] = value;
                assert_eq!(lines_case(&mut tally, &bytes_of(version, kind, start, &values), 2), format!("refused 3 at {index}\n"));
            }
        }
    }
    tally.ran(6_864, &[0]);
}

/// Starts at the ends of the range, in it and outside, with readings from there to an end, and one further.
#[test]
fn every_start_and_where_phases_leave() {
    let mut tally = Tally::default();
    for (starts, inside) in [(within(END), true), (beyond(END), false)] {
        for start in starts {
            for readings in [&[][..], &[0, 0], &[1, -1, 2], &[-1, 1, 0, 0, 0]] {
                let file = Parts::whole(Version::Two, Kind::Frequency, start, readings);
                file.lines_case(&mut tally);
                assert!(inside || file.refusal().as_deref() == Some("refused 3 at 0\n"));
            }
        }
    }
    for start in within(END) {
        for length in [1, 2, 3, 9, 20] {
            for index in 0..length {
                // The phase before this reading is the start, and the next is at an end of the range, or one beyond.
                for end in [END, END + 1, -END, -END - 1] {
                    let mut readings = vec![0; length];
                    readings[index] = end - start;
                    Parts::whole(Version::Two, Kind::Frequency, start, &readings).lines_case(&mut tally);
                    if start == 0 {
                        Parts::whole(Version::One, Kind::Frequency, 0, &readings).lines_case(&mut tally);
                    }
                }
            }
        }
    }
    tally.ran(5_744, &[0]);
}

/// Figures as large as can be, and such as have many digits: numerators beyond 64 bits, at every factor.
#[test]
fn large_figures() {
    let (mut tally, mut random) = (Tally::default(), Random::new(145));
    let mut longest = 0;
    for m in [1, 2, 4, 8, 16, 64, 256, 1_024] {
        for length in [3 * m + 1, 6 * m, 4_096].into_iter().filter(|&length| length < 200 || length == 4_096 && m < 3) {
            for samples in extremes(&mut random, length, m) {
                for bytes in &files_of(&samples)[if length < 200 { 0 } else { 2 }..] {
                    longest = longest.max(lines_case(&mut tally, bytes, 0).len());
                }
            }
        }
    }
    for length in [3, 4_095, 4_096] {
        for short in [0, 1] {
            let samples: Vec<i64> = (0..length).map(|i| if i % 2 == 0 { END - short } else { short - END }).collect();
            let text = lines_case(&mut tally, &file_of(Kind::Phase, &samples), 0);
            let (numerator, _) = text.split(' ').nth(1).and_then(|column| column.split_once('/')).expect("a fraction");
            assert!(number(numerator) > 1 << 82);
            longest = longest.max(text.len());
        }
    }
    assert!(longest > 800 && longest <= 4_096, "{longest}");
    tally.ran(342, &[0]);
}

/// Noise of every type, added up once or twice or not at all, and records without any: each alpha is met, and what stands instead of one.
#[test]
fn every_alpha() {
    let (mut tally, mut random) = (Tally::default(), Random::new(146));
    let mut met = BTreeSet::new();
    for turn in 0..60 {
        let length = random.pick(&[24, 50, 100, 200, 400]);
        let size = 1 << random.below(20);
        let [mut frequency, mut phase] = [0; 2];
        let noise = |_| {
            let step = random.between(-size, size);
            match turn % 6 {
                0 => return step,
                1 => frequency = step,
                2 => frequency += step,
                // Halfway between two of these.
                3 => frequency = frequency / 2 + step,
                4 => return (phase, phase = phase / 2 + step).0,
                _ => return 5 * size,
            }
            phase += frequency;
            phase
        };
        let samples: Vec<i64> = (0..length).map(noise).collect();
        for bytes in files_of(&samples) {
            let text = lines_case(&mut tally, &bytes, 0);
            met.extend(text.lines().map(|line| line.rsplit(' ').next().expect("a column").to_string()));
        }
    }
    assert_eq!(met, ["-", "-1", "-2", "0", "1", "2", "r8"].map(str::to_string).into());
    tally.ran(240, &[0]);
}

/// Every beginning of small files, and bytes behind them.
#[test]
fn every_cut_and_tail() {
    let mut tally = Tally::default();
    for (version, kind, start) in FILES {
        for values in [&[][..], &[1], &[1, -1], &[0, 1, 0], &[0, 1, -1, 0, 2, -2]] {
            let bytes = bytes_of(version, kind, start, values);
            for length in 0..bytes.len() {
                assert_eq!(lines_case(&mut tally, &bytes[..length], 0), format!("refused 9 at {length}\n"));
            }
            for more in 0..=17 {
                for byte in [0, 1, 0x7F, 0xFF] {
                    let text = lines_case(&mut tally, &[&bytes[..], &vec![byte; more]].concat(), 0);
                    assert_eq!(text == format!("refused 9 at {}\n", bytes.len()), more > 0);
                }
            }
        }
    }
    tally.ran(4_208, &[0]);
}

/// Every byte of small files changed, to every other or in each of its bits.
#[test]
fn every_byte_changed() {
    let mut tally = Tally::default();
    for (version, kind, start) in FILES {
        for (values, every) in [(&[][..], start == 0), (&[1, -1, 4], start == 0), (&[END, -END, END], false), (&[0, 1, 0, -1, 0, 2], false)] {
            let sound = bytes_of(version, kind, start, values);
            for offset in 0..sound.len() {
                for byte in (0..=255u8).filter(|byte| every || (byte ^ sound[offset]).count_ones() == 1) {
                    let mut bytes = sound.clone();
                    bytes[offset] = byte;
                    assert!(case(&mut tally, &bytes, NOUGHTS, 300).0.is_ok());
                }
            }
        }
    }
    tally.ran(57_344, &[0]);
}

#[test]
fn two_header_bytes_changed() {
    let mut tally = Tally::default();
    with_two_header_bytes_changed(|bytes, _| {
        assert!(case(&mut tally, bytes, NOUGHTS, 150).0.is_ok());
    });
    tally.ran(13_968, &[0]);
}

/// Every room from none to more than the text takes, for small records, answered and refused; for large ones the lengths about that of the text, and
/// about the room that is always enough.
#[test]
fn every_room() {
    let (mut tally, mut random) = (Tally::default(), Random::new(147));
    let small =
        [&SQUARES[..], &[5; 7], &[0, 1, 0, 1, 0], &[END, -END, END], &[1, -1], &[], &[0, 0, END + 1], &[0, 1, 0, 2, 0, 3, 0, 4, 0, 5, 0, 6, 0]];
    let mut files: Vec<Vec<u8>> = small.map(|samples| file_of(Kind::Phase, samples)).into();
    files.extend([vec![], vec![0; 40], record_of(Kind::Frequency, END, &[-1, 0, 1, 0]), record_of(Kind::Frequency, END, &[-1, 0, 1, 1])]);
    let all = files.into_iter().map(|bytes| (lines(&bytes).text.len() + 4, bytes)).map(|(rooms, bytes)| (bytes, (0..rooms).collect()));
    let mut cases: Vec<(Vec<u8>, Vec<usize>)> = all.collect();
    for (length, end) in [(300, 3), (2_049, END), (4_096, 0), (4_096, END)] {
        let samples: Vec<i64> = (0..length).map(|_| random.between(-end, end)).collect();
        for bytes in &files_of(&samples)[1..3] {
            let text = lines(bytes).text.len();
            cases.push((bytes.clone(), vec![0, 1, text / 2, text - 1, text, text + 1, 4_096, ROOM_ENOUGH - 1, ROOM_ENOUGH, ROOM_ENOUGH + 1]));
        }
    }
    for (bytes, rooms) in cases {
        let length = lines(&bytes).text.len();
        for room in rooms {
            let (answer, text) = case(&mut tally, &bytes, Totals { k: 5, c: TOP }, room);
            assert_eq!((answer.is_ok(), text.len()), if room < length { (false, 0) } else { (true, length) }, "room {room}");
        }
    }
    tally.ran(613, &[0, 6]);
}

/// Totals at the largest that is taken, either and both, for records that add to them and that add nothing, with room and without: 2 comes before 6.
#[test]
fn totals_at_their_limits() {
    let mut tally = Tally::default();
    let totals = [0, 1, 5, u32::MAX as u64, 1 << 32, TOP - 6, TOP - 1, TOP, TOP + 1, TOP + 6, u64::MAX - 5, u64::MAX];
    let files = [file_of(Kind::Phase, &SQUARES), file_of(Kind::Phase, &[0, 1, 0, 1, 0]), file_of(Kind::Phase, &[1, -1]), vec![]];
    for bytes in files {
        let length = lines(&bytes).text.len();
        for k in totals {
            for c in totals {
                for room in [0, length - 1, length, ROOM_ENOUGH] {
                    let (answer, _) = case(&mut tally, &bytes, Totals { k, c }, room);
                    let number = if k > TOP || c > TOP { 2 } else { 6 * (room < length) as u64 };
                    assert_eq!(answer.err().map_or(0, |refusal| refusal.number), number, "totals {k} and {c}, room {room}");
                }
            }
        }
    }
    tally.ran(2_304, &[0, 2, 6]);
}

/// Numbers at which another digit comes or a word ends, and what lies next to them.
fn notable() -> Vec<u64> {
    let tens = (0..20).map(|power| 10u64.pow(power));
    let mut numbers = with_neighbours(&tens.chain((0..64).map(|power| 1 << power)).chain([55, 99, 505, 1_010]).collect::<Vec<_>>());
    numbers.extend([u64::MAX - 1, u64::MAX]);
    numbers
}

#[test]
fn every_closing_line() {
    let (mut tally, mut random) = (Tally::default(), Random::new(148));
    let notable = notable();
    for &x in &notable {
        for totals in [(x, 0), (0, x), (x, x), (x, random.pick(&notable)), (random.pick(&notable), x)].map(|(k, c)| Totals { k, c }) {
            let line = closing_line(totals);
            assert_eq!(closing_case(&mut tally, totals, 48), line);
            assert_eq!(closing_case(&mut tally, totals, line.len()), line);
            assert_eq!(closing_case(&mut tally, totals, line.len() - 1), "");
        }
    }
    for bits in 1..=64 {
        for _ in 0..60 {
            let totals = Totals { k: random.word() >> (64 - bits), c: random.sized(64) };
            assert_eq!(closing_case(&mut tally, totals, random.between(48, 60) as usize), closing_line(totals));
        }
    }
    tally.ran(7_695, &[0, 6]);
}

#[test]
fn every_room_of_a_closing_line() {
    let (mut tally, mut random) = (Tally::default(), Random::new(149));
    let mut pairs = vec![(0, 0), (9, 10), (10, 9), (6, 5), (TOP, TOP), (TOP + 1, 0), (u64::MAX, 0), (0, u64::MAX), (u64::MAX, u64::MAX)];
    pairs.extend((0..50).map(|_| (random.sized(64), random.sized(64))));
    for totals in pairs.into_iter().map(|(k, c)| Totals { k, c }) {
        let line = closing_line(totals);
        assert!(line.len() <= 48);
        for room in 0..=60 {
            assert_eq!(closing_case(&mut tally, totals, room), if room < line.len() { "" } else { &line });
        }
    }
    tally.ran(3_599, &[0, 6]);
}

// What may be wrong at once, in the order in which it is told: the first two of the call, the others of the record.
const TOTAL: u32 = 1;
const ROOM: u32 = 2;
const HEADER_BYTE: u32 = 4;
const SHORT_HEADER: u32 = 8;
const START_OF_PHASES: u32 = 16;
const TOO_MANY: u32 = 32;
const LENGTH: u32 = 64;
const START: u32 = 128;
const VALUE: u32 = 256;
const PHASE: u32 = 512;
const TOO_FEW: u32 = 1_024;

/// A record with these faults.
fn faulty(random: &mut Random, (version, kind): (Version, Kind), set: u32) -> Parts {
    let has = |fault: u32| set & fault != 0;
    let start = match (has(START_OF_PHASES), has(START)) {
        (true, _) => random.pick(&[1, -1, 256, END, -END, END + 1, 1 << 56, i64::MIN]),
        (_, true) => random.pick(&OUTSIDE),
        _ if version == Version::Two => sound_start(random, kind),
        _ => 0,
    };
    let count = if has(TOO_FEW) { 1 } else { random.between(3, 7) as usize };
    let mut file = Parts::whole(version, kind, start, &vec![0; count]);
    if has(PHASE) {
        // From the start, in range or not, to beyond the nearer end.
        let beyond = if start >= 0 { END + 1 } else { -END - 1 };
        file.values[random.below(count as u64) as usize] = (beyond as i128 - start as i128).clamp(-2 * END as i128, 2 * END as i128) as i64;
    }
    if has(VALUE) {
        file.values[random.below(count as u64) as usize] = random.pick(&beyond(end_of(kind)));
    }
    if has(LENGTH) {
        match random.below(5) as usize {
            0 => drop(file.values.pop()),
            1 => file.rest = file.values.pop().expect("a value").to_le_bytes()[..7].to_vec(),
            turn => {
                let more = [1, 8, 9][turn - 2];
                file.values.resize(count + more / 8, 0);
                file.rest = vec![0x7F; more % 8];
            }
        }
    }
    if has(TOO_MANY) {
        let most = if kind == Kind::Phase { 4_096 } else { 4_095 };
        file.written = random.pick(&[most + 1, most + 2, 32_767, 32_768, 32_769, 65_535]);
    }
    file
}

/// All sets of faults, and so each two of them.
#[test]
fn first_of_all_faults() {
    let (mut tally, mut random) = (Tally::default(), Random::new(150));
    let always = TOTAL | ROOM | HEADER_BYTE | SHORT_HEADER | TOO_MANY | LENGTH | VALUE | TOO_FEW;
    for (version, kind, faults) in [
        (Version::One, Kind::Phase, always),
        (Version::One, Kind::Frequency, always | PHASE),
        (Version::Two, Kind::Phase, always | START_OF_PHASES),
        (Version::Two, Kind::Frequency, always | START | PHASE),
    ] {
        for set in (0..2_048).filter(|set| set & !faults == 0).flat_map(|set| [set; 4]) {
            let has = |fault: u32| set & fault != 0;
            let file = faulty(&mut random, (version, kind), set);
            let mut bytes = file.bytes();
            let wrong = has(HEADER_BYTE).then(|| random.below(6) as usize);
            if let Some(offset) = wrong {
                bytes[offset] ^= random.pick(&[4, 8, 0x20, 0x80, 0xFC]);
            }
            if has(SHORT_HEADER) {
                // A wrong byte is still there.
                let shortest = wrong.map_or(0, |offset| offset + 1);
                bytes.truncate(random.between(shortest as i64, file.header() as i64 - 1) as usize);
            }
            let first = match wrong {
                Some(offset) => Some(format!("refused 9 at {offset}\n")),
                None if has(SHORT_HEADER) => Some(format!("refused 9 at {}\n", bytes.len())),
                None => file.refusal(),
            };
            assert_eq!(first.is_some(), set & !(TOTAL | ROOM) != 0, "the faults {set:b} of bytes {bytes:?}");
            let length = first.as_ref().map_or_else(|| lines(&bytes).text.len(), String::len);
            let room = if has(ROOM) { random.below(length as u64) as usize } else { length + random.below(3) as usize };
            let totals = match (has(TOTAL), random.below(3)) {
                (true, 0) => Totals { k: TOP + 1, c: 0 },
                (true, 1) => Totals { k: TOP, c: u64::MAX },
                (true, _) => Totals { k: u64::MAX, c: TOP + 1 },
                (false, _) => Totals { k: random.pick(&[0, 7, TOP]), c: random.pick(&[0, 7, TOP]) },
            };
            let (answer, text) = case(&mut tally, &bytes, totals, room);
            match answer {
                Err(refusal) => assert_eq!((refusal.number, refusal.place), (if has(TOTAL) { 2 } else { 6 }, 0)),
                Ok(sheet) => {
                    assert!(!has(TOTAL) && !has(ROOM));
                    assert_eq!(text.starts_with("refused").then_some(text), first, "the faults {set:b} of bytes {bytes:?}");
                    assert_eq!(sheet.totals == totals, first.is_some());
                }
            }
        }
    }
    tally.ran(9_216, &[0, 2, 6]);
}

/// Files by lot, with room for their lines and with less.
#[test]
fn files_generated_and_damaged() {
    let (mut tally, mut random) = (Tally::default(), Random::new(151));
    for _ in 0..6_000 {
        let bytes = by_lot(&mut random);
        let text = lines_case(&mut tally, &bytes, 3);
        let room = random.between(0, text.len() as i64 + 2) as usize;
        let totals = Totals { k: random.sized(64), c: random.sized(63) };
        let (answer, _) = case(&mut tally, &bytes, totals, room);
        assert_eq!(answer.is_ok(), totals.k <= TOP && room >= text.len());
    }
    tally.ran(12_000, &[0, 2, 6]);
}

/// Several files in turn, each with the totals that the one before gave, and the closing line: together they are the whole sheet.
#[test]
fn several_files_on_a_sheet() {
    let (mut tally, mut random) = (Tally::default(), Random::new(152));
    for turn in 0..400 {
        let files: Vec<Vec<u8>> = (0..turn % 9).map(|_| by_lot(&mut random)).collect();
        let (mut text, mut totals) = (String::new(), NOUGHTS);
        for bytes in &files {
            // A record that did not fit is written with more room, and with the totals that came back.
            let length = lines(bytes).text.len();
            if random.one_in(4) {
                assert!(case(&mut tally, bytes, totals, length - 1).0.is_err());
            }
            let (answer, more) = case(&mut tally, bytes, totals, length + 5);
            totals = answer.expect("room enough").totals;
            text += &more;
        }
        text += &closing_case(&mut tally, totals, 48);
        assert_eq!(text, sheet(&files));
        let added = |column: usize| -> u64 {
            let lines = text.lines().filter(|line| !line.starts_with(|letter: char| letter.is_ascii_alphabetic()));
            lines.filter_map(|line| line.split(' ').nth(column)?.parse::<u64>().ok()).sum()
        };
        assert_eq!(text.lines().last(), Some(&format!("total {} {}", added(2), added(5))[..]));
    }
    tally.ran(2_380, &[0, 6]);
}
