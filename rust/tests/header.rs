//! The declarations that the other tests call through are those of include/ploegelster.h, struct by struct and function by function, and its version,
//! its numbers and its words are this crate's.

use ploegelster::{boundary, refusal_text, Ground, Kind, Noise, Quieter};
use std::collections::{BTreeMap, BTreeSet};

const HEADER: &str = include_str!("../../include/ploegelster.h");
const BOUNDARY: &str = include_str!("../src/boundary.rs");

/// The text without what stands from each start to its end.
fn without(text: &str, starts: &str, ends: &str) -> String {
    let mut rest = text;
    let mut kept = String::new();
    while let Some(start) = rest.find(starts) {
        kept += &rest[..start];
        let after = &rest[start + starts.len()..];
        rest = &after[after.find(ends).unwrap() + ends.len()..];
        kept.push('\n');
    }
    kept + rest
}

fn single_spaced(text: &str) -> String {
    text.split_whitespace().collect::<Vec<_>>().join(" ")
}

/// The header without comments.
fn header() -> String {
    without(HEADER, "/*", "*/")
}

/// Where the first brace of a text opens, and where its block ends.
fn block(text: &str) -> std::ops::Range<usize> {
    let start = text.find('{').expect("a brace opens");
    let mut depth = 0;
    for (index, letter) in text.char_indices().skip_while(|&(index, _)| index < start) {
        match letter {
            '{' => depth += 1,
            '}' => depth -= 1,
            _ => {}
        }
        if depth == 0 {
            return start..index + 1;
        }
    }
    panic!("the brace is closed");
}

/// The header's declarations: no comments, no lines of the preprocessor, and no functions that have a body.
fn declarations() -> String {
    let text = header();
    let lines = text.lines().filter(|line| !line.trim_start().starts_with('#'));
    let mut text = single_spaced(&lines.collect::<Vec<_>>().join("\n"));
    while let Some(start) = text.find("static inline ") {
        let end = start + block(&text[start..]).end;
        text.replace_range(start..end, "");
    }
    text
}

/// A C type in Rust's words: `const int64_t *` is `*const i64`, `plg_sum_answer` is `SumAnswer`.
fn rust_type(c: &str) -> String {
    let name = c.trim().trim_start_matches("const ").trim_end_matches('*').trim();
    let plain = match name {
        "uint8_t" => "u8".to_string(),
        "uint64_t" => "u64".to_string(),
        "int64_t" => "i64".to_string(),
        "size_t" => "usize".to_string(),
        "double" => "f64".to_string(),
        _ => {
            let words = name.strip_prefix("plg_").expect("a type of the header").split('_');
            words.map(|word| word[..1].to_uppercase() + &word[1..]).collect()
        }
    };
    match (c.contains('*'), c.trim().starts_with("const ")) {
        (false, _) => plain,
        (true, true) => format!("*const {plain}"),
        (true, false) => format!("*mut {plain}"),
    }
}

/// A C declaration of one name, as `name: type`.
fn rust_field(c: &str) -> String {
    let name = c.trim().rsplit([' ', '*']).next().unwrap();
    format!("{name}: {}", rust_type(c.trim().strip_suffix(name).unwrap()))
}

/// The structs and functions of the header, in Rust's words.
fn of_header() -> BTreeSet<String> {
    let text = declarations();
    let mut all = BTreeSet::new();
    for piece in text.split("typedef struct {").skip(1) {
        let (fields, rest) = piece.split_once('}').unwrap();
        let mut list = Vec::new();
        for line in fields.split(';').filter(|line| !line.trim().is_empty()) {
            // `uint64_t number, place` declares two of one type.
            let (first, others) = line.split_once(',').unwrap_or((line, ""));
            let kind = first.trim().rsplit_once(' ').unwrap().0;
            list.push(rust_field(first));
            list.extend(others.split(',').filter(|name| !name.is_empty()).map(|name| rust_field(&format!("{kind} {}", name.trim()))));
        }
        all.insert(format!("struct {} {{ {} }}", rust_type(rest.split_once(';').unwrap().0), list.join(", ")));
    }
    for line in text.split(';').filter(|line| line.contains('(') && line.trim_end().ends_with(')')) {
        let (front, parameters) = line.rsplit_once('(').unwrap();
        let mut words = front.rsplit(' ');
        let (name, answer) = (words.next().unwrap(), words.next().unwrap());
        let parameters: Vec<String> = parameters.trim_end_matches(')').split(',').map(rust_field).collect();
        all.insert(format!("fn {name}({}) -> {}", parameters.join(", "), rust_type(answer)));
    }
    all
}

/// The same of boundary.rs, as they stand there.
fn of_boundary() -> BTreeSet<String> {
    let text = single_spaced(&without(BOUNDARY, "//", "\n")).replace("pub ", "");
    let mut all = BTreeSet::new();
    let pieces: Vec<&str> = text.split("struct ").collect();
    for (before, piece) in pieces.iter().zip(&pieces[1..]) {
        let body = &piece[..=piece.find('}').unwrap()];
        let derived = before.trim_end().rfind("#[derive(").expect("a struct is derived");
        assert!(before[..derived].trim_end().ends_with("#[repr(C)]"), "laid out as C does: {body}");
        all.insert(format!("struct {}", body.replace(", }", " }")));
    }
    for piece in text.split("fn ").skip(1) {
        all.insert(format!("fn {}", piece.split_once(';').unwrap().0));
    }
    all
}

/// The words of a text that begin so.
fn words(text: &str, prefix: &str) -> BTreeSet<String> {
    let words = text.split(|letter: char| !letter.is_alphanumeric() && letter != '_');
    words.filter(|word| word.starts_with(prefix)).map(str::to_string).collect()
}

#[test]
fn same_declarations() {
    let (header, boundary) = (of_header(), of_boundary());
    assert_eq!(header, boundary);
    // Every name that the header declares was found, and is a struct or a function.
    let declared: BTreeSet<String> = header.iter().map(|line| line.split(['(', '{']).next().unwrap().trim().to_string()).collect();
    let names = words(&declarations(), "plg_");
    assert!(!names.is_empty());
    assert_eq!(names.len(), declared.len());
    for name in names {
        let (function, kind) = (format!("fn {name}"), format!("struct {}", rust_type(&name)));
        assert!(declared.contains(&function) || declared.contains(&kind), "{name}");
    }
}

/// The answer of a bar row is number, place and three doubles, with no room for anything else, and the header needs no type of true and false.
#[test]
fn a_bar_row_is_three_doubles() {
    let declared = of_header();
    for line in ["struct Bar { low: f64, mid: f64, high: f64 }", "struct BarsAnswer { number: u64, place: u64, bar: Bar }"] {
        assert!(declared.contains(line), "{line}");
    }
    assert_eq!(std::mem::size_of::<boundary::BarsAnswer>(), 5 * 8);
    // In no spelling: neither bool nor _Bool nor stdbool.h.
    assert!(!HEADER.to_lowercase().contains("bool"));
}

/// The answer of float readings is both sums and, at its end, how many readings were changed; the meter's report has no such count.
#[test]
fn a_count_ends_the_sums_of_float_readings() {
    let declared = of_header();
    for line in [
        "struct SumsAnswer { number: u64, place: u64, allan: Part, modified: Part }",
        "struct FloatSumsAnswer { number: u64, place: u64, allan: Part, modified: Part, changed: u64 }",
        "fn plg_float_sums(readings: *const f64, readings_length: usize, m: u64, buffer: *mut i64, buffer_length: usize) -> FloatSumsAnswer",
        "fn plg_meter_report(meter: Meter) -> SumsAnswer",
    ] {
        assert!(declared.contains(line), "{line}");
    }
    assert_eq!(std::mem::size_of::<boundary::SumsAnswer>(), 10 * 8);
    assert_eq!(std::mem::size_of::<boundary::FloatSumsAnswer>(), 11 * 8);
    assert_eq!(std::mem::offset_of!(boundary::FloatSumsAnswer, changed), 10 * 8);
}

/// The answer of a reader of either version is six words; that of the reader of version 1 alone has stayed at four.
#[test]
fn a_record_has_its_version_and_its_start() {
    let declared = of_header();
    for line in [
        "struct ReadAnswer { number: u64, place: u64, kind: u64, count: u64 }",
        "struct RecordAnswer { number: u64, place: u64, version: u64, kind: u64, start: i64, count: u64 }",
        "fn plg_read_file(bytes: *const u8, bytes_length: usize, buffer: *mut i64, buffer_length: usize) -> ReadAnswer",
        "fn plg_write_file(kind: u64, values: *const i64, values_length: usize, buffer: *mut u8, buffer_length: usize) -> CountAnswer",
        "fn plg_read_record(bytes: *const u8, bytes_length: usize, buffer: *mut i64, buffer_length: usize) -> RecordAnswer",
        "fn plg_write_record(kind: u64, start: i64, values: *const i64, values_length: usize, buffer: *mut u8, buffer_length: usize) -> CountAnswer",
        "fn plg_phase_from_start(start: i64, readings: *const i64, readings_length: usize, buffer: *mut i64, buffer_length: usize) -> CountAnswer",
    ] {
        assert!(declared.contains(line), "{line}");
    }
    assert_eq!(std::mem::size_of::<boundary::ReadAnswer>(), 4 * 8);
    assert_eq!(std::mem::size_of::<boundary::RecordAnswer>(), 6 * 8);
    assert_eq!(std::mem::align_of::<boundary::RecordAnswer>(), 8);
    let offsets = [
        std::mem::offset_of!(boundary::RecordAnswer, number),
        std::mem::offset_of!(boundary::RecordAnswer, place),
        std::mem::offset_of!(boundary::RecordAnswer, version),
        std::mem::offset_of!(boundary::RecordAnswer, kind),
        std::mem::offset_of!(boundary::RecordAnswer, start),
        std::mem::offset_of!(boundary::RecordAnswer, count),
    ];
    assert_eq!(offsets, [0, 8, 16, 24, 32, 40]);
}

/// The answer of a salvage is six words, of which the last is 0 or 1 and no type of true and false.
#[test]
fn a_salvage_has_both_counts_and_what_is_left_over() {
    let declared = of_header();
    for line in [
        "struct SalvageAnswer { number: u64, place: u64, old_count: u64, new_count: u64, left_over: u64, met: u64 }",
        "fn plg_salvage(bytes: *const u8, bytes_length: usize, buffer: *mut u8, buffer_length: usize) -> SalvageAnswer",
    ] {
        assert!(declared.contains(line), "{line}");
    }
    assert_eq!(std::mem::size_of::<boundary::SalvageAnswer>(), 6 * 8);
    assert_eq!(std::mem::align_of::<boundary::SalvageAnswer>(), 8);
    let offsets = [
        std::mem::offset_of!(boundary::SalvageAnswer, number),
        std::mem::offset_of!(boundary::SalvageAnswer, place),
        std::mem::offset_of!(boundary::SalvageAnswer, old_count),
        std::mem::offset_of!(boundary::SalvageAnswer, new_count),
        std::mem::offset_of!(boundary::SalvageAnswer, left_over),
        std::mem::offset_of!(boundary::SalvageAnswer, met),
    ];
    assert_eq!(offsets, [0, 8, 16, 24, 32, 40]);
}

/// The answer of a record's lines on a sheet is five words, of which the last two are the totals, as they are handed in.
#[test]
fn a_sheet_has_its_length_and_its_totals() {
    let declared = of_header();
    for line in [
        "struct Totals { k: u64, c: u64 }",
        "struct SheetAnswer { number: u64, place: u64, length: u64, totals: Totals }",
        "fn plg_sheet_record(bytes: *const u8, bytes_length: usize, totals: Totals, text: *mut u8, text_length: usize) -> SheetAnswer",
        "fn plg_sheet_total(totals: Totals, text: *mut u8, text_length: usize) -> CountAnswer",
    ] {
        assert!(declared.contains(line), "{line}");
    }
    assert_eq!(std::mem::size_of::<boundary::Totals>(), 2 * 8);
    assert_eq!(std::mem::size_of::<boundary::SheetAnswer>(), 5 * 8);
    assert_eq!(std::mem::align_of::<boundary::SheetAnswer>(), 8);
    let offsets = [
        std::mem::offset_of!(boundary::SheetAnswer, number),
        std::mem::offset_of!(boundary::SheetAnswer, place),
        std::mem::offset_of!(boundary::SheetAnswer, length),
        std::mem::offset_of!(boundary::SheetAnswer, totals),
    ];
    assert_eq!(offsets, [0, 8, 16, 24]);
    assert_eq!([std::mem::offset_of!(boundary::Totals, k), std::mem::offset_of!(boundary::Totals, c)], [0, 8]);
}

/// A meter is ten words: the factor, four counts, both sums and the window. A gap is told to the meter alone, with no ring.
#[test]
fn a_meter_has_its_stretch_and_its_term_counts() {
    let declared = of_header();
    for line in [
        "struct Meter { m: u64, n: u64, stretch: u64, k: u64, c: u64, a: Wide, b: Wide, window: i64 }",
        "struct MeterAnswer { number: u64, place: u64, meter: Meter }",
        "fn plg_meter_start(old: Meter, m: u64, ring: *const i64, ring_length: usize) -> MeterAnswer",
        "fn plg_meter_sample(meter: Meter, ring: *mut i64, ring_length: usize, x: i64) -> MeterAnswer",
        "fn plg_meter_gap(meter: Meter) -> MeterAnswer",
    ] {
        assert!(declared.contains(line), "{line}");
    }
    assert_eq!(std::mem::size_of::<boundary::Meter>(), 10 * 8);
    assert_eq!(std::mem::size_of::<boundary::MeterAnswer>(), 12 * 8);
    assert_eq!(std::mem::align_of::<boundary::MeterAnswer>(), 8);
    let offsets = [
        std::mem::offset_of!(boundary::Meter, m),
        std::mem::offset_of!(boundary::Meter, n),
        std::mem::offset_of!(boundary::Meter, stretch),
        std::mem::offset_of!(boundary::Meter, k),
        std::mem::offset_of!(boundary::Meter, c),
        std::mem::offset_of!(boundary::Meter, a),
        std::mem::offset_of!(boundary::Meter, b),
        std::mem::offset_of!(boundary::Meter, window),
    ];
    assert_eq!(offsets, [0, 8, 16, 24, 32, 40, 56, 72]);
    assert_eq!(std::mem::offset_of!(boundary::MeterAnswer, meter), 16);
}

/// The answer of a comparison is three words, the last 0, 1 or 2; both records are only read.
#[test]
fn a_comparison_says_which() {
    let declared = of_header();
    for line in [
        "struct QuieterAnswer { number: u64, place: u64, which: u64 }",
        "fn plg_quieter(first: *const i64, first_length: usize, second: *const i64, second_length: usize, m: u64) -> QuieterAnswer",
    ] {
        assert!(declared.contains(line), "{line}");
    }
    assert_eq!(std::mem::size_of::<boundary::QuieterAnswer>(), 3 * 8);
    assert_eq!(std::mem::align_of::<boundary::QuieterAnswer>(), 8);
    let offsets = [
        std::mem::offset_of!(boundary::QuieterAnswer, number),
        std::mem::offset_of!(boundary::QuieterAnswer, place),
        std::mem::offset_of!(boundary::QuieterAnswer, which),
    ];
    assert_eq!(offsets, [0, 8, 16]);
}

/// A call on a channel is the meter's call with the channel's number after the meter: the same meter, the same answers, and the whole ring.
#[test]
fn a_channel_call_takes_the_number_after_the_meter() {
    let declared = of_header();
    for line in [
        "fn plg_channel_start(old: Meter, channel: u64, m: u64, ring: *const i64, ring_length: usize) -> MeterAnswer",
        "fn plg_channel_sample(meter: Meter, channel: u64, ring: *mut i64, ring_length: usize, x: i64) -> MeterAnswer",
        "fn plg_channel_gap(meter: Meter, channel: u64) -> MeterAnswer",
        "fn plg_channel_report(meter: Meter, channel: u64) -> SumsAnswer",
    ] {
        assert!(declared.contains(line), "{line}");
    }
    for call in ["start", "sample", "gap", "report"] {
        let of = |kind: &str| declared.iter().filter(|line| line.starts_with(&format!("fn plg_{kind}_{call}("))).cloned().collect::<Vec<_>>();
        let [meter, channel] = [of("meter"), of("channel")];
        assert_eq!((meter.len(), channel.len()), (1, 1), "{call}");
        assert_eq!(channel[0].replacen(", channel: u64", "", 1).replacen("plg_channel", "plg_meter", 1), meter[0]);
    }
}

#[test]
fn a_safe_function_for_each_entry() {
    let sources = [
        include_str!("../src/channels.rs"),
        include_str!("../src/compare.rs"),
        include_str!("../src/file.rs"),
        include_str!("../src/meter.rs"),
        include_str!("../src/plot.rs"),
        include_str!("../src/records.rs"),
        include_str!("../src/sheet.rs"),
        include_str!("../src/sums.rs"),
    ];
    let text = sources.concat();
    let entries: Vec<String> = of_header().iter().filter_map(|line| Some(line.strip_prefix("fn plg_")?.split_once('(')?.0.to_string())).collect();
    assert!(!entries.is_empty());
    for entry in entries {
        assert_eq!(text.matches(&format!("\npub fn {entry}(")).count(), 1, "{entry}");
        assert_eq!(text.matches(&format!("boundary::plg_{entry}(")).count(), 1, "{entry}");
    }
}

/// A C number: digits, a minus before them, or 1 shifted.
fn number(c: &str) -> i128 {
    let plain = c.replace("UINT64_C", "").replace("INT64_C", "").replace(['(', ')'], "");
    match plain.split_once("<<") {
        Some((one, shift)) => one.trim().parse::<i128>().unwrap() << shift.trim().parse::<u32>().unwrap(),
        None => plain.trim().parse().unwrap_or_else(|_| panic!("a number: {c}")),
    }
}

/// The header's macros that are numbers.
fn macros() -> BTreeMap<String, i128> {
    let text = header();
    let defined = text.lines().filter_map(|line| line.trim().strip_prefix("#define PLG_")?.split_once(' '));
    defined.filter(|(name, _)| !name.contains('(')).map(|(name, value)| (name.to_string(), number(value))).collect()
}

#[test]
fn same_numbers() {
    let version: Vec<i128> = env!("CARGO_PKG_VERSION").split('.').map(|part| part.parse().unwrap()).collect();
    let own = [
        ("VERSION_MAJOR", version[0]),
        ("VERSION_MINOR", version[1]),
        ("VERSION_PATCH", version[2]),
        ("MOST_SAMPLES", ploegelster::MOST_SAMPLES as i128),
        ("MOST_READINGS", ploegelster::MOST_READINGS as i128),
        ("LARGEST_FACTOR", ploegelster::LARGEST_FACTOR.into()),
        ("LARGEST_NOISE_FACTOR", ploegelster::LARGEST_NOISE_FACTOR.into()),
        ("SAMPLE_END", ploegelster::SAMPLE_END.into()),
        ("FREQUENCY_END", ploegelster::FREQUENCY_END.into()),
        ("LARGEST_DEVIATION", ploegelster::LARGEST_DEVIATION.into()),
        ("FEWEST_INTERVALS", ploegelster::FEWEST_INTERVALS.into()),
        ("MOST_INTERVALS", ploegelster::MOST_INTERVALS.into()),
        ("MOST_SHEET_SAMPLES", ploegelster::MOST_SHEET_SAMPLES as i128),
        ("MOST_SHEET_READINGS", ploegelster::MOST_SHEET_READINGS as i128),
        ("LARGEST_TOTAL", ploegelster::LARGEST_TOTAL.into()),
        ("SHEET_ROOM", ploegelster::SHEET_ROOM as i128),
        ("CHANNELS", ploegelster::CHANNELS as i128),
        ("UNITS_A_PICOSECOND", ploegelster::UNITS_A_PICOSECOND.into()),
        ("ANSWERED", 0),
        ("TOO_FEW", Ground::TooFew.number().into()),
        ("TOO_MANY", Ground::TooMany.number().into()),
        ("OUT_OF_RANGE", Ground::OutOfRange.number().into()),
        ("NOT_A_NUMBER", Ground::NotANumber.number().into()),
        ("BAD_FACTOR", Ground::BadFactor.number().into()),
        ("NO_ROOM", Ground::NoRoom.number().into()),
        ("BAD_METER", Ground::BadMeter.number().into()),
        ("NO_DEVIATION", Ground::NoDeviation.number().into()),
        ("BAD_FILE", Ground::BadFile.number().into()),
        ("BAD_CHANNEL", ploegelster::BAD_CHANNEL.into()),
        // None is beside a refusal alone, and no value of the wrapper's.
        ("QUIETER_NONE", 0),
        ("QUIETER_FIRST", Quieter::First.number().into()),
        ("QUIETER_SECOND", Quieter::Second.number().into()),
        // What the dots' own numbers mean is compared in plot.rs.
        ("DOT_NOUGHT", 0),
        ("DOT_DRAWN", 1),
        ("DOT_TOO_FEW", 2),
        ("WHITE_PHASE", Noise::WhitePhase.alpha().into()),
        ("FLICKER_PHASE", Noise::FlickerPhase.alpha().into()),
        ("WHITE_FREQUENCY", Noise::WhiteFrequency.alpha().into()),
        ("FLICKER_FREQUENCY", Noise::FlickerFrequency.alpha().into()),
        ("RANDOM_WALK_FREQUENCY", Noise::RandomWalkFrequency.alpha().into()),
        ("KIND_PHASE", Kind::Phase.number().into()),
        ("KIND_FREQUENCY", Kind::Frequency.number().into()),
    ];
    let own: BTreeMap<String, i128> = own.into_iter().map(|(name, value)| (name.to_string(), value)).collect();
    assert_eq!(macros(), own);
    // The macros that take a number are none of these, and there are two.
    let text = header();
    let defined = text.lines().filter_map(|line| line.trim().strip_prefix("#define ")?.split_once(' '));
    let taking: Vec<(&str, &str)> = defined.filter(|(name, _)| name.contains('(')).collect();
    assert_eq!(taking, [("PLG_FILE_LENGTH(count)", "(8 + 8 * (size_t)(count))"), ("PLG_RECORD_LENGTH(count)", "(16 + 8 * (size_t)(count))")]);
    assert_eq!([0, 1, 32_768].map(ploegelster::file_length), [8, 16, 262_152]);
    assert_eq!([0, 1, 32_767, 32_768].map(ploegelster::record_length), [16, 24, 262_152, 262_160]);
}

#[test]
fn same_words() {
    let text = header();
    let function = &text[text.find("plg_refusal_text(").expect("the words")..];
    let body = &function[block(function)];
    let macros = macros();
    let (mut numbers, mut others) = (BTreeSet::new(), 0);
    for line in body.lines().filter(|line| line.contains("return")) {
        let (case, words) = line.split_once(':').unwrap();
        let words = words.split('"').nth(1).unwrap();
        match case.trim().strip_prefix("case PLG_") {
            Some(name) => {
                let number = macros[name] as u64;
                assert_eq!(refusal_text(number), words);
                assert!(numbers.insert(number));
            }
            None => {
                assert_eq!(case.trim(), "default");
                for other in [10, 11, 255, 256, 1 << 32, u64::MAX] {
                    assert_eq!(refusal_text(other), words);
                }
                others += 1;
            }
        }
    }
    assert_eq!(numbers, BTreeSet::from_iter(0..10));
    assert_eq!(others, 1);
}
