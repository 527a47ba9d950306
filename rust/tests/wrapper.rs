//! What the wrapper adds to the library: grounds, kinds and types for numbers, and words for a refusal.

use ploegelster::{
    ChannelRefusal, Ground, Kind, Meter, Noise, Quieter, Record, Refusal, Salvage, Sheet, Totals, Wide, CHANNELS, LARGEST_TOTAL, SHEET_ROOM,
};
use std::error::Error;

#[test]
fn every_number_has_its_ground_and_no_other_has_one() {
    for number in 1..=9 {
        assert_eq!(Ground::from_number(number).map(Ground::number), Some(number));
    }
    for number in [0, 10, 11, 255, 257, 1 << 32 | 1, u64::MAX] {
        assert_eq!(Ground::from_number(number), None);
    }
}

#[test]
fn every_alpha_has_its_type_and_no_other_has_one() {
    for alpha in -2..=2 {
        assert_eq!(Noise::from_alpha(alpha).map(Noise::alpha), Some(alpha));
    }
    for alpha in [-3, 3, 254, 256, 1 << 32, i64::MIN, i64::MAX] {
        assert_eq!(Noise::from_alpha(alpha), None);
    }
}

#[test]
fn every_kind_has_its_number_and_no_other_has_one() {
    assert_eq!([0, 1, 2, 256, 1 << 32, u64::MAX].map(Kind::from_number), [Some(Kind::Phase), Some(Kind::Frequency), None, None, None, None]);
}

#[test]
fn each_of_two_records_has_its_number_and_no_other_number_is_one() {
    for number in [1, 2] {
        assert_eq!(Quieter::from_number(number).map(Quieter::number), Some(number));
    }
    assert_eq!([0, 3, 257, 1 << 32 | 1, u64::MAX].map(Quieter::from_number), [None; 5]);
}

#[test]
fn a_refusal_in_words() {
    let refusal = Refusal { ground: Ground::OutOfRange, place: 7 };
    assert_eq!(refusal.to_string(), "refused 3, a value outside its range, at 7");
    assert_eq!(refusal.ground.to_string(), "a value outside its range");
    let error: Box<dyn Error> = refusal.into();
    assert_eq!(error.to_string(), refusal.to_string());
}

#[test]
fn a_reading_that_is_not_a_number_in_words() {
    let mut samples = [7; 3];
    let refusal = ploegelster::float_sums(&[0.5, f64::NAN, 0.0], 1, &mut samples).unwrap_err();
    assert_eq!(refusal, Refusal { ground: Ground::NotANumber, place: 1 });
    assert_eq!(refusal.to_string(), "refused 4, a reading that is not a number, at 1");
    assert_eq!(samples, [7; 3]);
}

#[test]
fn a_start_that_phase_samples_do_not_have_in_words() {
    let mut bytes = [7; 24];
    let refusal = ploegelster::write_record(Kind::Phase, 5, &[1], &mut bytes).unwrap_err();
    assert_eq!(refusal, Refusal { ground: Ground::BadFile, place: 8 });
    assert_eq!(refusal.to_string(), "refused 9, bad bytes or a bad length in a file, at 8");
    assert_eq!(bytes, [7; 24]);
}

#[test]
fn what_was_salvaged_and_what_was_left_over() -> Result<(), Refusal> {
    let mut bytes = [0; 40];
    ploegelster::write_record(Kind::Frequency, 5, &[1, -1, 4], &mut bytes)?;
    let mut buffer = [7; 41];
    assert_eq!(ploegelster::salvage(&bytes, &mut buffer)?, Salvage { old_count: 3, new_count: 3, left_over: 0, met: false });
    assert_eq!((&buffer[..40], buffer[40]), (&bytes[..], 7));
    // A bit of the second value flips, and the third loses its last byte.
    bytes[30] ^= 1;
    buffer.fill(7);
    assert_eq!(ploegelster::salvage(&bytes[..39], &mut buffer)?, Salvage { old_count: 3, new_count: 1, left_over: 15, met: true });
    let mut values = [0; 1];
    assert_eq!(ploegelster::read_record(&buffer[..24], &mut values)?, Record { version: 2, kind: Kind::Frequency, start: 5, count: 1 });
    assert_eq!((values, &buffer[24..]), ([1], &[7; 17][..]));
    Ok(())
}

#[test]
fn what_cannot_be_salvaged_in_words() {
    let mut bytes = [0; 24];
    ploegelster::write_record(Kind::Frequency, 5, &[1], &mut bytes).unwrap();
    let mut buffer = [7; 24];
    let refusal = ploegelster::salvage(&bytes, &mut buffer[..23]).unwrap_err();
    assert_eq!(refusal, Refusal { ground: Ground::NoRoom, place: 0 });
    assert_eq!(refusal.to_string(), "refused 6, a lent buffer or ring that is too short, at 0");
    bytes[5] = 0;
    let refusal = ploegelster::salvage(&bytes, &mut buffer).unwrap_err();
    assert_eq!(refusal.to_string(), "refused 9, bad bytes or a bad length in a file, at 8");
    assert_eq!(buffer, [7; 24]);
}

#[test]
fn a_sheet_goes_on_with_its_totals() -> Result<(), Refusal> {
    let mut file = [0; 32];
    ploegelster::write_file(Kind::Phase, &[0, 1, 0], &mut file)?;
    let mut text = [7; SHEET_ROOM];
    let one = ploegelster::sheet_record(&file, Totals::NOUGHTS, &mut text)?;
    assert_eq!((&text[..one.length], text[one.length]), (&b"1 2/1 1 1482910 2/3 1 856158 -\n"[..], 7));
    assert_eq!(one.totals, Totals { k: 1, c: 1 });
    // A record that is refused as a whole is no refusal of the call.
    assert_eq!(ploegelster::sheet_record(&file[..31], one.totals, &mut text)?, Sheet { length: 16, totals: one.totals });
    assert_eq!(&text[..16], b"refused 9 at 31\n");
    let three = ploegelster::sheet_record(&file, one.totals, &mut text)?;
    assert_eq!(ploegelster::sheet_total(three.totals, &mut text)?, 10);
    assert_eq!(&text[..10], b"total 2 2\n");
    Ok(())
}

#[test]
fn what_a_sheet_is_refused_for_in_words() {
    let mut text = [7; 14];
    for totals in [Totals { k: LARGEST_TOTAL + 1, c: 0 }, Totals { k: 0, c: u64::MAX }] {
        let refusal = ploegelster::sheet_record(&[], totals, &mut text).unwrap_err();
        assert_eq!(refusal, Refusal { ground: Ground::TooMany, place: 0 });
    }
    let refusal = ploegelster::sheet_record(&[], Totals { k: LARGEST_TOTAL, c: LARGEST_TOTAL }, &mut text).unwrap_err();
    assert_eq!(refusal.to_string(), "refused 6, a lent buffer or ring that is too short, at 0");
    assert_eq!(ploegelster::sheet_total(Totals { k: 10, c: 1_000_000 }, &mut text).unwrap_err(), Refusal { ground: Ground::NoRoom, place: 0 });
    assert_eq!(text, [7; 14]);
}

#[test]
fn lengths_of_files_stop_at_the_largest_number() {
    for count in [usize::MAX, usize::MAX / 8, usize::MAX / 8 + 1] {
        assert_eq!((ploegelster::file_length(count), ploegelster::record_length(count)), (usize::MAX, usize::MAX));
    }
    let most = usize::MAX / 8 - 2;
    assert_eq!((ploegelster::file_length(most), ploegelster::record_length(most)), (usize::MAX - 15, usize::MAX - 7));
}

#[test]
fn halves() {
    const MOST: u64 = u64::MAX;
    let wholes = [(0, 0, 0), (1, 0, 1), (MOST as u128, 0, MOST), (1 << 64, 1, 0), (5 << 64 | 7, 5, 7), (u128::MAX - 1, MOST, MOST - 1)];
    for (whole, high, low) in wholes {
        assert_eq!(Wide::from(whole), Wide { high, low });
        assert_eq!(u128::from(Wide { high, low }), whole);
    }
}

#[test]
fn a_meter_outlives_a_refusal() -> Result<(), Refusal> {
    let mut ring = [0; 3];
    let mut meter = ploegelster::meter_start(Meter::NOUGHTS, 1, &ring)?;
    for x in [0, 1, 4, 1 << 41, 9] {
        meter = ploegelster::meter_sample(meter, &mut ring, x).unwrap_or(meter);
    }
    assert_eq!((meter.n, ring), (4, [9, 1, 4]));
    let sum = ploegelster::meter_report(meter)?.allan.expect("four samples at factor 1");
    assert_eq!(sum, ploegelster::allan_sum(&[0, 1, 4, 9], 1)?);
    Ok(())
}

#[test]
fn a_meter_goes_on_after_a_gap() -> Result<(), Refusal> {
    let mut ring = [0; 3];
    let mut meter = ploegelster::meter_start(Meter::NOUGHTS, 1, &ring)?;
    // A gap before the first sample changes nothing.
    assert_eq!(ploegelster::meter_gap(meter)?, meter);
    for x in [0, 1, 4, 9] {
        meter = ploegelster::meter_sample(meter, &mut ring, x)?;
    }
    meter = ploegelster::meter_gap(meter)?;
    assert_eq!((meter.m, meter.n, meter.stretch, meter.k, meter.c, meter.window, ring), (1, 4, 0, 2, 2, 0, [9, 1, 4]));
    assert_eq!(ploegelster::meter_gap(meter)?, meter);
    for x in [7, 0, 3] {
        meter = ploegelster::meter_sample(meter, &mut ring, x)?;
    }
    assert_eq!((meter.m, meter.n, meter.stretch, meter.k, meter.c, meter.window, ring), (1, 7, 3, 3, 3, 10, [7, 0, 3]));
    let (first, second) = (ploegelster::allan_sum(&[0, 1, 4, 9], 1)?, ploegelster::allan_sum(&[7, 0, 3], 1)?);
    let sum = ploegelster::meter_report(meter)?.allan.expect("two stretches at factor 1");
    assert_eq!((sum.total, sum.count), (first.total + second.total, first.count + second.count));
    Ok(())
}

#[test]
fn a_gap_before_any_start_in_words() {
    let refusal = ploegelster::meter_gap(Meter::NOUGHTS).unwrap_err();
    assert_eq!(refusal, Refusal { ground: Ground::BadMeter, place: 0 });
    assert_eq!(refusal.to_string(), "refused 7, a meter that does not hold together, at 0");
}

#[test]
fn the_quieter_record_is_the_one_that_was_handed_in() -> Result<(), Refusal> {
    // The variances are 3/5 and 5/4, though the sums are 6 and 5.
    let (first, second) = (vec![0, 0, 0, 1, 0, 0, 0], vec![0, 0, 1, 0]);
    for (one, two, which) in [(&first, &second, Quieter::First), (&second, &first, Quieter::Second)] {
        assert_eq!(ploegelster::quieter(one, two, 1)?, which);
        let record = ploegelster::quieter_record(one, two, 1)?;
        assert_eq!((record.as_ptr(), record.len()), (first.as_ptr(), 7));
    }
    // Equal in all but their memory: the first.
    let copy = first.clone();
    assert_eq!(ploegelster::quieter_record(&copy, &first, 1)?.as_ptr(), copy.as_ptr());
    assert_eq!(ploegelster::quieter_record(&first, &copy, 1)?.as_ptr(), first.as_ptr());
    Ok(())
}

#[test]
fn what_two_records_are_refused_for_in_words() {
    let (sound, bad) = ([0, 1, 0], [0, 0, 0, 0, 1 << 41]);
    for refusal in [ploegelster::quieter(&sound, &bad, 1).unwrap_err(), ploegelster::quieter_record(&bad, &sound, 1).unwrap_err()] {
        assert_eq!(refusal, Refusal { ground: Ground::OutOfRange, place: 4 });
        assert_eq!(refusal.to_string(), "refused 3, a value outside its range, at 4");
    }
}

#[test]
fn channels_take_turns() -> Result<(), ChannelRefusal> {
    let mut ring = [0; CHANNELS * 3];
    let mut meters = [Meter::NOUGHTS; CHANNELS];
    for (channel, meter) in meters.iter_mut().enumerate() {
        *meter = ploegelster::channel_start(*meter, channel as u64, 1, &ring)?;
    }
    for x in [0, 1, 4, 9] {
        for (channel, meter) in meters.iter_mut().enumerate() {
            *meter = ploegelster::channel_sample(*meter, channel as u64, &mut ring, x * channel as i64)?;
        }
    }
    meters[3] = ploegelster::channel_gap(meters[3], 3)?;
    for (channel, &meter) in meters.iter().enumerate() {
        let c = channel as i64;
        assert_eq!((meter.n, meter.stretch), (4, if c == 3 { 0 } else { 4 }));
        assert_eq!(ring[3 * channel..3 * channel + 3], [9 * c, c, 4 * c]);
        let sum = ploegelster::channel_report(meter, channel as u64)?.allan.expect("four samples at factor 1");
        assert_eq!(sum, ploegelster::allan_sum(&[0, c, 4 * c, 9 * c], 1)?);
    }
    Ok(())
}

#[test]
fn a_channel_above_15_in_words() {
    let mut ring = [7; 48];
    let meter = ploegelster::channel_start(Meter::NOUGHTS, 15, 1, &ring).expect("a share of three is enough at factor 1");
    let refusals = [
        ploegelster::channel_start(meter, 16, 0, &ring).unwrap_err(),
        ploegelster::channel_sample(meter, 16, &mut ring, 1 << 41).unwrap_err(),
        ploegelster::channel_gap(Meter::NOUGHTS, 1 << 32).unwrap_err(),
        ploegelster::channel_report(Meter::NOUGHTS, u64::MAX).unwrap_err(),
    ];
    for refusal in refusals {
        assert_eq!((refusal, refusal.number(), refusal.place()), (ChannelRefusal::BadChannel, 11, 0));
        assert_eq!(refusal.to_string(), "refused 11, a channel above 15, at 0");
    }
    assert_eq!(ring, [7; 48]);
}
