//! PSNR in hundredths of a decibel: its numbers, identical planes told apart, and each refusal on both sides of its limit.

use fuavelino::*;

const RECORD: Record = Record { sq_err: 25.0, n_pixels: 3, sample_max: 255, frame: 7, plane: 1 };
/// The most samples of a series: of as many records as it takes.
const MOST_TOTAL: u64 = 65_536 * MOST_SAMPLES;
const TWO_TO_53: f64 = 9_007_199_254_740_992.0;
/// What the lent places hold before a call.
const BEFORE: (u32, u8) = (0xDEAD_BEEF, 0xA7);

fn total(sq_err: f64, n_pixels: u64, sample_max: u32) -> PsnrMetrics {
    PsnrMetrics { sq_err, n_pixels, sample_max }
}

fn record(sq_err: f64, n_pixels: u64, sample_max: u32) -> Record {
    Record { sq_err, n_pixels, sample_max, frame: 7, plane: 1 }
}

/// The records as those of one plane, frame after frame, so that they rise.
fn numbered(records: &[Record]) -> Vec<Record> {
    (7..).zip(records).map(|(frame, record)| Record { frame, ..*record }).collect()
}

/// The lent places after a call, and what it said.
fn of_total(total: PsnrMetrics) -> (Result<(), Refusal>, (u32, u8)) {
    let (mut hundredths, mut identical) = BEFORE;
    let said = no_alloc::total_decibels(total, &mut hundredths, &mut identical);
    (said, (hundredths, identical))
}

fn of_run(records: &[Record]) -> (Result<(), Refusal>, (u32, u8)) {
    let (mut hundredths, mut identical) = BEFORE;
    let said = no_alloc::decibels(records, &mut hundredths, &mut identical);
    (said, (hundredths, identical))
}

/// Refused by the safe function as by that with every place lent, which leaves them.
fn refused_total(total: PsnrMetrics) {
    assert_eq!(of_total(total), (Err(Refusal::Record), BEFORE), "{:?}", total);
    assert_eq!(total.hundredths(), Err(Refusal::Record), "{:?}", total);
}

/// Whatever their numbers are: they are made to rise, so that it is not for them.
fn refused_run(records: &[Record], refusal: Refusal) {
    let records = numbered(records);
    assert_eq!(of_run(&records), (Err(refusal), BEFORE), "{} records, {:?}", records.len(), records.first());
    assert_eq!(decibels(&records), Err(refusal));
}

fn told_total(total: PsnrMetrics, hundredths: u32) {
    assert_eq!(of_total(total), (Ok(()), (hundredths, 0)), "{:?}", total);
    assert_eq!(total.hundredths(), Ok(Decibels::Hundredths(hundredths)), "{:?}", total);
}

fn told_run(records: &[Record], hundredths: u32) {
    let records = numbered(records);
    assert_eq!(of_run(&records), (Ok(()), (hundredths, 0)), "{} records, {:?}", records.len(), records.first());
    assert_eq!(decibels(&records), Ok(Decibels::Hundredths(hundredths)));
}

/// The numbers of the rule.
#[test]
fn numbers() {
    for (sq_err, n_pixels, sample_max, hundredths) in [
        (25.0, 3, 255, 3_892),
        (3.0 * 65_025.0, 3, 255, 0),
        (1.0, 10, 1, 1_000),
        (10.0, 99, 1, 995),
        (1.0, 8_192 * 8_192, 255, 12_639),
        (1.0, MOST_SAMPLES, 255, 13_241),
    ] {
        let record = record(sq_err, n_pixels, sample_max);
        told_total(record.metrics(), hundredths);
        told_run(&[record], hundredths);
        assert_eq!(record.hundredths(), Ok(Decibels::Hundredths(hundredths)));
    }
    // no single plane has so many samples
    told_total(total(1.0, 9_999_999_999, 1), 9_999);
    told_total(total(1.0, MOST_TOTAL, 4_095), 20_469);
    told_total(total(1e9, 1_002_305_238, 1), 1);
    told_total(total(1e9, 1_002_305_237, 1), 0);
}

#[test]
fn a_run_is_its_total() {
    let other = record(7.0, 1_000, 255);
    let run = numbered(&[RECORD, other, record(0.0, 12, 255)]);
    assert_eq!(series(&run), Ok(total(32.0, 1_015, 255)));
    assert_eq!(decibels(&run), series(&run).unwrap().hundredths());
    told_run(&run, 6_314);
    let lone = record(1.0, 100_000, 255);
    assert_eq!([decibels(&run[1..2]), decibels(&[lone, other][1..])], [other.hundredths(), other.hundredths()]);
}

/// 10,000 is told of both, and only the error of 0 is identical.
#[test]
fn identical_is_told_apart() {
    let same = record(0.0, 3, 255);
    assert_eq!(of_total(same.metrics()), (Ok(()), (10_000, 1)));
    assert_eq!(of_run(&numbered(&[same; 5])), (Ok(()), (10_000, 1)));
    assert_eq!((same.hundredths(), decibels(&[same])), (Ok(Decibels::Identical), Ok(Decibels::Identical)));
    let close = record(1.0, 154_000, 255);
    told_run(&[close], 10_000);
    told_total(close.metrics(), 10_000);
    told_total(total(1.0, 10_000_000_000, 1), 10_000);
    let (close, same) = (close.hundredths().unwrap(), same.hundredths().unwrap());
    assert_eq!((close.hundredths(), same.hundredths()), (10_000, 10_000));
    assert_ne!(close, same);
}

#[test]
fn identical_is_above_every_number() {
    let mut list = [
        Decibels::Identical,
        Decibels::Hundredths(u32::MAX),
        Decibels::Hundredths(0),
        Decibels::Hundredths(10_000),
        Decibels::Hundredths(9_999),
    ];
    list.sort_unstable();
    let told = list.map(|told| told.hundredths());
    assert_eq!((told, list[4]), ([0, 9_999, 10_000, u32::MAX, 10_000], Decibels::Identical));
    assert!(list.windows(2).all(|two| two[0] < two[1]));
}

#[test]
fn shown_to_the_hundredth() {
    for (hundredths, text) in
        [(0, "0.00"), (7, "0.07"), (99, "0.99"), (100, "1.00"), (3_892, "38.92"), (20_469, "204.69")]
    {
        assert_eq!(Decibels::Hundredths(hundredths).to_string(), text);
    }
    assert_eq!(Decibels::Hundredths(u32::MAX).to_string(), "42949672.95");
    assert_eq!(Decibels::Identical.to_string(), "identical");
    assert_eq!(format!("{:>7}|{:<10}|", Decibels::Hundredths(995), Decibels::Identical), "   9.95|identical |");
}

/// Totals with one number at its limit, and one past it.
#[test]
fn totals_at_the_limits() {
    refused_total(total(0.0, 0, 255));
    refused_total(total(1.0, 0, 255));
    told_total(total(1.0, 1, 1), 0);
    told_total(total(1.0, MOST_SAMPLES + 1, 255), 13_241);
    told_total(total(1.0, MOST_TOTAL, 255), 18_058);
    for n_pixels in [MOST_TOTAL + 1, 1 << 45, u64::MAX] {
        refused_total(total(1.0, n_pixels, 255));
        refused_total(total(0.0, n_pixels, 255));
    }
    for depth in 1..=12 {
        let max = (1 << depth) - 1;
        told_total(total(f64::from(max) * f64::from(max), 1, max), 0);
        refused_total(total(f64::from(max) * f64::from(max) + 1.0, 1, max));
    }
    for sample_max in [0, 2, 254, 256, 4_094, 4_096, 8_191, u32::MAX] {
        refused_total(total(1.0, 3, sample_max));
        refused_total(total(0.0, 3, sample_max));
    }
    told_total(total(TWO_TO_53 - 1.0, MOST_TOTAL, 4_095), 4_515);
    told_total(total(TWO_TO_53, MOST_TOTAL, 4_095), 4_515);
    for sq_err in [TWO_TO_53 + 2.0, -0.0, 0.5, 24.5, -1.0, f64::NAN, f64::INFINITY, f64::NEG_INFINITY, f64::MAX, 5e-324]
    {
        refused_total(total(sq_err, MOST_TOTAL, 4_095));
    }
}

/// Runs likewise: what is bad of a record is bad wherever it stands, and a total can be too large.
#[test]
fn runs_at_the_limits() {
    let many = vec![RECORD; 65_537];
    refused_run(&many, Refusal::Record);
    told_run(&many[1..], 3_892);
    refused_run(&[], Refusal::Record);
    told_run(&[record(1.0, MOST_SAMPLES, 255)], 13_241);
    told_run(&[record(1.0, 1, 1)], 0);
    let bad = [f64::NAN, -0.0, 0.5, -1.0, f64::INFINITY, 195_076.0].map(|sq_err| Record { sq_err, ..RECORD });
    for bad in bad.into_iter().chain([
        Record { n_pixels: 0, ..RECORD },
        Record { n_pixels: MOST_SAMPLES + 1, ..RECORD },
        Record { sample_max: 254, ..RECORD },
        Record { sample_max: 8_191, ..RECORD },
        Record { plane: MOST_PLANE + 1, ..RECORD },
    ]) {
        assert_eq!(bad.hundredths(), Err(Refusal::Record));
        refused_run(&[bad], Refusal::Record);
        refused_run(&[RECORD, bad], Refusal::Record);
        refused_run(&[bad, RECORD], Refusal::Record);
    }
    told_run(&[record(195_075.0, 3, 255)], 0);
    // good by itself, and not beside the first
    told_run(&[record(25.0, 3, 4_095)], 6_303);
    refused_run(&[RECORD, record(25.0, 3, 4_095)], Refusal::Record);
    let most = record((MOST_SAMPLES * 4_095 * 4_095) as f64, MOST_SAMPLES, 4_095);
    let rest = Record { sq_err: TWO_TO_53 - 2.0 * most.sq_err, ..most };
    told_run(&[most, most, rest], 175);
    refused_run(&[most; 3], Refusal::Total);
    refused_run(&[most, most, rest, Record { sq_err: 1.0, ..most }], Refusal::Total);
    refused_run(&[most, most, most, Record { n_pixels: 0, ..most }], Refusal::Record);
}

/// Of records as the calls make them.
#[test]
fn of_planes() {
    let (a, b) = ([10u8, 20, 30], [13u8, 20, 26]);
    let [a, b] = [&a, &b].map(|data| Plane { data: &data[..], stride: 3 });
    let shape = Shape { width: 3, height: 1, bit_depth: 8 };
    let (record, same) = (squared_error(a, b, shape, 7, 0).unwrap(), squared_error(a, a, shape, 7, 1).unwrap());
    assert_eq!([record.hundredths(), same.hundredths()], [Ok(Decibels::Hundredths(3_892)), Ok(Decibels::Identical)]);
    assert_eq!(decibels(&[record, same]), Ok(Decibels::Hundredths(4_193)));
    // av-metrics' figure, by the host's log10, is the same but for rounding down
    let host = video::psnr::decibels(record.metrics()).unwrap();
    assert!(38.92 - 1e-7 < host && host < 38.93 + 1e-7);
}
