//! Records that say whose they are: how they lie in memory, what the squared error writes and leaves, and which runs of them rise.

use fuavelino::*;
use std::mem::{align_of, size_of};

/// What a lent record holds before a call: no record that any call would make.
const BEFORE: Record = Record { sq_err: -7.25, n_pixels: 77, sample_max: 88, frame: 5, plane: 9 };
const TOTAL: PsnrMetrics = PsnrMetrics { sq_err: -7.25, n_pixels: 77, sample_max: 88 };
const DECIBELS: (u32, u8) = (0xDEAD_BEEF, 0xA7);
/// The most records of a series.
const LONGEST: usize = 65_536;
/// Numbers of planes that there are none of.
const PAST: [u32; 6] = [MOST_PLANE + 1, 4, 255, 256, 1 << 31, u32::MAX];
const FRAMES: [u32; 8] = [0, 1, 2, 255, 256, 1 << 31, u32::MAX - 1, u32::MAX];

fn record(frame: u32, plane: u32) -> Record {
    Record { sq_err: 25.0, n_pixels: 3, sample_max: 255, frame, plane }
}

/// So many records, the three planes of each frame in turn, the frames this far apart. Neighbours have unlike errors and counts.
fn film(count: usize, first: u32, apart: u32) -> Vec<Record> {
    let one = |i: usize| {
        let (sq_err, n_pixels) = ((i % 5) as f64, 3 + i as u64 % 2);
        Record { sq_err, n_pixels, sample_max: 255, frame: first + apart * (i / 3) as u32, plane: i as u32 % 3 }
    };
    (0..count).map(one).collect()
}

/// The sums, added up here.
fn sums(run: &[Record]) -> PsnrMetrics {
    let (sq_err, n_pixels) = (run.iter().map(|r| r.sq_err).sum(), run.iter().map(|r| r.n_pixels).sum());
    PsnrMetrics { sq_err, n_pixels, sample_max: run[0].sample_max }
}

/// Taken by every call that takes a run, with its sums.
fn taken(run: &[Record]) {
    let mut total = TOTAL;
    assert_eq!(no_alloc::series(run, &mut total), Ok(()), "{} records from {:?}", run.len(), run.first());
    assert_eq!((total, series(run)), (sums(run), Ok(sums(run))));
    assert_eq!((decibels(run), decibels(run).is_ok()), (total.hundredths(), true));
}

/// Refused by each of them, and nothing written.
fn refused(run: &[Record], why: &str) {
    let (mut total, (mut hundredths, mut identical)) = (TOTAL, DECIBELS);
    assert_eq!(no_alloc::series(run, &mut total), Err(Refusal::Record), "series: {}", why);
    assert_eq!(no_alloc::decibels(run, &mut hundredths, &mut identical), Err(Refusal::Record), "decibels: {}", why);
    assert_eq!((total, (hundredths, identical)), (TOTAL, DECIBELS), "{}", why);
    assert_eq!((series(run), decibels(run)), (Err(Refusal::Record), Err(Refusal::Record)));
}

/// As the C header has it: the five fields in this order, with room after the last.
#[test]
fn layout() {
    let record = Record::default();
    let start = &record as *const Record as usize;
    let of = |field: *const u32| field as usize - start;
    assert_eq!((size_of::<Record>(), align_of::<Record>()), (32, 8));
    assert_eq!(&record.sq_err as *const f64 as usize - start, 0);
    assert_eq!(&record.n_pixels as *const u64 as usize - start, 8);
    assert_eq!([of(&record.sample_max), of(&record.frame), of(&record.plane)], [16, 20, 24]);
}

/// What the squared error of these planes says, and the lent record after it.
fn told<T: Sample>(a: &[T], b: &[T], shape: Shape, frame: u32, plane: u32) -> (Result<(), Refusal>, Record) {
    let [a, b] = [a, b].map(|data| Plane { data, stride: 3 });
    let mut out = BEFORE;
    let said = no_alloc::squared_error(a, b, shape, frame, plane, &mut out);
    assert_eq!(squared_error(a, b, shape, frame, plane), said.map(|()| out));
    (said, out)
}

const BYTES: Shape = Shape { width: 3, height: 1, bit_depth: 8 };
const WORDS: Shape = Shape { bit_depth: 10, ..BYTES };

#[test]
fn the_squared_error_writes_whose_it_is() {
    for (frame, plane) in FRAMES.iter().flat_map(|f| (0..=MOST_PLANE).map(move |p| (*f, p))) {
        let record = record(frame, plane);
        assert_eq!(told(&[10u8, 20, 30], &[13, 20, 26], BYTES, frame, plane), (Ok(()), record));
        let same = Record { sq_err: 0.0, ..record };
        assert_eq!(told(&[10u8, 20, 30], &[10, 20, 30], BYTES, frame, plane), (Ok(()), same));
        let wide = Record { sample_max: 1_023, ..record };
        assert_eq!(told(&[10u16, 20, 30], &[13, 20, 26], WORDS, frame, plane), (Ok(()), wide));
    }
}

/// A plane past the last is 10, and comes after 1 2 4 5 6. All five fields of the lent record stay, whatever refuses.
#[test]
fn a_refused_squared_error_leaves_the_record() {
    let (bytes, words) = ([127u8, 128, 9], [511u16, 512, 9]);
    for (frame, plane) in FRAMES.iter().flat_map(|f| (0..=MOST_PLANE).chain(PAST).map(move |p| (*f, p))) {
        let left = |refusal| (Err(refusal), BEFORE);
        if plane > MOST_PLANE {
            assert_eq!(told(&bytes, &[1, 2, 3], BYTES, frame, plane), left(Refusal::Record));
            assert_eq!(told(&words, &[1, 2, 3], WORDS, frame, plane), left(Refusal::Record));
            // planes that are identical get no other answer
            assert_eq!(told(&bytes, &bytes, BYTES, frame, plane), left(Refusal::Record));
        }
        assert_eq!(told(&bytes, &bytes, Shape { bit_depth: 9, ..BYTES }, frame, plane), left(Refusal::Depth));
        assert_eq!(told(&words, &words, Shape { bit_depth: 8, ..WORDS }, frame, plane), left(Refusal::Depth));
        assert_eq!(told(&bytes, &bytes, Shape { height: 0, ..BYTES }, frame, plane), left(Refusal::Size));
        assert_eq!(told(&words, &words, Shape { width: 4, ..WORDS }, frame, plane), left(Refusal::Stride));
        assert_eq!(told(&bytes, &bytes[1..], BYTES, frame, plane), left(Refusal::Short));
        assert_eq!(told(&words[1..], &words, WORDS, frame, plane), left(Refusal::Short));
        assert_eq!(told(&bytes, &[1, 2, 3], Shape { bit_depth: 7, ..BYTES }, frame, plane), left(Refusal::Sample));
        assert_eq!(told(&[1, 2, 3], &words, Shape { bit_depth: 9, ..WORDS }, frame, plane), left(Refusal::Sample));
    }
}

/// The planes of a frame by their kinds: their records rise in this order and in no other.
#[test]
fn kinds_are_numbered() {
    let kinds = [PlaneKind::Y, PlaneKind::U, PlaneKind::V];
    assert_eq!(kinds.map(PlaneKind::number), [0, 1, 2]);
    let data = [[10u8, 20, 30], [13, 20, 26], [7, 7, 7]].map(|data| data.to_vec());
    let records = kinds.map(|kind| {
        let [a, b] = [&data[0], &data[kind.number() as usize]].map(|data| Plane { data, stride: 3 });
        squared_error(a, b, BYTES, 7, kind.number()).unwrap()
    });
    assert_eq!(records.map(|record| (record.frame, record.plane)), [(7, 0), (7, 1), (7, 2)]);
    assert_eq!(records.map(|record| record.sq_err), [0.0, 25.0, 707.0]);
    taken(&records);
    for order in [[0, 2, 1], [1, 0, 2], [1, 2, 0], [2, 0, 1], [2, 1, 0]] {
        refused(&order.map(|i| records[i]), "planes out of their order");
    }
}

/// Its figures are the record's, and go by no number of frame or plane.
#[test]
fn figures() {
    for record in [record(7, 2), Record { sq_err: 0.0, ..record(7, 2) }, Record { plane: 3, ..BEFORE }] {
        let Record { sq_err, n_pixels, sample_max, .. } = record;
        assert_eq!(record.metrics(), PsnrMetrics { sq_err, n_pixels, sample_max });
        assert_eq!(record.is_identical(), sq_err == 0.0);
        assert_eq!(Record { frame: 1, plane: 1, ..record }.metrics(), record.metrics());
    }
    assert!(!Record::default().is_identical(), "nothing was compared");
}

/// Of one record any frame is taken, and a plane to the last: its own PSNR goes by that too.
#[test]
fn one_record() {
    for frame in FRAMES {
        for plane in 0..=MOST_PLANE {
            taken(&[record(frame, plane)]);
            assert_eq!(record(frame, plane).hundredths(), Ok(Decibels::Hundredths(3_892)));
        }
        for plane in PAST {
            refused(&[record(frame, plane)], "a plane past the last");
            assert_eq!(record(frame, plane).hundredths(), Err(Refusal::Record));
            refused(&[record(frame, plane), record(frame, u32::MAX)], "planes past the last that rise");
        }
    }
}

/// Two records: taken where the second is later, by frame and then by plane.
#[test]
fn two_records() {
    refused(&[record(1, 0), record(0, 2)], "a later plane of an earlier frame");
    taken(&[record(0, 2), record(1, 0)]);
    refused(&[record(5, 1), record(5, 1)], "one plane twice");
    taken(&[record(5, 1), record(5, 2)]);
    refused(&[record(5, 2), record(5, 1)], "an earlier plane");
    refused(&[record(u32::MAX, 2), record(0, 0)], "a frame past the last");
    let every: Vec<(u32, u32)> = FRAMES.iter().flat_map(|f| (0..=MOST_PLANE).map(move |p| (*f, p))).collect();
    for (first, second) in every.iter().flat_map(|one| every.iter().map(move |two| (*one, *two))) {
        let two = [record(first.0, first.1), Record { sq_err: 7.0, n_pixels: 5, ..record(second.0, second.1) }];
        match first < second {
            true => taken(&two),
            false => refused(&two, &format!("{:?} before {:?}", first, second)),
        }
    }
}

/// One record wrong, at every place of a run.
#[test]
fn damage_is_seen_at_every_place() {
    let good = film(300, 10, 1);
    taken(&good);
    for at in 0..good.len() {
        let with = |why: &str, edit: &dyn Fn(&mut [Record])| {
            let mut run = good.clone();
            edit(&mut run);
            refused(&run, &format!("{} at {}", why, at));
        };
        for plane in PAST {
            with("a plane past the last", &|run| run[at].plane = plane);
        }
        if at > 0 {
            with("the one before it again", &|run| run[at] = run[at - 1]);
            with("its frame and plane again", &|run| {
                (run[at].frame, run[at].plane) = (run[at - 1].frame, run[at - 1].plane);
            });
            with("exchanged with the one before it", &|run| run.swap(at - 1, at));
            with("a lower frame", &|run| run[at].frame -= 1);
            with("the first frame", &|run| (run[at].frame, run[at].plane) = (0, 2));
            with("the first record of all again", &|run| run[at] = run[0]);
        }
        if at + 1 < good.len() {
            with("a higher frame", &|run| run[at].frame += 1);
            with("the last frame", &|run| run[at].frame = u32::MAX);
            with("the last record of all", &|run| run[at] = run[299]);
        }
        with("another largest sample", &|run| run[at].sample_max = 1_023);
        // without it the rest still rises
        let mut rest = good.clone();
        rest.remove(at);
        taken(&rest);
    }
}

/// As many records as a series takes, and one more.
#[test]
fn the_longest_run() {
    let good = film(LONGEST + 1, 0, 1);
    taken(&good[..LONGEST]);
    taken(&good[1..]);
    refused(&good, "one too many");
    let last = film(LONGEST, u32::MAX - 21_845, 1);
    assert_eq!(last[LONGEST - 1].frame, u32::MAX);
    taken(&last);
    for at in [0, LONGEST / 2, LONGEST - 1] {
        let near = if at == 0 { 1 } else { at - 1 };
        for edit in 0..3 {
            let mut run = good[..LONGEST].to_vec();
            match edit {
                0 => run[at] = run[near],
                1 => run.swap(at, near),
                _ => run[at].plane = MOST_PLANE + 1,
            }
            refused(&run, &format!("edit {} at {}", edit, at));
        }
    }
}

/// Sums and decibels are the same, whatever the numbers.
#[test]
fn renumbering_changes_no_sum() {
    let run = film(300, 0, 1);
    let (total, told) = (series(&run).unwrap(), decibels(&run).unwrap());
    let mut by_frame = run.clone();
    (0..).zip(&mut by_frame).for_each(|(i, record)| (record.frame, record.plane) = (u32::MAX - 299 + i, 2 - i % 3));
    for other in [film(300, 1_000_000, 42_000_000), by_frame] {
        assert_eq!((series(&other), decibels(&other)), (Ok(total), Ok(told)));
    }
    assert_eq!((total.sq_err, total.n_pixels, told), (600.0, 1_050, Decibels::Hundredths(5_056)));
}

/// A run that adds up to too much is 11, and 10 where a record of it is bad or out of order, also after that.
#[test]
fn ten_before_eleven() {
    let most = (MOST_SAMPLES * 4_095 * 4_095) as f64;
    let full = |i: u32| Record { sq_err: most, n_pixels: MOST_SAMPLES, sample_max: 4_095, frame: 8, plane: i };
    let run = [full(0), full(1), full(2), Record { frame: 9, ..full(0) }];
    assert_eq!((series(&run), decibels(&run)), (Err(Refusal::Total), Err(Refusal::Total)));
    for last in
        [Record { frame: 8, ..run[3] }, run[2], Record { plane: 3, ..run[3] }, Record { sample_max: 255, ..run[3] }]
    {
        refused(&[run[0], run[1], run[2], last], "bad after too much");
    }
    refused(&[run[1], run[0], run[2], run[3]], "bad before too much");
}
