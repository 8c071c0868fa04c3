//! The figures of a whole run, gathered frame by frame in memory that does not grow with their number.

use crate::format::{COMBINED, PLANES};
use crate::score::{combine, figures, FrameScores, Refused, Scores};
use fuavelino::{Pair, PsnrMetrics, Record, Refusal};

/// The most records that the library takes in one series.
const SERIES: usize = 65_536;
/// The largest total that it gives.
const MOST: u64 = 1 << 53;

/// The total of any number of records that rise, by frame and then by plane. The library totals them by series of at most
/// 65,536, and sees to it that they rise there. Where there are more, the series' totals are added here, as the whole
/// numbers that they are; above 2^53, or where one series does not rise from the last, they are refused as there.
#[derive(Default)]
struct Total {
    records: Vec<Record>,
    earlier: Option<PsnrMetrics>,
}

impl Total {
    fn add(&mut self, record: Record) -> Result<(), Refusal> {
        if self.records.len() == SERIES {
            self.end_series(&record)?;
        }
        self.records.push(record);
        Ok(())
    }

    /// Makes room for the record that begins the next series.
    fn end_series(&mut self, next: &Record) -> Result<(), Refusal> {
        if self.records.last().map_or(false, |last| !rises(last, next)) {
            return Err(Refusal::Record);
        }
        self.earlier = Some(self.so_far()?);
        self.records.clear();
        Ok(())
    }

    fn so_far(&self) -> Result<PsnrMetrics, Refusal> {
        let last = fuavelino::series(&self.records)?;
        match self.earlier {
            Some(earlier) => joined(earlier, last),
            None => Ok(last),
        }
    }

    /// The total under a plane's name, where anything was added.
    fn told(&self, plane: &'static str) -> Result<Option<PsnrMetrics>, Refused> {
        let any = !self.records.is_empty();
        any.then(|| self.so_far().map_err(Refused::of(plane, "squared error"))).transpose()
    }
}

/// Whether a record may follow another, as in a series.
fn rises(last: &Record, next: &Record) -> bool {
    (last.frame, last.plane) < (next.frame, next.plane)
}

/// Both totals are whole numbers up to 2^53, so that nothing is lost in between.
fn joined(a: PsnrMetrics, b: PsnrMetrics) -> Result<PsnrMetrics, Refusal> {
    let sum = a.sq_err as u64 + b.sq_err as u64;
    match a.n_pixels.checked_add(b.n_pixels) {
        _ if a.sample_max != b.sample_max => Err(Refusal::Record),
        Some(n_pixels) if sum <= MOST => Ok(PsnrMetrics { sq_err: sum as f64, n_pixels, sample_max: a.sample_max }),
        _ => Err(Refusal::Total),
    }
}

/// What a run comes to so far.
pub struct Run {
    weight: f64,
    count: u64,
    /// Of SSIM, scales and PSNR-HVS: each plane's sums, added in the frames' order.
    sums: Vec<Scores>,
    /// Of the squared error: each plane's total, and that of all planes.
    totals: Vec<Total>,
    total: Total,
}

impl Run {
    pub fn new(planes: usize, weight: f64) -> Run {
        let totals = (0..planes).map(|_| Total::default()).collect();
        Run { weight, count: 0, sums: vec![Scores::default(); planes], totals, total: Total::default() }
    }

    pub fn add(&mut self, frame: &FrameScores) -> Result<(), Refused> {
        self.count += 1;
        for (number, plane) in frame.planes.iter().enumerate() {
            self.sums[number] = sum(&self.sums[number], plane);
            if let Some(record) = plane.record {
                self.totals[number].add(record).map_err(Refused::of(PLANES[number], "squared error"))?;
                self.total.add(record).map_err(Refused::of(COMBINED, "squared error"))?;
            }
        }
        Ok(())
    }

    /// The run's figures: totals of squared errors, means of the others.
    pub fn end(&self) -> Result<FrameScores, Refused> {
        let count = self.count as f64;
        let mut planes = Vec::with_capacity(self.sums.len());
        for (number, (sums, total)) in self.sums.iter().zip(&self.totals).enumerate() {
            let error = total.told(PLANES[number])?;
            planes.push(figures(&Scores { error, ..*sums }, count, count, PLANES[number])?);
        }
        let combined = combine(&self.sums, self.total.told(COMBINED)?, self.weight, count)?;
        Ok(FrameScores { planes, combined })
    }
}

/// The sums with one frame more; what is not yet there begins with it.
fn sum(so_far: &Scores, next: &Scores) -> Scores {
    let pair = |a: Pair, b: Pair| Pair { ssim: a.ssim + b.ssim, cs: a.cs + b.cs };
    let scales = next.scales.map(|five| {
        let mut sums = so_far.scales.unwrap_or_default();
        sums.iter_mut().zip(five).for_each(|(a, b)| *a = pair(*a, b));
        sums
    });
    Scores {
        ssim: next.ssim.map(|b| pair(so_far.ssim.unwrap_or_default(), b)),
        scales,
        msssim: next.msssim.map(|b| so_far.msssim.unwrap_or_default() + b),
        hvs: next.hvs.map(|b| so_far.hvs.unwrap_or_default() + b),
        ..Scores::default()
    }
}

#[cfg(test)]
mod tests {
    use super::*;
    use fuavelino::{Decibels, MOST_SAMPLES};

    const RECORD: PsnrMetrics = PsnrMetrics { sq_err: 25.0, n_pixels: 3, sample_max: 255 };

    fn record(figures: PsnrMetrics, frame: u32, plane: u32) -> Record {
        let PsnrMetrics { sq_err, n_pixels, sample_max } = figures;
        Record { sq_err, n_pixels, sample_max, frame, plane }
    }

    /// So many records of these figures, of frames of so many planes.
    fn rising(count: usize, planes: usize, figures: PsnrMetrics) -> Vec<Record> {
        (0..count).map(|at| record(figures, (at / planes) as u32, (at % planes) as u32)).collect()
    }

    fn total(records: &[Record]) -> Result<PsnrMetrics, Refusal> {
        let mut total = Total::default();
        records.iter().try_for_each(|record| total.add(*record))?;
        total.so_far()
    }

    fn total_of(count: usize, figures: PsnrMetrics) -> Result<PsnrMetrics, Refusal> {
        total(&rising(count, 1, figures))
    }

    #[test]
    fn a_series_is_the_librarys() {
        let sum = total_of(SERIES, RECORD).unwrap();
        assert_eq!((sum.sq_err, sum.n_pixels), (25.0 * 65_536.0, 3 * 65_536));
        for planes in [1, 2, 3] {
            let records = rising(SERIES, planes, RECORD);
            assert_eq!(total(&records), fuavelino::series(&records));
        }
    }

    #[test]
    fn more_records_than_one_series_takes_are_totalled_by_parts() {
        // of three planes a series ends within a frame, of one with it
        for planes in [1, 2, 3] {
            for count in [65_537, 131_072, 131_073, 200_000] {
                let sum = total(&rising(count, planes, RECORD)).unwrap();
                assert_eq!((sum.sq_err, sum.n_pixels), (25.0 * count as f64, 3 * count as u64));
                assert_eq!(sum.sample_max, 255);
                assert_eq!(sum.hundredths(), RECORD.hundredths());
            }
        }
    }

    /// Gaps are no fault, and the last number that a frame has is none either.
    #[test]
    fn parts_rise_up_to_the_last_number() {
        let mut records = rising(70_000, 1, RECORD);
        let least = u32::MAX - 69_999;
        records.iter_mut().for_each(|record| record.frame += least);
        assert_eq!(records[69_999].frame, u32::MAX);
        assert_eq!(total(&records).map(|sum| sum.n_pixels), Ok(210_000));
        records.iter_mut().for_each(|record| record.frame /= 2);
        assert_eq!(total(&records), Err(Refusal::Record));
        let apart: Vec<Record> = (0..70_000).map(|at| record(RECORD, at * 61_000, 2 - at % 3)).collect();
        assert_eq!(total(&apart).map(|sum| sum.n_pixels), Ok(210_000));
    }

    /// Places within a series, at its beginning and at its end.
    const PLACES: [usize; 11] = [1, 2, 40_000, 65_535, 65_536, 65_537, 100_000, 131_071, 131_072, 131_073, 199_999];

    /// A change is refused at each place, as it would be in one series of all.
    fn refused(change: impl Fn(&mut [Record], usize)) {
        for (place, planes) in PLACES.into_iter().flat_map(|place| [(place, 1), (place, 3)]) {
            let mut records = rising(200_000, planes, RECORD);
            change(&mut records, place);
            assert_eq!(total(&records), Err(Refusal::Record), "of {} planes, at {}", planes, place);
        }
    }

    #[test]
    fn a_record_that_comes_twice_is_refused() {
        refused(|records, at| records[at] = records[at - 1]);
        // whatever its figures
        refused(|records, at| records[at] = Record { sq_err: 7.0, n_pixels: 9, ..records[at - 1] });
    }

    #[test]
    fn records_out_of_order_are_refused() {
        refused(|records, at| records.swap(at - 1, at));
        refused(|records, at| records[at] = record(RECORD, 0, 0));
        // numbers that begin anew
        refused(|records, at| {
            let anew = rising(records.len() - at, 1, RECORD);
            records[at..].copy_from_slice(&anew);
        });
        // a lower plane of one frame
        refused(|records, at| {
            records[at - 1].plane = 2;
            records[at] = Record { plane: 1, ..records[at - 1] };
        });
        // a lower frame, of which a higher plane makes no other
        refused(|records, at| {
            records[at] = Record { plane: 2, ..records[at - 1] };
            records[at - 1].frame += 1;
        });
    }

    #[test]
    fn a_plane_above_two_is_refused() {
        refused(|records, at| records[at].plane = 3);
    }

    /// The same frame goes on with a higher plane, and a higher frame begins with a lower one.
    #[test]
    fn frames_go_before_planes() {
        for place in PLACES {
            let mut records = rising(200_000, 1, RECORD);
            (records[place].frame, records[place].plane) = (records[place - 1].frame, 1);
            assert_eq!(total(&records).map(|sum| sum.n_pixels), Ok(600_000), "at {}", place);
            records = rising(200_000, 1, RECORD);
            records[place - 1].plane = 2;
            assert_eq!(total(&records).map(|sum| sum.n_pixels), Ok(600_000), "at {}", place);
        }
    }

    /// Of a series that does not rise and is above 2^53 the lower number is told, across parts too.
    #[test]
    fn ten_goes_before_eleven() {
        let large = PsnrMetrics { sq_err: (1u64 << 38) as f64, n_pixels: MOST_SAMPLES, sample_max: 4_095 };
        let mut records = rising(SERIES + 1, 1, large);
        assert_eq!(total(&records), Err(Refusal::Total));
        records[SERIES].frame = 0;
        assert_eq!(total(&records), Err(Refusal::Record));
    }

    /// A run of frames of one plane, all of these.
    fn run_of(count: usize, figures: PsnrMetrics) -> Result<FrameScores, Refused> {
        run_of_frames(1, (0..count).map(|at| vec![record(figures, at as u32, 0)]))
    }

    fn run_of_frames(planes: usize, frames: impl Iterator<Item = Vec<Record>>) -> Result<FrameScores, Refused> {
        let mut run = Run::new(planes, 0.0);
        for records in frames {
            let plane = |record: &Record| Scores { record: Some(*record), ..Scores::default() };
            let planes = records.iter().map(plane).collect();
            run.add(&FrameScores { planes, combined: Scores::default() })?;
        }
        run.end()
    }

    #[test]
    fn a_run_has_the_psnr_of_its_total() {
        for count in [1, 65_536, 65_537, 200_000] {
            let run = run_of(count, RECORD).ok().unwrap();
            assert_eq!([run.planes[0].psnr, run.combined.psnr], [Some(Decibels::Hundredths(3_892)); 2]);
        }
    }

    /// Each plane's own records and those of all planes rise, and every total ends its series at another frame.
    #[test]
    fn a_run_of_three_planes_is_totalled_past_a_series() {
        for count in [21_845, 21_846, 65_536, 70_000] {
            let frames = (0..count).map(|frame| (0..3).map(|plane| record(RECORD, frame, plane)).collect());
            let run = run_of_frames(3, frames).unwrap();
            let each = (25.0 * f64::from(count), 3 * u64::from(count));
            let told = |scores: &Scores| scores.error.map(|total| (total.sq_err, total.n_pixels));
            assert!(run.planes.len() == 3 && run.planes.iter().all(|plane| told(plane) == Some(each)));
            assert_eq!(told(&run.combined), Some((3.0 * each.0, 3 * each.1)));
        }
    }

    /// The total that is made first tells of it.
    #[test]
    fn a_frame_that_comes_twice_is_refused() {
        for (again, plane) in [(9, "combined"), (21_844, "combined"), (21_845, "combined"), (65_535, "y")] {
            let numbers = (0..70_000).map(|at| if at > again { at - 1 } else { at });
            let frames = numbers.map(|frame| (0..3).map(|plane| record(RECORD, frame, plane)).collect());
            let fault = run_of_frames(3, frames).err().unwrap().at("the run");
            let start = format!("the run, plane {}: squared error: refusal 10: ", plane);
            assert!(fault.message.starts_with(&start), "frame {}: {}", again, fault.message);
        }
    }

    /// 65,536 of the largest planes have as many samples as any series, which has decibels; one more has none, whatever its error.
    #[test]
    fn a_run_of_more_samples_than_any_series_is_refused() {
        for sq_err in [0.0, 1.0] {
            let large = PsnrMetrics { sq_err, n_pixels: MOST_SAMPLES, sample_max: 255 };
            let told = run_of(65_536, large).ok().unwrap();
            let owed = if sq_err == 0.0 { Decibels::Identical } else { Decibels::Hundredths(13_241) };
            assert_eq!([told.planes[0].psnr, told.combined.psnr], [Some(owed); 2]);
            let fault = run_of(65_537, large).err().unwrap().at("the run");
            assert_eq!(fault.refusal, Some(Refusal::Record));
            assert!(fault.message.starts_with("the run, plane y: PSNR: refusal 10: "), "{}", fault.message);
        }
    }

    #[test]
    fn parts_above_two_to_the_53_are_refused() {
        // 65,536 of these come to 2^52, so that two series reach 2^53 exactly, and any more is above
        let large = PsnrMetrics { sq_err: (1u64 << 36) as f64, n_pixels: MOST_SAMPLES, sample_max: 4_095 };
        assert_eq!(total_of(131_072, large).map(|sum| sum.sq_err), Ok((1u64 << 53) as f64));
        assert_eq!(total_of(131_073, large), Err(Refusal::Total));
        assert_eq!(total_of(200_000, large), Err(Refusal::Total));
    }

    #[test]
    fn a_bad_record_and_no_record_are_refused() {
        assert_eq!(total_of(0, RECORD), Err(Refusal::Record));
        assert_eq!(total_of(70_000, PsnrMetrics { sq_err: f64::NAN, ..RECORD }), Err(Refusal::Record));
    }
}
