//! The scores of a frame: each plane's by the library's calls, and their combination.

use crate::above::Above;
use crate::decibels::{self, Decibels};
use crate::format::{Format, COMBINED, PLANES};
use crate::frames::Frame;
use crate::input::Stored;
use crate::stop::Fault;
use fuavelino::video::ssim::product;
use fuavelino::{Kernel, Pair, Plane, PlaneKind, PsnrMetrics, Record, Refusal, Sample, Scratch, Shape};

/// Which scores are asked for.
#[derive(Clone, Copy, Debug, PartialEq, Eq)]
pub struct Metrics {
    pub error: bool,
    pub ssim: bool,
    pub scales: bool,
    pub msssim: bool,
    pub hvs: bool,
}

impl Metrics {
    pub const NAMES: [&'static str; 5] = ["error", "ssim", "scales", "msssim", "hvs"];
    pub const ALL: Metrics = Metrics { error: true, ssim: true, scales: true, msssim: true, hvs: true };
    pub const ERROR: Metrics = Metrics { error: true, ssim: false, scales: false, msssim: false, hvs: false };

    /// Whether each of `NAMES` is asked for.
    pub fn asked(&self) -> [bool; 5] {
        [self.error, self.ssim, self.scales, self.msssim, self.hvs]
    }
}

/// The figures of a plane, or of all planes combined, of a frame or of the run. Each that was asked for is there.
#[derive(Clone, Copy, Debug, Default)]
pub struct Scores {
    /// Of a plane of a frame alone: its error, with whose it is.
    pub record: Option<Record>,
    pub error: Option<PsnrMetrics>,
    /// The library's. It is there wherever the error is, and decides.
    pub psnr: Option<fuavelino::Decibels>,
    /// av-metrics' figure, by the host's logarithm. It decides nothing, and need not be there.
    pub psnr_db: Option<Decibels>,
    pub ssim: Option<Pair>,
    pub ssim_db: Option<Decibels>,
    pub scales: Option<[Pair; 5]>,
    pub msssim: Option<f64>,
    pub msssim_db: Option<Decibels>,
    pub hvs: Option<f64>,
    pub hvs_db: Option<Decibels>,
}

/// The planes' scores in order, and their combination.
pub struct FrameScores {
    pub planes: Vec<Scores>,
    pub combined: Scores,
}

impl FrameScores {
    /// Each plane with its name, then the combination.
    pub fn named(&self) -> impl Iterator<Item = (&'static str, &Scores)> {
        let planes = PLANES.iter().copied().zip(&self.planes);
        planes.chain(std::iter::once((COMBINED, &self.combined)))
    }
}

/// A score that was not given: of which plane, which one, and why.
#[derive(Debug)]
pub struct Refused {
    plane: &'static str,
    score: &'static str,
    why: Why,
    /// The sample that it is about, where it is about one.
    above: Option<Above>,
}

#[derive(Debug, PartialEq)]
enum Why {
    /// The library's refusal.
    Refused(Refusal),
    /// What is worked out from its scores is no number.
    NoNumber,
    /// Two of its calls do not agree.
    Disagreed,
}

impl Refused {
    pub fn of(plane: &'static str, score: &'static str) -> impl FnOnce(Refusal) -> Refused {
        move |refusal| Refused { plane, score, why: Why::Refused(refusal), above: None }
    }

    pub fn no_number(plane: &'static str, score: &'static str) -> impl FnOnce() -> Refused {
        move || Refused { plane, score, why: Why::NoNumber, above: None }
    }

    pub fn disagreed(plane: &'static str, score: &'static str) -> Refused {
        Refused { plane, score, why: Why::Disagreed, above: None }
    }

    /// With the sample that it is about, where it is about one.
    pub fn with_sample<T: Stored>(mut self, planes: &[&[T]], shape: Shape) -> Refused {
        if self.why == Why::Refused(Refusal::Sample) {
            self.above = Above::find(planes, shape);
        }
        self
    }

    /// With where it was: a frame, or the run.
    pub fn at(&self, place: &str) -> Fault {
        let place = format!("{}, plane {}: {}", place, self.plane, self.score);
        match self.why {
            // the room is the command's own, so that it is short only where none could be had
            Why::Refused(Refusal::Scratch) => Fault::out_of_memory(&place),
            Why::Refused(refusal) => Fault::refused(&place, refusal),
            Why::NoNumber => Fault::new(format!("{}: not a number", place)),
            Why::Disagreed => Fault::new(format!("{}: two calls of the library do not agree", place)),
        }
    }

    /// The same of a frame of these files, with the sample that it is about.
    pub fn of_files(&self, frame: u64, files: &[String], format: &Format) -> Fault {
        let mut fault = self.at(&format!("frame {}", frame));
        if let Some(above) = &self.above {
            fault.message = format!("{}: {}{}", fault.message, above.show(&files[above.file]), format.odd_words());
        }
        fault
    }
}

/// The kernel of SSIM for each plane. They are made here only, so that what reports tell of them is true of those in use.
pub fn kernels(format: &Format) -> Vec<Kernel> {
    format.shapes().iter().map(|shape| Kernel::for_plane(shape.width, shape.height)).collect()
}

/// Scores frames of one format. Kernels are made once, and scratch is kept.
pub struct Scorer {
    metrics: Metrics,
    weight: f64,
    shapes: Vec<Shape>,
    kernels: Vec<Kernel>,
    scratch: Scratch,
}

impl Scorer {
    pub fn new(format: &Format, metrics: Metrics) -> Scorer {
        let (shapes, kernels) = (format.shapes(), kernels(format));
        Scorer { metrics, weight: format.chroma.get_chroma_weight(), shapes, kernels, scratch: Scratch::new() }
    }

    /// The scores of the frame of this number.
    pub fn frame<T: Stored>(
        &mut self,
        frame: u32,
        original: &Frame<T>,
        decoded: &Frame<T>,
    ) -> Result<FrameScores, Refused> {
        let mut planes = Vec::with_capacity(self.shapes.len());
        for number in 0..self.shapes.len() {
            let stride = self.shapes[number].width;
            let a = Plane { data: &original.planes[number][..], stride };
            let b = Plane { data: &decoded.planes[number][..], stride };
            let scores = self.plane((frame, number), a, b);
            planes.push(scores.map_err(|refused| refused.with_sample(&[a.data, b.data], self.shapes[number]))?);
        }
        let combined = combine(&planes, total(&planes)?, self.weight, 1.0)?;
        Ok(FrameScores { planes, combined })
    }

    fn plane<T: Sample>(
        &mut self,
        (frame, number): (u32, usize),
        a: Plane<'_, T>,
        b: Plane<'_, T>,
    ) -> Result<Scores, Refused> {
        let (shape, name) = (self.shapes[number], PLANES[number]);
        let kind = [PlaneKind::Y, PlaneKind::U, PlaneKind::V][number];
        let mut scores = Scores::default();
        if self.metrics.error {
            let record = fuavelino::squared_error(a, b, shape, frame, kind.number());
            scores.record = Some(record.map_err(Refused::of(name, "squared error"))?);
            scores.error = scores.record.map(|record| record.metrics());
        }
        if self.metrics.ssim {
            let pair = fuavelino::ssim(a, b, shape, &self.kernels[number], &mut self.scratch);
            scores.ssim = Some(pair.map_err(Refused::of(name, "SSIM"))?);
        }
        if self.metrics.scales || self.metrics.msssim {
            let pairs = fuavelino::msssim(a, b, shape, &mut self.scratch);
            let pairs = pairs.map_err(Refused::of(name, "five scales"))?;
            scores.scales = Some(pairs).filter(|_| self.metrics.scales);
            if self.metrics.msssim {
                let one = Some(product(&pairs)).filter(|one| one.is_finite());
                scores.msssim = Some(one.ok_or_else(Refused::no_number(name, "MS-SSIM (a negative contrast)"))?);
            }
        }
        if self.metrics.hvs {
            let score = fuavelino::psnr_hvs(a, b, shape, kind);
            scores.hvs = Some(score.map_err(Refused::of(name, "PSNR-HVS"))?);
        }
        figures(&scores, 1.0, 1.0, name)
    }
}

/// The squared error of all planes of a frame together, where each has its record. Three of the largest can come to more
/// than a series gives.
fn total(planes: &[Scores]) -> Result<Option<PsnrMetrics>, Refused> {
    let records: Option<Vec<Record>> = planes.iter().map(|plane| plane.record).collect();
    records.map(|records| fuavelino::series(&records)).transpose().map_err(Refused::of(COMBINED, "squared error"))
}

/// The figures of sums over `count` frames. SSIM and its like could at best come to `best`: their decibels are made from the
/// sum and from that, as av-metrics does.
pub fn figures(sums: &Scores, best: f64, count: f64, plane: &'static str) -> Result<Scores, Refused> {
    let over = |sum: f64, by: f64, score| finite(sum / by).map_err(Refused::of(plane, score));
    let pair = |sum: Pair, score| -> Result<Pair, Refused> {
        Ok(Pair { ssim: over(sum.ssim, best, score)?, cs: over(sum.cs, best, score)? })
    };
    let told = |decibels: Option<Decibels>, score| decibels.ok_or_else(Refused::no_number(plane, score)).map(Some);
    let mut scores = Scores { record: sums.record, error: sums.error, ..Scores::default() };
    if let Some(record) = sums.error {
        scores.psnr = Some(record.hundredths().map_err(Refused::of(plane, "PSNR"))?);
        scores.psnr_db = decibels::psnr(record);
    }
    if let Some(sum) = sums.ssim {
        scores.ssim = Some(pair(sum, "SSIM")?);
        scores.ssim_db = told(decibels::ssim(sum.ssim, best), "decibels of SSIM")?;
    }
    if let Some(mut five) = sums.scales {
        for sum in five.iter_mut() {
            *sum = pair(*sum, "five scales")?;
        }
        scores.scales = Some(five);
    }
    if let Some(sum) = sums.msssim {
        scores.msssim = Some(over(sum, best, "MS-SSIM")?);
        scores.msssim_db = told(decibels::ssim(sum, best), "decibels of MS-SSIM")?;
    }
    if let Some(sum) = sums.hvs {
        let score = over(sum, count, "PSNR-HVS")?;
        (scores.hvs, scores.hvs_db) = (Some(score), told(decibels::hvs(score), "decibels of PSNR-HVS")?);
    }
    Ok(scores)
}

/// The planes' figures combined, under their total of squared errors. Each plane holds sums over `count` frames.
pub fn combine(planes: &[Scores], total: Option<PsnrMetrics>, weight: f64, count: f64) -> Result<Scores, Refused> {
    let all = Weighed { planes, weight };
    let best = all.best().map_err(Refused::of(COMBINED, "weight"))? * count;
    let mut sums = Scores { error: total, ..Scores::default() };
    sums.ssim = all.pair(|plane| plane.ssim).map_err(Refused::of(COMBINED, "SSIM"))?;
    sums.scales = all.scales().map_err(Refused::of(COMBINED, "five scales"))?;
    sums.msssim = all.sum(|plane| plane.msssim).map_err(Refused::of(COMBINED, "MS-SSIM"))?;
    if let Some([y, u, v]) = all.three(|plane| plane.hvs) {
        sums.hvs = Some(fuavelino::combine_hvs(weight, y, u, v).map_err(Refused::of(COMBINED, "PSNR-HVS"))?);
    }
    figures(&sums, best, count, COMBINED)
}

/// Planes, and what chroma weighs among them.
struct Weighed<'a> {
    planes: &'a [Scores],
    weight: f64,
}

impl Weighed<'_> {
    /// A figure of each plane, where each has it. Planes that are not there count as 0; their weight is 0.
    fn three(&self, of: impl Fn(&Scores) -> Option<f64>) -> Option<[f64; 3]> {
        let mut all = [0.0; 3];
        for (place, plane) in all.iter_mut().zip(self.planes) {
            *place = of(plane)?;
        }
        Some(all)
    }

    /// The library's weighted sum.
    fn sum(&self, of: impl Fn(&Scores) -> Option<f64>) -> Result<Option<f64>, Refusal> {
        let sum = |[y, u, v]: [f64; 3]| fuavelino::combine_ssim(self.weight, y, u, v).map(|(sum, _)| sum);
        self.three(of).map(sum).transpose()
    }

    fn pair(&self, of: impl Fn(&Scores) -> Option<Pair>) -> Result<Option<Pair>, Refusal> {
        let (ssim, cs) =
            (self.sum(|plane| of(plane).map(|pair| pair.ssim))?, self.sum(|plane| of(plane).map(|pair| pair.cs))?);
        Ok(ssim.zip(cs).map(|(ssim, cs)| Pair { ssim, cs }))
    }

    fn scales(&self) -> Result<Option<[Pair; 5]>, Refusal> {
        let mut five = [Pair::default(); 5];
        for (scale, place) in five.iter_mut().enumerate() {
            match self.pair(|plane| plane.scales.map(|pairs| pairs[scale]))? {
                Some(pair) => *place = pair,
                None => return Ok(None),
            }
        }
        Ok(Some(five))
    }

    /// What the sum of one frame could at best come to: the library's weight.
    fn best(&self) -> Result<f64, Refusal> {
        fuavelino::combine_ssim(self.weight, 1.0, 1.0, 1.0).map(|(_, weight)| weight)
    }
}

/// Nothing that is not a finite number is ever reported.
fn finite(value: f64) -> Result<f64, Refusal> {
    if value.is_finite() {
        Ok(value)
    } else {
        Err(Refusal::NotFinite)
    }
}

#[cfg(test)]
mod tests {
    use super::*;
    use crate::format::Chroma;
    use fuavelino::MOST_SAMPLES;

    /// Planes of 12 bits, as large as can be, of which every sample is as wrong as can be.
    fn worst(count: usize) -> Vec<Scores> {
        let sq_err = MOST_SAMPLES as f64 * 4_095.0 * 4_095.0;
        let record = |plane| Record { sq_err, n_pixels: MOST_SAMPLES, sample_max: 4_095, frame: 7, plane };
        (0..count as u32).map(|plane| Scores { record: Some(record(plane)), ..Scores::default() }).collect()
    }

    #[test]
    fn three_planes_of_the_largest_error_are_refused_and_two_are_not() {
        let told = |count: usize| total(&worst(count)).unwrap().map(|total| (total.sq_err, total.n_pixels));
        assert_eq!(told(1), Some((4_501_400_872_550_400.0, MOST_SAMPLES)));
        assert_eq!(told(2), Some((9_002_801_745_100_800.0, 2 * MOST_SAMPLES)));
        let refused = total(&worst(3)).unwrap_err();
        let fault = refused.at("frame 7");
        assert_eq!(fault.refusal, Some(Refusal::Total));
        assert!(fault.message.starts_with("frame 7, plane combined: squared error: refusal 11: "), "{}", fault.message);
    }

    #[test]
    fn what_was_not_asked_for_has_no_total() {
        let mut planes = worst(3);
        planes[1].record = None;
        assert!(total(&planes).unwrap().is_none());
    }

    /// One after the other, and each under its own number, whatever came before.
    #[test]
    fn records_have_the_number_of_their_frame_and_plane() {
        for (chroma, planes) in [(Chroma::Cs400, 1), (Chroma::Cs420, 3), (Chroma::Cs422, 3), (Chroma::Cs444, 3)] {
            let format = Format { width: 16, height: 16, depth: 8, chroma };
            let samples = |add: u8| {
                let plane = |(number, shape): (usize, &Shape)| vec![add * number as u8; shape.width * shape.height];
                Frame { planes: format.shapes().iter().enumerate().map(plane).collect() }
            };
            let mut scorer =
                Scorer::new(&format, Metrics { ssim: false, scales: false, msssim: false, ..Metrics::ALL });
            for frame in [0, 9, 3, 2_000_000_000, u32::MAX, 1] {
                let scores = scorer.frame(frame, &samples(0), &samples(5)).unwrap();
                assert_eq!(scores.planes.len(), planes);
                for (number, plane) in scores.planes.iter().enumerate() {
                    let record = plane.record.unwrap();
                    assert_eq!((record.frame, record.plane), (frame, number as u32));
                    // each plane is off by five times its number
                    assert_eq!(record.sq_err, (25 * number * number) as f64 * record.n_pixels as f64);
                    assert_eq!(plane.error, Some(record.metrics()));
                }
                assert!(scores.combined.record.is_none() && scores.combined.error.is_some());
            }
        }
    }

    #[test]
    fn without_the_error_there_is_no_record() {
        let format = Format { width: 8, height: 8, depth: 8, chroma: Chroma::Cs400 };
        let mut scorer = Scorer::new(&format, Metrics { error: false, scales: false, msssim: false, ..Metrics::ALL });
        let frame = Frame { planes: vec![vec![7u8; 64]] };
        let scores = scorer.frame(7, &frame, &frame).unwrap();
        assert!(scores.planes[0].record.is_none() && scores.planes[0].error.is_none());
    }
}
