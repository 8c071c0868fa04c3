//! What every form of report tells: the job, each frame as it is scored, and the end.

use crate::decibels::{mean_error, Decibels};
use crate::opened::Subject;
use crate::score::{FrameScores, Metrics, Scores};
use crate::stop::Fault;
use crate::summary::Summary;
use crate::thresholds::{figures, Broken, Figure, Threshold};
use crate::value::Value;
use fuavelino::Kernel;
use std::io::{self, Write};

/// What is compared, and what is asked.
pub struct Job<'a> {
    pub subject: Subject<'a>,
    pub metrics: Metrics,
    pub thresholds: &'a [Threshold],
    /// The kernel of each plane, where SSIM is asked and the planes are known.
    pub kernels: Option<Vec<Kernel>>,
}

/// How it ended.
pub struct End<'a> {
    pub frames: u64,
    /// The run's figures, where every frame had its scores.
    pub run: Option<&'a FrameScores>,
    /// The thresholds that the run's own figures break.
    pub run_broken: &'a [Broken],
    /// What all frames come to, likewise.
    pub summary: Option<&'a Summary>,
    pub worst: &'a Worst,
    /// How many times a threshold was broken.
    pub broken: u64,
    pub fault: Option<&'a Fault>,
    pub status: u8,
}

pub trait Report {
    fn begin(&mut self, out: &mut dyn Write, job: &Job<'_>) -> io::Result<()>;
    fn frame(&mut self, out: &mut dyn Write, number: u64, scores: &FrameScores, broken: &[Broken]) -> io::Result<()>;
    fn end(&mut self, out: &mut dyn Write, end: &End<'_>) -> io::Result<()>;
}

/// A frame, by the worst figure of a kind among its planes.
#[derive(Clone, Debug, PartialEq)]
pub struct Place {
    pub field: &'static str,
    pub frame: u64,
    pub plane: &'static str,
    pub value: f64,
}

/// How many frames are told for each figure.
const TEN: usize = 10;

/// The worst frames by each figure that is followed, the worst first.
#[derive(Default)]
pub struct Worst {
    places: [Vec<Place>; 5],
}

/// The figures that are followed, and whether the least is the worst.
const FOLLOWED: [(Figure, bool); 5] = [
    (Figure::MeanError, false),
    (Figure::Ssim, true),
    (Figure::Scale, true),
    (Figure::MsSsim, true),
    (Figure::Hvs, false),
];

impl Worst {
    /// For each figure that was asked, its frames; the first in the video where several are alike.
    pub fn places(&self) -> impl Iterator<Item = &[Place]> {
        self.places.iter().filter(|places| !places.is_empty()).map(|places| &places[..])
    }

    pub fn add(&mut self, frame: u64, scores: &FrameScores) {
        for (kept, (figure, least)) in self.places.iter_mut().zip(FOLLOWED) {
            let worse = |value: f64, than: f64| if least { value < than } else { value > than };
            if let Some(place) = worst_of(frame, scores, figure, worse) {
                let at = kept.iter().position(|other| worse(place.value, other.value)).unwrap_or(kept.len());
                kept.insert(at, place);
                kept.truncate(TEN);
            }
        }
    }
}

/// The worst figure of a kind among a frame's planes.
fn worst_of(frame: u64, scores: &FrameScores, figure: Figure, worse: impl Fn(f64, f64) -> bool) -> Option<Place> {
    let mut worst: Option<Place> = None;
    for (plane, scores) in scores.named().take(scores.planes.len()) {
        for (field, value) in figures(figure, scores) {
            match (value, &worst) {
                (Value::Double(value), Some(other)) if !worse(value, other.value) => {}
                (Value::Double(value), _) => worst = Some(Place { field, frame, plane, value }),
                _ => {}
            }
        }
    }
    worst
}

/// The names of a plane's figures, in order.
pub const FIELDS: [&str; 24] = [
    "sq_err",
    "n_pixels",
    "sample_max",
    "identical",
    "mse",
    "psnr_hundredths",
    "psnr_db",
    "ssim",
    "cs",
    "ssim_db",
    "scale1_ssim",
    "scale1_cs",
    "scale2_ssim",
    "scale2_cs",
    "scale3_ssim",
    "scale3_cs",
    "scale4_ssim",
    "scale4_cs",
    "scale5_ssim",
    "scale5_cs",
    "msssim",
    "msssim_db",
    "hvs",
    "hvs_db",
];

/// The figures under those names.
pub fn values(scores: &Scores) -> Vec<Value> {
    let double = Value::double;
    let decibels = |value: Option<Decibels>| double(value.map(Decibels::told));
    let mut list = match &scores.error {
        Some(record) => vec![
            Value::Double(record.sq_err),
            Value::Whole(record.n_pixels),
            Value::Whole(u64::from(record.sample_max)),
            Value::Truth(record.is_identical()),
            Value::Double(mean_error(record)),
            Value::psnr(scores.psnr),
            decibels(scores.psnr_db),
        ],
        None => vec![Value::None; 7],
    };
    list.push(double(scores.ssim.map(|pair| pair.ssim)));
    list.push(double(scores.ssim.map(|pair| pair.cs)));
    list.push(decibels(scores.ssim_db));
    for scale in 0..5 {
        list.push(double(scores.scales.map(|pairs| pairs[scale].ssim)));
        list.push(double(scores.scales.map(|pairs| pairs[scale].cs)));
    }
    list.extend([double(scores.msssim), decibels(scores.msssim_db)]);
    list.extend([double(scores.hvs), decibels(scores.hvs_db)]);
    list
}

/// Which score each of the fields belongs to, by its number in `Metrics::NAMES`.
pub fn metric_of(field: usize) -> usize {
    match field {
        0..=6 => 0,
        7..=9 => 1,
        10..=19 => 2,
        20..=21 => 3,
        _ => 4,
    }
}
