//! For those who come from av-metrics 0.9.1: its frame functions, with its names and order of arguments, over these scores.
//!
//! The scores of the planes and their combination are the library's, and proved. The decibels and MS-SSIM's product of powers are **not
//! proved**: they are worked out here by the host's `log10` and `powf`, step by step as av-metrics does. PSNR has decibels that are:
//! [`PsnrMetrics::hundredths`](crate::PsnrMetrics::hundredths).
//!
//! An `Ok` holds finite numbers only, so that `score < threshold` can be trusted to stop what is bad:
//!
//! - A score with nothing left to find fault with, for which av-metrics gives infinity (or, where rounding takes SSIM past 1, not a
//!   number), is 100 decibels, as it is for PSNR of identical planes. Nothing is capped: a score just short of it can be above 100.
//! - A number that is not one, as MS-SSIM's power of a negative contrast gives in av-metrics, is [`MetricsError::NotANumber`].
//! - With [`ChromaSampling::Cs400`] only the first plane is looked at, and `u`, `v` and `avg` repeat `y`.
//!
//! One figure is another than av-metrics': `avg` of [`psnr_hvs::calculate_frame_psnr_hvs`], which says by how much.

use crate::plane::{PlaneKind, Sample, Shape};
use crate::refusal::Refusal;
use std::error::Error;
use std::fmt;

pub mod psnr;
pub mod psnr_hvs;
pub mod ssim;

/// What is said in decibels of a score that nothing can better.
pub const PERFECT: f64 = 100.0;

/// The sides of a plane, and from the start of one row to that of the next.
#[derive(Clone, Copy, Debug, PartialEq, Eq)]
pub struct PlaneConfig {
    /// Visible samples in a row.
    pub width: usize,
    /// Rows.
    pub height: usize,
    /// Samples from row to row. Both planes of a pair may have their own.
    pub stride: usize,
}

/// A plane of a frame. `data` begins at the first visible sample: `data_origin()` of a v_frame plane.
#[derive(Clone, Copy, Debug)]
pub struct Plane<'a, T> {
    /// The samples.
    pub data: &'a [T],
    /// Where they stand.
    pub cfg: PlaneConfig,
}

/// The planes of a frame: y, u, v. With [`ChromaSampling::Cs400`] the last two may be anything, also empty.
#[derive(Clone, Copy, Debug)]
pub struct Frame<'a, T> {
    /// The planes.
    pub planes: [Plane<'a, T>; 3],
}

/// How chroma is sampled. It decides what chroma weighs in the average, not how large its planes must be.
#[derive(Clone, Copy, Debug, PartialEq, Eq, Hash)]
pub enum ChromaSampling {
    /// Half as wide and half as high.
    Cs420,
    /// Half as wide.
    Cs422,
    /// As large as luma.
    Cs444,
    /// There is none.
    Cs400,
}

impl ChromaSampling {
    /// What a chroma plane weighs beside luma's 1.
    pub fn get_chroma_weight(self) -> f64 {
        match self {
            ChromaSampling::Cs420 => 0.25,
            ChromaSampling::Cs422 => 0.5,
            ChromaSampling::Cs444 => 1.0,
            ChromaSampling::Cs400 => 0.0,
        }
    }

    /// How many planes are scored.
    fn count(self) -> usize {
        match self {
            ChromaSampling::Cs400 => 1,
            _ => 3,
        }
    }
}

/// A figure for each plane and one for all.
#[derive(Clone, Copy, Debug, Default, PartialEq)]
pub struct PlanarMetrics {
    /// Of luma.
    pub y: f64,
    /// Of the first chroma plane.
    pub u: f64,
    /// Of the second chroma plane.
    pub v: f64,
    /// Of the three together, chroma weighted.
    pub avg: f64,
}

/// A field of [`PlanarMetrics`].
#[derive(Clone, Copy, Debug, PartialEq, Eq, Hash)]
pub enum Field {
    /// Luma.
    Y,
    /// The first chroma plane.
    U,
    /// The second chroma plane.
    V,
    /// The three together.
    Avg,
}

impl fmt::Display for Field {
    fn fmt(&self, f: &mut fmt::Formatter<'_>) -> fmt::Result {
        f.write_str(match self {
            Field::Y => "y",
            Field::U => "u",
            Field::V => "v",
            Field::Avg => "avg",
        })
    }
}

/// Why there are no figures.
#[derive(Clone, Copy, Debug, PartialEq, Eq)]
#[non_exhaustive]
pub enum MetricsError {
    /// The two frames' planes differ in width or height.
    InputMismatch {
        /// The first such plane.
        field: Field,
    },
    /// The library refuses.
    Refused {
        /// The first plane that it refuses, or the combination.
        field: Field,
        /// Why.
        refusal: Refusal,
    },
    /// The decibels would not be a number.
    NotANumber {
        /// The first such figure.
        field: Field,
    },
}

impl fmt::Display for MetricsError {
    fn fmt(&self, f: &mut fmt::Formatter<'_>) -> fmt::Result {
        match self {
            MetricsError::InputMismatch { field } => write!(f, "{}: the two planes differ in size", field),
            MetricsError::Refused { field, refusal } => write!(f, "{}: {}", field, refusal),
            MetricsError::NotANumber { field } => write!(f, "{}: the decibels are not a number", field),
        }
    }
}

impl Error for MetricsError {
    fn source(&self) -> Option<&(dyn Error + 'static)> {
        match self {
            MetricsError::Refused { refusal, .. } => Some(refusal),
            _ => None,
        }
    }
}

/// The planes in order.
const PLANES: [(PlaneKind, Field); 3] = [(PlaneKind::Y, Field::Y), (PlaneKind::U, Field::U), (PlaneKind::V, Field::V)];

/// Scores each plane that the sampling has; what it has not repeats the first.
fn scored<T: Sample, R: Copy>(
    frame1: &Frame<'_, T>,
    frame2: &Frame<'_, T>,
    bit_depth: usize,
    sampling: ChromaSampling,
    mut score: impl FnMut(crate::Plane<'_, T>, crate::Plane<'_, T>, Shape, PlaneKind) -> Result<R, Refusal>,
) -> Result<[R; 3], MetricsError> {
    let mut one = |i: usize| {
        let (kind, field) = PLANES[i];
        let (a, b, shape) = pair(&frame1.planes[i], &frame2.planes[i], bit_depth);
        score(a, b, shape, kind).map_err(|refusal| MetricsError::Refused { field, refusal })
    };
    let unlike = |i: &usize| size(&frame1.planes[*i]) != size(&frame2.planes[*i]);
    if let Some(i) = (0..sampling.count()).find(unlike) {
        return Err(MetricsError::InputMismatch { field: PLANES[i].1 });
    }
    let y = one(0)?;
    match sampling {
        ChromaSampling::Cs400 => Ok([y; 3]),
        _ => Ok([y, one(1)?, one(2)?]),
    }
}

fn size<T>(plane: &Plane<'_, T>) -> (usize, usize) {
    (plane.cfg.width, plane.cfg.height)
}

/// Two planes of one size, as they are lent.
fn pair<'a, T>(
    plane1: &Plane<'a, T>,
    plane2: &Plane<'a, T>,
    bit_depth: usize,
) -> (crate::Plane<'a, T>, crate::Plane<'a, T>, Shape) {
    let lent = |plane: &Plane<'a, T>| crate::Plane { data: plane.data, stride: plane.cfg.stride };
    // a depth that 32 bits do not hold is no lawful one either
    let bit_depth = u32::try_from(bit_depth).unwrap_or(u32::MAX);
    (lent(plane1), lent(plane2), Shape { width: plane1.cfg.width, height: plane1.cfg.height, bit_depth })
}

/// The decibels of each plane, `avg` to be filled in.
fn of_planes<R: Copy>(scores: [R; 3], decibels: impl Fn(R) -> Option<f64>) -> Result<PlanarMetrics, MetricsError> {
    let one = |i: usize| decibels(scores[i]).ok_or(MetricsError::NotANumber { field: PLANES[i].1 });
    Ok(PlanarMetrics { y: one(0)?, u: one(1)?, v: one(2)?, avg: 0.0 })
}

/// What befell the combination.
fn combining(refusal: Refusal) -> MetricsError {
    MetricsError::Refused { field: Field::Avg, refusal }
}

/// The number, where it is finite.
fn finite(x: f64) -> Option<f64> {
    Some(x).filter(|x| x.is_finite())
}
