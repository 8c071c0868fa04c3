//! SSIM and MS-SSIM.

use super::{combining, finite, of_planes, scored, ChromaSampling, Field, Frame, MetricsError, PlanarMetrics, PERFECT};
use crate::kernel::Kernel;
use crate::plane::{Pair, Sample};
use crate::scores::{combine_ssim, msssim, ssim};
use crate::scratch::Scratch;

/// What each scale weighs in MS-SSIM's product. They are rounded, and sum to 1.0001.
const SCALES: [f64; 5] = [0.0448, 0.2856, 0.3001, 0.2363, 0.1333];

/// How far rounding may take a score past its weight.
const ROUNDING: f64 = 1e-6;

/// SSIM of two frames in decibels; higher is better. Each plane has the kernel that its sides choose. It makes room for its own use: to
/// keep that over many frames, lend it to [`calculate_frame_ssim_with`].
///
/// ```
/// use fuavelino::video::ssim::calculate_frame_ssim;
/// use fuavelino::video::{ChromaSampling, Frame, MetricsError, Plane, PlaneConfig};
///
/// let (a, b) = ([100u8; 64], [90u8; 64]);
/// let gray = |samples| {
///     let none = Plane { data: &[][..], cfg: PlaneConfig { width: 0, height: 0, stride: 0 } };
///     Frame { planes: [Plane { data: samples, cfg: PlaneConfig { width: 8, height: 8, stride: 8 } }, none, none] }
/// };
/// let figures = calculate_frame_ssim(&gray(&a[..]), &gray(&b[..]), 8, ChromaSampling::Cs400)?;
/// assert!(figures.y > 20.0 && figures.y < 25.0 && figures.avg == figures.y);
/// assert_eq!(calculate_frame_ssim(&gray(&a[..]), &gray(&a[..]), 8, ChromaSampling::Cs400)?.y, 100.0);
/// # Ok::<(), MetricsError>(())
/// ```
pub fn calculate_frame_ssim<T: Sample>(
    frame1: &Frame<'_, T>,
    frame2: &Frame<'_, T>,
    bit_depth: usize,
    chroma_sampling: ChromaSampling,
) -> Result<PlanarMetrics, MetricsError> {
    calculate_frame_ssim_with(frame1, frame2, bit_depth, chroma_sampling, &mut Scratch::new())
}

/// The same in lent scratch.
pub fn calculate_frame_ssim_with<T: Sample>(
    frame1: &Frame<'_, T>,
    frame2: &Frame<'_, T>,
    bit_depth: usize,
    chroma_sampling: ChromaSampling,
    scratch: &mut Scratch,
) -> Result<PlanarMetrics, MetricsError> {
    let scores = scored(frame1, frame2, bit_depth, chroma_sampling, |a, b, shape, _| {
        let kernel = Kernel::for_plane(shape.width, shape.height);
        ssim(a, b, shape, &kernel, scratch).map(|pair| pair.ssim)
    })?;
    combined(scores, chroma_sampling)
}

/// MS-SSIM of two frames in decibels; higher is better. It makes room for its own use: to keep that over many frames, lend it to
/// [`calculate_frame_msssim_with`].
pub fn calculate_frame_msssim<T: Sample>(
    frame1: &Frame<'_, T>,
    frame2: &Frame<'_, T>,
    bit_depth: usize,
    chroma_sampling: ChromaSampling,
) -> Result<PlanarMetrics, MetricsError> {
    calculate_frame_msssim_with(frame1, frame2, bit_depth, chroma_sampling, &mut Scratch::new())
}

/// The same in lent scratch.
pub fn calculate_frame_msssim_with<T: Sample>(
    frame1: &Frame<'_, T>,
    frame2: &Frame<'_, T>,
    bit_depth: usize,
    chroma_sampling: ChromaSampling,
    scratch: &mut Scratch,
) -> Result<PlanarMetrics, MetricsError> {
    let pairs = scored(frame1, frame2, bit_depth, chroma_sampling, |a, b, shape, _| msssim(a, b, shape, scratch))?;
    combined(pairs.map(|five| product(&five)), chroma_sampling)
}

/// MS-SSIM's one score of five scales: contrasts of the first four and the score of the last, each to its power. It is not a number where
/// one of them is negative.
pub fn product(pairs: &[Pair; 5]) -> f64 {
    let contrasts = (0..4).map(|i| pairs[i].cs.powf(SCALES[i]));
    contrasts.fold(1.0, |all, one| all * one) * pairs[4].ssim.powf(SCALES[4])
}

/// The decibels of a score that could at best come to its weight, 100 where it does; none where they would not be finite.
pub fn decibels(score: f64, weight: f64) -> Option<f64> {
    let left = weight - score;
    if left <= 0.0 && left > -ROUNDING {
        return Some(PERFECT);
    }
    finite(10.0 * (weight.log10() - left.log10()))
}

fn combined(scores: [f64; 3], sampling: ChromaSampling) -> Result<PlanarMetrics, MetricsError> {
    let planes = of_planes(scores, |score| decibels(score, 1.0))?;
    let [y, u, v] = scores;
    let (sum, weight) = combine_ssim(sampling.get_chroma_weight(), y, u, v).map_err(combining)?;
    let avg = decibels(sum, weight).ok_or(MetricsError::NotANumber { field: Field::Avg })?;
    Ok(PlanarMetrics { avg, ..planes })
}
