//! PSNR-HVS.

use super::{combining, finite, of_planes, scored, ChromaSampling, Field, Frame, MetricsError, PlanarMetrics, PERFECT};
use crate::plane::Sample;
use crate::scores::{combine_hvs, psnr_hvs};

/// PSNR-HVS of two frames in decibels; higher is better, and 100 where no error is seen.
///
/// `avg` is not av-metrics' figure, which multiplies by 1 + 2c where an average must divide. It is the decibels of the average, and higher by
/// 20 × log10(1 + 2c): by 3.52 for `Cs420`, 6.02 for `Cs422`, 9.54 for `Cs444`, by nothing for `Cs400`. A limit that was found with av-metrics'
/// `avg` has to rise by as much.
pub fn calculate_frame_psnr_hvs<T: Sample>(
    frame1: &Frame<'_, T>,
    frame2: &Frame<'_, T>,
    bit_depth: usize,
    chroma_sampling: ChromaSampling,
) -> Result<PlanarMetrics, MetricsError> {
    let scores = scored(frame1, frame2, bit_depth, chroma_sampling, psnr_hvs)?;
    let [y, u, v] = scores;
    let all = combine_hvs(chroma_sampling.get_chroma_weight(), y, u, v).map_err(combining)?;
    let avg = decibels(all).ok_or(MetricsError::NotANumber { field: Field::Avg })?;
    Ok(PlanarMetrics { avg, ..of_planes(scores, decibels)? })
}

/// The decibels of a score, 100 for 0; none where they would not be finite.
pub fn decibels(score: f64) -> Option<f64> {
    if score == 0.0 {
        return Some(PERFECT);
    }
    finite(-10.0 * score.log10())
}
