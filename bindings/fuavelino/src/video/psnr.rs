//! PSNR.

use super::{combining, finite, of_planes, scored, ChromaSampling, Field, Frame, MetricsError, PlanarMetrics, PERFECT};
use crate::plane::{PsnrMetrics, Sample};
use crate::scores::{series, squared_error};

/// PSNR of two frames in decibels; higher is better, and identical planes are 100. `avg` is that of all samples together.
///
/// These are av-metrics' figures, by the host's `log10`, for whoever compares with it. Proved, with a known error, are
/// [`Record::hundredths`](crate::Record::hundredths) of the planes' records and [`decibels`](crate::decibels()) of them together: let these decide.
///
/// ```
/// use fuavelino::video::psnr::calculate_frame_psnr;
/// use fuavelino::video::{ChromaSampling, Frame, MetricsError, Plane, PlaneConfig};
/// use fuavelino::Refusal;
///
/// fn frame(y: &[u8]) -> Frame<'_, u8> {
///     let luma = Plane { data: y, cfg: PlaneConfig { width: 3, height: 1, stride: 3 } };
///     let chroma = Plane { data: &[128u8; 2][..], cfg: PlaneConfig { width: 2, height: 1, stride: 2 } };
///     Frame { planes: [luma, chroma, chroma] }
/// }
///
/// let figures = calculate_frame_psnr(&frame(&[10, 20, 30]), &frame(&[13, 20, 26]), 8, ChromaSampling::Cs420)?;
/// assert!((figures.y - 38.92).abs() < 0.01);
/// assert_eq!((figures.u, figures.v), (100.0, 100.0));
/// // nothing that is not a number can come out, and nothing is checked first
/// let short = calculate_frame_psnr(&frame(&[10, 20, 30]), &frame(&[13, 20]), 8, ChromaSampling::Cs420);
/// assert!(matches!(short, Err(MetricsError::Refused { refusal: Refusal::Short, .. })));
/// # Ok::<(), MetricsError>(())
/// ```
pub fn calculate_frame_psnr<T: Sample>(
    frame1: &Frame<'_, T>,
    frame2: &Frame<'_, T>,
    bit_depth: usize,
    chroma_sampling: ChromaSampling,
) -> Result<PlanarMetrics, MetricsError> {
    let records = scored(frame1, frame2, bit_depth, chroma_sampling, |a, b, shape, kind| {
        squared_error(a, b, shape, 0, kind.number())
    })?;
    let total = series(&records[..chroma_sampling.count()]).map_err(combining)?;
    let avg = decibels(total).ok_or(MetricsError::NotANumber { field: Field::Avg })?;
    Ok(PlanarMetrics { avg, ..of_planes(records, |record| decibels(record.metrics()))? })
}

/// The decibels of a record's figures or a total by the host's `log10`, as av-metrics has them, 100 where the error is 0; none where they would not be
/// finite, or nothing was compared. [`PsnrMetrics::hundredths`] is what is proved.
pub fn decibels(total: PsnrMetrics) -> Option<f64> {
    if total.is_identical() {
        return Some(PERFECT);
    }
    let power = f64::from(total.sample_max) * f64::from(total.sample_max);
    finite(10.0 * (power.log10() + (total.n_pixels as f64).log10() - total.sq_err.log10()))
}
