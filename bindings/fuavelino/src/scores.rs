//! The calls as most callers want them: the answer comes back, and what a call works in is kept in a `Scratch`.

use crate::exports;
use crate::kernel::Kernel;
use crate::no_alloc::{self, msssim_places, msssim_samples, ssim_places};
use crate::plane::{Pair, Plane, PlaneKind, PsnrMetrics, Record, Sample, Shape};
use crate::refusal::Refusal;
use crate::scratch::Scratch;

pub use crate::no_alloc::{check, forward, inverse};

/// The least side of MS-SSIM.
const LEAST: usize = 16;

/// The squared error of the visible samples, with their count and their largest, recorded as that of this plane of this frame. Refuses 1 2 4 5 6,
/// and 10: the plane's number is above 2. The frame's may be any.
///
/// ```
/// use fuavelino::{squared_error, Plane, Record, Refusal, Shape};
///
/// let a = Plane { data: &[10u8, 20, 30], stride: 3 };
/// let b = Plane { data: &[13u8, 20, 26], stride: 3 };
/// let shape = Shape { width: 3, height: 1, bit_depth: 8 };
/// // luma of frame 7
/// let record = squared_error(a, b, shape, 7, 0)?;
/// assert_eq!(record, Record { sq_err: 25.0, n_pixels: 3, sample_max: 255, frame: 7, plane: 0 });
/// assert!(!record.is_identical());
/// assert_eq!(squared_error(a, b, shape, 7, 3), Err(Refusal::Record));
/// # Ok::<(), Refusal>(())
/// ```
pub fn squared_error<T: Sample>(
    a: Plane<'_, T>,
    b: Plane<'_, T>,
    shape: Shape,
    frame: u32,
    plane: u32,
) -> Result<Record, Refusal> {
    let mut record = Record::default();
    no_alloc::squared_error(a, b, shape, frame, plane, &mut record)?;
    Ok(record)
}

/// The total of a run of records: errors and counts added, under their one largest sample. They rise, by frame and then by plane, so that none is
/// counted twice. Refuses 10 11.
///
/// ```
/// use fuavelino::{series, Record, Refusal};
///
/// let luma = Record { sq_err: 25.0, n_pixels: 3, sample_max: 255, frame: 7, plane: 0 };
/// let chroma = Record { plane: 1, ..luma };
/// assert_eq!(series(&[luma, chroma])?.sq_err, 50.0);
/// // the same plane twice, and planes out of their order
/// assert_eq!(series(&[luma, luma]), Err(Refusal::Record));
/// assert_eq!(series(&[chroma, luma]), Err(Refusal::Record));
/// assert_eq!(series(&[]), Err(Refusal::Record));
/// # Ok::<(), Refusal>(())
/// ```
pub fn series(records: &[Record]) -> Result<PsnrMetrics, Refusal> {
    let mut total = PsnrMetrics::default();
    no_alloc::series(records, &mut total)?;
    Ok(total)
}

/// SSIM under a kernel. Refuses 1 2 4 5 6 7 9, and 8 only where there is no memory for its scratch. [`Kernel`] says which kernels are lawful: among
/// other things one of more than one tap does not end in 0, which [`Kernel::trimmed`] sees to.
///
/// ```
/// use fuavelino::{ssim, Kernel, Plane, Scratch, Shape};
///
/// let samples: Vec<u8> = (0..=255).collect();
/// let plane = Plane { data: &samples, stride: 16 };
/// let shape = Shape { width: 16, height: 16, bit_depth: 8 };
/// let mut scratch = Scratch::new();
/// let pair = ssim(plane, plane, shape, &Kernel::for_plane(16, 16), &mut scratch)?;
/// assert!((pair.ssim - 1.0).abs() < 1e-9);
/// # Ok::<(), fuavelino::Refusal>(())
/// ```
pub fn ssim<T: Sample>(
    a: Plane<'_, T>,
    b: Plane<'_, T>,
    shape: Shape,
    kernel: &Kernel,
    scratch: &mut Scratch,
) -> Result<Pair, Refusal> {
    let sums = ssim_places(shape.width, kernel.taps().len());
    if !scratch.holds(sums, 0) {
        // it grows for planes that are taken only, so that a wild shape asks for no memory
        check(a, b, shape, 0)?;
        scratch.grow(sums, 0);
    }
    let mut pair = Pair::default();
    no_alloc::ssim(a, b, shape, kernel.taps(), &mut scratch.sums, &mut pair)?;
    Ok(pair)
}

/// The pair of [`ssim`], bit for bit, by an engine that sums the whole window afresh at every centre: it reads like the definition, and needs no
/// scratch. Its cost grows with the square of the count of taps, where that of [`ssim`] grows with the count, so that it suits short kernels, and whoever wants a
/// second way to the same answer. Refuses 1 2 4 5 6 7 9, and never 8.
///
/// ```
/// use fuavelino::{plain_ssim, ssim, Kernel, Plane, Scratch, Shape};
///
/// let samples: Vec<u8> = (0..=255).collect();
/// let darker: Vec<u8> = samples.iter().map(|sample| sample / 2).collect();
/// let (a, b) = (Plane { data: &samples, stride: 16 }, Plane { data: &darker, stride: 16 });
/// let shape = Shape { width: 16, height: 16, bit_depth: 8 };
/// let kernel = Kernel::from_taps(vec![10, 60, 116, 60, 10]);
/// let pair = plain_ssim(a, b, shape, &kernel)?;
/// assert_eq!(pair, ssim(a, b, shape, &kernel, &mut Scratch::new())?);
/// # Ok::<(), fuavelino::Refusal>(())
/// ```
pub fn plain_ssim<T: Sample>(a: Plane<'_, T>, b: Plane<'_, T>, shape: Shape, kernel: &Kernel) -> Result<Pair, Refusal> {
    let mut pair = Pair::default();
    no_alloc::plain_ssim(a, b, shape, kernel.taps(), &mut pair)?;
    Ok(pair)
}

/// The five scales of MS-SSIM, the planes themselves first. Sides are at least 16. Refuses 1 2 3 4 5 6 9, and 8 only where there is no
/// memory for its scratch.
///
/// ```
/// use fuavelino::{msssim, Plane, Refusal, Scratch, Shape};
///
/// let samples: Vec<u8> = (0..=255).collect();
/// let plane = Plane { data: &samples, stride: 16 };
/// let mut scratch = Scratch::new();
/// let pairs = msssim(plane, plane, Shape { width: 16, height: 16, bit_depth: 8 }, &mut scratch)?;
/// assert!(pairs.iter().all(|pair| (pair.cs - 1.0).abs() < 1e-9));
/// let low = Shape { width: 16, height: 15, bit_depth: 8 };
/// assert_eq!(msssim(plane, plane, low, &mut scratch), Err(Refusal::Side));
/// # Ok::<(), Refusal>(())
/// ```
pub fn msssim<T: Sample>(
    a: Plane<'_, T>,
    b: Plane<'_, T>,
    shape: Shape,
    scratch: &mut Scratch,
) -> Result<[Pair; 5], Refusal> {
    let (sums, samples) = (msssim_places(shape.width), msssim_samples(shape.width, shape.height));
    if !scratch.holds(sums, samples) {
        check(a, b, shape, LEAST)?;
        scratch.grow(sums, samples);
    }
    let mut pairs = [Pair::default(); 5];
    no_alloc::msssim(a, b, shape, &mut scratch.sums, &mut scratch.a32, &mut scratch.b32, &mut pairs)?;
    Ok(pairs)
}

/// PSNR-HVS: the mean error as the eye weighs it, 0 where nothing is seen. Sides are at least 8. Refuses 1 2 3 4 5 6 9.
///
/// ```
/// use fuavelino::{psnr_hvs, Plane, PlaneKind, Refusal, Shape};
///
/// let (a, b) = ([7u8; 64], [7u8; 64]);
/// let (a, b) = (Plane { data: &a, stride: 8 }, Plane { data: &b, stride: 8 });
/// let shape = Shape { width: 8, height: 8, bit_depth: 8 };
/// assert_eq!(psnr_hvs(a, b, shape, PlaneKind::Y), Ok(0.0));
/// assert_eq!(psnr_hvs(a, b, Shape { height: 7, ..shape }, PlaneKind::Y), Err(Refusal::Side));
/// ```
pub fn psnr_hvs<T: Sample>(a: Plane<'_, T>, b: Plane<'_, T>, shape: Shape, kind: PlaneKind) -> Result<f64, Refusal> {
    let mut score = 0.0;
    no_alloc::psnr_hvs(a, b, shape, kind, &mut score)?;
    Ok(score)
}

/// SSIM of three planes with chroma weight `c`: the sum y + c × (u + v) and the weight 1 + 2c. Refuses 13, then 9.
///
/// ```
/// use fuavelino::{combine_ssim, Refusal};
///
/// assert_eq!(combine_ssim(0.25, 1.0, 0.5, 0.5), Ok((1.25, 1.5)));
/// assert_eq!(combine_ssim(0.25, f64::NAN, 0.5, 0.5), Err(Refusal::Weight));
/// ```
pub fn combine_ssim(c: f64, y: f64, u: f64, v: f64) -> Result<(f64, f64), Refusal> {
    let (mut sum, mut weight) = (0.0, 0.0);
    no_alloc::combine_ssim(c, y, u, v, &mut sum, &mut weight)?;
    Ok((sum, weight))
}

/// PSNR-HVS of three planes with chroma weight `c`: their average, (y + c × (u + v)) / (1 + 2c). Refuses 13, then 9, exactly where
/// [`combine_ssim`] does for the same numbers.
///
/// It lies between the least and the largest of the three up to rounding: of three equal scores it is that score, or a few units in the last place
/// off. av-metrics multiplies by 1 + 2c, where this divides.
///
/// ```
/// use fuavelino::{combine_hvs, Refusal};
///
/// assert_eq!(combine_hvs(0.5, 1.0, 2.0, 2.0), Ok(1.5));
/// assert_eq!(combine_hvs(0.25, 0.75, 0.75, 0.75), Ok(0.75));
/// assert_eq!(combine_hvs(1.5, 1.0, 2.0, 2.0), Err(Refusal::Weight));
/// ```
pub fn combine_hvs(c: f64, y: f64, u: f64, v: f64) -> Result<f64, Refusal> {
    let mut score = 0.0;
    no_alloc::combine_hvs(c, y, u, v, &mut score)?;
    Ok(score)
}

/// The double nearest the exact square root. Refuses 12: what is not +0 or positive and finite.
///
/// ```
/// assert_eq!(fuavelino::root(2.0).map(f64::to_bits), Ok(0x3FF6_A09E_667F_3BCD));
/// assert_eq!(fuavelino::root(-0.0), Err(fuavelino::Refusal::Value));
/// ```
pub fn root(x: f64) -> Result<f64, Refusal> {
    let mut out = 0.0;
    no_alloc::root(x, &mut out)?;
    Ok(out)
}

/// The version of the library that is linked: 10,000 × major + 100 × minor + patch.
///
/// ```
/// assert!(fuavelino::version() >= 100, "older than 0.1.0");
/// ```
pub fn version() -> u32 {
    exports::version()
}
