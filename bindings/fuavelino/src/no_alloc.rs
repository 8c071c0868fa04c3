//! Each export of the library as a safe function, with everything that it writes lent by the caller.
//!
//! A call that refuses leaves every lent place as it was, but that refusal 9 leaves scratch as acceptance does: the needed part 0, the
//! rest unchanged. Nothing here allocates. The functions above this module are these with the places kept for you.
//!
//! ```
//! use fuavelino::{no_alloc, Pair, Plane, Refusal, Shape};
//!
//! let plane = Plane { data: &[9u8; 12][..], stride: 4 };
//! let shape = Shape { width: 4, height: 3, bit_depth: 8 };
//! let mut pair = Pair::default();
//! // six sums for each of 4 columns, in as many lines as the least power of two not below 3 taps
//! assert_eq!(no_alloc::ssim_places(4, 3), 6 * 4 * 4);
//! let mut scratch = [7i64; 6 * 4 * 4];
//! let short = no_alloc::ssim(plane, plane, shape, &[64, 128, 64], &mut scratch[1..], &mut pair);
//! assert_eq!((short, scratch), (Err(Refusal::Scratch), [7; 96]));
//! no_alloc::ssim(plane, plane, shape, &[64, 128, 64], &mut scratch, &mut pair)?;
//! assert_eq!((pair.cs, scratch), (1.0, [0; 96]));
//! # Ok::<(), Refusal>(())
//! ```

mod rows;

pub use rows::{rows_begin, rows_feed, rows_finish, RowState};

use crate::exports;
use crate::locate::{Place, Tiles};
use crate::plane::{Pair, Plane, PlaneKind, PsnrMetrics, Record, Sample, Shape};
use crate::refusal::{outcome, Refusal};

/// The square root of `x`, the double nearest the exact one. Refuses 12.
#[inline]
pub fn root(x: f64, out: &mut f64) -> Result<(), Refusal> {
    outcome(exports::root(x, out))
}

/// Judges two planes by tests 1 to 6. `least` is the least side that is taken, 0 where any is.
pub fn check<T: Sample>(a: Plane<'_, T>, b: Plane<'_, T>, shape: Shape, least: usize) -> Result<(), Refusal> {
    outcome(T::check(a, b, shape, least))
}

/// The squared error of two planes, recorded as that of this plane of this frame. Refuses 1 2 4 5 6, and 10: the plane's number is above 2.
pub fn squared_error<T: Sample>(
    a: Plane<'_, T>,
    b: Plane<'_, T>,
    shape: Shape,
    frame: u32,
    plane: u32,
    out: &mut Record,
) -> Result<(), Refusal> {
    outcome(T::squared_error(a, b, shape, frame, plane, out))
}

/// Which of two candidates has the smaller squared error from the original: `which` becomes 1, the first's number, or 2
/// ([`Candidate`](crate::Candidate)), and 1 on a tie; `sq_err` becomes that candidate's error, as [`squared_error`] gives it. Refuses the lowest of
/// 1 2 4 5 6 that applies to any of the three planes.
pub fn better<T: Sample>(
    original: Plane<'_, T>,
    first: Plane<'_, T>,
    second: Plane<'_, T>,
    shape: Shape,
    sq_err: &mut f64,
    which: &mut u8,
) -> Result<(), Refusal> {
    outcome(T::better(original, first, second, shape, sq_err, which))
}

/// The first sample, row by row, at which two planes differ: `differs` becomes 1 and `place` says where, or it becomes 0 and `place` stays as
/// it was. Refuses 1 2 4 5 6.
pub fn first_difference<T: Sample>(
    a: Plane<'_, T>,
    b: Plane<'_, T>,
    shape: Shape,
    differs: &mut u8,
    place: &mut Place,
) -> Result<(), Refusal> {
    outcome(T::first_difference(a, b, shape, differs, place))
}

/// The places that the map of [`error_map`] needs, one for each tile. 0 where a side is 0 or past its limit: such a call is refused by a lower
/// number than 8, whatever is lent.
#[inline]
pub fn error_map_places(width: usize, height: usize) -> usize {
    exports::error_map_places(width, height)
}

/// The squared error of each tile, row by row, in the first places of `map`; the rest stay as they were. It needs [`error_map_places`].
/// Refuses 1 2 4 5 6 8.
pub fn error_map<T: Sample>(
    a: Plane<'_, T>,
    b: Plane<'_, T>,
    shape: Shape,
    map: &mut [u64],
    tiles: &mut Tiles,
) -> Result<(), Refusal> {
    outcome(T::error_map(a, b, shape, map, tiles))
}

/// The total of a run of records that rises, by frame and then by plane. Refuses 10 11.
#[inline]
pub fn series(records: &[Record], out: &mut PsnrMetrics) -> Result<(), Refusal> {
    outcome(exports::series(records, out))
}

/// PSNR of a run of records taken together: `hundredths` becomes that of a decibel, as [`Decibels`](crate::Decibels) says how close, and `identical` 0;
/// or, where the error is 0, 10,000 and 1. Refuses 10 11.
///
/// ```
/// use fuavelino::{no_alloc, Record, Refusal};
///
/// let record = Record { sq_err: 25.0, n_pixels: 3, sample_max: 255, frame: 7, plane: 0 };
/// let (mut hundredths, mut identical) = (7, 7);
/// assert_eq!(no_alloc::decibels(&[], &mut hundredths, &mut identical), Err(Refusal::Record));
/// assert_eq!((hundredths, identical), (7, 7));
/// no_alloc::decibels(&[record], &mut hundredths, &mut identical)?;
/// assert_eq!((hundredths, identical), (3_892, 0));
/// # Ok::<(), Refusal>(())
/// ```
#[inline]
pub fn decibels(records: &[Record], hundredths: &mut u32, identical: &mut u8) -> Result<(), Refusal> {
    outcome(exports::decibels(records, hundredths, identical))
}

/// The same of a total: what [`series`] writes, the figures of a record, or several of these added up. Refuses 10: no series adds up to it.
#[inline]
pub fn total_decibels(total: PsnrMetrics, hundredths: &mut u32, identical: &mut u8) -> Result<(), Refusal> {
    outcome(exports::total_decibels(total, hundredths, identical))
}

/// So many places serve for every kernel: no lawful one has more taps. Who lends them is never told 8 by [`kernel`].
pub const MOST_TAPS: usize = 255;

/// The chart's kernel for a plane of this height and of no smaller width, in the first `count` places of `taps`; the rest stay as they were.
/// Refuses 14 where the chart does not list the height, whatever is lent, and 8 where it does and there are fewer places than taps.
///
/// ```
/// use fuavelino::{no_alloc, Refusal};
///
/// let (mut taps, mut count) = ([9; 7], 0);
/// no_alloc::kernel(144, &mut taps, &mut count)?;
/// assert_eq!((taps, count), ([7, 60, 122, 60, 7, 9, 9], 5));
/// assert_eq!(no_alloc::kernel(144, &mut taps[..4], &mut count), Err(Refusal::Scratch));
/// assert_eq!(no_alloc::kernel(145, &mut taps, &mut count), Err(Refusal::Height));
/// # Ok::<(), Refusal>(())
/// ```
#[inline]
pub fn kernel(height: usize, taps: &mut [u16], count: &mut usize) -> Result<(), Refusal> {
    outcome(exports::kernel(height, taps, count))
}

/// The places of scratch that [`ssim`] needs: 6 × width × L, L the least power of two not below the count of taps. 0 where the width is 0
/// or past its limit, or the count of taps not 1 to [`MOST_TAPS`]: such a call is refused by a lower number than 8, whatever is lent.
#[inline]
pub fn ssim_places(width: usize, taps: usize) -> usize {
    exports::ssim_places(width, taps)
}

/// SSIM under a lent kernel. It needs [`ssim_places`] of scratch. Refuses 1 2 4 5 6 7 8 9. [`Kernel`](crate::Kernel) says which kernels are lawful:
/// among other things one of more than one tap does not end in 0.
pub fn ssim<T: Sample>(
    a: Plane<'_, T>,
    b: Plane<'_, T>,
    shape: Shape,
    kernel: &[u16],
    scratch: &mut [i64],
    out: &mut Pair,
) -> Result<(), Refusal> {
    outcome(T::ssim(a, b, shape, kernel, scratch, out))
}

/// The pair of [`ssim`], bit for bit, with no scratch: the whole window is summed afresh at every centre. So its cost grows with the square of the
/// count of taps, where that of [`ssim`] grows with the count. Refuses 1 2 4 5 6 7 9, and never 8.
pub fn plain_ssim<T: Sample>(
    a: Plane<'_, T>,
    b: Plane<'_, T>,
    shape: Shape,
    kernel: &[u16],
    out: &mut Pair,
) -> Result<(), Refusal> {
    outcome(T::plain_ssim(a, b, shape, kernel, out))
}

/// The places of scratch that [`msssim`] needs: 96 × width. 0 where the width is below 16 or past its limit: such a call is refused by a lower
/// number than 8, whatever is lent.
#[inline]
pub fn msssim_places(width: usize) -> usize {
    exports::msssim_places(width)
}

/// The 32-bit places that [`msssim`] needs for each plane: width × height. 0 where a side is below 16 or past its limit.
#[inline]
pub fn msssim_samples(width: usize, height: usize) -> usize {
    exports::msssim_samples(width, height)
}

/// The five scales, the planes themselves first. It needs [`msssim_places`] of scratch, and [`msssim_samples`] of 32 bits for each plane.
/// Refuses 1 2 3 4 5 6 8 9.
pub fn msssim<T: Sample>(
    a: Plane<'_, T>,
    b: Plane<'_, T>,
    shape: Shape,
    scratch: &mut [i64],
    a32: &mut [u32],
    b32: &mut [u32],
    out: &mut [Pair; 5],
) -> Result<(), Refusal> {
    outcome(T::msssim(a, b, shape, scratch, a32, b32, out))
}

/// PSNR-HVS. Refuses 1 2 3 4 5 6 9.
pub fn psnr_hvs<T: Sample>(
    a: Plane<'_, T>,
    b: Plane<'_, T>,
    shape: Shape,
    kind: PlaneKind,
    out: &mut f64,
) -> Result<(), Refusal> {
    outcome(T::psnr_hvs(a, b, shape, kind, out))
}

/// SSIM of three planes with chroma weight `c`: y + c × (u + v), and 1 + 2c. Refuses 13, then 9.
#[inline]
pub fn combine_ssim(c: f64, y: f64, u: f64, v: f64, sum: &mut f64, weight: &mut f64) -> Result<(), Refusal> {
    outcome(exports::combine_ssim(c, y, u, v, sum, weight))
}

/// PSNR-HVS of three planes with chroma weight `c`: (y + c × (u + v)) / (1 + 2c). Refuses 13, then 9.
#[inline]
pub fn combine_hvs(c: f64, y: f64, u: f64, v: f64, score: &mut f64) -> Result<(), Refusal> {
    outcome(exports::combine_hvs(c, y, u, v, score))
}

/// The transform of a block of 64 numbers from −8,191 to 8,191 ([`MOST_FORWARD`](crate::MOST_FORWARD)) into 64 places. Refuses 12.
///
/// So it takes samples, residues, which are differences of samples, and differences of residues. [`inverse`] gives each of them back:
///
/// ```
/// use fuavelino::{forward, inverse, Refusal, MOST_FORWARD};
///
/// fn less(a: [i32; 64], b: [i32; 64]) -> [i32; 64] {
///     std::array::from_fn(|i| a[i] - b[i])
/// }
///
/// // samples of 12 bits; each predicts the other, at one moment and at the next
/// let stripes: [i32; 64] = std::array::from_fn(|i| if i % 2 == 0 { 4_095 } else { 0 });
/// let negative = stripes.map(|sample| 4_095 - sample);
/// let residues = [less(stripes, negative), less(negative, stripes)];
/// let block = less(residues[1], residues[0]);
/// assert_eq!(block[..2], [-8_190, 8_190]);
///
/// let (mut coefs, mut back) = ([0; 64], [0; 64]);
/// forward(&block, &mut coefs)?;
/// inverse(&coefs, &mut back)?;
/// assert_eq!(back, block);
///
/// // one past the range: said, and nothing is written
/// assert_eq!(forward(&[MOST_FORWARD + 1; 64], &mut back), Err(Refusal::Value));
/// assert_eq!(back, block);
/// # Ok::<(), Refusal>(())
/// ```
#[inline]
pub fn forward(block: &[i32], out: &mut [i32]) -> Result<(), Refusal> {
    outcome(exports::forward(block, out))
}

/// The one block whose transform is these 64 coefficients, each from −2,097,151 to 2,097,151 ([`MOST_INVERSE`](crate::MOST_INVERSE)). Refuses 12.
///
/// What [`forward`] gave goes back to its block. Of other coefficients the block may be outside what forward takes:
///
/// ```
/// use fuavelino::{forward, inverse, Refusal, MOST_INVERSE};
///
/// let (mut block, mut coefs) = ([0; 64], [0; 64]);
/// coefs[0] = 65;
/// inverse(&coefs, &mut block)?;
/// assert_eq!(block, [8; 64]);
/// coefs[0] = MOST_INVERSE;
/// inverse(&coefs, &mut block)?;
/// assert_eq!(forward(&block, &mut coefs), Err(Refusal::Value));
/// # Ok::<(), Refusal>(())
/// ```
#[inline]
pub fn inverse(coefs: &[i32], out: &mut [i32]) -> Result<(), Refusal> {
    outcome(exports::inverse(coefs, out))
}
