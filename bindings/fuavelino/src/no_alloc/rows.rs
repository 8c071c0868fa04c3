//! The row-fed form of SSIM: the state that its caller holds, and the calls that are lent it.

use super::MOST_TAPS;
use crate::exports;
use crate::plane::{Pair, Plane, Sample, Shape};
use crate::refusal::{outcome, Refusal};

/// What stays between [`rows_begin`], [`rows_feed`] and [`rows_finish`], beside the scratch, which is lent to each of them too.
/// [`RowFed`](crate::RowFed) keeps both.
///
/// The calls write it. Any may be lent: one that no begin and feeds of the sample width could give is refused with 15, before anything else is
/// judged; the sums are not judged. Who alters them or the scratch, or lends an older state, may be told any answer; still only what is lent is read
/// or written.
///
/// ```
/// use fuavelino::{no_alloc::{self, RowState}, Pair, Plane, Refusal, Shape};
///
/// let shape = Shape { width: 4, height: 3, bit_depth: 8 };
/// let (mut scratch, mut state, mut pair) = ([7i64; 6 * 4 * 4], RowState::default(), Pair::default());
/// no_alloc::rows_begin::<u8>(shape, &[64, 128, 64], &mut scratch, &mut state)?;
/// for row in [[9u8; 4], [8; 4], [9; 4]] {
///     let (a, b) = (Plane { data: &row[..], stride: 4 }, Plane { data: &[9u8; 4][..], stride: 4 });
///     // said, and nothing is changed: the same row can be fed again
///     let short = no_alloc::rows_feed(a, b, 2, &mut scratch, &mut state);
///     assert_eq!(short, Err(Refusal::Short));
///     no_alloc::rows_feed(a, b, 1, &mut scratch, &mut state)?;
/// }
/// assert_eq!(state.numbers, [4, 3, 8, 3, 3, 3]);
/// no_alloc::rows_finish(&mut scratch, &state, &mut pair)?;
///
/// let (whole, nines) = ([9u8, 9, 9, 9, 8, 8, 8, 8, 9, 9, 9, 9], [9u8; 12]);
/// let (a, b) = (Plane { data: &whole[..], stride: 4 }, Plane { data: &nines[..], stride: 4 });
/// let mut same = Pair::default();
/// no_alloc::ssim(a, b, shape, &[64, 128, 64], &mut scratch, &mut same)?;
/// assert_eq!((pair, scratch), (same, [0; 96]));
/// # Ok::<(), Refusal>(())
/// ```
#[repr(C)]
#[derive(Clone, Copy, Debug, PartialEq)]
pub struct RowState {
    /// Width, height, depth, the count of taps, rows received, rows scored.
    pub numbers: [u64; 6],
    /// The taps, then zeros.
    pub kernel: [u16; MOST_TAPS],
    /// Running sums: of ssim, of cs and of the weights.
    pub sums: [f64; 3],
}

/// All zero, which no begin gives.
impl Default for RowState {
    fn default() -> RowState {
        RowState { numbers: [0; 6], kernel: [0; MOST_TAPS], sums: [0.0; 3] }
    }
}

/// Begins two planes, of which no row has come, whatever the state was. It needs [`ssim_places`](super::ssim_places) of scratch, which become 0.
/// Refuses 1 2 7 8.
pub fn rows_begin<T: Sample>(
    shape: Shape,
    kernel: &[u16],
    scratch: &mut [i64],
    state: &mut RowState,
) -> Result<(), Refusal> {
    outcome(T::rows_begin(shape, kernel, scratch, state))
}

/// Takes the next `rows` rows of both planes; the first of them begins each slice. A row is scored as soon as half a kernel, taps / 2, of further
/// rows has come, or the last row has: `numbers[5]` says how many are. No rows need no samples, and leave the state as it was. Refuses 15 for the
/// state; then 4 5 6 8, as of planes of that many rows, and 4 and 8 also of no rows; then 15 for more rows than the height has left. A refused feed
/// may be repeated.
pub fn rows_feed<T: Sample>(
    a: Plane<'_, T>,
    b: Plane<'_, T>,
    rows: usize,
    scratch: &mut [i64],
    state: &mut RowState,
) -> Result<(), Refusal> {
    outcome(T::rows_feed(a, b, rows, scratch, state))
}

/// The pair of all rows: bit for bit that of [`ssim`](super::ssim) on the whole planes. The needed scratch becomes 0; the state stays, and gives its
/// pair again. Refuses 15 for the state; then 8; then 15 before the last row; then 9.
pub fn rows_finish(scratch: &mut [i64], state: &RowState, pair: &mut Pair) -> Result<(), Refusal> {
    outcome(exports::rows_finish(scratch, state, pair))
}
