//! SSIM of rows as they arrive, with the state and the scratch kept for the caller.

use crate::kernel::Kernel;
use crate::no_alloc::{self, ssim_places, RowState};
use crate::plane::{Pair, Plane, Sample, Shape};
use crate::refusal::Refusal;
use crate::scratch::lengthen;
use std::fmt;
use std::marker::PhantomData;

/// SSIM of two planes that come in bands: [`begin`](RowFed::begin), [`feed`](RowFed::feed) any number of whole rows of both,
/// [`finish`](RowFed::finish). However the rows are grouped, the pair is bit for bit that of [`ssim`](crate::ssim) on the whole planes, which nobody
/// has to hold: what is kept is as many lines as the kernel has taps, rounded up to a power of two.
///
/// It owns what the calls of [`no_alloc`] are lent, so that no older state and no other scratch can be lent by mistake. It is no `Clone`: a copy
/// would be right, but would copy the scratch, which nothing has asked for.
///
/// A clip whose decoder gives bands of 64 rows, the last of them shorter:
///
/// ```
/// use fuavelino::{Kernel, Pair, Plane, Refusal, RowFed, Shape};
///
/// const SHAPE: Shape = Shape { width: 192, height: 144, bit_depth: 8 };
///
/// /// The next bands of both files: samples without padding.
/// fn bands(frame: usize) -> impl Iterator<Item = (Vec<u8>, Vec<u8>)> {
///     let rows = [64, 64, 16];
///     rows.into_iter().map(move |rows| (vec![100; rows * 192], vec![100 + frame as u8; rows * 192]))
/// }
///
/// fn score(fed: &mut RowFed<u8>, frame: usize) -> Result<Pair, Refusal> {
///     for (original, decoded) in bands(frame) {
///         let plane = |data| Plane { data, stride: SHAPE.width };
///         fed.feed(plane(&original), plane(&decoded), original.len() / SHAPE.width)?;
///     }
///     fed.finish()
/// }
///
/// let kernel = Kernel::for_plane(SHAPE.width, SHAPE.height);
/// let mut fed = RowFed::begin(SHAPE, &kernel)?;
/// let mut scores = Vec::new();
/// for frame in 0..3 {
///     // its memory serves for every frame
///     fed.begin_again(SHAPE, &kernel)?;
///     scores.push(score(&mut fed, frame)?.ssim);
/// }
/// assert!((scores[0] - 1.0).abs() < 1e-9 && scores[0] > scores[1] && scores[1] > scores[2]);
/// # Ok::<(), Refusal>(())
/// ```
pub struct RowFed<T: Sample> {
    state: RowState,
    scratch: Vec<i64>,
    sample: PhantomData<T>,
}

impl<T: Sample> RowFed<T> {
    /// Two planes of this shape, of which no row has come. Refuses 1 2 7, and 8 only where there is no memory for its scratch. Feeds and the finish ask
    /// for none.
    pub fn begin(shape: Shape, kernel: &Kernel) -> Result<RowFed<T>, Refusal> {
        let mut fed = RowFed { state: RowState::default(), scratch: Vec::new(), sample: PhantomData };
        fed.begin_again(shape, kernel)?;
        Ok(fed)
    }

    /// Two other planes, in the memory that is there; it grows for wider ones, or for a longer kernel. Rows that were fed and not finished are
    /// forgotten. Refuses as [`begin`](RowFed::begin) does, and then goes on as if it had not been asked.
    pub fn begin_again(&mut self, shape: Shape, kernel: &Kernel) -> Result<(), Refusal> {
        let taps = kernel.taps();
        match no_alloc::rows_begin::<T>(shape, taps, &mut self.scratch, &mut self.state) {
            // 8 is judged last, so that a wild shape asks for no memory
            Err(Refusal::Scratch) => {
                lengthen(&mut self.scratch, ssim_places(shape.width, taps.len()));
                no_alloc::rows_begin::<T>(shape, taps, &mut self.scratch, &mut self.state)
            }
            said => said,
        }
    }

    /// Takes the next `rows` rows of both planes; the first of them begins each slice. No rows need no samples. Refuses 4 5 6 as of planes with that
    /// many rows, and 4 also of no rows; then 15: more rows than the height has left. A refused feed changed nothing, and may be repeated.
    ///
    /// ```
    /// use fuavelino::{Kernel, Plane, Refusal, RowFed, Shape};
    ///
    /// let shape = Shape { width: 4, height: 3, bit_depth: 8 };
    /// let mut fed = RowFed::begin(shape, &Kernel::from_taps(vec![64, 128, 64]))?;
    /// let (a, b) = (Plane { data: &[9u8; 8], stride: 4 }, Plane { data: &[8u8; 8], stride: 4 });
    /// fed.feed(a, b, 2)?;
    /// assert_eq!((fed.received(), fed.scored()), (2, 1));
    /// assert_eq!(fed.feed(a, b, 3), Err(Refusal::Short));
    /// assert_eq!(fed.feed(a, b, 2), Err(Refusal::State));
    /// fed.feed(a, b, 1)?;
    /// assert_eq!((fed.received(), fed.scored()), (3, 3));
    /// # Ok::<(), Refusal>(())
    /// ```
    pub fn feed(&mut self, a: Plane<'_, T>, b: Plane<'_, T>, rows: usize) -> Result<(), Refusal> {
        no_alloc::rows_feed(a, b, rows, &mut self.scratch, &mut self.state)
    }

    /// The pair, once every row has come. Refuses 15 before, and 9.
    ///
    /// It borrows, so that one who asks too early loses no row, and one who is done can [`begin_again`](RowFed::begin_again). Asked again it says the
    /// same again.
    ///
    /// ```
    /// use fuavelino::{Kernel, Plane, Refusal, RowFed, Shape};
    ///
    /// let mut fed = RowFed::begin(Shape { width: 4, height: 2, bit_depth: 10 }, &Kernel::from_taps(vec![256]))?;
    /// let row = Plane { data: &[700u16; 4], stride: 4 };
    /// fed.feed(row, row, 1)?;
    /// assert_eq!(fed.finish(), Err(Refusal::State));
    /// fed.feed(row, row, 1)?;
    /// assert_eq!(fed.finish()?.cs, 1.0);
    /// # Ok::<(), Refusal>(())
    /// ```
    pub fn finish(&mut self) -> Result<Pair, Refusal> {
        let mut pair = Pair::default();
        no_alloc::rows_finish(&mut self.scratch, &self.state, &mut pair)?;
        Ok(pair)
    }

    /// How many rows have come.
    pub fn received(&self) -> usize {
        self.number(4)
    }

    /// How many rows are scored: those that half a kernel of further rows has followed, and all once the last has come.
    pub fn scored(&self) -> usize {
        self.number(5)
    }

    /// The shape of both planes.
    pub fn shape(&self) -> Shape {
        Shape { width: self.number(0), height: self.number(1), bit_depth: self.state.numbers[2] as u32 }
    }

    /// A number of the state. Only begin and feeds write them, and none is above [`MOST_SIDE`](crate::MOST_SIDE).
    fn number(&self, at: usize) -> usize {
        self.state.numbers[at] as usize
    }
}

impl<T: Sample> fmt::Debug for RowFed<T> {
    fn fmt(&self, f: &mut fmt::Formatter<'_>) -> fmt::Result {
        write!(f, "RowFed of {:?}, {} rows received, {} scored", self.shape(), self.received(), self.scored())
    }
}
