//! Which of two candidates is nearer the original.

use crate::no_alloc;
use crate::plane::{Plane, Sample, Shape};
use crate::refusal::{unknown, Refusal};

/// One of two that are held against an original. `as u8` is its number, which [`no_alloc::better`] writes.
#[derive(Clone, Copy, Debug, PartialEq, Eq, Hash)]
pub enum Candidate {
    /// The first, number 1.
    First = 1,
    /// The second, number 2.
    Second = 2,
}

impl Candidate {
    /// That one of these: of two planes, of two names, or of whatever else goes with the candidates.
    ///
    /// ```
    /// use fuavelino::Candidate;
    ///
    /// assert_eq!(Candidate::Second.of("tonight's build", "last night's"), "last night's");
    /// ```
    pub fn of<T>(self, first: T, second: T) -> T {
        match self {
            Candidate::First => first,
            Candidate::Second => second,
        }
    }

    /// The one that the library named.
    fn numbered(which: u8) -> Candidate {
        match which {
            1 => Candidate::First,
            2 => Candidate::Second,
            other => unknown(other),
        }
    }
}

/// Which of two candidates won, and its error.
#[derive(Clone, Copy, Debug, PartialEq)]
pub struct Better {
    /// The smaller squared error, a whole number: that of the candidate that won.
    pub sq_err: f64,
    /// The candidate that won, the first on a tie.
    pub which: Candidate,
}

/// The candidate with the smaller squared error from the original, the first on a tie. Refuses the lowest of 1 2 4 5 6 that applies to any of the
/// three planes.
///
/// ```
/// use fuavelino::{better, Better, Candidate, Plane, Refusal, Shape};
///
/// // an original, and what two builds of an encoder made of it; the second has a sample of padding between its rows
/// let shape = Shape { width: 3, height: 2, bit_depth: 8 };
/// let original = Plane { data: &[10u8, 20, 30, 40, 50, 60][..], stride: 3 };
/// let old = Plane { data: &[10u8, 20, 30, 40, 50, 57][..], stride: 3 };
/// let new = Plane { data: &[10u8, 21, 30, 99, 40, 52, 60][..], stride: 4 };
/// let won = better(original, old, new, shape)?;
/// assert_eq!(won, Better { sq_err: 5.0, which: Candidate::Second });
/// // its plane, stride and all, as it was lent
/// assert_eq!(won.which.of(old, new).stride, 4);
///
/// assert_eq!(better(original, new, new, shape)?.which, Candidate::First);
/// assert_eq!(better(original, old, Plane { stride: 2, ..new }, shape), Err(Refusal::Stride));
/// # Ok::<(), Refusal>(())
/// ```
pub fn better<T: Sample>(
    original: Plane<'_, T>,
    first: Plane<'_, T>,
    second: Plane<'_, T>,
    shape: Shape,
) -> Result<Better, Refusal> {
    let (mut sq_err, mut which) = (0.0, 0);
    no_alloc::better(original, first, second, shape, &mut sq_err, &mut which)?;
    Ok(Better { sq_err, which: Candidate::numbered(which) })
}

/// The winning plane itself: the slice of the candidate that [`better`] names, as it was lent, padding and tail included. It is empty exactly where
/// [`better`] refuses, since a plane that is taken has a sample.
///
/// Where the candidates' strides are unlike, `better(..)?.which.of(first, second)` gives the winner with its own.
///
/// Of `better::winner` in Rattle this is proved; no export can hand back a slice, so that it cannot be called from here. This function
/// asks [`better`], whose answer is proved, and picks the slice by it, which is tested.
///
/// ```
/// use fuavelino::{psnr_hvs, winner, Plane, PlaneKind, Refusal, Shape};
///
/// let shape = Shape { width: 8, height: 8, bit_depth: 8 };
/// let plane = |data| Plane { data, stride: 8 };
/// // two builds of a plane, both alive, neither copied
/// let (original, old, new) = ([90u8; 64], [93u8; 64], [91u8; 64]);
/// let won = winner(plane(&original), plane(&old), plane(&new), shape);
/// assert!(std::ptr::eq(won, &new[..]));
/// // the next stage reads it where it lies
/// assert!(psnr_hvs(plane(&original), plane(won), shape, PlaneKind::Y)? > 0.0);
///
/// // a build that was cut short: there is no winner, and no stage takes none for a plane
/// let none = winner(plane(&original), plane(&old), plane(&new[..63]), shape);
/// assert!(none.is_empty());
/// assert_eq!(psnr_hvs(plane(&original), plane(none), shape, PlaneKind::Y), Err(Refusal::Short));
/// # Ok::<(), Refusal>(())
/// ```
pub fn winner<'c, T: Sample>(
    original: Plane<'_, T>,
    first: Plane<'c, T>,
    second: Plane<'c, T>,
    shape: Shape,
) -> &'c [T] {
    match better(original, first, second, shape) {
        Ok(won) => won.which.of(first, second).data,
        Err(_) => &[],
    }
}
