//! Plane-level video quality scores that cannot mislead a gate: a finite score, or a numbered [`Refusal`].
//!
//! These are the calls of `libfuavelino.a`, in which each function is proved to meet its contract: safe for whatever it is lent, with the exact
//! conditions under which it refuses, and with the numbers of the published av-metrics 0.9.1, bit for bit, for planes with no padding. Only
//! [`combine_hvs`] gives another: an average, where av-metrics multiplies. No caller checks first. Where two planes differ, [`first_difference`] and
//! [`error_map`] say. Which of two builds is nearer the original [`better()`] says, and [`winner`] hands back its plane as it was lent. Of planes
//! that come in bands [`RowFed`] gives SSIM without holding them, bit for bit as of the whole. PSNR in decibels, with a known error, is
//! [`decibels()`] of records, or [`Record::hundredths`] of one. [`forward`] transforms a block of samples, of residues or of differences of residues,
//! and [`inverse`] gives it back exactly. What this crate adds to the library, and so is tested and not proved, is little: slices and scratch are
//! lent for you, the winner's slice is picked by the library's answer, a [`Kernel`] that is not in the library's chart is built, idle ends are taken
//! off one that was lent and words found for what else is wrong with it ([`KernelFault`]), and [`video`] has the decibels of av-metrics' own frame
//! functions.
//!
//! ```
//! use fuavelino::{psnr_hvs, squared_error, ssim, Kernel, Plane, PlaneKind, Refusal, Scratch, Shape};
//!
//! fn judge(original: &[u8], decoded: &[u8], scratch: &mut Scratch) -> Result<(), Refusal> {
//!     // two planes of 64 by 48 bytes; the second has 16 bytes of padding after each row
//!     let a = Plane { data: original, stride: 64 };
//!     let b = Plane { data: decoded, stride: 80 };
//!     let shape = Shape { width: 64, height: 48, bit_depth: 8 };
//!     // the first plane of frame 7
//!     let record = squared_error(a, b, shape, 7, 0)?;
//!     let pair = ssim(a, b, shape, &Kernel::for_plane(64, 48), scratch)?;
//!     let seen = psnr_hvs(a, b, shape, PlaneKind::Y)?;
//!     println!("{} {} {}", record.sq_err, pair.ssim, seen);
//!     Ok(())
//! }
//!
//! let mut scratch = Scratch::new();
//! assert_eq!(judge(&[90; 64 * 48], &[91; 80 * 48], &mut scratch), Ok(()));
//! // too few samples: said, and nothing is read past the end
//! assert_eq!(judge(&[90; 64 * 48], &[91; 80 * 47], &mut scratch), Err(Refusal::Short));
//! ```

#![deny(missing_docs)]
#![deny(unsafe_code)]
#![deny(clippy::undocumented_unsafe_blocks)]
#![warn(rust_2018_idioms)]

mod better;
mod decibels;
mod exports;
mod kernel;
mod kernel_fault;
mod locate;
pub mod no_alloc;
mod plane;
mod refusal;
mod rows;
mod scores;
mod scratch;
pub mod video;

pub use better::{better, winner, Better, Candidate};
pub use decibels::{decibels, Decibels};
pub use kernel::{build_gaussian_kernel, Kernel};
pub use kernel_fault::KernelFault;
pub use locate::{error_map, first_difference, ErrorMap, Place, Tile, Tiles, TILE_SIDE};
pub use plane::{
    Pair, Plane, PlaneKind, PsnrMetrics, Record, Sample, Shape, MOST_FORWARD, MOST_INVERSE, MOST_PLANE, MOST_SAMPLES,
    MOST_SIDE, MOST_STRIDE,
};
pub use refusal::Refusal;
pub use rows::RowFed;
#[doc(inline)]
pub use scores::{
    check, combine_hvs, combine_ssim, forward, inverse, msssim, plain_ssim, psnr_hvs, root, series, squared_error,
    ssim, version,
};
pub use scratch::Scratch;

/// Has the examples of the document run as tests.
#[cfg(doctest)]
#[doc = include_str!("../../../docs/MOVING.md")]
mod moving {}
