//! The limits of SCOPE, "What a plane may be", "When the desk says no" and "The transform", written a second time: every
//! family expects what these say.

/// The largest width and height.
pub const SIDE: usize = 16_384;
/// The largest stride.
pub const STRIDE: usize = 32_768;
/// The most samples of a record.
pub const SAMPLES: u64 = 268_435_456;
/// The largest number of a plane in its frame.
pub const PLANE: u32 = 2;
/// The largest size of a number that forward takes.
pub const FORWARD: i32 = 8_191;
/// The largest size of a number that the inverse takes.
pub const INVERSE: i32 = 2_097_151;
