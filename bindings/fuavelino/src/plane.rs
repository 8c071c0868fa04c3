//! What is lent: planes with their shape, and what comes back beside scores.

use crate::exports;

/// The largest width, and the largest height. Above it a call refuses with 2.
pub const MOST_SIDE: usize = 16_384;

/// The largest stride. Above it a call refuses with 4.
pub const MOST_STRIDE: usize = 32_768;

/// The largest count of samples in a record, that of a plane with both sides at [`MOST_SIDE`]. Above it a series refuses with 10.
pub const MOST_SAMPLES: u64 = 268_435_456;

/// The largest number of a plane in its frame: 0 is luma, 1 and 2 are chroma. Above it a record is refused with 10.
pub const MOST_PLANE: u32 = 2;

/// The largest size of a number that [`forward`](crate::forward) takes, with either sign: every difference of differences of samples is within it.
/// Above it forward refuses with 12.
pub const MOST_FORWARD: i32 = 8_191;

/// The largest size of a coefficient that [`inverse`](crate::inverse) takes, with either sign: all that forward gives are within it. Above it inverse
/// refuses with 12.
pub const MOST_INVERSE: i32 = 2_097_151;

/// A sample: a byte (depths 1 to 8) or a 16-bit word (depths 9 to 12). No other type can be one.
pub trait Sample: exports::Width {}

impl Sample for u8 {}
impl Sample for u16 {}

/// One plane: sample (x, y) stands at `y * stride + x` of `data`. What lies between rows, and after the last, is never read.
#[derive(Clone, Copy, Debug)]
pub struct Plane<'a, T> {
    /// The samples, from the first visible one on.
    pub data: &'a [T],
    /// From the start of one row to that of the next.
    pub stride: usize,
}

/// What the planes of a call share.
#[derive(Clone, Copy, Debug, PartialEq, Eq)]
pub struct Shape {
    /// Visible samples in a row, 1 to [`MOST_SIDE`].
    pub width: usize,
    /// Rows, 1 to [`MOST_SIDE`].
    pub height: usize,
    /// Bits of a sample: the largest is 2^depth − 1.
    pub bit_depth: u32,
}

/// Which plane of a frame it is: a record has its number, and PSNR-HVS a table of contrasts for each.
#[derive(Clone, Copy, Debug, PartialEq, Eq, Hash)]
pub enum PlaneKind {
    /// Luma.
    Y,
    /// The first chroma plane, Cb.
    U,
    /// The second chroma plane, Cr.
    V,
}

impl PlaneKind {
    /// The plane's number in a record: 0 for luma, 1 and 2 for chroma.
    pub fn number(self) -> u32 {
        match self {
            PlaneKind::Y => 0,
            PlaneKind::U => 1,
            PlaneKind::V => 2,
        }
    }
}

/// What comparing one plane of one frame leaves, and whose it is. [`hundredths`](Record::hundredths) is its PSNR, and a [`series`](crate::series) takes
/// a run of them that rises, by frame and then by plane.
#[repr(C)]
#[derive(Clone, Copy, Debug, Default, PartialEq)]
pub struct Record {
    /// The squared error: a whole number.
    pub sq_err: f64,
    /// How many samples were compared.
    pub n_pixels: u64,
    /// The largest sample of the depth.
    pub sample_max: u32,
    /// The frame's number, any.
    pub frame: u32,
    /// The plane's number in it, 0 to [`MOST_PLANE`].
    pub plane: u32,
}

impl Record {
    /// Its figures, apart from whose they are.
    pub fn metrics(&self) -> PsnrMetrics {
        PsnrMetrics { sq_err: self.sq_err, n_pixels: self.n_pixels, sample_max: self.sample_max }
    }

    /// Whether samples were compared and each was the same. PSNR says 100 then.
    pub fn is_identical(&self) -> bool {
        self.metrics().is_identical()
    }
}

/// The figures of a record, or the total of a series of them. [`hundredths`](PsnrMetrics::hundredths) is their PSNR.
#[derive(Clone, Copy, Debug, Default, PartialEq)]
pub struct PsnrMetrics {
    /// The squared error: a whole number.
    pub sq_err: f64,
    /// How many samples were compared.
    pub n_pixels: u64,
    /// The largest sample of the depth.
    pub sample_max: u32,
}

impl PsnrMetrics {
    /// Whether samples were compared and each was the same. PSNR says 100 then.
    pub fn is_identical(&self) -> bool {
        self.n_pixels > 0 && self.sq_err == 0.0
    }
}

/// SSIM of a plane, or of one scale of it. Equal planes come close to 1, from either side.
#[repr(C)]
#[derive(Clone, Copy, Debug, Default, PartialEq)]
pub struct Pair {
    /// The mean score.
    pub ssim: f64,
    /// The mean of contrast and structure, without luminance.
    pub cs: f64,
}
