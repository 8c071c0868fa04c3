//! The chart of kernels, from its order: the heights, and the kernel that the published code builds for each.

use published::video::ssim;

/// In ascending order.
pub const HEIGHTS: [usize; 14] = [144, 180, 240, 270, 288, 360, 405, 480, 540, 576, 720, 1_080, 1_440, 2_160];

/// The published kernel of planes of this height, where the width is no smaller: then the height bounds its length.
pub fn kernel(height: usize) -> Vec<u16> {
    let taps = ssim::probe_kernel(height as f64 * 1.5 / 256.0, height, 256);
    taps.into_iter().map(|tap| u16::try_from(tap).expect("a tap is a word")).collect()
}
