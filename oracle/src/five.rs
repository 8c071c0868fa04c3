//! The published pairs of the five published scales.

use published::video::ssim;

/// ssim and cs of each scale, the first the planes themselves, each other made from the one above.
pub fn pairs(planes: [Vec<u32>; 2], width: usize, height: usize, max: u64) -> [f64; 10] {
    let kernel = ssim::probe_kernel(1.5, 5, 1_024);
    let [mut a, mut b] = planes;
    let (mut width, mut height, mut max) = (width, height, max);
    let mut pairs = [0.0; 10];
    for k in 0..5 {
        if k > 0 {
            a = ssim::probe_downscale(&a, width, height);
            b = ssim::probe_downscale(&b, width, height);
            width /= 2;
            height /= 2;
            max *= 4;
        }
        let (ssim, cs) = ssim::probe_pair(&a, &b, width, height, max, &kernel);
        pairs[2 * k] = ssim;
        pairs[2 * k + 1] = cs;
    }
    pairs
}
