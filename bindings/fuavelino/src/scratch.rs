//! The scratch that SSIM and MS-SSIM work in.

use std::fmt;

/// Scratch for [`ssim`](crate::ssim) and [`msssim`](crate::msssim), to be lent again and again: it grows when a larger plane or a longer kernel
/// comes, and nothing else allocates. After each call it is all zero, so nothing of one picture stays for the next.
#[derive(Default)]
pub struct Scratch {
    pub(crate) sums: Vec<i64>,
    pub(crate) a32: Vec<u32>,
    pub(crate) b32: Vec<u32>,
}

impl Scratch {
    /// None yet.
    pub fn new() -> Scratch {
        Scratch::default()
    }

    /// Whether it holds this many places.
    pub(crate) fn holds(&self, sums: usize, samples: usize) -> bool {
        self.sums.len() >= sums && self.a32.len() >= samples && self.b32.len() >= samples
    }

    /// Grows to these many places. Where there is no memory for them it stays as it is, and the call that it is for refuses with 8.
    pub(crate) fn grow(&mut self, sums: usize, samples: usize) {
        lengthen(&mut self.sums, sums);
        lengthen(&mut self.a32, samples);
        lengthen(&mut self.b32, samples);
    }
}

/// Grows a list to this many places, where there is memory for them.
pub(crate) fn lengthen<T: Copy + Default>(list: &mut Vec<T>, len: usize) {
    let more = len.saturating_sub(list.len());
    if list.try_reserve_exact(more).is_ok() {
        list.resize(list.len() + more, T::default());
    }
}

impl fmt::Debug for Scratch {
    fn fmt(&self, f: &mut fmt::Formatter<'_>) -> fmt::Result {
        write!(f, "Scratch of {} sums and {} samples a plane", self.sums.len(), self.a32.len())
    }
}

#[cfg(test)]
mod tests {
    use super::Scratch;
    use crate::{msssim, ssim, Kernel, Pair, Plane, Refusal, Shape};

    fn all_zero(scratch: &Scratch) -> bool {
        let planes = [&scratch.a32, &scratch.b32];
        scratch.sums.iter().all(|s| *s == 0) && planes.iter().all(|plane| plane.iter().all(|s| *s == 0))
    }

    fn scores(samples: &[u16], width: usize, height: usize, scratch: &mut Scratch) -> (Pair, [Pair; 5]) {
        let a = Plane { data: samples, stride: width };
        let b = Plane { data: &samples[1..], stride: width };
        let shape = Shape { width, height, bit_depth: 10 };
        let pair = ssim(a, b, shape, &Kernel::for_plane(width, height), scratch).unwrap();
        (pair, msssim(a, b, shape, scratch).unwrap())
    }

    /// Large and small in turn: it is zero after each, and the answers are those of new scratch.
    #[test]
    fn reused_over_sizes() {
        let samples: Vec<u16> = (0..90 * 90).map(|i| (i * i % 1_021) as u16).collect();
        let mut kept = Scratch::new();
        for (width, height) in [(16, 16), (64, 40), (17, 80), (80, 17), (33, 19), (16, 80), (64, 64)] {
            let again = scores(&samples, width, height, &mut kept);
            assert!(all_zero(&kept));
            assert_eq!(again, scores(&samples, width, height, &mut Scratch::new()));
        }
    }

    #[test]
    fn refused_leaves_it_zero() {
        let samples = vec![1_023u16; 64 * 64];
        let mut kept = Scratch::new();
        scores(&samples[..], 40, 40, &mut kept);
        let plane = Plane { data: &samples[..], stride: 64 };
        let shape = Shape { width: 64, height: 64, bit_depth: 9 };
        let kernel = Kernel::for_plane(64, 64);
        assert_eq!(ssim(plane, plane, shape, &kernel, &mut kept), Err(Refusal::Sample));
        assert_eq!(msssim(plane, plane, shape, &mut kept), Err(Refusal::Sample));
        assert!(all_zero(&kept) && kept.a32.len() == 40 * 40);
    }
}
