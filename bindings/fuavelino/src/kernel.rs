//! Kernels of SSIM: those of the library's chart, and the bell curve that av-metrics makes the others from.

use crate::kernel_fault::KernelFault;
use crate::no_alloc::{self, MOST_TAPS};
use crate::plane::{Pair, Plane, Shape};
use crate::refusal::Refusal;
use std::f64::consts::{E, PI};

/// The taps of a kernel, for rows and columns alike. It holds what it is given; [`ssim`](crate::ssim) judges it, and refuses an unlawful
/// one with 7. Lawful is: an odd count of taps from 1 to 255, each from 0 to 256, summing to 256, the same from both ends, the middle one
/// at least 1 and, where there is more than one, the ends at least 1. [`check`](Kernel::check) says which of these fails and at which tap,
/// [`trimmed`](Kernel::trimmed) mends ends that are 0.
///
/// The library has a chart of kernels, proved to be lawful. What is not in it is built here, and is not proved.
///
/// ```
/// use fuavelino::Kernel;
///
/// // for 640 by 360: 13 taps, as av-metrics builds them, from the chart
/// let kernel = Kernel::for_plane(640, 360);
/// assert_eq!((kernel.taps().len(), kernel.taps().iter().sum::<u16>()), (13, 256));
/// assert!(kernel.is_charted() && !Kernel::for_plane(640, 361).is_charted());
/// assert_eq!(Kernel::from_taps(vec![64, 128, 64]).taps(), [64, 128, 64]);
/// ```
#[derive(Clone, Debug)]
pub struct Kernel {
    taps: Vec<u16>,
    charted: bool,
}

/// Kernels are their taps, wherever those come from.
impl PartialEq for Kernel {
    fn eq(&self, other: &Kernel) -> bool {
        self.taps == other.taps
    }
}

impl Eq for Kernel {}

/// What the taps of a lent kernel sum to.
pub(crate) const WEIGHT: usize = 256;

/// The most taps on each side of the middle that [`build_gaussian_kernel`] makes. No lawful kernel has more than 127.
const MOST: usize = 65_535;

impl Kernel {
    /// These taps, lawful or not.
    pub fn from_taps(taps: Vec<u16>) -> Kernel {
        Kernel { taps, charted: false }
    }

    /// The chart's kernel for a plane of this height and of no smaller width, as av-metrics builds it. Refuses 14 where the chart does not
    /// list the height. It lists 144, 180, 240, 270, 288, 360, 405, 480, 540, 576, 720, 1,080, 1,440 and 2,160.
    ///
    /// ```
    /// use fuavelino::{Kernel, Refusal};
    ///
    /// assert_eq!(Kernel::charted(144)?.taps(), [7, 60, 122, 60, 7]);
    /// assert_eq!(Kernel::charted(145), Err(Refusal::Height));
    /// # Ok::<(), Refusal>(())
    /// ```
    pub fn charted(height: usize) -> Result<Kernel, Refusal> {
        let (mut taps, mut count) = ([0; MOST_TAPS], 0);
        no_alloc::kernel(height, &mut taps, &mut count)?;
        Ok(Kernel { taps: taps[..count].to_vec(), charted: true })
    }

    /// The kernel that av-metrics chooses for a plane: its width grows with the height. It is the chart's where that lists the height and the
    /// width is no smaller; else it is built.
    pub fn for_plane(width: usize, height: usize) -> Kernel {
        match Kernel::charted(height) {
            Ok(kernel) if width >= height => kernel,
            _ => Kernel::built(width, height),
        }
    }

    fn built(width: usize, height: usize) -> Kernel {
        let built = build_gaussian_kernel(height as f64 * 1.5 / 256.0, width.min(height), WEIGHT);
        // a tap that no word holds becomes one that is unlawful too
        Kernel::from_taps(built.into_iter().map(|tap| u16::try_from(tap).unwrap_or(u16::MAX)).collect())
    }

    /// Whether its taps were taken from the chart.
    pub fn is_charted(&self) -> bool {
        self.charted
    }

    /// The taps, from one end to the other.
    pub fn taps(&self) -> &[u16] {
        &self.taps
    }

    /// Whether SSIM takes this kernel; where it does not, which rule it breaks and at which tap. The library judges, as it would in
    /// [`ssim`](crate::ssim); only the words are found here. It asks for no memory.
    ///
    /// ```
    /// use fuavelino::{Kernel, KernelFault};
    ///
    /// assert_eq!(Kernel::from_taps(vec![64, 128, 64]).check(), Ok(()));
    /// let fault = Kernel::from_taps(vec![0, 64, 128, 64, 0]).check().unwrap_err();
    /// assert_eq!(fault, KernelFault::IdleEnds { idle: 1, last: 4 });
    /// let words = "refusal 7: the kernel is unlawful: taps 0 and 4, its ends, are 0; Kernel::trimmed leaves idle ends off";
    /// assert_eq!(fault.to_string(), words);
    /// ```
    pub fn check(&self) -> Result<(), KernelFault> {
        let (plane, shape) = (Plane { data: &[0u8], stride: 1 }, Shape { width: 1, height: 1, bit_depth: 8 });
        // of one sample and with no scratch: 7 comes before 8, so that 8 is the answer for a lawful kernel, and nothing is worked out
        match no_alloc::ssim(plane, plane, shape, &self.taps, &mut [], &mut Pair::default()) {
            Err(Refusal::Kernel) => Err(KernelFault::of(&self.taps)),
            _ => Ok(()),
        }
    }

    /// This kernel without idle taps at its ends, which SSIM refuses: as long as both ends are 0 one tap is taken off each, but never the middle.
    /// Any other kernel stays as it is, so also one with a 0 at one end alone, or between its ends.
    ///
    /// The scores are bit for bit those that the padded kernel had, since 0 times a sample adds nothing; they come sooner, in less scratch.
    ///
    /// ```
    /// use fuavelino::Kernel;
    ///
    /// let padded = Kernel::from_taps(vec![0, 0, 64, 128, 64, 0, 0]);
    /// assert!(padded.check().is_err() && padded.trimmed().check().is_ok());
    /// assert_eq!(padded.trimmed().taps(), [64, 128, 64]);
    /// assert_eq!(Kernel::from_taps(vec![0, 1, 0, 254, 0, 1, 0]).trimmed().taps(), [1, 0, 254, 0, 1]);
    /// ```
    pub fn trimmed(&self) -> Kernel {
        let idle = idle_ends(&self.taps);
        // no kernel of the chart has such ends, so that one of the chart stays one
        Kernel { taps: self.taps[idle..self.taps.len() - idle].to_vec(), charted: self.charted }
    }
}

/// How many taps at each end are 0, up to the middle one, or the two in the middle of an even count.
pub(crate) fn idle_ends(taps: &[u16]) -> usize {
    let most = taps.len().saturating_sub(1) / 2;
    taps.iter().zip(taps.iter().rev()).take(most).take_while(|ends| *ends == (&0, &0)).count()
}

/// The kernel that av-metrics builds: a bell curve of this sigma in whole numbers that sum to `kernel_weight`, with fewer than `max_len`
/// taps on each side of the middle. It is worked out by the host's `exp` and logarithm, and so is not proved; what it gives is judged
/// when it is lent.
///
/// For the sigma of a plane's height its ends are not 0 (every height to [`MOST_SIDE`](crate::MOST_SIDE) was run). A large `max_len` pads nothing, since
/// taps below half a unit are left out. Only where the sigma is a few doubles, or none, from one at which the count of taps changes can the host's
/// rounding leave ends of 0: with a weight of 256 0.9118901777107576 was such a one. Then [`ssim`](crate::ssim) refuses the kernel with 7, and
/// [`Kernel::trimmed`] mends it.
///
/// It takes any arguments: a `max_len` of 0 counts as 1, a sigma that gives no curve (0, below 0, infinite, not a number) gives
/// the one tap `kernel_weight`, and no kernel has more than 65,535 taps on each side.
pub fn build_gaussian_kernel(sigma: f64, max_len: usize, kernel_weight: usize) -> Vec<i64> {
    let weight = kernel_weight as f64;
    let side = reach(sigma, weight).min(max_len.saturating_sub(1)).min(MOST);
    let peak = 1.0 / ((2.0 * PI).sqrt() * sigma);
    let fall = -0.5 / sigma.powi(2);
    let tap = |from_middle: usize| (weight * peak * E.powf(fall * from_middle.pow(2) as f64) + 0.5) as i64;
    let half: Vec<i64> = (1..=side).map(tap).collect();
    let sum = half.iter().fold(0i64, |sum, tap| sum.saturating_add(*tap));
    let middle = (kernel_weight as i64).saturating_sub(sum.saturating_mul(2));
    half.iter().rev().chain([&middle]).chain(&half).copied().collect()
}

/// How far from the middle a tap still counts: past it, a tap is less than half a unit of the weight.
fn reach(sigma: f64, weight: f64) -> usize {
    let s = (0.5 * PI).sqrt() * sigma * (1.0 / weight);
    if s >= 1.0 {
        0
    } else {
        (sigma * (-2.0 * s.log(E)).sqrt()).floor() as usize
    }
}
