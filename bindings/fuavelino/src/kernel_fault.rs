//! Which rule an unlawful kernel breaks, and at which tap: words for the library's refusal 7.

use crate::kernel::{idle_ends, WEIGHT};
use crate::no_alloc::MOST_TAPS;
use crate::refusal::Refusal;
use std::error::Error;
use std::fmt;

/// Why SSIM does not take a kernel, as [`Kernel::check`](crate::Kernel::check) tells it: the first rule that it breaks, with the taps that show
/// it, counted from 0.
///
/// That the kernel is unlawful is the library's word. Which rule it breaks, and where, is found by this crate, and is not proved.
///
/// ```
/// use fuavelino::{Kernel, Refusal};
///
/// // `?` makes the refusal of it, wherever its words are not wanted
/// fn taken(taps: &[u16]) -> Result<(), Refusal> {
///     Ok(Kernel::from_taps(taps.to_vec()).check()?)
/// }
///
/// assert_eq!(taken(&[1, 254, 1]), Ok(()));
/// assert_eq!(taken(&[0, 256, 0]), Err(Refusal::Kernel));
/// ```
#[derive(Clone, Copy, Debug, PartialEq, Eq, Hash)]
#[non_exhaustive]
pub enum KernelFault {
    /// It has no odd count of taps from 1 to 255.
    Count {
        /// How many it has.
        count: usize,
    },
    /// A tap is above 256.
    Tap {
        /// The first such tap.
        at: usize,
        /// What it is.
        tap: u16,
    },
    /// The taps do not sum to 256.
    Sum {
        /// What they sum to.
        sum: usize,
    },
    /// It is not the same from both ends.
    Mirror {
        /// The first tap that is not what the one as far from the other end is.
        at: usize,
        /// That other one.
        other: usize,
    },
    /// The middle tap is 0.
    Middle {
        /// That tap.
        at: usize,
    },
    /// There is more than one tap, and both ends are 0. [`Kernel::trimmed`](crate::Kernel::trimmed) mends it.
    IdleEnds {
        /// How many taps are 0 at each end.
        idle: usize,
        /// The last tap.
        last: usize,
    },
    /// None of these, and yet the library refuses it: then this crate is linked with a library that has a rule more, and that one decides.
    Unknown,
}

impl KernelFault {
    /// The first rule that these taps break, which the library has refused.
    pub(crate) fn of(taps: &[u16]) -> KernelFault {
        let (count, middle) = (taps.len(), taps.len() / 2);
        if count % 2 == 0 || count > MOST_TAPS {
            return KernelFault::Count { count };
        }
        if let Some(at) = taps.iter().position(|tap| usize::from(*tap) > WEIGHT) {
            return KernelFault::Tap { at, tap: taps[at] };
        }
        let sum = taps.iter().map(|tap| usize::from(*tap)).sum();
        if sum != WEIGHT {
            return KernelFault::Sum { sum };
        }
        let last = count - 1;
        if let Some(at) = (0..middle).find(|at| taps[*at] != taps[last - at]) {
            return KernelFault::Mirror { at, other: last - at };
        }
        if taps[middle] == 0 {
            return KernelFault::Middle { at: middle };
        }
        match idle_ends(taps) {
            0 => KernelFault::Unknown,
            idle => KernelFault::IdleEnds { idle, last },
        }
    }
}

/// The refusal and its rule, as [`Refusal`] tells them, then what is wrong.
impl fmt::Display for KernelFault {
    fn fmt(&self, f: &mut fmt::Formatter<'_>) -> fmt::Result {
        const MEND: &str = "Kernel::trimmed leaves idle ends off";
        write!(f, "{}: ", Refusal::Kernel)?;
        match *self {
            KernelFault::Count { count } => {
                write!(f, "it has {} taps, not an odd count from 1 to {}", count, MOST_TAPS)
            }
            KernelFault::Tap { at, tap } => write!(f, "tap {} is {}, above {}", at, tap, WEIGHT),
            KernelFault::Sum { sum } => write!(f, "its taps sum to {}, not {}", sum, WEIGHT),
            KernelFault::Mirror { at, other } => write!(f, "tap {} is not what tap {}, its mirror, is", at, other),
            KernelFault::Middle { at } => write!(f, "tap {}, its middle, is 0", at),
            KernelFault::IdleEnds { idle: 1, last } => write!(f, "taps 0 and {}, its ends, are 0; {}", last, MEND),
            KernelFault::IdleEnds { idle, last } => {
                // whoever makes one himself may put any numbers here
                let inner = idle.saturating_sub(1);
                write!(
                    f,
                    "taps 0 to {} and {} to {}, its ends, are 0; {}",
                    inner,
                    last.saturating_sub(inner),
                    last,
                    MEND
                )
            }
            KernelFault::Unknown => f.write_str("by a rule that this crate does not know"),
        }
    }
}

impl Error for KernelFault {}

impl From<KernelFault> for Refusal {
    fn from(_: KernelFault) -> Refusal {
        Refusal::Kernel
    }
}
