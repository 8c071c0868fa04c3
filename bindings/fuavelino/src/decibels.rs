//! PSNR in whole hundredths of a decibel, by the library's own calls: no logarithm of the host has a say in it.

use crate::no_alloc;
use crate::plane::{PsnrMetrics, Record};
use crate::refusal::Refusal;
use std::fmt;

/// What stands for identical planes: 100 decibels, in hundredths.
const IDENTICAL: u32 = 10_000;

/// PSNR, with a known error. Identical is above every number of hundredths, so that a limit is one comparison.
///
/// ```
/// use fuavelino::{Decibels, PsnrMetrics};
///
/// let told = PsnrMetrics { sq_err: 25.0, n_pixels: 3, sample_max: 255 }.hundredths()?;
/// assert_eq!((told, told.to_string()), (Decibels::Hundredths(3_892), "38.92".to_string()));
/// // a limit of 38.92 dB
/// assert!(told >= Decibels::Hundredths(3_892));
/// // planes that differ can have 100 dB and more, which makes them none that are identical
/// let close = PsnrMetrics { sq_err: 1.0, n_pixels: 16_384 * 16_384, sample_max: 255 }.hundredths()?;
/// assert_eq!((close, close < Decibels::Identical), (Decibels::Hundredths(13_241), true));
/// # Ok::<(), fuavelino::Refusal>(())
/// ```
#[derive(Clone, Copy, Debug, PartialEq, Eq, Hash, PartialOrd, Ord)]
pub enum Decibels {
    /// 1,000 × log10(n × max² / error), rounded down to a whole number D, but for a trifle: D / 100 is less than 0.01 dB below the exact figure,
    /// and above it by 0.0000000044 dB at most. So whatever truly has L hundredths has a D of at least L; and whatever has such a D truly has L
    /// hundredths, but for five billionths of a decibel. Of two errors of one count and depth the smaller never has the smaller D.
    Hundredths(u32),
    /// The error is 0.
    Identical,
}

impl Decibels {
    /// The whole number; 10,000, the 100 dB that stand for it, where the planes are identical.
    pub fn hundredths(self) -> u32 {
        match self {
            Decibels::Hundredths(told) => told,
            Decibels::Identical => IDENTICAL,
        }
    }

    /// What an accepted call wrote.
    fn written(hundredths: u32, identical: u8) -> Decibels {
        match identical {
            0 => Decibels::Hundredths(hundredths),
            _ => Decibels::Identical,
        }
    }
}

/// In decibels, with two decimals, exactly; or `identical`.
impl fmt::Display for Decibels {
    fn fmt(&self, f: &mut fmt::Formatter<'_>) -> fmt::Result {
        match self {
            Decibels::Hundredths(told) => f.pad(&format!("{}.{:02}", told / 100, told % 100)),
            Decibels::Identical => f.pad("identical"),
        }
    }
}

impl PsnrMetrics {
    /// PSNR of this total, by the library's call for one. Refuses 10: no series adds up to these numbers. Of a total that
    /// [`series`](crate::series) gave, and of the figures of a record that [`squared_error`](crate::squared_error) gave, it is never refused.
    ///
    /// A count may be that of many planes, up to 65,536 × [`MOST_SAMPLES`](crate::MOST_SAMPLES), and an error at most 2^53.
    ///
    /// ```
    /// use fuavelino::{Decibels, PsnrMetrics, Refusal};
    ///
    /// let same = PsnrMetrics { sq_err: 0.0, n_pixels: 3, sample_max: 255 };
    /// assert_eq!(same.hundredths(), Ok(Decibels::Identical));
    /// assert_eq!(PsnrMetrics { n_pixels: 0, ..same }.hundredths(), Err(Refusal::Record));
    /// ```
    pub fn hundredths(&self) -> Result<Decibels, Refusal> {
        let (mut hundredths, mut identical) = (0, 0);
        no_alloc::total_decibels(*self, &mut hundredths, &mut identical)?;
        Ok(Decibels::written(hundredths, identical))
    }
}

impl Record {
    /// PSNR of this plane, by the library's call for a run of records. Refuses 10: a bad record. Of one that [`squared_error`](crate::squared_error)
    /// gave it is never refused.
    ///
    /// ```
    /// use fuavelino::{Decibels, Record, Refusal};
    ///
    /// let record = Record { sq_err: 25.0, n_pixels: 3, sample_max: 255, frame: 7, plane: 2 };
    /// assert_eq!(record.hundredths(), Ok(Decibels::Hundredths(3_892)));
    /// assert_eq!(Record { plane: 3, ..record }.hundredths(), Err(Refusal::Record));
    /// ```
    pub fn hundredths(&self) -> Result<Decibels, Refusal> {
        decibels(&[*self])
    }
}

/// PSNR of a run of records taken together, as of the planes of a frame, or of one plane's frames. Refuses 10 11. It allocates nothing.
///
/// It is that of their [`series`](crate::series), and of one record its own.
///
/// ```
/// use fuavelino::{decibels, Decibels, Record, Refusal};
///
/// let record = Record { sq_err: 25.0, n_pixels: 3, sample_max: 255, frame: 7, plane: 0 };
/// let same = Record { sq_err: 0.0, plane: 1, ..record };
/// assert_eq!(decibels(&[record]), record.hundredths());
/// assert_eq!(decibels(&[record, same]), Ok(Decibels::Hundredths(4_193)));
/// assert_eq!(decibels(&[same, Record { plane: 2, ..same }]), Ok(Decibels::Identical));
/// // one plane twice
/// assert_eq!(decibels(&[same, same]), Err(Refusal::Record));
/// ```
pub fn decibels(records: &[Record]) -> Result<Decibels, Refusal> {
    let (mut hundredths, mut identical) = (0, 0);
    no_alloc::decibels(records, &mut hundredths, &mut identical)?;
    Ok(Decibels::written(hundredths, identical))
}
