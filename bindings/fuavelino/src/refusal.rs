//! The refusals.

use std::error::Error;
use std::fmt;

/// Why a call gives no answer. Where several reasons apply, the call names the one with the lowest number that belongs to it.
#[derive(Clone, Copy, Debug, PartialEq, Eq, Hash, PartialOrd, Ord)]
pub enum Refusal {
    /// 1: the depth does not suit the sample width. Bytes carry 1 to 8, words 9 to 12.
    Depth = 1,
    /// 2: width or height is 0 or above [`MOST_SIDE`](crate::MOST_SIDE).
    Size = 2,
    /// 3: a side is below the call's least: 8 for PSNR-HVS, 16 for MS-SSIM.
    Side = 3,
    /// 4: a stride is below the width or above [`MOST_STRIDE`](crate::MOST_STRIDE).
    Stride = 4,
    /// 5: a plane has fewer than stride × (height − 1) + width samples.
    Short = 5,
    /// 6: a visible sample is above 2^depth − 1.
    Sample = 6,
    /// 7: the lent kernel is unlawful. [`Kernel`](crate::Kernel) says what is lawful, [`Kernel::check`](crate::Kernel::check) what is wrong with one.
    Kernel = 7,
    /// 8: lent scratch, or room lent for a map or a kernel, is too short.
    Scratch = 8,
    /// 9: nothing else applies, and the defined score is infinite or not a number.
    NotFinite = 9,
    /// 10: a series of none or over 65,536 records, or with one that is bad or out of order; decibels of a total that no series has; a squared error
    /// with a plane number above [`MOST_PLANE`](crate::MOST_PLANE).
    Record = 10,
    /// 11: a series whose exact total is above 2^53.
    Total = 11,
    /// 12: a root of what is not +0 or positive and finite; a transform of other than 64 places, or of a number larger in size than
    /// [`MOST_FORWARD`](crate::MOST_FORWARD), back than [`MOST_INVERSE`](crate::MOST_INVERSE).
    Value = 12,
    /// 13: combining with a weight outside 0 to 1, or of a number that is not finite.
    Weight = 13,
    /// 14: the chart has no kernel for this height.
    Height = 14,
    /// 15: a row-fed state that no begin and feeds could give, rows past the height, or a finish before the last row.
    State = 15,
}

/// Each refusal with its rule, in the order of the numbers.
const RULES: [(Refusal, &str); 15] = [
    (Refusal::Depth, "the depth does not suit the sample width"),
    (Refusal::Size, "width or height is 0 or above 16384"),
    (Refusal::Side, "a side is below the least that this score takes"),
    (Refusal::Stride, "a stride is below the width or above 32768"),
    (Refusal::Short, "a plane has too few samples"),
    (Refusal::Sample, "a visible sample is above the depth's largest"),
    (Refusal::Kernel, "the kernel is unlawful"),
    (Refusal::Scratch, "lent scratch, or room lent for a map or a kernel, is too short"),
    (Refusal::NotFinite, "the score is infinite or not a number"),
    (Refusal::Record, "a series of no records, of too many, or with one that is bad or out of order; a total that no series has; or a plane number above 2"),
    (Refusal::Total, "the exact total of a series is above 2^53"),
    (Refusal::Value, "a value, or a count of values, is out of range"),
    (Refusal::Weight, "a weight is outside 0 to 1, or a number is not finite"),
    (Refusal::Height, "the chart has no kernel for this height"),
    (Refusal::State, "a row-fed state that no begin and feeds could give, rows past the height, or a finish before the last row"),
];

impl Refusal {
    /// Its number, 1 to 15.
    pub fn number(self) -> u8 {
        self as u8
    }

    /// Its rule, in words.
    pub fn rule(self) -> &'static str {
        RULES[usize::from(self.number() - 1)].1
    }

    /// The refusal of this number, where there is one.
    pub fn from_number(number: u8) -> Option<Refusal> {
        let at = usize::from(number).checked_sub(1)?;
        RULES.get(at).map(|known| known.0)
    }
}

impl fmt::Display for Refusal {
    fn fmt(&self, f: &mut fmt::Formatter<'_>) -> fmt::Result {
        write!(f, "refusal {}: {}", self.number(), self.rule())
    }
}

impl Error for Refusal {}

/// What an export's number means.
///
/// The library is proved to answer 0 to 15 only. Another number means that this crate is linked with a library that it was not
/// written for; then nothing that it says can be taken for good, so this panics.
#[inline]
pub(crate) fn outcome(number: u8) -> Result<(), Refusal> {
    if number == 0 {
        return Ok(());
    }
    Err(Refusal::from_number(number).unwrap_or_else(|| unknown(number)))
}

/// What no library answers that this crate was written for.
#[cold]
pub(crate) fn unknown(number: u8) -> ! {
    panic!("libfuavelino.a answered {}: it is not the library that this crate was written for", number)
}
