//! A limit as it is written, and as PSNR is held to it.

use crate::format::{COMBINED, PLANES};
use fuavelino::Decibels;

/// The largest count of digits that is read: any PSNR has fewer.
const DIGITS: usize = 18;

#[derive(Clone, Copy, Debug, PartialEq)]
pub struct Limit {
    /// The number, which every figure but PSNR is held to.
    pub number: f64,
    /// What PSNR is held to: the least whole hundredths of a decibel that are no less than the number as it is written.
    hundredths: u64,
    /// Whether that is more than is written.
    raised: bool,
}

impl Limit {
    /// A finite number, perhaps with a plane before it, as in `y=0.98`.
    pub fn read(text: &str) -> Option<(Option<&'static str>, Limit)> {
        let (plane, number) = match text.split_once('=') {
            Some((name, number)) => {
                let mut names = PLANES.iter().chain([&COMBINED]);
                (Some(*names.find(|known| **known == name)?), number)
            }
            None => (None, text),
        };
        Some((plane, Limit::of(number)?))
    }

    fn of(text: &str) -> Option<Limit> {
        let number = text.parse::<f64>().ok().filter(|number| number.is_finite())?;
        let (hundredths, raised) = hundredths(text);
        Some(Limit { number, hundredths, raised })
    }

    /// Whether PSNR is no less. Identical planes are above every limit.
    pub fn is_met(&self, told: Decibels) -> bool {
        match told {
            Decibels::Hundredths(told) => u64::from(told) >= self.hundredths,
            Decibels::Identical => true,
        }
    }

    pub fn show(&self) -> String {
        format!("{:?}", self.number)
    }

    /// The same for PSNR, with what it was taken up to.
    pub fn show_decibels(&self) -> String {
        match self.raised {
            true => format!("{} (taken up to {}.{:02})", self.show(), self.hundredths / 100, self.hundredths % 100),
            false => self.show(),
        }
    }
}

/// The least whole hundredths that are no less than a number, and whether they are more. They are read from the digits of what `f64` takes for finite,
/// since no double is 38.92. A number below 0 is met by all, and becomes 0; one past every PSNR becomes one that none meets.
fn hundredths(text: &str) -> (u64, bool) {
    let (decimal, exponent) = text.split_once(['e', 'E']).unwrap_or((text, ""));
    let (whole, part) = decimal.split_once('.').unwrap_or((decimal, ""));
    let (whole_digits, digits) = (digits(whole).count(), digits(whole).chain(digits(part)));
    let zeros = digits.clone().take_while(|digit| *digit == 0).count();
    let first: Vec<i64> = digits.skip(zeros).collect();
    // so many of those from the first that is not 0 stand before the point of the hundredths
    let before = (whole_digits as i64 - zeros as i64 + 2).saturating_add(power(exponent));
    if first.is_empty() || text.starts_with('-') {
        return (0, false);
    }
    if before > DIGITS as i64 {
        return (u64::MAX, false);
    }
    let before = before.max(0) as usize;
    let told = (0..before).fold(0, |told, at| 10 * told + first.get(at).copied().unwrap_or(0)) as u64;
    let more = first.iter().skip(before).any(|digit| *digit != 0);
    (told + u64::from(more), more)
}

fn digits(text: &str) -> impl Iterator<Item = i64> + Clone + '_ {
    text.bytes().filter(u8::is_ascii_digit).map(|digit| i64::from(digit - b'0'))
}

/// What stands after the `e`, and 0 where nothing does. One too large for the machine becomes the largest.
fn power(text: &str) -> i64 {
    let size = digits(text).fold(0, |size: i64, digit| size.saturating_mul(10).saturating_add(digit));
    if text.starts_with('-') {
        -size
    } else {
        size
    }
}

#[cfg(test)]
mod tests {
    use super::*;

    #[test]
    fn two_decimals_are_exact() {
        // every PSNR that there can be, and more
        for told in 0..=30_000 {
            let text = format!("{}.{:02}", told / 100, told % 100);
            let limit = Limit::of(&text).unwrap();
            assert_eq!((limit.hundredths, limit.raised), (u64::from(told), false), "{}", text);
            assert!(limit.is_met(Decibels::Hundredths(told)) && limit.is_met(Decibels::Hundredths(told + 1)));
            assert!(told == 0 || !limit.is_met(Decibels::Hundredths(told - 1)));
        }
        // as a double times 100 would not be
        assert!((1.1f64 * 100.0).ceil() == 111.0 && (0.29f64 * 100.0).floor() == 28.0);
    }

    #[test]
    fn every_way_to_write_a_number_is_read() {
        for text in
            ["38.92", "+38.92", "038.92", "38.920", "38.9200000000000000000000", "3892e-2", "3892E-2", "0.3892e2"]
        {
            assert_eq!(hundredths(text), (3_892, false), "{}", text);
        }
        for text in [".3892e+2", "389200e-4", "0000.03892e3", "38920000000000000000000e-21", "3892.e-2", "38.92e0"] {
            assert_eq!(hundredths(text), (3_892, false), "{}", text);
        }
        assert_eq!(
            [hundredths("5"), hundredths("5."), hundredths(".5"), hundredths("1e2")].map(|told| told.0),
            [500, 500, 50, 10_000]
        );
        for text in ["0", "0.0", "-0", "+0", "0e9", "0e99999999999999999999", "-0.001", "-38.92", "-1e300", "-1e-300"] {
            assert_eq!(hundredths(text), (0, false), "{}", text);
        }
    }

    #[test]
    fn more_decimals_are_taken_up() {
        for text in ["38.921", "38.929", "38.9200000000000000000000000000000001", "38921e-3", "389201e-4", "0.389201e2"]
        {
            assert_eq!(hundredths(text), (3_893, true), "{}", text);
        }
        for text in ["0.001", "1e-300", "1e-999", "1e-99999999999999999999", "0.0099999"] {
            assert_eq!(hundredths(text), (1, true), "{}", text);
        }
        assert_eq!([hundredths("99.999"), hundredths("0.011")], [(10_000, true), (2, true)]);
        assert_eq!(Limit::of("38.921").unwrap().show_decibels(), "38.921 (taken up to 38.93)");
        assert_eq!(Limit::of("38.92").unwrap().show_decibels(), "38.92");
    }

    #[test]
    fn what_no_psnr_has_is_met_by_identical_planes_alone() {
        for text in ["204.70", "1e3", "1e17", "1e300", "179769313486231570000000000e280", "99999999999999999999"] {
            let limit = Limit::of(text).unwrap();
            assert!(!limit.is_met(Decibels::Hundredths(20_469)) && limit.is_met(Decibels::Identical), "{}", text);
        }
        assert!(!Limit::of("1e300").unwrap().is_met(Decibels::Hundredths(u32::MAX)));
    }

    #[test]
    fn only_finite_numbers_are_taken() {
        for text in ["", ".", "e5", "1e", "nan", "inf", "-inf", "1e999", "0x10", "1_000", "38,92", " 1", "--1"] {
            assert_eq!(Limit::of(text), None, "{}", text);
        }
        assert_eq!(Limit::read("y=38.92").map(|read| (read.0, read.1.hundredths)), Some((Some("y"), 3_892)));
        assert!(Limit::read("w=1").is_none() && Limit::read("y=").is_none() && Limit::read("=1").is_none());
    }
}
