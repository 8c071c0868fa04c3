//! What a series comes to by SCOPE, "When the desk says no" and "Squared error", in wide whole numbers. Records are judged by their figures and,
//! apart from these, by their numbers.

use crate::limits::{PLANE, SAMPLES};
use crate::records::{whose, Whose, MOST_ERROR, MOST_RECORDS};
use fuavelino::Record;

/// A total: the error's bits, n, sample_max.
pub type Left = (u64, u64, u32);

/// The total, or the number of the refusal. 10 is below 11: numbers that do not rise are told whatever the errors come to.
pub fn model(records: &[Record]) -> Result<Left, u8> {
    if rises(records) {
        summed(records)
    } else {
        Err(10)
    }
}

/// The same if nothing were asked of frames and planes.
pub fn summed(records: &[Record]) -> Result<Left, u8> {
    if records.is_empty() || records.len() > MOST_RECORDS {
        return Err(10);
    }
    let max = records[0].sample_max;
    let (mut error, mut n) = (0, 0);
    for record in records {
        error += sound_error(record, max).ok_or(10u8)?;
        n += record.n_pixels;
    }
    if error > u128::from(MOST_ERROR) {
        return Err(11);
    }
    Ok(((error as u64 as f64).to_bits(), n, max))
}

/// The error as a whole number, or None where the record is bad, the first record's max being known.
fn sound_error(record: &Record, first_max: u32) -> Option<u128> {
    let (n, max) = (u128::from(record.n_pixels), u128::from(record.sample_max));
    let error = record.sq_err;
    let whole = error.is_sign_positive() && error.is_finite() && error.fract() == 0.0;
    let max_suits = (1..=12).any(|d| max == (1 << d) - 1) && record.sample_max == first_max;
    let n_suits = (1..=u128::from(SAMPLES)).contains(&n);
    // the cast keeps every whole number that fits 128 bits, and ends far above n × max² where none does
    Some(error as u128).filter(|e| whole && max_suits && n_suits && *e <= n * max * max)
}

/// Runs up to this long are judged pair by pair too.
const FEW: usize = 40;

/// Each plane is 0, 1 or 2, and the numbers rise strictly by frame, then by plane: sorted, and each taken once, they are what they were. The same is
/// seen in two other ways, of which one looks at all pairs.
pub fn rises(records: &[Record]) -> bool {
    let numbers: Vec<Whose> = records.iter().map(whose).collect();
    let mut sorted = numbers.clone();
    sorted.sort_unstable();
    sorted.dedup();
    let rising = sorted == numbers;
    let keys: Vec<u64> = numbers.iter().map(|(frame, plane)| u64::from(*frame) << 32 | u64::from(*plane)).collect();
    assert_eq!(rising, keys.windows(2).all(|two| two[0] < two[1]), "the rule of order and its keys do not agree");
    if numbers.len() <= FEW {
        assert_eq!(rising, every_pair(&numbers), "the rule of order and its pairs do not agree");
    }
    rising && numbers.iter().all(|(_, plane)| (0..=PLANE).contains(plane))
}

/// No two are of one frame and plane, and none stands before one that is of an earlier frame, or of an earlier plane of its frame.
fn every_pair(numbers: &[Whose]) -> bool {
    let pairs =
        || numbers.iter().enumerate().flat_map(|(at, one)| numbers[at + 1..].iter().map(move |other| (one, other)));
    let twice = pairs().any(|(one, other)| one == other);
    let back = |(one, other): (&Whose, &Whose)| other.0 < one.0 || (other.0 == one.0 && other.1 < one.1);
    !twice && !pairs().any(back)
}
