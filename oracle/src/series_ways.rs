//! A series with one thing done otherwise, and the cases in which that would be seen. The run fails if no case tells such a way from the rule, or if
//! one of the sharp cases was not among its own.

use crate::records::{whose, Whose, LAST, MOST_ERROR, MOST_RECORDS};
use crate::series_rule::Left;
use fuavelino::Record;

/// A run of records, what it comes to if nothing is asked of frames and planes, and what became of it.
pub struct Met<'a> {
    pub records: &'a [Record],
    pub summed: Result<Left, u8>,
    pub answer: u8,
}

impl Met<'_> {
    fn numbers(&self) -> impl DoubleEndedIterator<Item = Whose> + '_ {
        self.records.iter().map(whose)
    }

    /// The answer if this is what is asked of frames and planes.
    fn asking(&self, held: bool) -> u8 {
        match self.summed {
            Err(refused) if held => refused,
            _ => u8::from(!held) * 10,
        }
    }

    /// The answer if this is asked of planes, and this of each record and the next.
    fn by(&self, plane: fn(u32) -> bool, next: fn(Whose, Whose) -> bool) -> u8 {
        let follows = |two: &[Record]| next(whose(&two[0]), whose(&two[1]));
        self.asking(self.numbers().all(|w| plane(w.1)) && self.records.windows(2).all(follows))
    }

    fn by_next(&self, next: fn(Whose, Whose) -> bool) -> u8 {
        self.by(known, next)
    }

    fn by_plane(&self, plane: fn(u32) -> bool) -> u8 {
        self.by(plane, rises)
    }

    /// The answer by the rule, and this besides.
    fn and(&self, held: bool) -> u8 {
        if held {
            self.answer
        } else {
            10
        }
    }

    /// Whether it is refused for its numbers alone, and this is found in them.
    fn misnumbered(&self, found: impl Fn(&[Record]) -> bool) -> bool {
        self.answer == 10 && self.summed.is_ok() && found(self.records)
    }

    fn is(&self, answer: u8, numbers: &[Whose]) -> bool {
        self.answer == answer && self.summed.is_ok() && self.numbers().eq(numbers.iter().copied())
    }

    /// Where the total goes past the limit, if all records are sound by their figures.
    fn past_limit(&self) -> Option<usize> {
        if self.summed != Err(11) {
            return None;
        }
        let sum = |to: usize| self.records[..=to].iter().map(|r| r.sq_err as u128).sum::<u128>();
        (0..self.records.len()).find(|to| sum(*to) > u128::from(MOST_ERROR))
    }
}

fn known(plane: u32) -> bool {
    plane < 3
}

fn rises(one: Whose, other: Whose) -> bool {
    one < other
}

/// The place of the only record that does not rise, where all planes are lawful.
fn fall(records: &[Record]) -> Option<usize> {
    let falls: Vec<usize> = (1..records.len()).filter(|at| whose(&records[*at]) <= whose(&records[at - 1])).collect();
    match falls[..] {
        [at] if records.iter().all(|r| known(r.plane)) => Some(at),
        _ => None,
    }
}

/// The place of the only plane above 2, where all numbers rise.
fn odd_plane(records: &[Record]) -> Option<usize> {
    let rising = records.windows(2).all(|two| rises(whose(&two[0]), whose(&two[1])));
    let odd = records.iter().filter(|r| !known(r.plane)).count() == 1;
    records.iter().position(|r| !known(r.plane)).filter(|_| rising && odd)
}

/// A way to a series, and what a call would then answer.
pub type Way = (&'static str, fn(&Met) -> u8);

pub const WAYS: [Way; 36] = [
    ("numbers not judged", |met| met.asking(true)),
    ("an equal pair taken", |met| met.by_next(|a, b| a <= b)),
    ("by plane before frame", |met| met.by_next(|a, b| (a.1, a.0) < (b.1, b.0))),
    ("frames alone, rising", |met| met.by_next(|a, b| a.0 < b.0)),
    ("frames alone, not falling", |met| met.by_next(|a, b| a.0 <= b.0)),
    ("planes judged only across frames", |met| met.by_next(|a, b| a.0 < b.0 || (a.0 == b.0 && a.1 != b.1))),
    ("frame and plane both not falling", |met| met.by_next(|a, b| a != b && a.0 <= b.0 && a.1 <= b.1)),
    ("either of them rising", |met| met.by_next(|a, b| a.0 < b.0 || a.1 < b.1)),
    ("frames as signed numbers", |met| met.by_next(|a, b| (a.0 as i32, a.1) < (b.0 as i32, b.1))),
    ("how far frames are apart, as a signed number", |met| met.by_next(apart)),
    ("frames of 16 bits", |met| met.by_next(|a, b| (a.0 as u16, a.1) < (b.0 as u16, b.1))),
    ("frames as floats", |met| met.by_next(|a, b| (a.0 as f32, a.1) < (b.0 as f32, b.1))),
    ("3 × frame + plane in 32 bits", |met| met.by_next(|a, b| thrice(a) < thrice(b))),
    ("4 × frame + plane in 32 bits", |met| met.by_next(|a, b| a.0 << 2 | a.1 < b.0 << 2 | b.1)),
    ("frame + plane", |met| met.by_next(|a, b| u64::from(a.0) + u64::from(a.1) < u64::from(b.0) + u64::from(b.1))),
    ("2 × frame + plane", |met| met.by_next(|a, b| twice(a) < twice(b))),
    ("no frame left out", |met| met.by_next(|a, b| a < b && b.0 - a.0 <= 1)),
    ("no plane left out", |met| met.by_next(|a, b| a < b && b.1 == (a.1 + 1) % 3)),
    ("frames that begin at plane 0", |met| met.by_next(|a, b| a < b && (a.0 == b.0 || b.1 == 0))),
    ("one plane in all", |met| met.by_next(|a, b| a < b && a.1 == b.1)),
    ("plane 3 taken", |met| met.by_plane(|plane| plane <= 3)),
    ("every plane taken", |met| met.by_plane(|_| true)),
    ("plane 2 refused", |met| met.by_plane(|plane| plane < 2)),
    ("planes of 8 bits", |met| met.by_plane(|plane| known(u32::from(plane as u8)))),
    ("planes of 16 bits", |met| met.by_plane(|plane| known(u32::from(plane as u16)))),
    ("planes as signed numbers", |met| met.by_plane(|plane| (plane as i32) <= 2)),
    ("compared with the first record", |met| met.asking(planes(met) && met.numbers().skip(1).all(|w| w > first(met)))),
    ("only the first two compared", |met| {
        met.asking(planes(met) && in_order(&met.records[..met.records.len().min(2)]))
    }),
    ("the last not compared", |met| met.asking(planes(met) && in_order(but_last(met)))),
    ("every other pair compared", |met| met.asking(planes(met) && met.records.chunks(2).all(in_order))),
    ("the first's plane not judged", |met| {
        met.asking(met.numbers().skip(1).all(|w| known(w.1)) && in_order(met.records))
    }),
    ("the last's plane not judged", |met| {
        met.asking(but_last(met).iter().all(|r| known(r.plane)) && in_order(met.records))
    }),
    ("the first at (0, 0)", |met| met.and(first(met) == (0, 0))),
    ("the first above (0, 0)", |met| met.and(first(met) > (0, 0))),
    ("the last frame of all refused", |met| met.and(met.numbers().all(|w| w.0 < u32::MAX))),
    ("11 before a bad number", |met| if met.summed == Err(11) { 11 } else { met.answer }),
];

fn apart(one: Whose, other: Whose) -> bool {
    let far = other.0.wrapping_sub(one.0) as i32;
    far > 0 || (far == 0 && one.1 < other.1)
}

fn thrice(w: Whose) -> u32 {
    w.0.wrapping_mul(3).wrapping_add(w.1)
}

fn twice(w: Whose) -> u64 {
    2 * u64::from(w.0) + u64::from(w.1)
}

fn planes(met: &Met) -> bool {
    met.numbers().all(|w| known(w.1))
}

fn first(met: &Met) -> Whose {
    met.numbers().next().unwrap_or_default()
}

fn but_last<'a>(met: &Met<'a>) -> &'a [Record] {
    &met.records[..met.records.len().saturating_sub(1)]
}

fn in_order(records: &[Record]) -> bool {
    records.windows(2).all(|two| rises(whose(&two[0]), whose(&two[1])))
}

/// A case that a run must have met.
pub type Sharp = (&'static str, fn(&Met) -> bool);

/// The last frame's number, and the first that is below 0 as a signed one.
const TOP: u32 = u32::MAX;
const HALF: u32 = 1 << 31;

pub const SHARP: [Sharp; 38] = [
    ("(1, 0) (0, 2), which is 10", |met| met.is(10, &[(1, 0), (0, 2)])),
    ("(0, 2) (1, 0), which is taken", |met| met.is(0, &[(0, 2), (1, 0)])),
    ("(5, 1) (5, 1), which is 10", |met| met.is(10, &[(5, 1), (5, 1)])),
    ("(5, 1) (5, 2), which is taken", |met| met.is(0, &[(5, 1), (5, 2)])),
    ("(5, 2) (5, 1), which is 10", |met| met.is(10, &[(5, 2), (5, 1)])),
    ("(5, 0) (5, 2), which is taken", |met| met.is(0, &[(5, 0), (5, 2)])),
    ("(0, 0) alone", |met| met.is(0, &[(0, 0)])),
    ("the last plane of all alone", |met| met.is(0, &[LAST])),
    ("the first and the last of all", |met| met.is(0, &[(0, 0), LAST])),
    ("the last and the first of all", |met| met.is(10, &[LAST, (0, 0)])),
    ("the last of all twice", |met| met.is(10, &[LAST, LAST])),
    ("two planes of the last frame", |met| met.is(0, &[(TOP, 1), LAST])),
    ("the last of all after many", |met| {
        met.answer == 0 && met.records.len() > 9 && met.numbers().next_back() == Some(LAST)
    }),
    ("across the half of all frames", |met| met.is(0, &[(HALF - 1, 2), (HALF, 0)])),
    ("the same backwards", |met| met.is(10, &[(HALF, 0), (HALF - 1, 2)])),
    ("a third of all frames", |met| met.is(0, &[(TOP / 3, 0), (TOP / 3, 1), (TOP / 3 + 1, 0)])),
    ("frame 0, plane 3 alone", |met| met.is(10, &[(0, 3)])),
    ("a plane above 2 first", |met| met.misnumbered(|list| list.len() > 2 && odd_plane(list) == Some(0))),
    ("a plane above 2 in the middle", |met| {
        met.misnumbered(|list| odd_plane(list).map_or(false, |at| inner(list, at)))
    }),
    ("a plane above 2 last", |met| met.misnumbered(|list| list.len() > 2 && odd_plane(list) == Some(list.len() - 1))),
    ("a plane of 3 and no more", |met| met.misnumbered(|list| odd_plane(list).map_or(false, |at| list[at].plane == 3))),
    ("a plane of 2^32 - 1", |met| met.misnumbered(|list| odd_plane(list).map_or(false, |at| list[at].plane == TOP))),
    ("a fall at the second of many", |met| met.misnumbered(|list| list.len() > 9 && fall(list) == Some(1))),
    ("a fall in the middle", |met| met.misnumbered(|list| fall(list).map_or(false, |at| inner(list, at)))),
    ("a fall at the last of many", |met| met.misnumbered(|list| list.len() > 9 && fall(list) == Some(list.len() - 1))),
    ("one from long before", |met| met.misnumbered(|list| fall(list).map_or(false, |at| long_before(list, at)))),
    ("a max unlike the first's, numbers rising", |met| met.answer == 10 && in_order(met.records) && mixed(met.records)),
    ("a fall after more than 2^53", |met| met.past_limit().map_or(false, |at| fall(met.records) > Some(at))),
    ("a fall before more than 2^53", |met| met.past_limit().map_or(false, |at| (1..at).contains(&fallen(met)))),
    ("a plane above 2 after more than 2^53", |met| {
        met.past_limit().map_or(false, |at| odd_plane(met.records) > Some(at))
    }),
    ("more than 2^53, numbers rising", |met| met.answer == 11),
    ("no records", |met| met.answer == 10 && met.records.is_empty()),
    ("65,535 records", |met| met.answer == 0 && met.records.len() == MOST_RECORDS - 1),
    ("65,536 records", |met| met.answer == 0 && met.records.len() == MOST_RECORDS),
    ("65,537 records that rise", |met| {
        met.answer == 10 && met.records.len() == MOST_RECORDS + 1 && in_order(met.records)
    }),
    ("65,536 records of one plane", |met| met.answer == 0 && met.records.len() == MOST_RECORDS && alike(met.records)),
    ("65,536 records, the last of which falls", |met| met.misnumbered(|list| fall(list) == Some(MOST_RECORDS - 1))),
    ("65,536 records, the second of which falls", |met| {
        met.misnumbered(|list| list.len() == MOST_RECORDS && fall(list) == Some(1))
    }),
];

/// Neither at an end nor beside one.
fn inner(list: &[Record], at: usize) -> bool {
    1 < at && at + 2 < list.len()
}

fn fallen(met: &Met) -> usize {
    fall(met.records).unwrap_or(0)
}

/// A record falls that has the numbers of one that is not the one before it, nor the first.
fn long_before(list: &[Record], at: usize) -> bool {
    list[1..at].iter().take(at.saturating_sub(2)).any(|r| whose(r) == whose(&list[at]))
}

/// Lawful records but for a max that is not the first's.
fn mixed(records: &[Record]) -> bool {
    let lawful = |max: u32| (1..=4_095).contains(&max) && (max + 1).is_power_of_two();
    let maxima = || records.iter().map(|r| r.sample_max);
    maxima().all(lawful) && maxima().any(|max| max != records[0].sample_max)
}

fn alike(records: &[Record]) -> bool {
    records.iter().all(|r| r.plane == records[0].plane)
}
