//! PSNR in hundredths with one thing done otherwise, and the cases in which that would be seen. The run fails if no case tells such a way from the
//! rule, or if one of the sharp cases was not among its own.

use crate::decibels_rule::{ten, tens, Rule, PLACES, SCALE};
use crate::records::{whose, Whose, LAST};
use crate::series_rule::summed;
use fuavelino::Record;

/// A call with its numbers, of a run of records those of its total, and what became of it.
pub struct Met<'a> {
    /// The records that were lent; none where it was a total.
    pub records: Option<&'a [Record]>,
    pub sq_err: f64,
    pub n: u64,
    pub max: u32,
    pub answer: u8,
    /// What was left where it was accepted.
    pub hundredths: u32,
    pub identical: u8,
}

impl Met<'_> {
    /// How many records were lent.
    pub fn count(&self) -> Option<usize> {
        self.records.map(<[Record]>::len)
    }

    pub fn e(&self) -> u128 {
        self.sq_err as u128
    }

    pub fn p(&self) -> u128 {
        u128::from(self.n) * self.power()
    }

    fn power(&self) -> u128 {
        u128::from(self.max) * u128::from(self.max)
    }

    /// 1,000 × log10(P / E) by the host.
    pub fn logarithm(&self) -> f64 {
        1_000.0 * (self.p() as f64 / self.sq_err).log10()
    }

    fn numbers(&self, sq_err: f64, n: u64, max: u32) -> bool {
        (self.sq_err.to_bits(), self.n, self.max) == (sq_err.to_bits(), n, max)
    }

    /// Whether these numbers were accepted with so many hundredths, or with none, where they are identical.
    fn gave(&self, (sq_err, n, max): (f64, u64, u32), hundredths: Option<u32>) -> bool {
        let left = (hundredths.unwrap_or(10_000), u8::from(hundredths.is_none()));
        self.numbers(sq_err, n, max) && (self.answer, (self.hundredths, self.identical)) == (0, left)
    }

    fn total(&self, answer: u8) -> bool {
        (self.answer, self.count()) == (answer, None)
    }

    fn run(&self, answer: u8, records: usize) -> bool {
        (self.answer, self.count()) == (answer, Some(records))
    }

    /// Whether records of these planes, which were sound but for that, had this answer.
    fn of(&self, answer: u8, numbers: &[Whose]) -> bool {
        let records = self.records.unwrap_or_default();
        self.run(answer, numbers.len())
            && summed(records).is_ok()
            && records.iter().map(whose).eq(numbers.iter().copied())
    }

    /// Whether it was refused for its numbers where it would come to so much otherwise.
    fn misnumbered(&self, otherwise: u8) -> bool {
        let told = |records: &[Record]| summed(records).map_or_else(|refused| refused, |_| 0);
        self.answer == 10 && self.records.map_or(false, |records| told(records) == otherwise)
    }
}

/// A way to hundredths, and what a call would then give.
pub type Way = (&'static str, fn(&Rule, &Met) -> u32);

pub const WAYS: [Way; 25] = [
    ("rounded to the nearest", |_, met| met.logarithm().round() as u32),
    ("rounded up", |_, met| met.logarithm().ceil() as u32),
    ("the host's logarithm rounded down", |_, met| met.logarithm().floor() as u32),
    ("av-metrics' three logarithms rounded down", three_logarithms),
    ("tenths of a decibel", |rule, met| rule.hundredths(met.p(), met.e()) / 10 * 10),
    ("entries rounded up", |rule, met| charted(met, |k| rule.entry(k) + u128::from(k > 0), PLACES)),
    ("entries rounded to the nearest", |rule, met| charted(met, |k| nearest(rule, k), PLACES)),
    ("entries of six digits", |rule, met| charted(met, |k| rule.entry(k) / 1_000 * 1_000, PLACES)),
    ("entries on a straight line", |_, met| charted(met, |k| SCALE + 9_000_000 * k as u128, PLACES)),
    ("a chart of 900 places", |rule, met| charted(met, |k| rule.entry(k), 900)),
    ("a chart of 999 places", |rule, met| charted(met, |k| rule.entry(k), 999)),
    ("q one short", |rule, met| of_tens(rule, met, tens(met.p(), met.e()).saturating_sub(1))),
    ("q by less", |rule, met| of_tens(rule, met, (1..20).take_while(|q| ten(*q) * met.e() < met.p()).count())),
    ("k by less", |rule, met| compared(rule, met, |left, right| left < right)),
    ("P × 10^9 in 64 bits", |rule, met| compared(rule, met, |left, right| left <= u128::from(right as u64))),
    ("an entry's product in 64 bits", |rule, met| compared(rule, met, |left, right| u128::from(left as u64) <= right)),
    ("P in 64 bits", |rule, met| of(rule, u128::from(met.p() as u64), met.e())),
    ("P as a double", |rule, met| of(rule, met.p() as f64 as u128, met.e())),
    ("P over 10^q first", over_first),
    ("P over E first", |rule, met| of(rule, met.p() / met.e(), 1)),
    ("max in the place of its square", |rule, met| of(rule, u128::from(met.n) * u128::from(met.max), met.e())),
    ("2^depth in the place of max", |rule, met| of(rule, u128::from(met.n) * u128::from(met.max + 1).pow(2), met.e())),
    ("a whole mean error", |rule, met| of(rule, met.power(), (met.e() / u128::from(met.n)).max(1))),
    ("100 dB at most", |rule, met| rule.hundredths(met.p(), met.e()).min(10_000)),
    ("an error that is never 0", |rule, met| of(rule, met.p(), met.e() + 1)),
];

fn three_logarithms(_: &Rule, met: &Met) -> u32 {
    let power = f64::from(met.max) * f64::from(met.max);
    let decibels = 10.0 * (power.log10() + (met.n as f64).log10() - met.sq_err.log10());
    (100.0 * decibels).floor() as u32
}

/// D by the last of so many places that fits, the first where none does.
fn last(places: usize, q: usize, fits: impl Fn(usize) -> bool) -> u32 {
    let (mut good, mut bad) = (0, places);
    while bad - good > 1 {
        let middle = (good + bad) / 2;
        *(if fits(middle) { &mut good } else { &mut bad }) = middle;
    }
    (PLACES * q + good) as u32
}

/// By another chart.
fn charted(met: &Met, entry: impl Fn(usize) -> u128, places: usize) -> u32 {
    let q = tens(met.p(), met.e());
    last(places, q, |k| entry(k) * ten(q) * met.e() <= met.p() * SCALE)
}

/// The host's powers are fine enough to tell from which side an entry is nearest.
fn nearest(rule: &Rule, k: usize) -> u128 {
    let power = 10f64.powf(9.0 + k as f64 / 1_000.0);
    rule.entry(k) + u128::from(power - rule.entry(k) as f64 >= 0.5)
}

/// By another q.
fn of_tens(rule: &Rule, met: &Met, q: usize) -> u32 {
    last(PLACES, q, |k| rule.entry(k) * ten(q) * met.e() <= met.p() * SCALE)
}

/// By another comparison.
fn compared(rule: &Rule, met: &Met, fits: fn(u128, u128) -> bool) -> u32 {
    let q = tens(met.p(), met.e());
    last(PLACES, q, |k| fits(rule.entry(k) * ten(q) * met.e(), met.p() * SCALE))
}

fn over_first(rule: &Rule, met: &Met) -> u32 {
    let q = tens(met.p(), met.e());
    last(PLACES, q, |k| rule.entry(k) * met.e() <= met.p() / ten(q) * SCALE)
}

/// By other numbers; 0 where the error is above them.
fn of(rule: &Rule, p: u128, e: u128) -> u32 {
    if e <= p {
        let q = tens(p, e);
        last(PLACES, q, |k| rule.entry(k) * ten(q) * e <= p * SCALE)
    } else {
        0
    }
}

/// A case that a run must have met.
pub type Sharp = (&'static str, fn(&Met) -> bool);

/// The most samples of a record and of a series, and the largest error of a series.
const PLANE: u64 = 1 << 28;
const LONGEST: u64 = 1 << 44;
const MOST: f64 = 9_007_199_254_740_992.0;

pub const SHARP: [Sharp; 43] = [
    ("25 3 255, which is 3,892", |met| met.gave((25.0, 3, 255), Some(3_892))),
    ("E = P, which is 0", |met| met.e() == met.p() && met.answer == 0 && met.hundredths == 0 && met.identical == 0),
    ("P / E = 10, which is 1,000", |met| met.gave((1.0, 10, 1), Some(1_000))),
    ("P / E = 99 / 10, which is 995", |met| met.gave((10.0, 99, 1), Some(995))),
    ("P / E = 10^10 - 1, which is 9,999", |met| met.gave((1.0, 9_999_999_999, 1), Some(9_999))),
    ("one sample of 8,192 by 8,192 bytes off by 1", |met| met.gave((1.0, 1 << 26, 255), Some(12_639))),
    ("one sample of 16,384 by 16,384 bytes off by 1", |met| met.gave((1.0, PLANE, 255), Some(13_241))),
    ("the largest of all", |met| met.gave((1.0, LONGEST, 4_095), Some(20_469))),
    ("identical", |met| met.gave((0.0, 3, 255), None)),
    ("identical, of the longest series", |met| met.gave((0.0, LONGEST, 4_095), None)),
    ("10,000 that is not identical", |met| met.gave((1.0, 10_000_000_000, 1), Some(10_000))),
    ("a record of 10,000 that is not identical", |met| met.run(0, 1) && met.gave((1.0, 154_000, 255), Some(10_000))),
    ("1 that is truly a little less", |met| met.gave((1e9, 1_002_305_238, 1), Some(1))),
    ("0 beside it", |met| met.gave((1e9, 1_002_305_237, 1), Some(0))),
    ("no samples", |met| met.total(10) && met.numbers(1.0, 0, 255)),
    ("one sample", |met| met.total(0) && met.numbers(1.0, 1, 1)),
    ("as many samples as a series has", |met| met.total(0) && met.numbers(1.0, LONGEST, 255)),
    ("one more than that", |met| met.total(10) && met.numbers(1.0, LONGEST + 1, 255)),
    ("one more than a record has", |met| met.total(0) && met.numbers(1.0, PLANE + 1, 255)),
    ("a record of as many samples as it has", |met| met.run(0, 1) && met.numbers(1.0, PLANE, 255)),
    ("a record of one more", |met| met.run(10, 1) && met.numbers(1.0, PLANE + 1, 255)),
    ("a max of 254", |met| met.total(10) && met.numbers(1.0, 3, 254)),
    ("a max of 4,095", |met| met.total(0) && met.numbers(1.0, 3, 4_095)),
    ("a max of 8,191", |met| met.total(10) && met.numbers(1.0, 3, 8_191)),
    ("an error one above n × max²", |met| met.total(10) && met.numbers(195_076.0, 3, 255)),
    ("an error of 2^53", |met| met.total(0) && met.numbers(MOST, LONGEST, 4_095)),
    ("an error above 2^53", |met| met.total(10) && met.numbers(MOST + 2.0, LONGEST, 4_095)),
    ("an error of -0", |met| met.total(10) && met.numbers(-0.0, 3, 255)),
    ("an error of a half", |met| met.total(10) && met.numbers(0.5, 3, 255)),
    ("an error that is not a number", |met| met.total(10) && met.sq_err.is_nan() && met.n == 3),
    ("no records", |met| met.run(10, 0)),
    ("65,536 records", |met| met.run(0, 65_536)),
    ("65,537 records", |met| met.run(10, 65_537)),
    ("a series above 2^53", |met| met.answer == 11),
    ("a record of plane 2", |met| met.of(0, &[(0, 2)])),
    ("a record of plane 3", |met| met.of(10, &[(0, 3)])),
    ("the last plane of all", |met| met.of(0, &[LAST])),
    ("a later frame after an earlier one", |met| met.of(0, &[(0, 2), (1, 0)])),
    ("an earlier frame after a later one", |met| met.of(10, &[(1, 0), (0, 2)])),
    ("one plane twice", |met| met.of(10, &[(5, 1), (5, 1)])),
    ("an earlier plane after a later one", |met| met.of(10, &[(5, 2), (5, 1)])),
    ("identical, but for numbers that fall", |met| {
        met.misnumbered(0) && met.records.unwrap_or_default().iter().all(Record::is_identical)
    }),
    ("above 2^53, but for numbers that fall", |met| met.misnumbered(11)),
];
