//! What a run's frames come to, figure by figure: their mean, and how bad the worst of them are.

use crate::format::{COMBINED, PLANES};
use crate::report::{values, FIELDS};
use crate::score::FrameScores;
use crate::value::Value;
use fuavelino::Decibels;
use std::cmp::Ordering;
use std::collections::BinaryHeap;

/// The most values of a figure that are kept, the worst. The worst twentieth of a run is among them up to 20 times as many
/// frames, and the worst hundredth up to 100 times as many.
const KEPT: usize = 65_536;

/// What is told of a figure over all frames.
#[derive(Clone, Copy, Debug, PartialEq, Eq)]
pub enum Statistic {
    Mean,
    /// So many in a hundred frames are as bad, or worse.
    Percentile(u64),
}

/// Each under its name.
pub const STATISTICS: [(&str, Statistic); 3] =
    [("mean", Statistic::Mean), ("p5", Statistic::Percentile(5)), ("p1", Statistic::Percentile(1))];

/// For each plane and for the combination, what became of each of `FIELDS`.
#[derive(Default)]
pub struct Summary {
    scopes: Vec<Vec<Option<Spread>>>,
}

impl Summary {
    pub fn add(&mut self, scores: &FrameScores) {
        let scopes = scores.named().count();
        self.scopes.resize_with(scopes, || FIELDS.iter().map(|field| spread(field)).collect());
        for (spreads, (_, scores)) in self.scopes.iter_mut().zip(scores.named()) {
            for (spread, value) in spreads.iter_mut().zip(values(scores)) {
                match (spread, value) {
                    (Some(spread), Value::Double(value)) => spread.add(value),
                    (Some(spread), Value::Psnr(told)) => spread.add(rank(told)),
                    _ => {}
                }
            }
        }
    }

    /// A statistic of each plane and of the combination, by name: of each asked figure that has it, its number among `FIELDS` and
    /// the value, none where that was not kept.
    pub fn told(&self, statistic: Statistic) -> impl Iterator<Item = (&'static str, Vec<Told>)> + '_ {
        let planes = self.scopes.len().saturating_sub(1);
        let names = PLANES.iter().copied().take(planes).chain([COMBINED]);
        let asked = |spread: &&Spread| spread.count > 0;
        names.zip(self.scopes.iter().map(move |spreads| {
            let spreads =
                spreads.iter().enumerate().filter_map(|(field, spread)| Some(field).zip(spread.as_ref().filter(asked)));
            spreads.filter_map(|(field, spread)| Some(field).zip(spread.value(statistic))).collect()
        }))
    }
}

/// A field's number among `FIELDS`, and its value.
pub type Told = (usize, Value);

/// The same with a value for each of `FIELDS`, as a frame has them.
pub fn spaced(told: &[Told]) -> Vec<Value> {
    let value = |field: usize| told.iter().find(|one| one.0 == field).map_or(Value::None, |one| one.1);
    (0..FIELDS.len()).map(value).collect()
}

/// PSNR as a double in the order of its ranks: identical planes come after every number.
fn rank(told: Decibels) -> f64 {
    match told {
        Decibels::Hundredths(told) => f64::from(told),
        Decibels::Identical => f64::INFINITY,
    }
}

fn of_rank(rank: f64) -> Decibels {
    if rank.is_finite() {
        Decibels::Hundredths(rank as u32)
    } else {
        Decibels::Identical
    }
}

/// The field's spread, unless it is a count, a sum or a yes or no.
fn spread(field: &str) -> Option<Spread> {
    match field {
        "sq_err" | "n_pixels" | "sample_max" | "identical" => None,
        "mse" | "hvs" => Some(Spread::new(-1.0)),
        "psnr_hundredths" => Some(Spread { ranks: true, ..Spread::new(1.0) }),
        _ => Some(Spread::new(1.0)),
    }
}

/// The values of one figure.
struct Spread {
    /// 1 where the least is the worst, −1 where the most is: times it, the least is the worst.
    sign: f64,
    /// Whether the values are ranks of PSNR.
    ranks: bool,
    count: u64,
    sum: f64,
    /// The worst values times the sign; the best of them comes out first.
    worst: BinaryHeap<Ordered>,
}

impl Spread {
    fn new(sign: f64) -> Spread {
        Spread { sign, ranks: false, count: 0, sum: 0.0, worst: BinaryHeap::new() }
    }

    fn add(&mut self, value: f64) {
        self.add_among(value, KEPT)
    }

    fn add_among(&mut self, value: f64, kept: usize) {
        self.count += 1;
        self.sum += value;
        self.worst.push(Ordered(value * self.sign));
        if self.worst.len() > kept {
            self.worst.pop();
        }
    }

    /// As reports have it. PSNR in whole hundredths has no mean: that of the doubles is told instead.
    fn value(&self, statistic: Statistic) -> Option<Value> {
        let told = self.told(statistic);
        match (self.ranks, statistic) {
            (true, Statistic::Mean) => None,
            (true, _) => Some(Value::psnr(told.map(of_rank))),
            (false, _) => Some(Value::double(told)),
        }
    }

    /// None where nothing was added, or where what is asked for is not among the values that were kept.
    fn told(&self, statistic: Statistic) -> Option<f64> {
        match statistic {
            _ if self.count == 0 => None,
            Statistic::Mean => Some(self.sum / self.count as f64).filter(|mean| mean.is_finite()),
            Statistic::Percentile(percent) => {
                // so many are as bad: the hundredth part, rounded up, and so at least one
                let rank = self.count / 100 * percent + (self.count % 100 * percent + 99) / 100;
                let mut worst: Vec<&Ordered> = self.worst.iter().collect();
                worst.sort_unstable();
                worst.get(usize::try_from(rank).ok()? - 1).map(|found| found.0 * self.sign)
            }
        }
    }
}

/// A double in the order of all doubles.
#[derive(Clone, Copy, Debug)]
struct Ordered(f64);

impl PartialEq for Ordered {
    fn eq(&self, other: &Ordered) -> bool {
        self.cmp(other) == Ordering::Equal
    }
}

impl Eq for Ordered {}

impl PartialOrd for Ordered {
    fn partial_cmp(&self, other: &Ordered) -> Option<Ordering> {
        Some(self.cmp(other))
    }
}

impl Ord for Ordered {
    fn cmp(&self, other: &Ordered) -> Ordering {
        self.0.total_cmp(&other.0)
    }
}

#[cfg(test)]
mod tests {
    use super::*;

    /// Values 1 to `count`, in no order.
    fn shuffled(count: u64) -> impl Iterator<Item = f64> {
        // the step has no factor in common with the count, so that each comes once
        let step = (count / 2..).find(|step| (2..=count).all(|f| count % f != 0 || step % f != 0)).unwrap();
        (0..count).map(move |at| (at * step % count + 1) as f64)
    }

    fn spread_of(count: u64, sign: f64, kept: usize) -> Spread {
        let mut spread = Spread::new(sign);
        shuffled(count).for_each(|value| spread.add_among(value, kept));
        spread
    }

    #[test]
    fn percentiles_count_from_the_worst() {
        for (count, p5, p1) in [
            (1, 1.0, 1.0),
            (10, 1.0, 1.0),
            (20, 1.0, 1.0),
            (21, 2.0, 1.0),
            (100, 5.0, 1.0),
            (101, 6.0, 2.0),
            (1_000, 50.0, 10.0),
        ] {
            let least = spread_of(count, 1.0, KEPT);
            assert_eq!(least.told(Statistic::Percentile(5)), Some(p5), "of {}", count);
            assert_eq!(least.told(Statistic::Percentile(1)), Some(p1), "of {}", count);
            let most = spread_of(count, -1.0, KEPT);
            assert_eq!(most.told(Statistic::Percentile(5)), Some(count as f64 + 1.0 - p5));
            assert_eq!(most.told(Statistic::Mean), Some((count as f64 + 1.0) / 2.0));
        }
    }

    #[test]
    fn the_worst_are_kept_and_what_is_not_kept_is_not_told() {
        for sign in [1.0, -1.0] {
            let (all, some) = (spread_of(1_000, sign, KEPT), spread_of(1_000, sign, 10));
            assert_eq!(some.worst.len(), 10);
            assert_eq!(some.told(Statistic::Percentile(1)), all.told(Statistic::Percentile(1)));
            assert_eq!(some.told(Statistic::Percentile(5)), None);
            assert_eq!(some.told(Statistic::Mean), Some(500.5));
        }
        assert_eq!(Spread::new(1.0).told(Statistic::Percentile(1)), None);
        assert_eq!(Spread::new(1.0).told(Statistic::Mean), None);
    }

    /// 100 frames of these, of which the fifth worst is told.
    fn fifth(worst: [Decibels; 5], rest: Decibels) -> Value {
        let mut spread = spread("psnr_hundredths").unwrap();
        (0..95).map(|_| rest).chain(worst).for_each(|told| spread.add(rank(told)));
        assert_eq!(spread.value(Statistic::Mean), None);
        spread.value(Statistic::Percentile(5)).unwrap()
    }

    /// They are told as 10,000, and no frame that is above that is better.
    #[test]
    fn identical_frames_rank_above_every_psnr() {
        let close = Decibels::Hundredths(20_469);
        assert_eq!(fifth([close; 5], Decibels::Identical), Value::Psnr(close));
        let four = [close, close, Decibels::Identical, close, close];
        assert_eq!(fifth(four, Decibels::Identical), Value::Psnr(Decibels::Identical));
        let ten_thousand = Decibels::Hundredths(10_000);
        assert_eq!(fifth([ten_thousand; 5], close), Value::Psnr(ten_thousand));
    }
}
