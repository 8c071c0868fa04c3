//! Combining with one thing done otherwise, and the cases in which that would be seen. The run fails if no case tells such a way from ours, or if
//! one of the sharp cases was not among its own.

use crate::averaged::averaged;

/// A way to combine, and what a call would then give.
pub type Way<T> = (&'static str, fn(f64, [f64; 3]) -> T);

/// Of SSIM: the sum, and its weight.
pub const PAIRS: [Way<[f64; 2]>; 5] = [
    ("a weight for each", |c, [y, u, v]| [y + (c * u + c * v), 1.0 + 2.0 * c]),
    ("y and u first", |c, [y, u, v]| [y + c * u + c * v, 1.0 + 2.0 * c]),
    ("a fused sum", |c, [y, u, v]| [c.mul_add(u + v, y), 1.0 + 2.0 * c]),
    ("the weight of u alone", |c, [y, u, v]| [y + (c * u + v), 1.0 + 2.0 * c]),
    ("1 + c", |c, [y, u, v]| [y + c * (u + v), 1.0 + c]),
];

/// Of HVS: the last step done otherwise, the published one first; then the steps before it.
pub const AVERAGES: [Way<f64>; 18] = [
    ("times the weight, as published", multiplied),
    ("times the weight's reciprocal", |c, s| sum(c, s) * (1.0 / (1.0 + 2.0 * c))),
    ("not divided", sum),
    ("divided twice", |c, s| averaged(c, s) / (1.0 + 2.0 * c)),
    ("each score divided", |c, s| sum(c, s.map(|one| one / (1.0 + 2.0 * c)))),
    ("y and chroma divided", |c, [y, u, v]| y / (1.0 + 2.0 * c) + c * (u + v) / (1.0 + 2.0 * c)),
    ("the weights divided", |c, [y, u, v]| y / (1.0 + 2.0 * c) + c / (1.0 + 2.0 * c) * (u + v)),
    ("divided before chroma is added", |c, [y, u, v]| y / (1.0 + 2.0 * c) + c * (u + v)),
    ("chroma alone divided", |c, [y, u, v]| y + c * (u + v) / (1.0 + 2.0 * c)),
    ("divided by 1, and 2c added", |c, s| sum(c, s) / 1.0 + 2.0 * c),
    ("over 1 + c", |c, s| sum(c, s) / (1.0 + c)),
    ("over 1 + c + c", |c, s| sum(c, s) / (1.0 + c + c)),
    ("over 3", |_, [y, u, v]| (y + u + v) / 3.0),
    ("y moved towards chroma", |c, [y, u, v]| y + c * (u + v - 2.0 * y) / (1.0 + 2.0 * c)),
    ("an average with a weight for each", |c, [y, u, v]| (y + (c * u + c * v)) / (1.0 + 2.0 * c)),
    ("an average with y and u first", |c, [y, u, v]| (y + c * u + c * v) / (1.0 + 2.0 * c)),
    ("an average of a fused sum", |c, [y, u, v]| c.mul_add(u + v, y) / (1.0 + 2.0 * c)),
    ("an average with the weight of u alone", |c, [y, u, v]| (y + (c * u + v)) / (1.0 + 2.0 * c)),
];

fn sum(c: f64, [y, u, v]: [f64; 3]) -> f64 {
    y + c * (u + v)
}

/// As the Rust does it.
fn multiplied(c: f64, scores: [f64; 3]) -> f64 {
    (1.0 + 2.0 * c) * sum(c, scores)
}

/// A call for HVS and its answer; where that is 0, the score.
pub struct Met {
    pub c: f64,
    pub scores: [f64; 3],
    pub answer: u8,
    pub score: f64,
}

impl Met {
    fn weight(&self, answer: u8, bits: u64) -> bool {
        (self.answer, self.c.to_bits()) == (answer, bits)
    }

    fn chroma(&self) -> f64 {
        self.scores[1] + self.scores[2]
    }
}

/// A case that a run must have met.
pub type Sharp = (&'static str, fn(&Met) -> bool);

const ONE: u64 = 0x3FF0_0000_0000_0000;
const LARGEST_ALONE: [f64; 3] = [f64::MAX, 0.0, 0.0];

pub const SHARP: [Sharp; 17] = [
    ("a weight of 0", |met| met.weight(0, 0)),
    ("a weight of -0", |met| met.weight(0, 1 << 63)),
    ("a weight of 1", |met| met.weight(0, ONE)),
    ("the weight below 1", |met| met.weight(0, ONE - 1)),
    ("the weight above 1", |met| met.weight(13, ONE + 1)),
    ("the weight below 0", |met| met.weight(13, 1 << 63 | 1)),
    ("the least weight above 0", |met| met.weight(0, 1)),
    ("a weight that is not a number", |met| met.answer == 13 && met.c.is_nan()),
    ("an infinite weight", |met| met.answer == 13 && met.c == f64::INFINITY),
    ("a weight that is minus infinity", |met| met.answer == 13 && met.c == f64::NEG_INFINITY),
    ("a score that is not a number", |met| met.answer == 13 && met.c == 0.5 && met.scores[2].is_nan()),
    ("an infinite score", |met| met.answer == 13 && met.c == 0.5 && met.scores[1].is_infinite()),
    ("0 times infinity", |met| met.answer == 9 && met.c == 0.0 && met.chroma().is_infinite()),
    ("a sum that overflows by y", |met| met.answer == 9 && (met.c * met.chroma()).is_finite()),
    ("only the product overflows", |met| met.answer == 0 && multiplied(met.c, met.scores).is_infinite()),
    ("the largest double alone", |met| {
        met.weight(0, ONE) && met.scores == LARGEST_ALONE && met.score == f64::MAX / 3.0
    }),
    ("a subnormal score", |met| met.answer == 0 && met.score.is_subnormal()),
];
