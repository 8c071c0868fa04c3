//! Which of two candidates is better, with one thing done otherwise, and the cases in which that would be seen. The run fails if no case tells such a way
//! from the rule, or if one of the sharp cases was not among its own.

use crate::better_calls::{Change, How};
use crate::better_rule::*;
use crate::fenced::Side;
use crate::limits::{SIDE, STRIDE};
use crate::model::depth_suits;

/// A way, as the rule with one part of it replaced.
pub type Way = (&'static str, Rule);

pub fn ways() -> Vec<Way> {
    [&PLANES[..], &ORDERS, &SKIPPED, &LIMITS, &SEEN, &TAKEN, &ERRORS, &CHOICES, &TOLD, &PARTS].concat()
}

/// Ways to judge other planes, or one after the other.
const PLANES: [Way; 17] = [
    ("the original not judged", judging(&[&[1, 2]])),
    ("the first candidate not judged", judging(&[&[0, 2]])),
    ("the second candidate not judged", judging(&[&[0, 1]])),
    ("the original alone judged", judging(&[&[0]])),
    ("the first candidate alone judged", judging(&[&[1]])),
    ("the second candidate alone judged", judging(&[&[2]])),
    ("by planes: original, first, second", judging(&[&[0], &[1], &[2]])),
    ("by planes: original, second, first", judging(&[&[0], &[2], &[1]])),
    ("by planes: first, original, second", judging(&[&[1], &[0], &[2]])),
    ("by planes: first, second, original", judging(&[&[1], &[2], &[0]])),
    ("by planes: second, original, first", judging(&[&[2], &[0], &[1]])),
    ("by planes: second, first, original", judging(&[&[2], &[1], &[0]])),
    ("the original before the candidates", judging(&[&[0], &[1, 2]])),
    ("the candidates before the original", judging(&[&[1, 2], &[0]])),
    ("the first pair before the second", judging(&[&[0, 1], &[0, 2]])),
    ("the second pair before the first", judging(&[&[0, 2], &[0, 1]])),
    ("the candidates before the first pair", judging(&[&[1, 2], &[0, 1]])),
];

const fn judging(groups: &'static [&'static [usize]]) -> Rule {
    Rule { groups, ..RIGHT }
}

/// Ways to judge by another order of the numbers.
const ORDERS: [Way; 7] = [
    ("2 before 1", ordered([SIDES, DEPTH, STRIDES, SHORT, ABOVE])),
    ("4 before 1", ordered([STRIDES, DEPTH, SIDES, SHORT, ABOVE])),
    ("4 before 2", ordered([DEPTH, STRIDES, SIDES, SHORT, ABOVE])),
    ("5 before 4", ordered([DEPTH, SIDES, SHORT, STRIDES, ABOVE])),
    ("6 before 5", ordered([DEPTH, SIDES, STRIDES, ABOVE, SHORT])),
    ("6 before 4", ordered([DEPTH, SIDES, ABOVE, STRIDES, SHORT])),
    ("the highest number", ordered([ABOVE, SHORT, STRIDES, SIDES, DEPTH])),
];

const fn ordered(tests: [Test; 5]) -> Rule {
    Rule { tests, ..RIGHT }
}

type Holds = fn(&Contest, usize) -> bool;

const fn one(holds: Holds) -> Rule {
    ordered([(1, holds), SIDES, STRIDES, SHORT, ABOVE])
}

const fn two(holds: Holds) -> Rule {
    ordered([DEPTH, (2, holds), STRIDES, SHORT, ABOVE])
}

const fn four(holds: Holds) -> Rule {
    ordered([DEPTH, SIDES, (4, holds), SHORT, ABOVE])
}

const fn five(holds: Holds) -> Rule {
    ordered([DEPTH, SIDES, STRIDES, (5, holds), ABOVE])
}

const fn six(holds: Holds) -> Rule {
    ordered([DEPTH, SIDES, STRIDES, SHORT, (6, holds)])
}

/// Ways to leave out one test, of one plane where planes can differ in it.
const SKIPPED: [Way; 11] = [
    ("1 not judged", one(|_, _| false)),
    ("2 not judged", two(|_, _| false)),
    ("4 of the original not judged", four(|c, i| i != ORIGINAL && STRIDES.1(c, i))),
    ("4 of the first not judged", four(|c, i| i != FIRST && STRIDES.1(c, i))),
    ("4 of the second not judged", four(|c, i| i != SECOND && STRIDES.1(c, i))),
    ("5 of the original not judged", five(|c, i| i != ORIGINAL && SHORT.1(c, i))),
    ("5 of the first not judged", five(|c, i| i != FIRST && SHORT.1(c, i))),
    ("5 of the second not judged", five(|c, i| i != SECOND && SHORT.1(c, i))),
    ("6 of the original not judged", six(|c, i| i != ORIGINAL && ABOVE.1(c, i))),
    ("6 of the first not judged", six(|c, i| i != FIRST && ABOVE.1(c, i))),
    ("6 of the second not judged", six(|c, i| i != SECOND && ABOVE.1(c, i))),
];

/// Ways to have another limit.
const LIMITS: [Way; 24] = [
    ("bytes of 9 bits taken", one(|c, _| !(depth_suits(c.wide, c.depth) || !c.wide && c.depth == 9))),
    ("words of 8 bits taken", one(|c, _| !(depth_suits(c.wide, c.depth) || c.wide && c.depth == 8))),
    ("words of 13 bits taken", one(|c, _| !(depth_suits(c.wide, c.depth) || c.wide && c.depth == 13))),
    ("no bits taken", one(|c, _| !depth_suits(c.wide, c.depth.max(1)))),
    ("bytes of 8 bits refused", one(|c, _| !depth_suits(c.wide, c.depth) || c.depth == 8)),
    ("words of 12 bits refused", one(|c, _| !depth_suits(c.wide, c.depth) || c.depth == 12)),
    ("depths of 8 bits", one(|c, _| !depth_suits(c.wide, c.depth & 0xFF))),
    ("depths of 16 bits", one(|c, _| !depth_suits(c.wide, c.depth & 0xFFFF))),
    ("a width of 16,385 taken", two(|c, _| odd(c.width, 1, SIDE + 1) || odd(c.height, 1, SIDE))),
    ("a height of 16,385 taken", two(|c, _| odd(c.width, 1, SIDE) || odd(c.height, 1, SIDE + 1))),
    ("a width of 16,384 refused", two(|c, _| odd(c.width, 1, SIDE - 1) || odd(c.height, 1, SIDE))),
    ("a height of 16,384 refused", two(|c, _| odd(c.width, 1, SIDE) || odd(c.height, 1, SIDE - 1))),
    ("a width of 0 taken", two(|c, _| odd(c.width, 0, SIDE) || odd(c.height, 1, SIDE))),
    ("a height of 0 taken", two(|c, _| odd(c.width, 1, SIDE) || odd(c.height, 0, SIDE))),
    ("sides below 8 refused", two(|c, _| odd(c.width, 8, SIDE) || odd(c.height, 8, SIDE))),
    ("sides of 32 bits", two(|c, _| [c.width, c.height].iter().any(|side| odd(*side as u32 as usize, 1, SIDE)))),
    ("a stride of 32,769 taken", four(|c, i| odd(c.strides[i], c.width, STRIDE + 1))),
    ("a stride of 32,768 refused", four(|c, i| odd(c.strides[i], c.width, STRIDE - 1))),
    ("a stride of the width refused", four(|c, i| odd(c.strides[i], c.width + 1, STRIDE))),
    ("a stride below the width taken", four(|c, i| odd(c.strides[i], c.width - 1, STRIDE))),
    ("strides of 32 bits", four(|c, i| odd(c.strides[i] as u32 as usize, c.width, STRIDE))),
    ("one sample short taken", five(|c, i| is_short(c, i, -1))),
    ("one sample more wanted", five(|c, i| is_short(c, i, 1))),
    ("a whole last row wanted", five(|c, i| is_short(c, i, c.strides[i] as i128 - c.width as i128))),
];

fn odd(number: usize, least: usize, most: usize) -> bool {
    number < least || number > most
}

/// Ways to look for samples that are too large.
const SEEN: [Way; 7] = [
    ("the largest sample refused", six(|c, i| above(c, i, (1 << c.depth) - 2, c.width))),
    ("one above the largest taken", six(|c, i| above(c, i, 1 << c.depth, c.width))),
    ("padding judged", six(|c, i| above(c, i, (1 << c.depth) - 1, c.strides[i]))),
    ("all that is lent judged", six(|c, i| c.samples[i].iter().any(|s| u32::from(*s) >= 1 << c.depth))),
    ("the last row not judged", six(|c, i| is_above(c, i, c.width, c.height - 1))),
    ("the last column not judged", six(|c, i| is_above(c, i, c.width - 1, c.height))),
    ("the first row judged", six(|c, i| is_above(c, i, c.width, 1))),
];

/// Whether a sample of so many columns is above this.
fn above(c: &Contest, i: usize, most: u32, columns: usize) -> bool {
    (0..c.height).any(|y| row(c, i, y, columns).iter().any(|s| u32::from(*s) > most))
}

/// Ways to take one plane, or a number of it, for another.
const TAKEN: [Way; 8] = [
    ("the candidates' strides exchanged", taking(|c| with_strides(c, [0, 2, 1]))),
    ("the strides of original and first exchanged", taking(|c| with_strides(c, [1, 0, 2]))),
    ("the strides of original and second exchanged", taking(|c| with_strides(c, [2, 1, 0]))),
    ("the original's stride for all", taking(|c| with_strides(c, [0, 0, 0]))),
    ("the first's stride for both candidates", taking(|c| with_strides(c, [0, 1, 1]))),
    ("the candidates exchanged", taking(|c| with_planes(c, [0, 2, 1]))),
    ("original and first exchanged", taking(|c| with_planes(c, [1, 0, 2]))),
    ("the width for the height", taking(|c| Contest { width: c.height, height: c.width, ..c.clone() })),
];

const fn taking(taken: fn(&Contest) -> Contest) -> Rule {
    Rule { taken: Some(taken), ..RIGHT }
}

fn with_strides(c: &Contest, from: [usize; 3]) -> Contest {
    Contest { strides: from.map(|i| c.strides[i]), ..c.clone() }
}

fn with_planes(c: &Contest, from: [usize; 3]) -> Contest {
    Contest { samples: from.map(|i| c.samples[i].clone()), ..with_strides(c, from) }
}

/// Ways to make the errors.
const ERRORS: [Way; 11] = [
    ("absolute differences", erring(|c, i| summed(c, 0, i, c.width, c.height, |x, y| u64::from(x.abs_diff(y))))),
    ("differences of 8 bits", erring(|c, i| summed(c, 0, i, c.width, c.height, narrow))),
    ("squares of 16 bits", erring(|c, i| summed(c, 0, i, c.width, c.height, |x, y| square(x, y) & 0xFFFF))),
    ("errors of 32 bits", erring(|c, i| squared(c, i) & 0xFFFF_FFFF)),
    ("the second's error from the first", erring(|c, i| summed(c, i - 1, i, c.width, c.height, square))),
    ("the first's error from the second", erring(|c, i| summed(c, (i + 1) % 3, i, c.width, c.height, square))),
    ("padding counted", erring(|c, i| summed(c, 0, i, c.strides[i].min(c.strides[0]), c.height, square))),
    ("the last column not counted", erring(|c, i| summed(c, 0, i, c.width - 1, c.height, square))),
    ("the last row not counted", erring(|c, i| summed(c, 0, i, c.width, c.height - 1, square))),
    ("one sample a row", erring(|c, i| summed(c, 0, i, 1, c.height, square))),
    ("the mean", erring(|c, i| squared(c, i) / (c.width * c.height) as u64)),
];

const fn erring(error: fn(&Contest, usize) -> u64) -> Rule {
    Rule { error, ..RIGHT }
}

fn square(x: u16, y: u16) -> u64 {
    u64::from(x.abs_diff(y)).pow(2)
}

fn narrow(x: u16, y: u16) -> u64 {
    u64::from(x.wrapping_sub(y) as u8).pow(2)
}

/// Ways to choose.
const CHOICES: [Way; 8] = [
    ("a tie to the second", choosing(|[first, second]| second <= first)),
    ("the larger error", choosing(|[first, second]| second > first)),
    ("the larger error, a tie to the second", choosing(|[first, second]| second >= first)),
    ("always the first", choosing(|_| false)),
    ("always the second", choosing(|_| true)),
    ("the second where both are the original", choosing(|[first, second]| second < first || first == 0 && second == 0)),
    ("compared in 32 bits", choosing(|[first, second]| (second as u32) < first as u32)),
    ("compared as singles", choosing(|[first, second]| (second as f32) < first as f32)),
];

const fn choosing(second: fn([u64; 2]) -> bool) -> Rule {
    Rule { second, ..RIGHT }
}

/// Ways to tell what came of it.
const TOLD: [Way; 10] = [
    ("the other's error", telling(|j| (j.error(3 - j.chosen), j.chosen as u8))),
    ("the first's error", telling(|j| (j.errors[0], j.chosen as u8))),
    ("the second's error", telling(|j| (j.errors[1], j.chosen as u8))),
    ("both errors", telling(|j| (j.errors[0] + j.errors[1], j.chosen as u8))),
    ("the candidates told for each other", telling(|j| (j.error(j.chosen), 3 - j.chosen as u8))),
    ("the candidates told from 0", telling(|j| (j.error(j.chosen), j.chosen as u8 - 1))),
    ("no candidate told", telling(|j| (j.error(j.chosen), BEFORE.which))),
    ("which written where refused", Rule { refused: Told { which: 0, ..BEFORE }, ..RIGHT }),
    ("the first told where refused", Rule { refused: Told { which: 1, ..BEFORE }, ..RIGHT }),
    ("the error written where refused", Rule { refused: Told { error: 0, ..BEFORE }, ..RIGHT }),
];

const fn telling(told: fn(&Judged) -> (u64, u8)) -> Rule {
    Rule { told, ..RIGHT }
}

/// Ways to hand back.
const PARTS: [Way; 15] = [
    ("the loser handed back", handing(|c, j| whole(c, 3 - j.chosen))),
    ("the original handed back", handing(|c, _| whole(c, ORIGINAL))),
    ("the first handed back", handing(|c, _| whole(c, FIRST))),
    ("the second handed back", handing(|c, _| whole(c, SECOND))),
    ("the second handed back on a tie", handing(|c, j| whole(c, if j.is_tie() { SECOND } else { j.chosen }))),
    ("nothing on a tie", handing(|c, j| cut(c, j, if j.is_tie() { 0 } else { usize::MAX }))),
    ("nothing where the winner is the original", handing(|c, j| cut(c, j, (j.error(j.chosen) > 0) as usize * MANY))),
    ("nothing at all", handing(|c, j| cut(c, j, 0))),
    ("what is needed", handing(|c, j| cut(c, j, c.strides[j.chosen] * (c.height - 1) + c.width))),
    ("whole rows", handing(|c, j| cut(c, j, c.strides[j.chosen] * c.height))),
    ("as many as are seen", handing(|c, j| cut(c, j, c.width * c.height))),
    ("one sample less", handing(|c, j| cut(c, j, c.samples[j.chosen].len() - 1))),
    ("as many as the original", handing(|c, j| cut(c, j, c.samples[ORIGINAL].len()))),
    ("the first where refused", Rule { nothing: |c, _| whole(c, FIRST), ..RIGHT }),
    ("the first where a sample is too large", Rule { nothing: |c, no| whole_if(c, no == 6), ..RIGHT }),
];

/// More than any plane here has.
const MANY: usize = usize::MAX;

const fn handing(part: fn(&Contest, &Judged) -> Part) -> Rule {
    Rule { part, ..RIGHT }
}

/// So many samples of the winner, or all.
fn cut(c: &Contest, judged: &Judged, len: usize) -> Part {
    let all = whole(c, judged.chosen);
    Part { len: all.len.min(len), ..all }
}

fn whole_if(c: &Contest, so: bool) -> Part {
    if so {
        whole(c, FIRST)
    } else {
        (RIGHT.nothing)(c, 0)
    }
}

/// A case as it was judged. Of a change between two calls: what it was, and whether another candidate won after it.
pub struct Met<'a> {
    pub contest: &'a Contest,
    pub how: How,
    pub told: Told,
    pub judged: Option<Judged>,
    pub change: Option<(Change, bool)>,
}

impl Met<'_> {
    fn took(&self, holds: impl Fn(&Contest, &Judged) -> bool) -> bool {
        self.judged.map_or(false, |judged| holds(self.contest, &judged))
    }

    fn refused(&self, answer: u8, holds: impl Fn(&Contest) -> bool) -> bool {
        self.told.answer == answer && holds(self.contest)
    }

    fn tied(&self, holds: impl Fn(&Contest, &[Vec<u16>; 3]) -> bool) -> bool {
        self.took(|c, judged| judged.is_tie() && holds(c, &c.visible()))
    }

    /// Whether a plane alone has a sample above the largest, or has it where it is not seen and nothing is refused.
    fn too_large(&self, plane: usize) -> bool {
        self.refused(6, |c| (0..3).all(|i| ABOVE.1(c, i) == (i == plane)))
    }

    fn unseen(&self, plane: usize) -> bool {
        self.took(|c, _| (0..3).all(|i| c.samples[i].iter().any(|s| usize::from(*s) > c.max()) == (i == plane)))
    }

    /// Whether what is lent in one place lies so.
    fn lies(&self, place: usize, side: Side) -> bool {
        self.how.sides[place] == side && self.judged.is_some()
    }

    /// Whether the sample that was changed is one that is seen.
    fn changed(&self, seen: bool, turned: bool) -> bool {
        let is_seen =
            |c: &Contest, plane: usize, at: usize| at % c.strides[plane] < c.width && at / c.strides[plane] < c.height;
        self.change.map_or(false, |((plane, at, _), other)| is_seen(self.contest, plane, at) == seen && other == turned)
    }
}

/// A case that a run must have met.
pub type Sharp = (&'static str, fn(&Met) -> bool);

pub const SHARP: [Sharp; 51] = [
    ("three unlike strides", |met| met.took(|c, _| c.height > 1 && unlike(&c.strides))),
    ("three unlike strides of words", |met| met.took(|c, _| c.wide && c.height > 1 && unlike(&c.strides))),
    ("equal candidates", |met| met.tied(|_, [o, a, b]| a == b && a != o)),
    ("equal candidates of unlike strides", |met| met.tied(|c, [_, a, b]| a == b && c.strides[1] != c.strides[2])),
    ("equal candidates of unlike tails", |met| met.tied(|c, [_, a, b]| a == b && c.samples[1] != c.samples[2])),
    ("both candidates the original", |met| met.tied(|_, [o, a, b]| a == o && b == o)),
    ("a tie of unlike candidates", |met| met.tied(|_, [_, a, b]| a != b)),
    ("a tie of unlike candidates, of words", |met| met.tied(|c, [_, a, b]| c.wide && a != b)),
    ("the first better by one", |met| met.took(|_, j| j.errors[0] + 1 == j.errors[1])),
    ("the second better by one", |met| met.took(|_, j| j.errors[1] + 1 == j.errors[0])),
    ("the first is the original", |met| met.took(|_, j| j.errors[0] == 0 && j.errors[1] > 0)),
    ("the second is the original", |met| met.took(|_, j| j.errors[1] == 0 && j.errors[0] > 0)),
    ("errors past 32 bits, the first smaller", |met| met.took(|_, j| j.errors[1] >> 32 > 0 && j.chosen == FIRST)),
    ("errors past 32 bits, the second smaller", |met| met.took(|_, j| j.errors[0] >> 32 > 0 && j.chosen == SECOND)),
    ("the largest width", |met| met.took(|c, _| c.width == SIDE)),
    ("the largest height", |met| met.took(|c, _| c.height == SIDE)),
    ("a width past the largest", |met| met.refused(2, |c| c.width == SIDE + 1)),
    ("a height past the largest", |met| met.refused(2, |c| c.height == SIDE + 1)),
    ("no width", |met| met.refused(2, |c| c.width == 0)),
    ("no height", |met| met.refused(2, |c| c.height == 0)),
    ("bytes of 8 bits", |met| met.took(|c, _| !c.wide && c.depth == 8)),
    ("bytes of 9 bits", |met| met.refused(1, |c| !c.wide && c.depth == 9)),
    ("bytes of 1 bit", |met| met.took(|c, _| !c.wide && c.depth == 1)),
    ("bytes of no bits", |met| met.refused(1, |c| !c.wide && c.depth == 0)),
    ("words of 9 bits", |met| met.took(|c, _| c.wide && c.depth == 9)),
    ("words of 8 bits", |met| met.refused(1, |c| c.wide && c.depth == 8)),
    ("words of 12 bits", |met| met.took(|c, _| c.wide && c.depth == 12)),
    ("words of 13 bits", |met| met.refused(1, |c| c.wide && c.depth == 13)),
    ("the largest stride of the original", |met| met.took(|c, _| c.strides[0] == STRIDE)),
    ("the largest stride of the first", |met| met.took(|c, _| c.strides[1] == STRIDE)),
    ("the largest stride of the second", |met| met.took(|c, _| c.strides[2] == STRIDE)),
    ("a larger one of the original", |met| met.refused(4, |c| broken(c, STRIDES) == [true, false, false])),
    ("a larger one of the first", |met| met.refused(4, |c| broken(c, STRIDES) == [false, true, false])),
    ("a larger one of the second", |met| met.refused(4, |c| broken(c, STRIDES) == [false, false, true])),
    ("the original one sample short", |met| met.refused(5, |c| short_by_one(c, 0))),
    ("the first one sample short", |met| met.refused(5, |c| short_by_one(c, 1))),
    ("the second one sample short", |met| met.refused(5, |c| short_by_one(c, 2))),
    ("just as many samples as are needed", |met| met.took(|c, _| (0..3).all(|i| is_short(c, i, 1)))),
    ("a sample too large in the original", |met| met.too_large(0)),
    ("a sample too large in the first", |met| met.too_large(1)),
    ("a sample too large in the second", |met| met.too_large(2)),
    ("such a sample unseen in the original", |met| met.unseen(0)),
    ("such a sample unseen in the first", |met| met.unseen(1)),
    ("such a sample unseen in the second", |met| met.unseen(2)),
    ("planes that end at fences", |met| (0..3).all(|i| met.lies(i, Side::End))),
    ("planes that begin at fences", |met| (0..3).all(|i| met.lies(i, Side::Start))),
    ("results that end at fences", |met| (3..6).all(|i| met.lies(i, Side::End))),
    ("results that begin at fences", |met| (3..6).all(|i| met.lies(i, Side::Start))),
    ("a sample changed between calls that is seen", |met| met.changed(true, false)),
    ("a sample changed so that the other wins", |met| met.changed(true, true)),
    ("a sample changed that is not seen", |met| met.changed(false, false)),
];

fn unlike(strides: &[usize; 3]) -> bool {
    let [x, y, z] = strides;
    x != y && y != z && x != z
}

/// Which planes break a test.
pub fn broken(c: &Contest, test: Test) -> [bool; 3] {
    [0, 1, 2].map(|i| test.1(c, i))
}

fn short_by_one(c: &Contest, plane: usize) -> bool {
    (0..3).all(|i| SHORT.1(c, i) == (i == plane)) && !is_short(c, plane, -1)
}
