//! The rule of row-fed SSIM, from the text of its order: what each call refuses, which states no begin and feeds could give, when a centre row is scored,
//! and what is left. Each part has a name of its own, so that `rows_ways.rs` can have one of them otherwise.

use crate::limits::{SIDE, STRIDE};
use crate::model::{depth_suits, needs};
use crate::ssim::lawful;

/// The refusal that this form of SSIM brings.
pub const STATE: u8 = 15;
/// The most taps of a kernel, and the places that a state has for them.
pub const TAPS: usize = 255;
/// What the numbers of a state are, by their place in it.
pub const NAMES: [&str; 6] = ["width", "height", "depth", "taps", "rows", "scored"];

/// What a caller holds between calls. The sums are told by their bits.
#[derive(Clone, Copy, PartialEq)]
pub struct Held {
    pub numbers: [u64; 6],
    pub kernel: [u16; TAPS],
    pub sums: [u64; 3],
}

/// What begin is asked. `places` is how much of the scratch is lent, here and below.
#[derive(Clone)]
pub struct Begin {
    pub wide: bool,
    pub width: usize,
    pub height: usize,
    pub depth: u32,
    pub kernel: Vec<u16>,
    pub places: usize,
}

/// What a feed is asked. It was made for rows of `width`, which is not lent.
#[derive(Clone)]
pub struct Feed {
    pub wide: bool,
    pub width: usize,
    pub rows: usize,
    pub strides: [usize; 2],
    pub samples: [Vec<u16>; 2],
    pub places: usize,
}

impl Held {
    pub fn places_needed(&self) -> u128 {
        places_needed(self.numbers[0], self.numbers[3])
    }

    pub fn sums(&self) -> [f64; 3] {
        self.sums.map(f64::from_bits)
    }

    /// The quotients that finishing gives, or judges.
    pub fn pair(&self) -> [f64; 2] {
        let [ssim, cs, weight] = self.sums();
        [ssim / weight, cs / weight]
    }

    /// The begin that gives these sides, this depth and this kernel, if one can be asked for them at all.
    fn begun_by(&self, wide: bool) -> Option<Begin> {
        let [width, height, depth, taps, ..] = self.numbers;
        let depth = u32::try_from(depth).ok()?;
        let kernel = self.kernel.get(..usize::try_from(taps).ok()?)?.to_vec();
        Some(Begin { wide, width: width as usize, height: height as usize, depth, kernel, places: usize::MAX })
    }
}

/// 6 × width × L, L the least power of two that is no less than the taps: the scratch of SSIM.
pub fn places_needed(width: u64, taps: u64) -> u128 {
    (6 * u128::from(width)).saturating_mul(u128::from(taps).next_power_of_two())
}

/// A refusal's number and whether it applies, for each of the calls. Of those that apply the first in a list is given.
pub type BeginTest = (u8, fn(&Begin) -> bool);
pub type FeedTest = (u8, fn(&Rule, &Held, &Feed) -> bool);
pub type FinishTest = (u8, fn(&Rule, &Held, usize) -> bool);

/// A centre row, and how many rows have come of how many.
pub struct Came {
    pub y: u64,
    pub rows: u64,
    pub height: u64,
    pub taps: u64,
}

/// What becomes of scratch: nothing, so many places are 0, or so many are the library's own. Whatever else there is stays.
#[derive(Clone, Copy, Debug, PartialEq)]
pub enum Scratch {
    Kept,
    Cleared(usize),
    Own(usize),
}

/// How terms are added to the running sums.
#[derive(Clone, Copy, PartialEq)]
pub enum Adding {
    OneByOne,
    ByRow,
    ByFeed,
}

#[derive(Clone, Copy, Debug, PartialEq)]
pub enum Call {
    Begin,
    Feed,
    Finish,
}

/// A call that came to an answer: how many places it needs, and how many were lent.
pub struct Done {
    pub call: Call,
    pub answer: u8,
    pub need: usize,
    pub places: usize,
}

/// A row that is looked for when `came` rows are stored, one by one, of a feed after which there are `end`.
pub struct Line {
    pub row: usize,
    pub came: usize,
    pub end: usize,
    pub taps: usize,
}

#[derive(Clone, Copy)]
pub struct Rule {
    pub begin: &'static [BeginTest],
    pub feed: &'static [FeedTest],
    pub finish: &'static [FinishTest],
    /// What of a state is judged.
    pub judged: fn(bool, Held) -> Held,
    /// When the state tells a centre row as scored, and when it is in the sums.
    pub scored: fn(&Came) -> bool,
    pub summed: fn(&Came) -> bool,
    /// Which row is found where one is looked for.
    pub line: fn(&Line) -> usize,
    pub adding: Adding,
    /// The state that an accepted begin makes of the one that was lent.
    pub begun: fn(&Begin, Held) -> Held,
    /// The state that a finish leaves, and the one that a refused call does.
    pub finished: fn(Held) -> Held,
    pub refused: fn(Call, Held) -> Held,
    pub scratch: fn(&Done) -> Scratch,
    /// Whether a pair is given, and not 9.
    pub finite: fn([f64; 2]) -> bool,
}

pub const RIGHT: Rule = Rule {
    begin: &[(1, depth), (2, sides), (7, kernel), (8, begin_room)],
    feed: &[(STATE, impossible), (4, strides), (5, short), (6, above), (8, feed_room), (STATE, past)],
    finish: &[(STATE, unheard), (8, finish_room), (STATE, early)],
    judged: |_, held| held,
    scored: is_scored,
    summed: is_scored,
    line: |line| line.row,
    adding: Adding::OneByOne,
    begun,
    finished: |held| held,
    refused: |_, held| held,
    scratch,
    finite: |pair| pair[0].is_finite() && pair[1].is_finite(),
};

impl Rule {
    pub fn begin_refusal(&self, begin: &Begin) -> u8 {
        self.begin.iter().find(|test| test.1(begin)).map_or(0, |test| test.0)
    }

    pub fn feed_refusal(&self, held: &Held, feed: &Feed) -> u8 {
        self.feed.iter().find(|test| test.1(self, held, feed)).map_or(0, |test| test.0)
    }

    pub fn finish_refusal(&self, held: &Held, places: usize) -> u8 {
        self.finish.iter().find(|test| test.1(self, held, places)).map_or(0, |test| test.0)
    }

    /// Whether begin and feeds of this sample width could give the sides, depth, kernel and counts of rows: then the begin that gives the kernel is
    /// accepted and leaves it as it is held, so many rows may come, and so many are scored then.
    pub fn is_possible(&self, wide: bool, held: &Held) -> bool {
        let held = (self.judged)(wide, *held);
        let [_, height, .., rows, scored] = held.numbers;
        let given = |begin: Begin| self.begin_refusal(&begin) == 0 && begun(&begin, held).kernel == held.kernel;
        held.begun_by(wide).map_or(false, given) && rows <= height && scored == self.scored_after(&held, rows)
    }

    /// The centre rows that the state tells as scored when so many have come, of sides that were accepted.
    pub fn scored_after(&self, held: &Held, rows: u64) -> u64 {
        let [_, height, _, taps, ..] = held.numbers;
        (0..height.min(SIDE as u64)).take_while(|y| (self.scored)(&Came { y: *y, rows, height, taps })).count() as u64
    }
}

pub fn depth(begin: &Begin) -> bool {
    !depth_suits(begin.wide, begin.depth)
}

pub fn sides(begin: &Begin) -> bool {
    [begin.width, begin.height].iter().any(|side| *side == 0 || *side > SIDE)
}

pub fn kernel(begin: &Begin) -> bool {
    !lawful(&begin.kernel)
}

pub fn begin_room(begin: &Begin) -> bool {
    (begin.places as u128) < places_needed(begin.width as u64, begin.kernel.len() as u64)
}

pub fn impossible(rule: &Rule, held: &Held, feed: &Feed) -> bool {
    !rule.is_possible(feed.wide, held)
}

/// Judged at each feed, of no rows too.
pub fn strides(_: &Rule, held: &Held, feed: &Feed) -> bool {
    feed.strides.iter().any(|stride| (*stride as u64) < held.numbers[0] || *stride > STRIDE)
}

/// No rows need no samples.
pub fn short(_: &Rule, held: &Held, feed: &Feed) -> bool {
    let needed = |i: usize| needs(feed.strides[i], held.numbers[0] as usize, feed.rows);
    feed.rows > 0 && (0..2).any(|i| (feed.samples[i].len() as u128) < needed(i))
}

/// Over all rows that are lent, those past the height too.
pub fn above(_: &Rule, held: &Held, feed: &Feed) -> bool {
    is_above(held, feed, feed.rows)
}

/// Whether a sample of the first so many rows is above the largest of the depth; what is not lent is not.
pub fn is_above(held: &Held, feed: &Feed, rows: usize) -> bool {
    let width = held.numbers[0] as usize;
    let max = 1u16.checked_shl(held.numbers[2] as u32).map_or(u16::MAX, |n| n - 1);
    (0..2).any(|i| {
        let mut lines = feed.samples[i].chunks(feed.strides[i].max(1)).take(rows);
        lines.any(|line| line.iter().take(width).any(|s| *s > max))
    })
}

pub fn feed_room(_: &Rule, held: &Held, feed: &Feed) -> bool {
    (feed.places as u128) < held.places_needed()
}

pub fn past(_: &Rule, held: &Held, feed: &Feed) -> bool {
    u128::from(held.numbers[4]) + feed.rows as u128 > u128::from(held.numbers[1])
}

/// Finishing has no samples: their width is the one that the depth names.
pub fn unheard(rule: &Rule, held: &Held, _: usize) -> bool {
    !rule.is_possible(held.numbers[2] > 8, held)
}

pub fn finish_room(_: &Rule, held: &Held, places: usize) -> bool {
    (places as u128) < held.places_needed()
}

pub fn early(_: &Rule, held: &Held, _: usize) -> bool {
    held.numbers[4] != held.numbers[1]
}

/// As soon as half a kernel of further rows has come, or the last row has.
pub fn is_scored(came: &Came) -> bool {
    came.y + came.taps / 2 < came.rows || came.rows == came.height
}

fn begun(begin: &Begin, _: Held) -> Held {
    let numbers = [begin.width as u64, begin.height as u64, u64::from(begin.depth), begin.kernel.len() as u64, 0, 0];
    let mut kernel = [0; TAPS];
    kernel[..begin.kernel.len()].copy_from_slice(&begin.kernel);
    Held { numbers, kernel, sums: [0.0f64.to_bits(); 3] }
}

/// A refused call leaves it alone; begin and finish leave what is needed 0, at 9 too.
fn scratch(done: &Done) -> Scratch {
    match (done.call, done.answer) {
        (Call::Feed, 0) => Scratch::Own(done.need),
        (_, 0 | 9) => Scratch::Cleared(done.need),
        _ => Scratch::Kept,
    }
}
