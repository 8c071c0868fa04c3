//! The plain SSIM engine with one thing done otherwise, and the cases in which that would be seen. The run fails if no case tells such a way from the engine,
//! or if one of the sharp cases was not among its own.

use crate::fenced::Side;
use crate::plain_ssim::Said;
use crate::samples::Pair;
use crate::ssim::{lawful, trimmed};
use crate::ssim_ways::{published_score, Moments};

/// A call: what was asked, what SSIM answered in the scratch that it had, and what is right.
pub struct Met<'a> {
    pub pair: &'a Pair,
    pub kernel: &'a [u16],
    pub before: [u64; 2],
    pub fast: u8,
    pub right: Said,
    pub side: Side,
}

impl Met<'_> {
    /// The answer under an engine, of planes that are not refused.
    fn by(&self, engine: &Engine) -> Said {
        match self.right.0 {
            0 => (0, engine.pair(self.pair, self.kernel)),
            _ => self.right,
        }
    }

    fn refused(&self, answer: u8) -> Said {
        (answer, self.before)
    }

    /// With the refusal of these planes, where they have one that is not the call's.
    fn judging(&self, planes: &Pair) -> Said {
        match planes.refusal(0) {
            0 if !lawful(self.kernel) => self.refused(7),
            0 => (0, RIGHT.pair(planes, self.kernel)),
            refused => self.refused(refused),
        }
    }

    fn scored(&self, holds: impl Fn(&Pair, usize) -> bool) -> bool {
        self.right.0 == 0 && holds(self.pair, self.kernel.len())
    }
}

/// A place of a window: how far it is from the centre, and how far a window goes.
#[derive(Clone, Copy)]
pub struct Off {
    down: isize,
    right: isize,
    half: isize,
}

/// An engine in its parts.
#[derive(Clone, Copy)]
pub struct Engine {
    /// Which places a window has.
    window: fn(Off) -> bool,
    /// The row or column of the plane that a place outside stands for.
    outside: fn(isize, isize) -> Option<isize>,
    /// The weight of a place, by the taps of its row and of its column.
    weight: fn(i64, i64) -> i64,
    /// The weight that is added up.
    weighed: fn(i64, i64) -> i64,
    /// What a sum becomes as it is kept.
    kept: fn(i64) -> i64,
    /// Whether a centre's sums go on from those of the centre before it.
    goes_on: fn(usize) -> bool,
    /// The centre that comes at this turn.
    centre: fn(usize, usize, usize) -> (usize, usize),
    /// Which plane is the first.
    first: usize,
}

pub const RIGHT: Engine = Engine {
    window: |_| true,
    outside: |_, _| None,
    weight: |row, column| row * column,
    weighed: |row, column| row * column,
    kept: |sum| sum,
    goes_on: |_| false,
    centre: |turn, width, _| (turn % width, turn / width),
    first: 0,
};

impl Engine {
    /// The pair as bits.
    pub fn pair(&self, p: &Pair, kernel: &[u16]) -> [u64; 2] {
        let planes = p.visible();
        let (mut sums, mut totals) = ([0; 6], [0.0; 3]);
        for turn in 0..p.width * p.height {
            let (x, y) = (self.centre)(turn, p.width, p.height);
            if !(self.goes_on)(x) {
                sums = [0; 6];
            }
            self.add(&mut sums, p, &planes, kernel, (x as isize, y as isize));
            let moments: Moments = sums.map(|sum| sum as f64);
            let (ssim, cs) = published_score(moments, p.max() as f64);
            totals = [totals[0] + ssim, totals[1] + cs, totals[2] + moments[5]];
        }
        [totals[0] / totals[2], totals[1] / totals[2]].map(f64::to_bits)
    }

    /// Adds the window of a centre.
    fn add(&self, sums: &mut [i64; 6], p: &Pair, planes: &[Vec<u16>; 2], kernel: &[u16], (x, y): (isize, isize)) {
        let half = kernel.len() as isize / 2;
        let tap = |off: isize| i64::from(kernel[(off + half) as usize]);
        let inside = |at: isize, side: usize| {
            let side = side as isize;
            Some(at).filter(|at| (0..side).contains(at)).or_else(|| (self.outside)(at, side))
        };
        for (down, right) in (-half..=half).flat_map(|down| (-half..=half).map(move |right| (down, right))) {
            let place = inside(y + down, p.height).zip(inside(x + right, p.width));
            if let (Some((v, u)), true) = (place, (self.window)(Off { down, right, half })) {
                let sample = |i: usize| i64::from(planes[i][v as usize * p.width + u as usize]);
                let (a, b) = (sample(self.first), sample(1 - self.first));
                let (weight, weighed) = ((self.weight)(tap(down), tap(right)), (self.weighed)(tap(down), tap(right)));
                for (sum, term) in sums.iter_mut().zip([a, b, a * a, a * b, b * b]) {
                    *sum = (self.kept)(*sum + weight * term);
                }
                sums[5] = (self.kept)(sums[5] + weighed);
            }
        }
    }
}

/// A way, and what a call would then answer.
pub type Way = (&'static str, fn(&Met) -> Said);

pub fn ways() -> Vec<Way> {
    [&WINDOWS[..], &SUMS, &REFUSALS].concat()
}

const WINDOWS: [Way; 10] = [
    ("a window cut by its first row", |met| met.by(&Engine { window: |off| off.down > -off.half, ..RIGHT })),
    ("a window cut by its last row", |met| met.by(&Engine { window: |off| off.down < off.half, ..RIGHT })),
    ("a window cut by its first column", |met| met.by(&Engine { window: |off| off.right > -off.half, ..RIGHT })),
    ("a window cut by its last column", |met| met.by(&Engine { window: |off| off.right < off.half, ..RIGHT })),
    ("a window of its rows so far", |met| met.by(&Engine { window: |off| off.down <= 0, ..RIGHT })),
    ("a window of one row", |met| met.by(&Engine { window: |off| off.down == 0, ..RIGHT })),
    ("a window of one column", |met| met.by(&Engine { window: |off| off.right == 0, ..RIGHT })),
    ("a window of at most 15 rows", |met| met.by(&Engine { window: |off| off.down.abs() <= 7, ..RIGHT })),
    ("edges that go on", |met| met.by(&Engine { outside: |at, side| Some(at.clamp(0, side - 1)), ..RIGHT })),
    ("edges that wrap", |met| met.by(&Engine { outside: |at, side| Some(at.rem_euclid(side)), ..RIGHT })),
];

const SUMS: [Way; 12] = [
    ("samples weighed by rows only", |met| met.by(&Engine { weight: |row, _| row, weighed: |row, _| row, ..RIGHT })),
    ("samples weighed by columns only", |met| met.by(&Engine { weight: |_, c| c, weighed: |_, c| c, ..RIGHT })),
    ("the weight of rows only", |met| met.by(&Engine { weighed: |row, _| row, ..RIGHT })),
    ("the weight of columns only", |met| met.by(&Engine { weighed: |_, column| column, ..RIGHT })),
    ("every place of one weight", |met| met.by(&Engine { weight: |_, _| 1, weighed: |_, _| 1, ..RIGHT })),
    ("taps added", |met| met.by(&Engine { weight: |r, c| r + c, weighed: |r, c| r + c, ..RIGHT })),
    ("sums of 32 bits", |met| met.by(&Engine { kept: |sum| i64::from(sum as u32), ..RIGHT })),
    ("sums that go on from the last centre", |met| met.by(&Engine { goes_on: |x| x > 0, ..RIGHT })),
    ("sums that go on at a row's start", |met| met.by(&Engine { goes_on: |x| x == 0, ..RIGHT })),
    ("column by column", |met| met.by(&Engine { centre: |turn, _, height| (turn / height, turn % height), ..RIGHT })),
    ("the last centre first", |met| {
        let centre = |turn, width, height| ((width * height - 1 - turn) % width, (width * height - 1 - turn) / width);
        met.by(&Engine { centre, ..RIGHT })
    }),
    ("the planes exchanged", |met| met.by(&Engine { first: 1, ..RIGHT })),
];

const REFUSALS: [Way; 14] = [
    ("8 where SSIM gives it", |met| if met.fast == 8 { met.refused(8) } else { met.right }),
    ("8 for more than one tap", |met| eight(met, met.kernel.len() > 1)),
    ("8 past 2,000 columns", |met| eight(met, met.pair.width > 2_000)),
    ("8 past 127 taps", |met| eight(met, met.kernel.len() > 127)),
    ("3 below 8 rows or columns", |met| match met.right.0 {
        0 if met.pair.width.min(met.pair.height) < 8 => met.refused(3),
        _ => met.right,
    }),
    ("7 for a kernel larger than the planes", |met| match met.right.0 {
        0 if met.kernel.len() > met.pair.width.max(met.pair.height) => met.refused(7),
        _ => met.right,
    }),
    ("7 before all else", |met| if lawful(met.kernel) { met.right } else { met.refused(7) }),
    ("7 not judged", |met| if met.right.0 == 7 { (0, met.before) } else { met.right }),
    ("idle ends taken", |met| match met.right.0 {
        7 if lawful(trimmed(met.kernel)) => (0, RIGHT.pair(met.pair, trimmed(met.kernel))),
        _ => met.right,
    }),
    ("the first plane judged", |met| met.judging(&twice(met.pair, 0))),
    ("the second plane judged", |met| met.judging(&twice(met.pair, 1))),
    ("the strides exchanged", |met| {
        let [one, other] = met.pair.strides;
        met.judging(&Pair { strides: [other, one], ..met.pair.clone() })
    }),
    ("the pair written where refused", |met| if met.right.0 > 0 { (met.right.0, [0; 2]) } else { met.right }),
    ("the two results exchanged", |met| (met.right.0, [met.right.1[1], met.right.1[0]])),
];

fn eight(met: &Met, so: bool) -> Said {
    if met.right.0 == 0 && so {
        met.refused(8)
    } else {
        met.right
    }
}

/// The same plane as both.
fn twice(p: &Pair, i: usize) -> Pair {
    Pair { strides: [p.strides[i]; 2], samples: [p.samples[i].clone(), p.samples[i].clone()], ..p.clone() }
}

/// A call that a run must have met.
pub type Sharp = (&'static str, fn(&Met) -> bool);

pub const SHARP: [Sharp; 16] = [
    ("a pair where SSIM has too little scratch", |met| met.fast == 8 && met.right.0 == 0),
    ("7 of the plain engine", |met| met.right.0 == 7),
    ("6 of the plain engine", |met| met.right.0 == 6),
    ("5 of the plain engine", |met| met.right.0 == 5),
    ("4 of the plain engine", |met| met.right.0 == 4),
    ("2 of the plain engine", |met| met.right.0 == 2),
    ("1 of the plain engine", |met| met.right.0 == 1),
    ("one tap", |met| met.scored(|_, taps| taps == 1)),
    ("255 taps", |met| met.scored(|_, taps| taps == 255)),
    ("a window that is inside the planes", |met| met.scored(|p, taps| taps > 3 && p.width.min(p.height) > taps)),
    ("a window larger than the planes", |met| met.scored(|p, taps| taps / 2 > p.width.max(p.height))),
    ("the largest width", |met| met.scored(|p, _| p.width == crate::limits::SIDE)),
    ("the largest height", |met| met.scored(|p, _| p.height == crate::limits::SIDE)),
    ("two unlike strides", |met| met.scored(|p, _| p.strides[0] != p.strides[1] && p.height > 1)),
    ("all that is lent at the end of its memory", |met| met.side == Side::End && met.right.0 == 0),
    ("all that is lent at the start of its memory", |met| met.side == Side::Start && met.right.0 == 0),
];
