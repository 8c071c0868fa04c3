//! The stored answers of MS-SSIM, of planes that are made by a rule: the program `vectors` has the same rule, and so no table of samples.

use crate::five;
use crate::model::Lent;
use crate::scored::told;

/// What is asked: of each plane its stride, seed and length; and how far below the largest the samples reach.
#[derive(Clone, Copy)]
struct Ask {
    wide: bool,
    depth: u32,
    width: usize,
    height: usize,
    planes: [(usize, usize, usize); 2],
    reach: usize,
}

/// Two planes of depth 8 or 12, their strides so much over the width, no sample past what is needed, all samples used.
fn two(wide: bool, width: usize, height: usize, over: [usize; 2]) -> Ask {
    let (depth, reach) = if wide { (12, 4_096) } else { (8, 256) };
    let plane = |i: usize| (width + over[i], 5 + 4 * i, (width + over[i]) * (height - 1) + width);
    Ask { wide, depth, width, height, planes: [plane(0), plane(1)], reach }
}

/// The least sides, odd ones with padding, equal planes, and bright ones: at depth 12 some of their sums are no doubles.
fn accepted(wide: bool) -> Vec<Ask> {
    let least = two(wide, 16, 16, [0, 0]);
    let equal = Ask { planes: [least.planes[0]; 2], ..least };
    vec![least, two(wide, 17, 33, [2, 1]), equal, Ask { reach: 23, ..two(wide, 17, 33, [0, 0]) }]
}

fn refused(wide: bool) -> Vec<Ask> {
    let least = two(wide, 16, 16, [0, 0]);
    let mut short = least;
    short.planes[1].2 -= 1;
    vec![two(wide, 15, 16, [0, 0]), two(wide, 16, 15, [0, 0]), Ask { depth: least.depth + 1, ..least }, short]
}

impl Ask {
    fn max(&self) -> usize {
        if self.wide {
            4_095
        } else {
            255
        }
    }

    /// The samples of each plane.
    fn samples(&self) -> [Vec<u16>; 2] {
        self.planes.map(|(_, seed, len)| (0..len).map(|i| self.sample(seed, i)).collect())
    }

    fn sample(&self, seed: usize, i: usize) -> u16 {
        (self.max() - (i * 40_503 + seed * 30_011) % 65_521 % self.reach) as u16
    }

    fn refusal(&self, samples: &[Vec<u16>; 2]) -> u8 {
        let Ask { wide, depth, width, height, .. } = *self;
        let planes = [0, 1].map(|i| (self.planes[i].0, &samples[i][..]));
        Lent { wide, depth, width, height, least: 16, planes }.refusal()
    }

    fn pairs(&self, samples: &[Vec<u16>; 2]) -> [f64; 10] {
        let seen = |i: usize, y: usize| samples[i][y * self.planes[i].0..][..self.width].iter().map(|s| u32::from(*s));
        let planes = [0, 1].map(|i| (0..self.height).flat_map(|y| seen(i, y)).collect());
        five::pairs(planes, self.width, self.height, self.max() as u64)
    }

    fn row(&self) -> Vec<usize> {
        let mut list = vec![usize::from(self.wide), self.depth as usize, self.width, self.height];
        list.extend(self.planes.iter().flat_map(|(stride, seed, len)| [*stride, *seed, *len]));
        list.extend([self.reach, 0, 0]);
        list
    }
}

/// Rows of 15: words (1) or bytes (0), depth, width, height; of each plane its stride, seed and length; the reach, 0, 0, the answer, and where
/// in the scores the five pairs stand.
pub fn rows(scores: &mut Vec<f64>) -> Vec<usize> {
    let mut rows = Vec::new();
    for ask in [accepted(false), accepted(true), refused(false), refused(true)].concat() {
        let samples = ask.samples();
        rows.extend(ask.row());
        rows.extend(told(ask.refusal(&samples), scores, || ask.pairs(&samples)));
    }
    rows
}
