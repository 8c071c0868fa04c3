//! What SCOPE says of roots and of planes, written a second time, with no regard to the product.

use crate::limits::{SIDE, STRIDE};

/// The refusal of a root.
pub const VALUE: u8 = 12;

/// The root's bits, or None where it is refused.
pub fn root(bits: u64) -> Option<u64> {
    let x = f64::from_bits(bits);
    if bits == 0 || (x > 0.0 && x.is_finite()) {
        Some(x.sqrt().to_bits())
    } else {
        None
    }
}

/// One plane of a case, described: visible samples have one value, padding and tail another, but for odd places.
#[derive(Clone, Debug, PartialEq)]
pub struct Plane {
    pub stride: usize,
    pub len: usize,
    pub fill: u16,
    pub padding: u16,
    pub odd: Vec<(usize, u16)>,
}

/// A check of two planes. `least` is the smallest side that the call takes, 0 where it takes any.
#[derive(Clone, Debug, PartialEq)]
pub struct Check {
    pub wide: bool,
    pub depth: u32,
    pub width: usize,
    pub height: usize,
    pub least: usize,
    pub a: Plane,
    pub b: Plane,
}

impl Plane {
    /// The samples that a plane of these sides must reach.
    pub fn needs(&self, width: usize, height: usize) -> u128 {
        needs(self.stride, width, height)
    }

    fn visible(&self, at: usize, width: usize, height: usize) -> bool {
        self.stride > 0 && at / self.stride < height && at % self.stride < width
    }

    /// The samples of the plane in order, as the description has them.
    pub fn samples(&self, width: usize, height: usize) -> Vec<u16> {
        let mut list = vec![self.padding; self.len];
        if self.fill != self.padding {
            for at in (0..self.len).filter(|at| self.visible(*at, width, height)) {
                list[at] = self.fill;
            }
        }
        for (at, value) in self.odd.iter().filter(|(at, _)| *at < self.len) {
            list[*at] = *value;
        }
        list
    }
}

/// Planes as a call is lent them: the numbers beside them, then each one's stride and samples.
pub struct Lent<'a, const N: usize> {
    pub wide: bool,
    pub depth: u32,
    pub width: usize,
    pub height: usize,
    pub least: usize,
    pub planes: [(usize, &'a [u16]); N],
}

/// Whether samples of this width carry this depth.
pub fn depth_suits(wide: bool, depth: u32) -> bool {
    let (low, high) = if wide { (9, 12) } else { (1, 8) };
    low <= depth && depth <= high
}

impl<const N: usize> Lent<'_, N> {
    fn has_above(&self, max: u16) -> bool {
        let rows = |(stride, list): &(usize, &[u16])| {
            let above = |row: &[u16]| row.iter().any(|s| *s > max);
            (0..self.height).any(|y| above(&list[y * stride..][..self.width]))
        };
        self.planes.iter().any(rows)
    }

    /// The lowest of tests 1 to 6 that applies, or 0.
    pub fn refusal(&self) -> u8 {
        let (width, height) = (self.width, self.height);
        let side = |s: usize| s == 0 || s > SIDE;
        let stride = |p: &(usize, &[u16])| p.0 < width || p.0 > STRIDE;
        let short = |p: &(usize, &[u16])| (p.1.len() as u128) < needs(p.0, width, height);
        if !depth_suits(self.wide, self.depth) {
            1
        } else if side(width) || side(height) {
            2
        } else if width < self.least || height < self.least {
            3
        } else if self.planes.iter().any(stride) {
            4
        } else if self.planes.iter().any(short) {
            5
        } else {
            u8::from(self.has_above((1 << self.depth) - 1)) * 6
        }
    }
}

/// The samples that a plane of this stride and these sides must reach, too many for a word perhaps.
pub fn needs(stride: usize, width: usize, height: usize) -> u128 {
    stride as u128 * (height as u128).saturating_sub(1) + width as u128
}

impl Check {
    pub fn planes(&self) -> [&Plane; 2] {
        [&self.a, &self.b]
    }

    /// As it is lent, where these are the samples of its planes.
    pub fn lent<'a>(&self, a: &'a [u16], b: &'a [u16]) -> Lent<'a, 2> {
        let planes = [(self.a.stride, a), (self.b.stride, b)];
        Lent { wide: self.wide, depth: self.depth, width: self.width, height: self.height, least: self.least, planes }
    }
}
