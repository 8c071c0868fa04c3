//! Pairs of planes that tell SSIM's steps, grouped as published, from the same steps grouped otherwise.

use crate::samples::Pair;
use crate::ssim;

/// How max² × K × w² is multiplied. The first is the published one.
#[derive(Clone, Copy, Debug)]
enum Constants {
    Published,
    MaxTimesRest,
    OneByOne,
    KLast,
}

/// How the denominator is added up. The first is the published one.
#[derive(Clone, Copy, Debug)]
enum Denominator {
    Published,
    ByPlane,
    SquaresLast,
    ConstantFirst,
}

type Way = (Constants, Denominator);

const PUBLISHED: Way = (Constants::Published, Denominator::Published);

/// The sums at one centre: mux, muy, x2, xy, y2, w.
pub type Moments = [f64; 6];

fn moments(planes: &[Vec<u16>; 2], width: usize, height: usize, kernel: &[u16], x: usize, y: usize) -> Moments {
    let half = kernel.len() / 2;
    let mut sums = [0i64; 6];
    for v in y.saturating_sub(half)..(y + half + 1).min(height) {
        for u in x.saturating_sub(half)..(x + half + 1).min(width) {
            let weight = i64::from(kernel[v + half - y]) * i64::from(kernel[u + half - x]);
            let [a, b] = [0, 1].map(|i| i64::from(planes[i][v * width + u]));
            for (sum, term) in sums.iter_mut().zip([a, b, a * a, a * b, b * b, 1]) {
                *sum += weight * term;
            }
        }
    }
    sums.map(|s| s as f64)
}

/// The score and the contrast at one centre, times its weight.
fn score([mux, muy, x2, xy, y2, w]: Moments, max: f64, way: Way) -> (f64, f64) {
    let constant = |k: f64| match way.0 {
        Constants::Published => (max * max * k) * (w * w),
        Constants::MaxTimesRest => (max * max) * (k * (w * w)),
        Constants::OneByOne => ((max * max * k) * w) * w,
        Constants::KLast => (max * max) * (w * w) * k,
    };
    let (c1, c2) = (constant(0.01 * 0.01), constant(0.03 * 0.03));
    let (mx2, mxy, my2) = (mux * mux, mux * muy, muy * muy);
    let below = match way.1 {
        Denominator::Published => (((x2 * w - mx2) + y2 * w) - my2) + c2,
        Denominator::ByPlane => ((x2 * w - mx2) + (y2 * w - my2)) + c2,
        Denominator::SquaresLast => ((x2 * w + y2 * w) - (mx2 + my2)) + c2,
        Denominator::ConstantFirst => (((c2 + x2 * w) - mx2) + y2 * w) - my2,
    };
    let cs = w * (c2 + 2.0 * (xy * w - mxy)) / below;
    (cs * (2.0 * mxy + c1) / (mx2 + my2 + c1), cs)
}

/// The same as published.
pub fn published_score(moments: Moments, max: f64) -> (f64, f64) {
    score(moments, max, PUBLISHED)
}

/// The pair that these groupings give, as bits.
fn pair(p: &Pair, kernel: &[u16], way: Way) -> [u64; 2] {
    let planes = p.visible();
    let mut sums = [0.0; 3];
    for (y, x) in (0..p.height).flat_map(|y| (0..p.width).map(move |x| (y, x))) {
        let m = moments(&planes, p.width, p.height, kernel, x, y);
        let (ssim, cs) = score(m, p.max() as f64, way);
        sums = [sums[0] + ssim, sums[1] + cs, sums[2] + m[5]];
    }
    [sums[0] / sums[2], sums[1] / sums[2]].map(f64::to_bits)
}

/// The kept pairs with their kernels, if each tells the grouping that it is kept for from the published one.
pub fn telling() -> Result<Vec<(Pair, Vec<u16>)>, String> {
    let mut list = Vec::new();
    for (way, p, kernel) in kept() {
        let (ssim, cs) = ssim::published(&p, &kernel);
        let right = [ssim.to_bits(), cs.to_bits()];
        if pair(&p, &kernel, PUBLISHED) != right {
            return Err(format!("the model of the groupings departs from the published pair on {}", p.show()));
        }
        if pair(&p, &kernel, way) == right {
            return Err(format!("{:?} is not told from the published grouping by {}", way, p.show()));
        }
        list.push((p, kernel));
    }
    Ok(list)
}

/// Found by a search among random planes of few samples.
fn kept() -> Vec<(Way, Pair, Vec<u16>)> {
    use Constants::*;
    use Denominator::{ByPlane, ConstantFirst, SquaresLast};
    let one = |way: Way, depth: u32, side: u16, width: usize, a: &[u16], b: &[u16]| {
        let kernel = if side == 0 { vec![256] } else { vec![side, 256 - 2 * side, side] };
        (way, Pair::plain(depth, width, [a.to_vec(), b.to_vec()]), kernel)
    };
    let constants = |way: Constants| (way, Denominator::Published);
    let below = |way: Denominator| (Constants::Published, way);
    vec![
        one(constants(MaxTimesRest), 2, 6, 1, &[0], &[1]),
        one(constants(MaxTimesRest), 7, 44, 1, &[83], &[83]),
        one(constants(MaxTimesRest), 8, 90, 1, &[0, 100], &[0, 0]),
        one(constants(MaxTimesRest), 12, 88, 1, &[3_898], &[0]),
        one(constants(OneByOne), 2, 108, 1, &[0], &[3]),
        one(constants(OneByOne), 7, 76, 1, &[23], &[23]),
        one(constants(OneByOne), 10, 21, 1, &[921], &[931]),
        one(constants(OneByOne), 12, 92, 2, &[0, 0], &[0, 1]),
        one(constants(KLast), 2, 29, 1, &[0], &[2]),
        one(constants(KLast), 8, 59, 1, &[255, 255], &[255, 255]),
        one(constants(KLast), 12, 70, 1, &[0], &[1_959]),
        one(below(ByPlane), 12, 7, 1, &[576, 3_179], &[577, 3_178]),
        one(below(ByPlane), 12, 89, 2, &[0, 4_095, 4_095, 0], &[0, 4_094, 4_095, 0]),
        one(below(ByPlane), 12, 87, 2, &[4_095, 4_095, 0, 4_095], &[4_095, 4_095, 0, 4_095]),
        one(below(ByPlane), 11, 43, 2, &[0, 0, 0, 1_664], &[2_047, 2_047, 2_047, 2_047]),
        one(below(ByPlane), 11, 25, 2, &[372, 1_957, 551, 982], &[372, 1_957, 551, 982]),
        one(below(SquaresLast), 12, 3, 2, &[2, 3], &[4_095, 4_095]),
        one(below(SquaresLast), 12, 7, 1, &[4_095, 2_648], &[4_095, 2_647]),
        one(below(SquaresLast), 11, 33, 2, &[2_047, 0, 2_047, 2_047], &[0, 2_047, 0, 0]),
        one(below(ConstantFirst), 4, 0, 2, &[9, 9], &[9, 9]),
        one(below(ConstantFirst), 7, 22, 1, &[33], &[32]),
        one(below(ConstantFirst), 12, 7, 1, &[0], &[3_952]),
    ]
}
