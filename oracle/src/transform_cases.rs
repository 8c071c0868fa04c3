//! Cases of the transform: blocks at the ends of what forward takes, coefficients at the ends of what the inverse takes, and coefficients whose inverse
//! has an end of what forward takes, or one past it.

use crate::lifting;
use crate::limits::FORWARD;
use crate::random::Random;
use crate::transform::limit;

pub type Block = [i32; 64];

/// What is asked: the inverse where `back`, of `values`, into so many places.
#[derive(Clone)]
pub struct Case {
    pub back: bool,
    pub values: Vec<i32>,
    pub places: usize,
}

fn forward_of(block: Block) -> Case {
    Case { back: false, values: block.to_vec(), places: 64 }
}

/// The inverse of what a block comes to by the steps.
fn inverse_to(block: Block) -> Case {
    Case { back: true, values: lifting::forward(&block), places: 64 }
}

/// The ends of what forward takes, and one past them.
const ENDS: [i32; 4] = [FORWARD, -FORWARD, FORWARD + 1, -FORWARD - 1];
/// The ends that were, of either call, and one past them.
const OLD: [i32; 8] = [4_095, -4_095, 4_096, -4_096, 1_048_575, -1_048_575, 1_048_576, -1_048_576];
/// What a narrower number would show as 0 or -1, and what has no size of its own width.
const NARROW: [i32; 6] = [1 << 16, -(1 << 16), 1 << 22, 1 << 24, i32::MAX, i32::MIN];

/// Of each coefficient the block of ends whose signs are those of what each place adds to it.
pub fn signs() -> Vec<Block> {
    let spikes: Vec<Vec<i32>> = (0..64).map(|at| lifting::forward(&spike([0; 64], at, FORWARD))).collect();
    let sign = |place: usize, at: usize| if spikes[at][place] < 0 { -FORWARD } else { FORWARD };
    (0..64)
        .map(|place| {
            let mut block = [0; 64];
            block.iter_mut().enumerate().for_each(|(at, v)| *v = sign(place, at));
            block
        })
        .collect()
}

fn spike(mut block: Block, at: usize, value: i32) -> Block {
    block[at] = value;
    block
}

pub fn listed(signs: &[Block]) -> Vec<Case> {
    let mut r = Random::of(0, "transform, listed", 0);
    let mut list = lengths();
    for block in signs {
        let turned = block.map(|v| -v);
        list.extend([forward_of(*block), forward_of(turned), inverse_to(*block), inverse_to(turned)]);
    }
    for at in 0..64 {
        list.extend([false, true].into_iter().flat_map(|back| spikes(back, at)));
        list.extend([false, true].into_iter().flat_map(|back| past(&mut r, back, at)));
        list.extend(ENDS.iter().flat_map(|end| ended(&mut r, at, *end)));
    }
    list.extend([false, true].into_iter().flat_map(corners));
    list
}

/// Other than 64 places to read, to write, and both; with values that are taken.
fn lengths() -> Vec<Case> {
    let mut list = Vec::new();
    for back in [false, true] {
        for count in [0, 1, 63, 65, 128] {
            list.push(Case { back, values: vec![8; count], places: 64 });
            list.push(Case { back, values: vec![8; 64], places: count });
            list.push(Case { back, values: vec![8; count], places: count });
        }
    }
    list
}

/// All corners of plus and minus the limit in rows and columns.
fn corners(back: bool) -> impl Iterator<Item = Case> {
    (0..1 << 15).map(move |signs| {
        let sign = |bit: usize| if signs >> bit & 1 == 1 { -1 } else { 1 };
        let corner = |i: usize| limit(back) * sign(i / 8) * if i % 8 == 0 { 1 } else { sign(7 + i % 8) };
        Case { back, values: (0..64).map(corner).collect(), places: 64 }
    })
}

/// One value among zeros.
fn spikes(back: bool, at: usize) -> Vec<Case> {
    let most = limit(back);
    let mut values = vec![1, -1, 2, -3, most, -most, most + 1, -most - 1];
    values.extend(OLD.iter().chain(&NARROW));
    let of = |value: &i32| Case { back, values: spike([0; 64], at, *value).to_vec(), places: 64 };
    values.iter().map(of).collect()
}

/// One value past either end, among ends and among any.
fn past(r: &mut Random, back: bool, at: usize) -> Vec<Case> {
    let most = limit(back);
    let mut list = Vec::new();
    for value in [most + 1, -most - 1] {
        for ends in [true, false] {
            let values = spike(spread(r, most, ends), at, value).to_vec();
            list.push(Case { back, values, places: 64 });
        }
    }
    list
}

/// Coefficients of blocks with this value at one place, the others taken: none, ends, any, and distances of differences of samples; and the same
/// coefficients, one of which is one more or less.
fn ended(r: &mut Random, at: usize, end: i32) -> Vec<Case> {
    let blocks = [[0; 64], spread(r, FORWARD, true), spread(r, FORWARD, false), distances(r)];
    let mut list = Vec::new();
    for block in blocks {
        let case = inverse_to(spike(block, at, end));
        list.extend([near(r, &case), near(r, &case)]);
        list.push(case);
    }
    list
}

/// The same with one value one more or less.
fn near(r: &mut Random, case: &Case) -> Case {
    let mut next = case.clone();
    next.values[r.below(64)] += r.pick(&[1, -1]);
    next
}

/// Values up to this size, or of this size alone.
fn spread(r: &mut Random, most: i32, ends: bool) -> Block {
    [(); 64].map(|()| if ends { r.pick(&[most, -most]) } else { r.within(0, 2 * most as usize) as i32 - most })
}

/// Distances of two differences of samples of 12 bits.
fn distances(r: &mut Random) -> Block {
    [(); 64].map(|()| {
        let [a, b, c, d] = [(); 4].map(|()| r.below(4_096) as i32);
        (a - b) - (c - d)
    })
}

pub fn any(r: &mut Random, signs: &[Block]) -> Case {
    match r.below(8) {
        0 => at_ends(r),
        1 => large(r, signs),
        _ => plain(r),
    }
}

/// Coefficients whose inverse is at the ends of what forward takes, or one past them.
fn at_ends(r: &mut Random) -> Case {
    let mut block = match r.below(4) {
        0 => distances(r),
        1 => spread(r, FORWARD, true),
        2 => spread(r, FORWARD, false),
        _ => spread(r, 16, false),
    };
    for _ in 0..r.pick(&[1, 1, 2, 8]) {
        block[r.below(64)] = r.pick(&ENDS);
    }
    let case = inverse_to(block);
    if r.once_in(2) {
        near(r, &case)
    } else {
        case
    }
}

/// A block that makes a coefficient nearly as large as it can be.
fn large(r: &mut Random, signs: &[Block]) -> Case {
    let mut block = r.pick(signs);
    if r.once_in(2) {
        block = block.map(|v| -v);
    }
    for _ in 0..r.below(8) {
        let v = &mut block[r.below(64)];
        *v -= v.signum() * r.pick(&[1, 1, 2, 3, 2 * FORWARD]);
    }
    if r.once_in(4) {
        inverse_to(block)
    } else {
        forward_of(block)
    }
}

fn plain(r: &mut Random) -> Case {
    let back = r.once_in(2);
    let most = match r.below(4) {
        0 => limit(back),
        1 => r.within(1, 16) as i32,
        2 => r.bits(if back { 21 } else { 13 }) as i32,
        _ => limit(back).min(4_095),
    };
    let count = if r.once_in(64) { r.pick(&[0, 1, 63, 65, 128]) } else { 64 };
    let places = if r.once_in(64) { r.pick(&[0, 1, 63, 65, 128]) } else { 64 };
    let ends = r.once_in(4);
    let mut values: Vec<i32> = (0..count)
        .map(|_| if ends { r.pick(&[most, -most]) } else { r.within(0, 2 * most as usize) as i32 - most })
        .collect();
    if count > 0 && r.once_in(64) {
        let at = r.below(count);
        values[at] = r.pick(&[limit(back) + 1, -limit(back) - 1, i32::MAX, i32::MIN]);
    }
    Case { back, values, places }
}
