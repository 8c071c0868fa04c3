//! The steps of SCOPE, "The transform", over wide numbers, run forward and undone: a second time, with no regard to the product.

use Part::{Half, Times, Whole};
use Step::{From, Less, Plus};

/// What a step takes from the place that it reads.
#[derive(Clone, Copy)]
pub enum Part {
    Whole,
    Half,
    Times(i64, u32),
}

/// t_i += f(t_j), t_i -= f(t_j), t_i = f(t_j) - t_i
#[derive(Clone, Copy)]
enum Step {
    Plus(usize, usize, Part),
    Less(usize, usize, Part),
    From(usize, usize, Part),
}

const STEPS: [Step; 31] = [
    From(1, 0, Whole),
    Less(0, 1, Half),
    Plus(4, 5, Whole),
    Less(5, 4, Half),
    From(3, 2, Whole),
    Less(2, 3, Half),
    Plus(6, 7, Whole),
    From(7, 6, Half),
    Plus(0, 6, Half),
    From(6, 0, Whole),
    From(2, 4, Half),
    From(4, 2, Whole),
    Less(0, 4, Times(13573, 15)),
    Plus(4, 0, Times(11585, 14)),
    Less(0, 4, Times(13573, 15)),
    Less(6, 2, Times(21895, 15)),
    Plus(2, 6, Times(15137, 14)),
    Less(6, 2, Times(21895, 15)),
    Plus(3, 5, Times(19195, 15)),
    Plus(5, 3, Times(11585, 14)),
    Less(3, 5, Times(7489, 13)),
    From(7, 5, Half),
    Less(5, 7, Whole),
    From(3, 1, Half),
    Less(1, 3, Whole),
    Plus(7, 1, Times(3227, 15)),
    Less(1, 7, Times(6393, 15)),
    Plus(7, 1, Times(3227, 15)),
    Plus(5, 3, Times(2485, 13)),
    Less(3, 5, Times(18205, 15)),
    Plus(5, 3, Times(2485, 13)),
];

/// The place that takes x0, x1 and so on.
const TAKES: [usize; 8] = [0, 4, 2, 6, 7, 3, 5, 1];

pub fn of(part: Part, t: i64) -> i64 {
    match part {
        Whole => t,
        Half => t / 2,
        Times(factor, shift) => (t * factor + (1 << (shift - 1))) >> shift,
    }
}

fn done(t: &mut [i64; 8], step: Step, of: impl Fn(Part, i64) -> i64) {
    match step {
        Plus(i, j, f) => t[i] += of(f, t[j]),
        Less(i, j, f) => t[i] -= of(f, t[j]),
        From(i, j, f) => t[i] = of(f, t[j]) - t[i],
    }
}

fn undone(t: &mut [i64; 8], step: Step, of: impl Fn(Part, i64) -> i64) {
    match step {
        Plus(i, j, f) => t[i] -= of(f, t[j]),
        Less(i, j, f) => t[i] += of(f, t[j]),
        From(i, j, f) => t[i] = of(f, t[j]) - t[i],
    }
}

/// Column i through the pass to row i.
fn turn(block: &[i64], of: impl Fn(Part, i64) -> i64) -> Vec<i64> {
    let mut out = Vec::new();
    for i in 0..8 {
        let mut t = [0; 8];
        for k in 0..8 {
            t[TAKES[k]] = block[8 * k + i];
        }
        STEPS.iter().for_each(|step| done(&mut t, *step, &of));
        out.extend_from_slice(&t);
    }
    out
}

/// Row i through the pass undone to column i.
fn unturn(block: &[i64], of: impl Fn(Part, i64) -> i64) -> Vec<i64> {
    let mut out = vec![0; 64];
    for i in 0..8 {
        let mut t = [0; 8];
        t.copy_from_slice(&block[8 * i..8 * i + 8]);
        STEPS.iter().rev().for_each(|step| undone(&mut t, *step, &of));
        for k in 0..8 {
            out[8 * k + i] = t[TAKES[k]];
        }
    }
    out
}

fn wide(block: &[i32]) -> Vec<i64> {
    block.iter().map(|v| i64::from(*v)).collect()
}

fn narrow(block: Vec<i64>) -> Vec<i32> {
    block.iter().map(|v| i32::try_from(*v).expect("a place is wide enough")).collect()
}

pub fn forward(block: &[i32]) -> Vec<i32> {
    narrow(forward_by(block, of))
}

pub fn inverse(coefs: &[i32]) -> Vec<i32> {
    narrow(inverse_by(coefs, of))
}

/// The steps with parts had in some other way.
pub fn forward_by(block: &[i32], of: impl Fn(Part, i64) -> i64) -> Vec<i64> {
    turn(&turn(&wide(block), &of), &of)
}

pub fn inverse_by(coefs: &[i32], of: impl Fn(Part, i64) -> i64) -> Vec<i64> {
    unturn(&unturn(&wide(coefs), &of), &of)
}
