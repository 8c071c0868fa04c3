//! The transform against the published one, and its inverse against the steps undone; both ways there and back. The cases are in `transform_cases.rs`.

use crate::family::{all_seen, also, number, run, Family, Run};
use crate::lifting;
use crate::limits::{FORWARD, INVERSE};
use crate::model::VALUE;
use crate::random::Random;
use crate::transform_cases::{any, listed, signs, Block, Case};
use crate::transform_ways::{Met, LIMITS, SHARP, STEPS};
use fuavelino::no_alloc;
use published::video::psnr_hvs;

/// No coefficient of what forward takes is larger in size. The crate `dct` proves it.
const COEFFICIENT: u32 = 65_537;
/// What each place holds before a call, and must hold after a refusal; those that stand about the lent ones, always.
const BEFORE: i32 = 0x5EED_0BAD;

pub fn compare(ask: Run) -> bool {
    let cases = if ask.full { 4_000_000 } else { 400_000 };
    let mut family = Transforms::new();
    run("transform", &mut family, cases, ask)
        && also("transform: every way told from the rule, every sharp case met", || family.enough())
}

struct Transforms {
    listed: Vec<Case>,
    /// Of each coefficient the block that makes it largest, from which random ones are made too.
    signs: Vec<Block>,
    /// Whether a case told each way from the rule, and was each of the sharp ones.
    limits: [u64; LIMITS.len()],
    steps: [u64; STEPS.len()],
    sharp: [u64; SHARP.len()],
}

impl Transforms {
    fn new() -> Transforms {
        let signs = signs();
        let listed = listed(&signs);
        Transforms { listed, signs, limits: [0; LIMITS.len()], steps: [0; STEPS.len()], sharp: [0; SHARP.len()] }
    }

    fn meet(&mut self, met: &Met) {
        seek(&mut self.limits, |i| LIMITS[i].1(met) != (met.answer == 0));
        seek(&mut self.sharp, |i| SHARP[i].1(met));
        if met.answer == 0 {
            seek(&mut self.steps, |i| STEPS[i].1(met) != met.left);
        }
    }

    fn enough(&self) -> Result<(), String> {
        all_seen(LIMITS.iter().map(|way| way.0).collect(), &self.limits, "tells the rule from")?;
        all_seen(STEPS.iter().map(|way| way.0).collect(), &self.steps, "tells the steps from")?;
        all_seen(SHARP.iter().map(|sharp| sharp.0).collect(), &self.sharp, "is")
    }
}

/// Looks for those that were not seen yet: a way takes longer than the case.
fn seek(counts: &mut [u64], seen: impl Fn(usize) -> bool) {
    for (i, count) in counts.iter_mut().enumerate().filter(|(_, count)| **count == 0) {
        *count = u64::from(seen(i));
    }
}

impl Family for Transforms {
    type Case = Case;

    fn case(&self, number: u64, random: &mut Random) -> Case {
        match self.listed.get(number as usize) {
            Some(case) => case.clone(),
            None => any(random, &self.signs),
        }
    }

    fn judge(&mut self, c: &Case) -> Result<u8, String> {
        let (answer, left) = asked(c.back, &c.values, c.places)?;
        let (wanted, places) = ruled(c);
        if answer != wanted {
            return Err(format!("answered {}, not {}", answer, wanted));
        }
        if left != places {
            return Err(format!("left {:?}, not {:?}", left, places));
        }
        if !c.back && wanted == 0 && left.iter().any(|v| v.unsigned_abs() > COEFFICIENT) {
            return Err(format!("a coefficient is above {}: {:?}", COEFFICIENT, left));
        }
        let again = if answer == 0 { Some(there_and_back(c, &left)?) } else { None };
        self.meet(&Met { back: c.back, values: &c.values, places: c.places, answer, left: &left, again });
        Ok(answer)
    }

    fn smaller(&self, c: &Case) -> Vec<Case> {
        let mut list = Vec::new();
        for (i, v) in c.values.iter().enumerate().filter(|(_, v)| **v != 0) {
            for less in [0, v / 2, v - v.signum()] {
                let mut next = c.clone();
                next.values[i] = less;
                list.push(next);
            }
        }
        list
    }

    fn show(&self, c: &Case) -> String {
        let name = if c.back { "inverse" } else { "forward" };
        format!("{} of {:?} into {} places", name, c.values, c.places)
    }

    fn answers(&self) -> Vec<u8> {
        vec![0, VALUE]
    }
}

/// What a call takes, from minus this to this.
pub fn limit(back: bool) -> i32 {
    if back {
        INVERSE
    } else {
        FORWARD
    }
}

fn takes(back: bool, values: &[i32]) -> bool {
    values.len() == 64 && values.iter().all(|v| v.unsigned_abs() <= limit(back) as u32)
}

/// The answer, and what is left, by the rule.
fn ruled(c: &Case) -> (u8, Vec<i32>) {
    if c.places != 64 || !takes(c.back, &c.values) {
        (VALUE, vec![BEFORE; c.places])
    } else if c.back {
        (0, lifting::inverse(&c.values))
    } else {
        (0, published_forward(&c.values))
    }
}

/// The answer, and what is left of the places; what was lent to be read, and the places about the others, must be as they were.
fn asked(back: bool, values: &[i32], places: usize) -> Result<(u8, Vec<i32>), String> {
    let (lent, mut out) = (values.to_vec(), vec![BEFORE; places + 2]);
    let call = if back { no_alloc::inverse } else { no_alloc::forward };
    let answer = number(call(&lent, &mut out[1..=places]));
    if lent != values {
        return Err(format!("left {:?} of what was lent to be read", lent));
    }
    if (out.pop(), out.remove(0)) != (Some(BEFORE), BEFORE) {
        return Err("wrote beside the places".to_string());
    }
    Ok((answer, out))
}

fn published_forward(values: &[i32]) -> Vec<i32> {
    let mut block = values.to_vec();
    psnr_hvs::probe_forward(&mut block);
    block
}

/// What was answered goes back to what was asked: by the steps, and by the calls where they take it. What the other call said to it.
fn there_and_back(c: &Case, out: &[i32]) -> Result<u8, String> {
    let steps = if c.back { lifting::forward(out) } else { lifting::inverse(out) };
    if steps != c.values {
        return Err(format!("the steps carry the answer to {:?}", steps));
    }
    let (answer, again) = asked(!c.back, out, 64)?;
    match (takes(!c.back, out), answer) {
        (true, 0) if again == c.values => Ok(0),
        (false, VALUE) if c.back && again == [BEFORE; 64] => Ok(VALUE),
        _ => Err(format!("the way back answered {} and left {:?}", answer, again)),
    }
}
