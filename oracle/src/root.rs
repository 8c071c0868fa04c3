//! The root, against the processor's own, bit for bit.

use crate::family::{number, run, Family, Run};
use crate::model;
use crate::random::Random;
use fuavelino::no_alloc;

/// What `out` holds before a call: a pattern that is no root, and must stay on a refusal.
const BEFORE: u64 = 0x7FF4_DEAD_BEEF_0001;
const ONE: u64 = 0x3FF0_0000_0000_0000;

pub fn compare(ask: Run) -> bool {
    let mut roots = Roots { listed: listed() };
    let cases = if ask.full { 100_000_000 } else { 4_000_000 };
    run("root", &mut roots, cases, ask)
}

struct Roots {
    listed: Vec<u64>,
}

impl Family for Roots {
    type Case = u64;

    fn case(&self, number: u64, random: &mut Random) -> u64 {
        match self.listed.get(number as usize) {
            Some(bits) => *bits,
            None => any(random),
        }
    }

    fn judge(&mut self, bits: &u64) -> Result<u8, String> {
        let mut out = f64::from_bits(BEFORE);
        let answer = number(no_alloc::root(f64::from_bits(*bits), &mut out));
        let (wanted, left) = match model::root(*bits) {
            Some(root) => (0, root),
            None => (model::VALUE, BEFORE),
        };
        if (answer, out.to_bits()) == (wanted, left) {
            return Ok(answer);
        }
        let out = out.to_bits();
        Err(format!("answered {} and left {:#018X}, not {} and {:#018X}", answer, out, wanted, left))
    }

    /// One bit less, or an exponent nearer that of 1.
    fn smaller(&self, bits: &u64) -> Vec<u64> {
        let fraction = *bits & ((1 << 52) - 1);
        let mut list: Vec<u64> = [fraction | ONE, fraction | (ONE + (1 << 52))].to_vec();
        list.retain(|next| *next >> 52 < *bits >> 52);
        list.extend((0..52).rev().map(|i| *bits & !(1 << i)).filter(|next| next != bits));
        list.extend((0..52).map(|i| fraction >> i).filter(|f| *f < fraction).map(|f| f | (*bits >> 52 << 52)));
        list
    }

    fn show(&self, bits: &u64) -> String {
        format!("the root of {:#018X} ({:e})", bits, f64::from_bits(*bits))
    }

    fn answers(&self) -> Vec<u8> {
        vec![0, model::VALUE]
    }
}

/// Every exponent and sign with fractions at the ends and in the middle (so every power of two, both
/// zeros, the infinities and kinds of not-a-number), every subnormal power, and squares, each with neighbours.
fn listed() -> Vec<u64> {
    let mut list = Vec::new();
    for top in 0..4_096u64 {
        for low in [0, 1 << 51, (1 << 52) - 1, 0x5_5555_5555_5555, 0xA_AAAA_AAAA_AAAA] {
            near(&mut list, top << 52 | low, 2);
        }
    }
    for i in 0..52 {
        near(&mut list, 1 << i, 3);
    }
    for k in 1..=4_096u64 {
        near(&mut list, ((k * k) as f64).to_bits(), 3);
        near(&mut list, ((k * k) as f64 * 0.25).to_bits(), 3);
    }
    list
}

fn near(list: &mut Vec<u64>, bits: u64, places: u64) {
    list.extend((0..=2 * places).map(|d| bits.wrapping_add(d).wrapping_sub(places)));
}

fn any(r: &mut Random) -> u64 {
    match r.below(8) {
        0 => r.next(),
        1 => r.next() >> 1,
        2 => r.bits(52),
        3 => square(r, false),
        4 => square(r, true),
        5 => (r.bits(53) as f64).to_bits(),
        6 => r.next() >> 1 & r.next() & r.next(),
        _ => (r.next() | r.next() | r.next()) & !(1 << 63),
    }
}

/// Near a square, or (the hardest to round) near the square of what lies halfway between two doubles.
fn square(r: &mut Random, halfway: bool) -> u64 {
    let k = u128::from(r.bits(53));
    let k = if halfway { (1 << 53) | (k << 1) | 1 } else { k };
    let two = 1023 - 400 + 2 * r.below(400) as u64;
    let x = (k * k) as f64 * f64::from_bits(two << 52);
    x.to_bits().wrapping_add(r.below(7) as u64).wrapping_sub(3)
}
