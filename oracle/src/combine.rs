//! Combining the scores of three planes. Of SSIM the published expressions, bit for bit, and the model's refusals. What the published code gives
//! are decibels only; those made of the product's figures must be those that it gives itself.
//!
//! Combined HVS is the one figure that is not the published one: the Rust multiplies the weighted sum by its weight, where an average must divide.
//! It is compared with its rule (`averaged.rs`), and nothing else leaves the comparison. The published decibels of HVS must be those of
//! weight × sum, for the pair that the product gives of the same scores: so the two differ in the last step alone.

use crate::averaged::averaged;
use crate::combine_laws::{among, Equals};
use crate::combine_ways::{Met, AVERAGES, PAIRS, SHARP};
use crate::family::{add, all_seen, number, run, Family, Run};
use crate::random::Random;
use fuavelino::no_alloc;
use published::frame::Frame;
use published::plane::Plane;
use published::prelude::ChromaSampling;
use published::video::pixel::Pixel;
use published::video::{psnr_hvs, ssim};

/// What the places lent hold before a call, and must hold after a refusal. HVS is lent the first alone.
const BEFORE: [u64; 2] = [0x7FF4_DEAD_BEEF_0001, 0xFFF4_DEAD_BEEF_0002];
const NOT_FINITE: u8 = 9;
const WEIGHT: u8 = 13;

const ONE: u64 = 0x3FF0_0000_0000_0000;
const SIGN: u64 = 1 << 63;
const INFINITY: u64 = 0x7FF0_0000_0000_0000;
const LARGEST: u64 = INFINITY - 1;

/// 0, the published weights, and what stands beside the two ends.
const WEIGHTS: [u64; 14] = [
    0,
    SIGN,
    0x3FD0_0000_0000_0000,
    0x3FE0_0000_0000_0000,
    ONE,
    ONE - 1,
    ONE + 1,
    1,
    SIGN | 1,
    SIGN | ONE,
    LARGEST,
    INFINITY,
    SIGN | INFINITY,
    0x7FF8_0000_0000_1234,
];

/// Numbers at the ends of what a double holds, and ordinary ones.
const SCORES: [u64; 14] = [
    0,
    SIGN,
    ONE,
    ONE - 1,
    SIGN | ONE,
    1,
    (1 << 52) - 1,
    LARGEST,
    SIGN | LARGEST,
    LARGEST >> 52 << 52,
    INFINITY,
    SIGN | INFINITY,
    0x7FF0_0000_0000_0001,
    0xFFFF_FFFF_FFFF_FFFF,
];

pub fn compare(ask: Run) -> bool {
    if let Err(why) = frames(ask) {
        println!("combine: FAILED: {}", why);
        return false;
    }
    let mut sums = Sums::default();
    let cases = if ask.full { 80_000_000 } else { 4_000_000 };
    if !run("combine", &mut sums, cases, ask) {
        return false;
    }
    let said = sums.enough().and_then(|()| sums.equals.tell());
    println!("combine: {}", said.as_ref().map_or_else(|why| format!("FAILED: {}", why), String::clone));
    said.is_ok()
}

/// A call with the bits of its four numbers.
#[derive(Clone, Copy)]
struct Case {
    hvs: bool,
    c: u64,
    scores: [u64; 3],
}

/// What the places lent hold after a call.
type Left = [u64; 2];

impl Case {
    fn of(hvs: bool, c: f64, scores: [f64; 3]) -> Case {
        Case { hvs, c: c.to_bits(), scores: scores.map(f64::to_bits) }
    }

    fn numbers(&self) -> (f64, [f64; 3]) {
        (f64::from_bits(self.c), self.scores.map(f64::from_bits))
    }

    fn asked(&self) -> (u8, Left) {
        let (c, [y, u, v]) = self.numbers();
        let mut places = BEFORE.map(f64::from_bits);
        let [first, second] = &mut places;
        let said = if self.hvs {
            no_alloc::combine_hvs(c, y, u, v, first)
        } else {
            no_alloc::combine_ssim(c, y, u, v, first, second)
        };
        (number(said), places.map(f64::to_bits))
    }

    /// What the rules say: of SSIM by the published expressions, of HVS by its own.
    fn wanted(&self) -> (u8, Left) {
        let (c, scores) = self.numbers();
        if !(0.0..=1.0).contains(&c) || scores.iter().any(|s| !s.is_finite()) {
            return (WEIGHT, BEFORE);
        }
        let (first, second) =
            if self.hvs { (averaged(c, scores), f64::from_bits(BEFORE[1])) } else { ssim::probe_combined(c, scores) };
        if first.is_finite() && (self.hvs || second.is_finite()) {
            (0, [first.to_bits(), second.to_bits()])
        } else {
            (NOT_FINITE, BEFORE)
        }
    }

    /// The product's answer is the one wanted, to the bit.
    fn answer(&self) -> Result<(u8, Left), String> {
        let (answer, left) = self.asked();
        let (wanted, then) = self.wanted();
        if (answer, left) == (wanted, then) {
            return Ok((answer, left));
        }
        Err(format!("answered {} and left {}, not {} and {}", answer, hex(&left), wanted, hex(&then)))
    }

    /// The sum and the weight that the product gives of the same scores, whichever call this is: both calls refuse alike.
    fn pair(&self, answer: u8) -> Result<[f64; 2], String> {
        let (said, pair) = Case { hvs: false, ..*self }.answer()?;
        if said == answer {
            return Ok(pair.map(f64::from_bits));
        }
        Err(format!("answered {}, where the pair is answered {}", answer, said))
    }

    /// The published code's decibels of a sum and its weight. Of HVS this is the last step as the Rust has it, and not the product's.
    fn decibels(&self, [sum, weight]: [f64; 2]) -> f64 {
        if self.hvs {
            psnr_hvs::probe_decibels(weight * sum)
        } else {
            ssim::probe_decibels(sum, weight)
        }
    }

    /// The decibels that the published code gives for these scores.
    fn published(&self) -> f64 {
        let (c, scores) = self.numbers();
        if self.hvs {
            psnr_hvs::probe_aggregate(c, scores)
        } else {
            ssim::probe_aggregate(c, scores)
        }
    }

    /// These published decibels are those of the product's pair.
    fn agrees(&self, pair: [f64; 2], published: f64) -> Result<(), String> {
        let ours = self.decibels(pair);
        if same(ours, published) {
            return Ok(());
        }
        Err(format!("the pair {:?} is {} decibels, published {}", pair, ours, published))
    }

    /// What must hold of an average besides: u and v can change places, it is the pair's quotient, and it lies among the three.
    fn average(&self, (answer, left): (u8, Left), [sum, weight]: [f64; 2]) -> Result<(), String> {
        let [y, u, v] = self.scores;
        if (Case { scores: [y, v, u], ..*self }).asked() != (answer, left) {
            return Err("with u and v exchanged it is another".to_string());
        }
        let score = f64::from_bits(left[0]);
        if answer == 0 && (sum / weight).to_bits() != left[0] {
            return Err(format!("{:?} is not the quotient of its pair, {:?} and {:?}", score, sum, weight));
        }
        if answer == 0 && !among(score, self.numbers().1) {
            return Err(format!("{:?} does not lie among the three", score));
        }
        Ok(())
    }
}

/// How many cases told each way from ours, by a finite number that is another, and were each of the sharp ones; and what became of equal scores.
#[derive(Default)]
struct Sums {
    pairs: [u64; PAIRS.len()],
    averages: [u64; AVERAGES.len()],
    sharp: [u64; SHARP.len()],
    equals: Equals,
}

impl Sums {
    fn count(&mut self, case: &Case, answer: u8, left: Left) {
        let (c, scores) = case.numbers();
        let [score, weight] = left.map(f64::from_bits);
        if case.hvs {
            self.average(&Met { c, scores, answer, score });
        } else if answer == 0 {
            let told = |given: [f64; 2]| given.iter().all(|x| x.is_finite()) && given != [score, weight];
            add(&mut self.pairs, PAIRS.iter().map(|way| told(way.1(c, scores))));
        }
    }

    fn average(&mut self, met: &Met) {
        add(&mut self.sharp, SHARP.iter().map(|sharp| sharp.1(met)));
        if met.answer == 0 {
            let told = |given: f64| given.is_finite() && given != met.score;
            add(&mut self.averages, AVERAGES.iter().map(|way| told(way.1(met.c, met.scores))));
            self.equals.count(met.c, met.scores, met.score);
        }
    }

    /// Each way was told from ours, and each sharp case met.
    fn enough(&self) -> Result<(), String> {
        all_seen(PAIRS.iter().map(|way| way.0).collect(), &self.pairs, "tells the published steps from")?;
        all_seen(AVERAGES.iter().map(|way| way.0).collect(), &self.averages, "tells the rule's steps from")?;
        all_seen(SHARP.iter().map(|sharp| sharp.0).collect(), &self.sharp, "is")
    }
}

impl Family for Sums {
    type Case = Case;

    /// First every weight of the list with every three of the scores, for both calls.
    fn case(&self, number: u64, r: &mut Random) -> Case {
        let mut rest = number;
        let mut digit = |n: usize| {
            let d = rest % n as u64;
            rest /= n as u64;
            d as usize
        };
        let hvs = digit(2) == 1;
        let c = WEIGHTS[digit(WEIGHTS.len())];
        let scores = [0; 3].map(|_: u64| SCORES[digit(SCORES.len())]);
        if rest == 0 {
            return Case { hvs, c, scores };
        }
        let kind = r.below(KINDS);
        if r.once_in(8) {
            return Case { hvs, c: weight(r), scores: [score(r, kind); 3] };
        }
        let mixed = r.once_in(3);
        let scores = scores.map(|_| if mixed { any(r) } else { score(r, kind) });
        Case { hvs, c: weight(r), scores }
    }

    fn judge(&mut self, case: &Case) -> Result<u8, String> {
        let (answer, left) = case.answer()?;
        let pair = case.pair(answer)?;
        if answer == 0 {
            case.agrees(pair, case.published())?;
        }
        if case.hvs {
            case.average((answer, left), pair)?;
        }
        self.count(case, answer, left);
        Ok(answer)
    }

    /// A simpler number in one place, or a bit less.
    fn smaller(&self, case: &Case) -> Vec<Case> {
        let mut list = Vec::new();
        for place in 0..4 {
            let bits = if place == 3 { case.c } else { case.scores[place] };
            let plain = [0, ONE].into_iter().take_while(|p| *p != bits);
            for next in plain.chain((0..64).rev().map(|i| bits & !(1 << i)).filter(|n| *n != bits && bits != ONE)) {
                let mut less = *case;
                *(if place == 3 { &mut less.c } else { &mut less.scores[place] }) = next;
                list.push(less);
            }
        }
        list
    }

    fn show(&self, case: &Case) -> String {
        let (c, scores) = case.numbers();
        let call = if case.hvs { "HVS" } else { "SSIM" };
        format!("{} of {} ({:?}) under {} ({:?})", call, hex(&case.scores), scores, hex(&[case.c]), c)
    }

    fn answers(&self) -> Vec<u8> {
        vec![0, NOT_FINITE, WEIGHT]
    }
}

fn hex(list: &[u64]) -> String {
    let words: Vec<String> = list.iter().map(|bits| format!("{:#018X}", bits)).collect();
    words.join(" ")
}

/// Two decibels that are the same number, or both none.
fn same(a: f64, b: f64) -> bool {
    a.to_bits() == b.to_bits() || a.is_nan() && b.is_nan()
}

/// A number of the list, one near it, one from 0 to 1, one below 1 by any power of two, or any.
fn weight(r: &mut Random) -> u64 {
    match r.below(16) {
        0 => r.next(),
        1 => r.pick(&WEIGHTS),
        2 => r.pick(&WEIGHTS[..6]).wrapping_add(r.below(5) as u64).wrapping_sub(2),
        3 => (r.below(1_023) as u64 * (1 << 52)) | (r.next() >> 12),
        4..=9 => r.pick(&[0, 0x3FD0_0000_0000_0000, 0x3FE0_0000_0000_0000, ONE]),
        _ => unit(r).to_bits(),
    }
}

/// From 0 to 1.
fn unit(r: &mut Random) -> f64 {
    (r.next() >> 11) as f64 / (1u64 << 53) as f64
}

/// How many kinds of scores there are.
const KINDS: usize = 7;

fn any(r: &mut Random) -> u64 {
    let kind = r.below(KINDS);
    score(r, kind)
}

/// Near 1, near 0, from 0 to 1, below the normal range, near the top, of any exponent; seldom one of the list.
fn score(r: &mut Random, kind: usize) -> u64 {
    let sign = if r.once_in(4) { SIGN } else { 0 };
    let bits = match kind {
        0 => ONE.wrapping_add(r.bits(12)).wrapping_sub(r.bits(40)),
        1 => (unit(r) * 1e-6).to_bits(),
        2 => unit(r).to_bits(),
        3 => r.bits(53),
        4 => LARGEST - r.bits(54),
        5 => r.next() >> 1,
        _ => (2_047 - 1 - r.below(2) as u64) << 52 | r.next() >> 12,
    };
    if r.once_in(24) {
        r.pick(&SCORES)
    } else {
        bits & !SIGN | sign
    }
}

/// The published weight of each sampling.
const SAMPLINGS: [(ChromaSampling, f64, &str); 4] = [
    (ChromaSampling::Cs400, 0.0, "400"),
    (ChromaSampling::Cs420, 0.25, "420"),
    (ChromaSampling::Cs422, 0.5, "422"),
    (ChromaSampling::Cs444, 1.0, "444"),
];

/// By how much the product's decibels of HVS are above the published ones, as last seen under each sampling.
type Shifts = [Option<f64>; SAMPLINGS.len()];

/// Whole frames through the published frame functions.
fn frames(ask: Run) -> Result<(), String> {
    let count = if ask.full { 20_000 } else { 1_000 };
    let mut shifts = Shifts::default();
    for number in 0..count {
        let r = &mut Random::of(ask.seed, "frames", number);
        let told = if r.once_in(2) {
            frame(r, &mut shifts, 8, |s| s as u8)
        } else {
            let depth = r.within(9, 12);
            frame(r, &mut shifts, depth, |s| s)
        };
        told.map_err(|why| format!("frame {} of seed {}: {}", number, ask.seed, why))?;
    }
    println!("combine: the published decibels of {} frames are those of the product's pairs", count);
    let names = SAMPLINGS.map(|(_, _, name)| name).into_iter();
    let words = names.zip(shifts).map(|(name, shift)| shift.map(|above| format!("{}: {:.2}", name, above)));
    let words = words.collect::<Option<Vec<String>>>().ok_or("HVS sees no error in any frame")?;
    println!("combine: HVS is above the published decibels by 20 × log10(1 + 2c) ({})", words.join(", "));
    Ok(())
}

/// Two frames that differ in some samples, under each sampling's weight, in both scores.
fn frame<T: Pixel>(r: &mut Random, shifts: &mut Shifts, depth: usize, cast: fn(u16) -> T) -> Result<(), String> {
    let (width, height) = (r.within(8, 20), r.within(8, 20));
    let often = r.within(1, 9);
    let sample = |r: &mut Random| r.below(1 << depth) as u16;
    let first = [0; 3].map(|_| (0..width * height).map(|_| sample(r)).collect::<Vec<u16>>());
    let second = [0, 1, 2].map(|i: usize| {
        let changed = first[i].iter().map(|s| if r.once_in(often) { sample(r) } else { *s });
        changed.collect::<Vec<u16>>()
    });
    let [a, b] = [first, second].map(|lists| Frame {
        planes: lists.map(|list| Plane::new(list.into_iter().map(cast).collect(), width, height)),
    });
    for ((sampling, c, _), shift) in SAMPLINGS.into_iter().zip(shifts) {
        let avg = ssim::calculate_frame_ssim(&a, &b, depth, sampling).map_err(|e| e.to_string())?.avg;
        framed(Case::of(false, c, ssim::probe_scores(&a, &b, depth)), avg)?;
        let avg = psnr_hvs::calculate_frame_psnr_hvs(&a, &b, depth, sampling).map_err(|e| e.to_string())?.avg;
        let ours = framed(Case::of(true, c, psnr_hvs::probe_scores(&a, &b, depth)), avg)?;
        *shift = shifted(c, psnr_hvs::probe_decibels(ours), avg)?.or(*shift);
    }
    Ok(())
}

/// The first figure that the product gives, if it is the one wanted and the published decibels are those of its pair.
fn framed(case: Case, published: f64) -> Result<f64, String> {
    let (answer, left) = case.answer()?;
    case.agrees(case.pair(answer)?, published)?;
    match answer {
        0 => Ok(f64::from_bits(left[0])),
        _ => Err(format!("hvs {}: answered {}", case.hvs, answer)),
    }
}

/// How much the decibels of an average are above the published ones: as much as its weight, squared, comes to. None where no error is seen.
fn shifted(c: f64, ours: f64, published: f64) -> Result<Option<f64>, String> {
    let (shift, owed) = (ours - published, 20.0 * (1.0 + 2.0 * c).log10());
    if !published.is_finite() {
        return Ok(None);
    }
    if (shift - owed).abs() < 1e-9 {
        return Ok(Some(shift));
    }
    Err(format!("under {} the decibels are {} above the published ones, not {}", c, shift, owed))
}
