//! The plain SSIM engine, which sums the window afresh at every centre, as one more witness: wherever SSIM is asked it is asked too, of the same planes and
//! under the same kernel, and answers the same pair, bit for bit, or the same refusal; but that it needs no scratch, and so never answers 8.

use crate::family::{add, all_seen, number};
use crate::fenced::{Fenced, Side, SIDES};
use crate::limits::SIDE;
use crate::plain_ssim_ways::{Met, Way, RIGHT, SHARP};
use crate::random::Random;
use crate::samples::Pair;
use fuavelino::{no_alloc, Kernel, Sample};
use std::os::raw::c_void;

/// A call that has to sum up so many places of windows is always made; of those with w times as many, one in w.
const FAIR: usize = 10_000;
/// Planes of fewer samples than this go through the function above `no_alloc` too.
const FEW: usize = 500;

/// An answer, and what both places then hold, as bits.
pub type Said = (u8, [u64; 2]);

macro_rules! exports {
    ($($name:ident)*) => {
        extern "C" {
            $(fn $name(
                a: *const c_void,
                a_len: usize,
                b: *const c_void,
                b_len: usize,
                width: usize,
                height: usize,
                stride_a: usize,
                stride_b: usize,
                depth: u32,
                kernel: *const u16,
                taps: usize,
                ssim: *mut u64,
                cs: *mut u64,
            ) -> u8;)*
        }
    };
}

exports!(fuavelino_plain_ssim8 fuavelino_plain_ssim16);

/// The witness, with a place between fences for each thing that is lent.
pub struct Plain {
    planes: [Fenced; 2],
    kernel: Fenced,
    pair: [Fenced; 2],
    /// Each way that is looked for, and whether a case told it from the engine.
    ways: Vec<Way>,
    told: Vec<u64>,
    sharp: [u64; SHARP.len()],
    /// Calls that were made, and that the rule on work left out.
    asked: u64,
    spared: u64,
}

/// What is asked, and what both places hold before.
pub struct Asked<'a> {
    pub pair: &'a Pair,
    pub kernel: &'a [u16],
    pub before: [u64; 2],
    pub seed: u64,
}

impl Plain {
    pub fn new() -> Plain {
        Plain::telling(vec![])
    }

    /// One that must tell these ways from the engine.
    pub fn telling(ways: Vec<Way>) -> Plain {
        let one = Fenced::new;
        Plain {
            planes: [one(), one()],
            kernel: one(),
            pair: [one(), one()],
            told: vec![0; ways.len()],
            ways,
            sharp: [0; SHARP.len()],
            asked: 0,
            spared: 0,
        }
    }

    /// That the engine answers so. `fast` is what SSIM did, in scratch that may have been too short.
    pub fn agrees(&mut self, asked: &Asked, fast: u8, wanted: Said) -> Result<(), String> {
        let work = work(asked.pair, asked.kernel.len());
        let r = &mut Random::of(asked.seed, "plain SSIM", work as u64);
        if !r.once_in((work / FAIR).max(1)) {
            self.spared += 1;
            return Ok(());
        }
        let (side, exports) = (r.pick(&SIDES), r.once_in(2));
        let said = if asked.pair.wide {
            self.ask(asked, side, exports, |s| s)?
        } else {
            self.ask(asked, side, exports, |s| s as u8)?
        };
        if said != wanted {
            return Err(format!("the plain engine answered {}, not {}", show(said), show(wanted)));
        }
        self.asked += 1;
        let met = Met { pair: asked.pair, kernel: asked.kernel, before: asked.before, fast, right: wanted, side };
        add(&mut self.sharp, SHARP.iter().map(|sharp| sharp.1(&met)));
        if work <= FAIR {
            self.tell_apart(&met)?;
        }
        Ok(())
    }

    /// Looks for ways that were not seen yet.
    fn tell_apart(&mut self, met: &Met) -> Result<(), String> {
        for (told, way) in self.told.iter_mut().zip(&self.ways).filter(|(told, _)| **told == 0) {
            let other = way.1(met);
            *told = u64::from(other != met.right);
            if *told > 0 && met.right.0 == 0 && RIGHT.pair(met.pair, met.kernel) != met.right.1 {
                return Err("the model of the plain engine departs from the published pair".to_string());
            }
        }
        Ok(())
    }

    fn ask<T: Sample + PartialEq>(
        &mut self,
        asked: &Asked,
        side: Side,
        exports: bool,
        narrow: fn(u16) -> T,
    ) -> Result<Said, String> {
        let (p, [one, other], [score, contrast]) = (asked.pair, &mut self.planes, &mut self.pair);
        let samples = [0, 1].map(|i| p.samples[i].iter().map(|s| narrow(*s)).collect::<Vec<T>>());
        let [a, b] = [&*one.lend(&samples[0], side), &*other.lend(&samples[1], side)];
        let kernel = &*self.kernel.lend(asked.kernel, side);
        let (answer, left) = if exports {
            let (ssim, cs) = (score.lend(&asked.before[..1], side), contrast.lend(&asked.before[1..], side));
            (exported(p, [a, b], kernel, &mut ssim[0], &mut cs[0]), [ssim[0], cs[0]])
        } else {
            let [ssim, cs] = asked.before.map(f64::from_bits);
            let out = &mut score.lend(&[fuavelino::Pair { ssim, cs }], side)[0];
            (number(no_alloc::plain_ssim(p.plane(0, a), p.plane(1, b), p.shape(), kernel, out)), bits(out))
        };
        if *a != samples[0][..] || *b != samples[1][..] || *kernel != *asked.kernel {
            return Err("the plain engine altered a plane or the kernel".to_string());
        }
        let [x, y] = &mut self.planes;
        let [s, c] = &mut self.pair;
        if ![x, y, &mut self.kernel, s, c].into_iter().all(Fenced::kept) {
            return Err("the plain engine wrote beside what it was lent".to_string());
        }
        if samples.iter().all(|list| list.len() < FEW) {
            above(asked, &samples, (answer, left))?;
        }
        Ok((answer, left))
    }

    pub fn tell(&self, family: &str) {
        println!(
            "{}: {} calls of the plain engine have the same answer, {} were left out for their work",
            family, self.asked, self.spared
        );
    }

    pub fn enough(&self) -> Result<(), String> {
        all_seen(self.ways.iter().map(|way| way.0).collect(), &self.told, "tells the plain engine from")?;
        all_seen(SHARP.iter().map(|sharp| sharp.0).collect(), &self.sharp, "is")
    }
}

/// The places of the windows of all centres. None where a side is past its limit: such planes are refused before they are walked.
fn work(p: &Pair, taps: usize) -> usize {
    let half = taps / 2;
    let along = |side: usize| (0..side).map(|i| (i + half).min(side - 1) + 1 - i.saturating_sub(half)).sum::<usize>();
    if p.width.max(p.height) > SIDE {
        return 0;
    }
    along(p.width) * along(p.height)
}

fn bits(pair: &fuavelino::Pair) -> [u64; 2] {
    [pair.ssim.to_bits(), pair.cs.to_bits()]
}

fn show((answer, pair): Said) -> String {
    format!("{} and left {}", answer, pair.map(|b| format!("{} ({:#018X})", f64::from_bits(b), b)).join(" "))
}

fn exported<T>(p: &Pair, [a, b]: [&[T]; 2], kernel: &[u16], ssim: &mut u64, cs: &mut u64) -> u8 {
    let call = if p.wide { fuavelino_plain_ssim16 } else { fuavelino_plain_ssim8 };
    let (x, i, y, j) = (a.as_ptr().cast(), a.len(), b.as_ptr().cast(), b.len());
    let ([one, other], k, taps) = (p.strides, kernel.as_ptr(), kernel.len());
    // SAFETY: each pointer goes with the count of its own slice, any numbers are taken beside them, and both results are lent to be written.
    unsafe { call(x, i, y, j, p.width, p.height, one, other, p.depth, k, taps, ssim, cs) }
}

/// That the function above `no_alloc` answers the same.
fn above<T: Sample>(asked: &Asked, samples: &[Vec<T>; 2], said: Said) -> Result<(), String> {
    let (p, kernel) = (asked.pair, Kernel::from_taps(asked.kernel.to_vec()));
    let other = match fuavelino::plain_ssim(p.plane(0, &samples[0]), p.plane(1, &samples[1]), p.shape(), &kernel) {
        Ok(pair) => (0, bits(&pair)),
        Err(refusal) => (refusal.number(), asked.before),
    };
    if other == said {
        return Ok(());
    }
    Err(format!("the plain engine above answered {}, not {}", show(other), show(said)))
}
