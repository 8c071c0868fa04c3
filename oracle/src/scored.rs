//! The stored answers that the published Rust gives: transforms, squared errors and scores; refusals are the model's.

use crate::lifting;
use crate::limits::{FORWARD, INVERSE};
use crate::model::{Lent, VALUE};
use crate::random::Random;
use published::plane::Plane;
use published::video::{psnr, psnr_hvs, ssim};

/// Kernels, one after the other as the table has them: five that are lawful, then the forbidden ones, those with idle ends last.
const KERNELS: [&[u16]; 10] = [
    &[256],
    &[64, 128, 64],
    &[10, 60, 116, 60, 10],
    &[1, 254, 1],
    &[1, 0, 254, 0, 1],
    &[128, 0, 128],
    &[128, 128],
    &[64, 127, 64],
    &[0, 256, 0],
    &[0, 1, 254, 1, 0],
];

/// The program lends this many places of scratch at most.
const SCRATCH: usize = 512;

/// A part of the samples that all rows share, seen as a plane.
#[derive(Clone, Copy)]
struct View {
    stride: usize,
    from: usize,
    end: usize,
}

#[derive(Clone, Copy)]
struct Ask {
    wide: bool,
    depth: u32,
    width: usize,
    height: usize,
    a: View,
    b: View,
}

pub struct Samples {
    pub bytes: Vec<u16>,
    pub words: Vec<u16>,
}

impl Samples {
    pub fn new(seed: u64) -> Samples {
        let mut r = Random::of(seed, "samples", 0);
        Samples { bytes: samples(&mut r, 255, 1), words: samples(&mut r, 4_095, 511) }
    }

    fn of(&self, wide: bool) -> &[u16] {
        if wide {
            &self.words
        } else {
            &self.bytes
        }
    }

    /// The lowest of 1 to 6 that applies, or 0.
    fn refusal(&self, ask: &Ask) -> u8 {
        let planes = [ask.a, ask.b].map(|v| (v.stride, &self.of(ask.wide)[v.from..v.end]));
        let Ask { wide, depth, width, height, .. } = *ask;
        Lent { wide, depth, width, height, least: 0, planes }.refusal()
    }

    /// The visible samples, row after row.
    fn visible(&self, ask: &Ask, v: View) -> Vec<u16> {
        let list = &self.of(ask.wide)[v.from..v.end];
        (0..ask.height).flat_map(|y| list[y * v.stride..][..ask.width].to_vec()).collect()
    }
}

/// SCOPE's three samples and three; four zeros and four of the largest; any; any that suit the least depth; and any.
fn samples(r: &mut Random, max: u16, low: u16) -> Vec<u16> {
    let mut list = vec![10, 20, 30, 13, 20, 26, 0, 0, 0, 0, max, max, max, max];
    list.extend((0..46).map(|_| r.within(0, usize::from(max)) as u16));
    list.extend((0..20).map(|_| r.within(0, usize::from(low)) as u16));
    list.extend((0..60).map(|_| r.within(0, usize::from(max)) as u16));
    list
}

impl Ask {
    fn row(&self) -> Vec<usize> {
        let mut list = vec![usize::from(self.wide), self.depth as usize, self.width, self.height];
        for v in [self.a, self.b] {
            list.extend([v.stride, v.from, v.end]);
        }
        list
    }
}

fn view(stride: usize, from: usize, end: usize) -> View {
    View { stride, from, end }
}

/// Five by four, each plane with padding of its own, no sample past what is needed.
fn padded(wide: bool) -> Ask {
    let depth = if wide { 12 } else { 8 };
    Ask { wide, depth, width: 5, height: 4, a: view(7, 14, 40), b: view(6, 30, 53) }
}

fn squared_asks(wide: bool) -> Vec<Ask> {
    let ask = padded(wide);
    let least = if wide { 9 } else { 1 };
    let mut short = ask;
    short.b.end -= 1;
    let three = Ask { width: 3, height: 1, a: view(3, 0, 3), b: view(3, 3, 6), ..ask };
    vec![
        three,
        Ask { b: ask.a, ..ask },
        ask,
        Ask { width: 4, height: 1, a: view(4, 6, 10), b: view(4, 10, 14), ..ask },
        Ask { depth: least, height: 2, width: 4, a: view(6, 60, 70), b: view(5, 70, 80), ..ask },
        Ask { depth: ask.depth + 1, ..ask },
        Ask { width: 0, ..ask },
        Ask { a: view(4, 14, 40), ..ask },
        short,
        Ask { depth: least, ..ask },
    ]
}

/// Rows of 15: words (1) or bytes (0), depth, width, height; of each plane its stride, and where it begins and ends; whether there is an error,
/// the count of samples and their largest, 0 where it is refused; the answer, and where in the scores the error stands.
pub fn squared(samples: &Samples, scores: &mut Vec<f64>) -> Vec<usize> {
    let mut rows = Vec::new();
    for ask in [false, true].into_iter().flat_map(squared_asks) {
        let no = samples.refusal(&ask);
        let (error, n, max) = if no == 0 { record(samples, &ask) } else { (0.0, 0, 0) };
        rows.extend(ask.row());
        rows.extend([usize::from(error > 0.0), n, max]);
        rows.extend(told(no, scores, || [error]));
    }
    rows
}

fn record(samples: &Samples, ask: &Ask) -> (f64, usize, usize) {
    let [a, b] = [ask.a, ask.b].map(|v| Plane::new(samples.visible(ask, v), ask.width, ask.height));
    psnr::probe_record(&a, &b, ask.depth as usize)
}

/// An SSIM to ask for, under the kernel of this number, with so many places of scratch.
type SsimAsk = (Ask, usize, usize);

fn ssim_asks(wide: bool) -> Vec<SsimAsk> {
    let ask = padded(wide);
    let mut short = ask;
    short.a.end -= 1;
    let least = if wide { 9 } else { 1 };
    let low = Ask { depth: least, height: 2, width: 4, a: view(6, 60, 70), b: view(5, 70, 80), ..ask };
    let one = Ask { width: 2, height: 1, ..ask };
    vec![
        (ask, 1, 120),
        (ask, 2, 240),
        (Ask { b: ask.a, ..ask }, 1, SCRATCH),
        (ask, 3, 120),
        (low, 4, 192),
        (one, 2, 96),
        (ask, 0, 30),
        (ask, 5, SCRATCH),
        (ask, 6, SCRATCH),
        (ask, 7, SCRATCH),
        (ask, 8, SCRATCH),
        (low, 9, 0),
        (ask, 1, 119),
        (short, 9, 0),
    ]
}

/// Rows of 15: as `squared` up to the planes, then where the kernel begins and ends, the places of scratch, the answer, and where in
/// the scores ssim and cs stand.
pub fn ssim_rows(samples: &Samples, scores: &mut Vec<f64>) -> Vec<usize> {
    let mut rows = Vec::new();
    for (ask, kernel, scratch) in [false, true].into_iter().flat_map(ssim_asks) {
        let begins: usize = KERNELS[..kernel].iter().map(|k| k.len()).sum();
        let kernel = KERNELS[kernel];
        let no = ssim_refusal(samples.refusal(&ask), kernel, scratch, ask.width);
        rows.extend(ask.row());
        rows.extend([begins, begins + kernel.len(), scratch]);
        rows.extend(told(no, scores, || pair(samples, &ask, kernel)));
    }
    rows
}

/// The end of a row: its answer, and where the scores of an accepted one then stand.
pub fn told<const N: usize>(no: u8, scores: &mut Vec<f64>, score: impl FnOnce() -> [f64; N]) -> [usize; 2] {
    if no != 0 {
        return [usize::from(no), 0];
    }
    scores.extend(score());
    [0, scores.len() - N]
}

pub fn kernels() -> Vec<u16> {
    KERNELS.concat()
}

/// The planes' refusal before the kernel's, 7, before the scratch's, 8.
fn ssim_refusal(planes: u8, kernel: &[u16], scratch: usize, width: usize) -> u8 {
    let turned: Vec<u16> = kernel.iter().rev().copied().collect();
    let sum: u32 = kernel.iter().map(|tap| u32::from(*tap)).sum();
    let bell =
        kernel.len() % 2 == 1 && kernel.len() <= 255 && sum == 256 && turned == kernel && kernel[kernel.len() / 2] >= 1;
    // more than one tap, of which the ends are 0
    let idle = kernel.len() > 1 && kernel[0] == 0 && turned[0] == 0;
    match (planes, bell && !idle) {
        (0, false) => 7,
        (0, true) => u8::from(scratch < 6 * width * kernel.len().next_power_of_two()) * 8,
        _ => planes,
    }
}

fn pair(samples: &Samples, ask: &Ask, kernel: &[u16]) -> [f64; 2] {
    let [a, b] = [ask.a, ask.b].map(|v| samples.visible(ask, v).into_iter().map(u32::from).collect::<Vec<u32>>());
    let taps: Vec<i64> = kernel.iter().map(|tap| i64::from(*tap)).collect();
    let (ssim, cs) = ssim::probe_pair(&a, &b, ask.width, ask.height, (1 << ask.depth) - 1, &taps);
    [ssim, cs]
}

/// Eight by eight and more, of every kind; two blocks, which share a column; and on the other side of the least side, 7.
fn hvs_asks(wide: bool) -> Vec<(Ask, usize)> {
    let depth = if wide { 12 } else { 8 };
    let ask = Ask { wide, depth, width: 8, height: 8, a: view(8, 0, 64), b: view(8, 16, 80) };
    let wider = Ask { width: 9, a: view(9, 0, 72), b: view(9, 8, 80), ..ask };
    let two = Ask { width: 15, a: view(15, 0, 120), b: view(15, 20, 140), ..ask };
    let low = if wide { ask } else { Ask { depth: 7, ..ask } };
    let mut list: Vec<(Ask, usize)> = (0..3).flat_map(|kind| [(ask, kind), (wider, kind)]).collect();
    list.extend([
        (Ask { b: ask.a, ..ask }, 0),
        (Ask { height: 9, a: view(8, 0, 72), b: view(8, 8, 80), ..ask }, 2),
        (two, 0),
    ]);
    list.extend([(Ask { width: 7, ..ask }, 0), (Ask { height: 7, ..ask }, 1), (low, 1)]);
    list
}

/// Rows of 15: as `squared` up to the planes, then the kind, 0, 0, the answer, and where in the scores its own stands.
pub fn hvs_rows(samples: &Samples, scores: &mut Vec<f64>) -> Vec<usize> {
    let mut rows = Vec::new();
    for (ask, kind) in [false, true].into_iter().flat_map(hvs_asks) {
        let planes = [ask.a, ask.b].map(|v| (v.stride, &samples.of(ask.wide)[v.from..v.end]));
        let Ask { wide, depth, width, height, .. } = ask;
        let no = Lent { wide, depth, width, height, least: 8, planes }.refusal();
        rows.extend(ask.row());
        rows.extend([kind, 0, 0]);
        rows.extend(told(no, scores, || [hvs(samples, &ask, kind)]));
    }
    rows
}

fn hvs(samples: &Samples, ask: &Ask, kind: usize) -> f64 {
    let list = [ask.a, ask.b].map(|v| samples.visible(ask, v));
    if ask.wide {
        let [a, b] = list.map(|l| Plane::new(l, ask.width, ask.height));
        psnr_hvs::probe_plane(&a, &b, kind, ask.depth as usize)
    } else {
        let [a, b] = list.map(|l| Plane::new(l.iter().map(|s| *s as u8).collect(), ask.width, ask.height));
        psnr_hvs::probe_plane(&a, &b, kind, ask.depth as usize)
    }
}

/// Rows of 130: the inverse (1) or forward (0), the answer, 64 numbers, and what they become: 64 zeros where they are refused.
pub fn transforms(seed: u64) -> Vec<i32> {
    let mut r = Random::of(seed, "transforms", 0);
    let any = [(); 64].map(|_| r.within(0, 2 * FORWARD as usize) as i32 - FORWARD);
    let mut list = Vec::new();
    for block in [[8; 64], spike(-FORWARD), any, board()] {
        transform_row(&mut list, 0, 0, &block, &forward(&block));
    }
    let coefs = forward(&any);
    let back = lifting::inverse(&coefs);
    assert_eq!(back, any);
    transform_row(&mut list, 1, 0, &coefs, &back);
    transform_row(&mut list, 1, 0, &spike(-INVERSE), &lifting::inverse(&spike(-INVERSE)));
    transform_row(&mut list, 0, VALUE, &spike(FORWARD + 1), &[0; 64]);
    transform_row(&mut list, 1, VALUE, &spike(INVERSE + 1), &[0; 64]);
    list
}

/// One value among zeros.
fn spike(value: i32) -> [i32; 64] {
    let mut block = [0; 64];
    block[9] = value;
    block
}

/// Both ends of what forward takes in turn, in rows and columns.
fn board() -> [i32; 64] {
    let mut block = [FORWARD; 64];
    (0..64).filter(|i| (i / 8 + i % 8) % 2 == 0).for_each(|i| block[i] = -FORWARD);
    block
}

fn transform_row(list: &mut Vec<i32>, back: i32, answer: u8, from: &[i32], to: &[i32]) {
    list.extend([back, i32::from(answer)]);
    list.extend(from);
    list.extend(to);
}

fn forward(block: &[i32]) -> Vec<i32> {
    let mut block = block.to_vec();
    psnr_hvs::probe_forward(&mut block);
    block
}
