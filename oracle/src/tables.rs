//! Writes the table that the program `vectors` replays, as Rattle source: tables [SEED]
//!
//! Roots are the processor's, refusals of planes are the model's, scores and transforms the published Rust's.

#![allow(dead_code)] // it uses a part of what it shares with the judge

mod five;
mod lifting;
mod limits;
mod model;
mod random;
mod scaled;
mod scored;

use limits::{SIDE, STRIDE};
use model::{Check, Plane};
use random::Random;
use scored::Samples;

/// The program's planes hold this many samples, a row of the largest width; a sample set at this place is none.
const ROOM: usize = SIDE;

fn main() {
    let seed = std::env::args().nth(1).map_or(1, |word| word.parse().expect("the seed is a number"));
    println!("// Made by `tools/vectors {}`, which asks the oracle. Do not edit: change oracle/src/tables.rs and make it anew.", seed);
    println!();
    println!("// A number, then its root or -1 where it is refused, in turn.");
    let asked = asked(seed);
    list("ROOTS", "f64", numbers(asked.iter().flat_map(|bits| root(*bits))));
    transforms(seed);
    planes(&Samples::new(seed));
}

fn root(bits: u64) -> [f64; 2] {
    [f64::from_bits(bits), model::root(bits).map_or(-1.0, f64::from_bits)]
}

fn transforms(seed: u64) {
    println!("// Transforms, 130 numbers each: the inverse (1) or forward (0), the answer, 64 numbers, and the 64 that they become,");
    println!("// 0 where they are refused.");
    let rows = scored::transforms(seed);
    list("TRANSFORMS", "i32", words(&rows));
}

/// What the program asks of two planes: rows of 15 numbers, and the scores that they lead to.
fn planes(samples: &Samples) {
    println!("// Samples that planes below are parts of, and the taps of kernels.");
    list("BYTES", "u8", words(&samples.bytes));
    list("WORDS", "u16", words(&samples.words));
    list("TAPS", "u16", words(scored::kernels()));
    let checks = checks();
    assert!(checks.iter().all(|c| c.a.len <= ROOM && c.b.len <= ROOM));
    let mut scores = Vec::new();
    let families = [
        ("CHECKS", checks.iter().flat_map(row).collect()),
        ("SQUARED", scored::squared(samples, &mut scores)),
        ("SSIM", scored::ssim_rows(samples, &mut scores)),
        ("HVS", scored::hvs_rows(samples, &mut scores)),
        ("MSSSIM", scaled::rows(&mut scores)),
    ];
    println!("// Rows of 15: words (1) or bytes (0), depth, width, height; three numbers of each plane, its stride first; three more; the");
    println!("// answer; and where its scores begin, 0 where it has none. The families follow each other:");
    println!("// checks: of each plane the place of one sample, the others being 0 (at place {} none is set), and its length; then", ROOM);
    println!("// that sample of each, and the least side;");
    println!("// squared errors: of each plane where it begins and ends; then whether there is an error (1) or none (0), the count of");
    println!("// samples and their largest; its score is the error;");
    println!("// SSIM: planes as before; then where the kernel begins and ends, and the places of scratch; its scores are ssim and cs;");
    println!("// PSNR-HVS: planes as before; then the kind (y 0, u 1, v 2) and two zeros;");
    println!("// MS-SSIM: of each plane its seed and its length; then how far below the largest the samples reach, and two zeros; its");
    println!("// scores are ssim and cs of each scale.");
    list("ROWS", "usize", words(families.iter().flat_map(|(_, rows)| rows)));
    println!("// The row at which each family ends.");
    let mut end = 0;
    for (name, rows) in families.iter() {
        end += rows.len() / 15;
        count(name, end);
    }
    list("SCORES", "f64", numbers(scores));
}

fn count(name: &str, n: usize) {
    println!("pub const {}: usize = {};\n", name, n);
}

fn numbers(list: impl IntoIterator<Item = f64>) -> Vec<String> {
    list.into_iter().map(|x| number(x.to_bits())).collect()
}

fn words<T: ToString>(numbers: impl IntoIterator<Item = T>) -> Vec<String> {
    numbers.into_iter().map(|n| n.to_string()).collect()
}

fn list(name: &str, kind: &str, words: Vec<String>) {
    println!("pub const {}: [{}; {}] = [{}];\n", name, kind, words.len(), words.join(", "));
}

/// The shortest decimal that reads back as this double.
fn number(bits: u64) -> String {
    let text = format!("{:e}", f64::from_bits(bits));
    if text.contains('.') {
        text
    } else {
        text.replace('e', ".0e")
    }
}

fn row(c: &Check) -> Vec<usize> {
    let mut list = vec![usize::from(c.wide), c.depth as usize, c.width, c.height];
    let odd = |p: &Plane| p.odd.first().copied().unwrap_or((ROOM, 0));
    for plane in c.planes() {
        list.extend([plane.stride, odd(plane).0, plane.len]);
    }
    list.extend(c.planes().map(|plane| usize::from(odd(plane).1)));
    let [a, b] = c.planes().map(|p| p.samples(c.width, c.height));
    list.extend([c.least, usize::from(c.lent(&a, &b).refusal()), 0]);
    list
}

/// Finite numbers to ask a root of: ends of every kind, squares and halfway squares with neighbours, and random ones.
fn asked(seed: u64) -> Vec<u64> {
    let ends = [0, 1, 2, 3, (1 << 52) - 1, 1 << 52, (1 << 52) + 1, 0x7FEF_FFFF_FFFF_FFFF, 0x7FEF_FFFF_FFFF_FFFE];
    let sign = 1 << 63;
    let mut list = ends.to_vec();
    list.extend(list.clone().iter().map(|bits| bits | sign));
    list.extend([1.0f64, 2.0, 3.0, 4.0, 0.25, 0.5, 1e300, 1e-300, -1.0, -4.0].map(f64::to_bits));
    for i in 0..26 {
        list.push(1 << (2 * i));
        list.push((1023 - 26 + 3 * i) << 52);
    }
    let mut r = Random::of(seed, "roots", 0);
    for _ in 0..16 {
        let k = u128::from(r.bits(53));
        let square = ((k * k) as f64).to_bits();
        let halfway = (2 * (k | 1 << 52) + 1) as f64;
        list.extend([square - 1, square, square + 1, (halfway * halfway).to_bits(), r.next() >> 1, r.bits(52)]);
    }
    list.extend([r.next() | sign, r.next() | sign]);
    list.retain(|bits| f64::from_bits(*bits).is_finite());
    list
}

/// Rows on both sides of each limit that small planes can show, then rows where several tests apply at once.
fn checks() -> Vec<Check> {
    let mut list = Vec::new();
    for wide in [false, true] {
        depths(&mut list, wide);
        sides(&mut list, wide);
        layouts(&mut list, wide);
        samples(&mut list, wide);
        several(&mut list, wide);
    }
    list
}

fn sound(wide: bool, width: usize, height: usize) -> Check {
    let plane = Plane { stride: width, len: width * height, fill: 0, padding: 0, odd: Vec::new() };
    Check { wide, depth: if wide { 10 } else { 7 }, width, height, least: 0, a: plane.clone(), b: plane }
}

fn depths(list: &mut Vec<Check>, wide: bool) {
    let last: &[u32] = if wide { &[8, 9, 12, 13, 256 + 10] } else { &[0, 1, 8, 9, 256 + 7] };
    list.extend(last.iter().map(|depth| Check { depth: *depth, ..sound(wide, 3, 2) }));
}

fn sides(list: &mut Vec<Check>, wide: bool) {
    list.push(sound(wide, 1, 1));
    list.push(Check { width: 0, ..sound(wide, 3, 2) });
    list.push(Check { height: 0, ..sound(wide, 3, 2) });
    for side in [SIDE, SIDE + 1, (1 << 32) + 1] {
        let len = side.min(ROOM);
        let mut c = Check { width: side, ..sound(wide, len, 1) };
        c.a.stride = side;
        c.b.stride = side;
        list.push(c);
        list.push(Check { height: side, ..sound(wide, 1, len) });
    }
    for least in [8, 16] {
        for (less, low) in [(1, 0), (0, 1), (0, 0)] {
            list.push(Check { least, ..sound(wide, least - less, least - low) });
        }
    }
}

/// Strides and lengths; the last row's padding need not be there.
fn layouts(list: &mut Vec<Check>, wide: bool) {
    for stride in [2, 3, 4, STRIDE, STRIDE + 1, (1 << 32) + 3] {
        let mut c = sound(wide, 3, 1);
        c.a.stride = stride;
        list.push(c);
        let mut c = sound(wide, 3, 1);
        c.b.stride = stride;
        list.push(c);
    }
    for len in [0, 12, 13, 14] {
        let mut c = sound(wide, 3, 3);
        c.a.stride = 5;
        c.a.len = len;
        list.push(c.clone());
        std::mem::swap(&mut c.a, &mut c.b);
        list.push(c);
    }
}

/// The largest sample and one above it: first, last, in the last row, in padding, and past what is needed.
fn samples(list: &mut Vec<Check>, wide: bool) {
    for (at, above) in [(0, false), (0, true), (12, true), (10, true), (3, true), (9, true), (13, true), (12, false)] {
        let mut c = sound(wide, 3, 3);
        c.a.stride = 5;
        c.a.len = 14;
        let max = (1 << c.depth) - 1;
        c.a.odd.push((at, max + u16::from(above)));
        list.push(c.clone());
        std::mem::swap(&mut c.a, &mut c.b);
        list.push(c);
    }
}

fn several(list: &mut Vec<Check>, wide: bool) {
    let mut all = Check { depth: 0, width: 0, least: 8, ..sound(wide, 3, 3) };
    all.a.odd.push((0, 255));
    all.a.stride = 2;
    all.b.len = 3;
    list.push(all.clone());
    all.depth = if wide { 9 } else { 1 };
    all.a.odd[0].1 = 1 << all.depth;
    list.push(all.clone());
    all.width = 3;
    list.push(all.clone());
    all.least = 3;
    list.push(all.clone());
    all.a.stride = 3;
    list.push(all.clone());
    all.b.len = 9;
    list.push(all.clone());
    all.a.odd.clear();
    list.push(all);
}
