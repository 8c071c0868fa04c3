//! The published scores of two Y4M files, for comparison with the command's report. One figure is not the published one, combined PSNR-HVS with its
//! decibels: the Rust multiplies by 1 + 2c, where an average must divide. It is given here by its rule (`averaged.rs`).
//!
//! clip ORIGINAL DECODED: prints `SCOPE PLANE FIELD BITS` for each figure; SCOPE is a frame's number, or run. The files are
//! the tests' own, so that they are trusted to be sound.

mod averaged;
mod five;

use averaged::averaged;
use published::plane::Plane;
use published::video::pixel::Pixel;
use published::video::{psnr, psnr_hvs, ssim};

fn main() {
    let paths: Vec<_> = std::env::args_os().skip(1).collect();
    let read = |at: usize| std::fs::read(&paths[at]).expect("a file that can be read");
    let (a, b) = (File::of(read(0)), File::of(read(1)));
    assert_eq!((a.width, a.height, a.depth, &a.chroma), (b.width, b.height, b.depth, &b.chroma));
    if a.depth > 8 {
        score(&a, &b, |two: &[u8]| u16::from_le_bytes([two[0], two[1]]));
    } else {
        score(&a, &b, |one: &[u8]| one[0]);
    }
}

/// A file's header, and the bytes of its frames.
struct File {
    width: usize,
    height: usize,
    depth: usize,
    chroma: String,
    frames: Vec<Vec<u8>>,
}

impl File {
    fn of(bytes: Vec<u8>) -> File {
        let end = bytes.iter().position(|b| *b == b'\n').expect("a header");
        let header = String::from_utf8(bytes[..end].to_vec()).expect("a header of text");
        let word = |tag: char| header.split(' ').find_map(|w| w.strip_prefix(tag)).expect("a parameter");
        let space = word('C').replace("mono", "400p");
        let (chroma, depth) = space.split_once('p').unwrap_or((&space[..], ""));
        let mut file = File {
            width: word('W').parse().expect("a width"),
            height: word('H').parse().expect("a height"),
            depth: if depth.is_empty() { 8 } else { depth.parse().expect("a depth") },
            chroma: chroma.to_string(),
            frames: Vec::new(),
        };
        let count = file.sides().iter().map(|(w, h)| w * h).sum::<usize>() * file.bytes();
        let frames = bytes[end + 1..].chunks_exact(6 + count);
        assert!(frames.remainder().is_empty());
        file.frames = frames.map(|frame| frame.strip_prefix(b"FRAME\n").expect("a frame").to_vec()).collect();
        file
    }

    fn bytes(&self) -> usize {
        if self.depth > 8 {
            2
        } else {
            1
        }
    }

    fn sides(&self) -> Vec<(usize, usize)> {
        let (w, h) = (self.width, self.height);
        match &self.chroma[..] {
            "420" => vec![(w, h), ((w + 1) / 2, (h + 1) / 2), ((w + 1) / 2, (h + 1) / 2)],
            "422" => vec![(w, h), ((w + 1) / 2, h), ((w + 1) / 2, h)],
            "444" => vec![(w, h); 3],
            _ => vec![(w, h)],
        }
    }

    fn weight(&self) -> f64 {
        match &self.chroma[..] {
            "420" => 0.25,
            "422" => 0.5,
            "444" => 1.0,
            _ => 0.0,
        }
    }

    fn planes<T: Pixel>(&self, frame: usize, sample: fn(&[u8]) -> T) -> Vec<Plane<T>> {
        let mut samples = self.frames[frame].chunks(self.bytes()).map(sample);
        let plane = |(w, h): (usize, usize)| Plane::new(samples.by_ref().take(w * h).collect(), w, h);
        self.sides().into_iter().map(plane).collect()
    }
}

type Record = (f64, usize, usize);

fn score<T: Pixel>(a: &File, b: &File, sample: fn(&[u8]) -> T) {
    let mut records: Vec<Vec<Record>> = Vec::new();
    let mut sums: Vec<Vec<f64>> = Vec::new();
    for frame in 0..a.frames.len() {
        let (these, those) = (a.planes(frame, sample), b.planes(frame, sample));
        let scope = frame.to_string();
        let pairs = || these.iter().zip(&those);
        let record = |(x, y): (&Plane<T>, &Plane<T>)| psnr::probe_record(x, y, a.depth);
        records.push(pairs().map(record).collect());
        errors(&scope, &records[frame..]);
        let figures: Vec<Vec<f64>> = pairs().enumerate().map(|(k, (x, y))| figures(x, y, k, a.depth)).collect();
        for (plane, list) in figures.iter().enumerate() {
            told(&scope, plane, list, 1.0);
        }
        combined(&scope, &figures, a.weight(), 1.0);
        sums = if frame == 0 { figures } else { sums.iter().zip(&figures).map(|(s, f)| added(s, f)).collect() };
    }
    errors("run", &records);
    let count = records.len() as f64;
    for (plane, list) in sums.iter().enumerate() {
        told("run", plane, list, count);
    }
    combined("run", &sums, a.weight(), count);
}

fn added(sums: &[f64], next: &[f64]) -> Vec<f64> {
    sums.iter().zip(next).map(|(sum, value)| sum + value).collect()
}

/// SSIM's pair, the five scales' pairs, MS-SSIM, PSNR-HVS.
fn figures<T: Pixel>(a: &Plane<T>, b: &Plane<T>, kind: usize, depth: usize) -> Vec<f64> {
    let (w, h, max) = (a.cfg.width, a.cfg.height, (1u64 << depth) - 1);
    let planes = [a, b].map(|plane| plane.data.iter().map(|s| u32::from(s.word())).collect::<Vec<u32>>());
    let kernel = ssim::probe_kernel(h as f64 * 1.5 / 256.0, w.min(h), 256);
    let pair = ssim::probe_pair(&planes[0], &planes[1], w, h, max, &kernel);
    let mut list = vec![pair.0, pair.1];
    list.extend(five::pairs(planes, w, h, max));
    list.push(ssim::probe_product(a, b, depth));
    list.push(psnr_hvs::probe_plane(a, b, kind, depth));
    list
}

const FIELDS: [&str; 14] = [
    "ssim",
    "cs",
    "scale1_ssim",
    "scale1_cs",
    "scale2_ssim",
    "scale2_cs",
    "scale3_ssim",
    "scale3_cs",
    "scale4_ssim",
    "scale4_cs",
    "scale5_ssim",
    "scale5_cs",
    "msssim",
    "hvs",
];

/// A plane's figures: sums over `count` frames.
fn told(scope: &str, plane: usize, sums: &[f64], count: f64) {
    for (field, sum) in FIELDS.iter().zip(sums) {
        let name = ["y", "u", "v"][plane];
        line(scope, name, field, sum / count);
        if *field == "hvs" {
            seen(scope, name, sum / count);
        } else {
            decibels(scope, name, field, *sum, count);
        }
    }
}

/// Decibels of SSIM and MS-SSIM, from a sum and what it could at best come to. Where nothing is left to better, the Rust has
/// no finite ones, which the command does not report.
fn decibels(scope: &str, plane: &str, field: &str, sum: f64, best: f64) {
    let told = ssim::probe_decibels(sum, best);
    if ["ssim", "msssim"].contains(&field) && told.is_finite() {
        line(scope, plane, &format!("{}_db", field), told);
    }
}

/// Decibels of PSNR-HVS. No error is infinite decibels in the Rust, likewise.
fn seen(scope: &str, plane: &str, score: f64) {
    if score > 0.0 {
        line(scope, plane, "hvs_db", psnr_hvs::probe_decibels(score));
    }
}

/// The Rust's weighted sums over their weight, for SSIM and its like. For PSNR-HVS the rule's average of the sums, over the count: not the Rust's.
fn combined(scope: &str, planes: &[Vec<f64>], weight: f64, count: f64) {
    for (at, field) in FIELDS.iter().enumerate() {
        let [y, u, v] = [0, 1, 2].map(|plane: usize| planes.get(plane).map_or(0.0, |list| list[at]));
        if *field == "hvs" {
            let score = averaged(weight, [y, u, v]) / count;
            line(scope, "combined", field, score);
            seen(scope, "combined", score);
        } else {
            let (sum, whole) = (y + weight * (u + v), 1.0 + 2.0 * weight);
            line(scope, "combined", field, sum / (whole * count));
            decibels(scope, "combined", field, sum, whole * count);
        }
    }
}

/// Squared errors and PSNR of one or more frames, of each plane and of all.
fn errors(scope: &str, frames: &[Vec<Record>]) {
    let mut all: Vec<(&str, Vec<Record>)> = Vec::new();
    for (plane, name) in ["y", "u", "v"].into_iter().enumerate().take(frames[0].len()) {
        all.push((name, frames.iter().map(|records| records[plane]).collect()));
    }
    all.push(("combined", frames.iter().flatten().copied().collect()));
    for (name, records) in all {
        line(scope, name, "sq_err", records.iter().map(|r| r.0).sum());
        line(scope, name, "n_pixels", records.iter().map(|r| r.1 as f64).sum());
        line(scope, name, "psnr_db", psnr::probe_summed(&records));
    }
}

fn line(scope: &str, plane: &str, field: &str, value: f64) {
    println!("{} {} {} {:016x}", scope, plane, field, value.to_bits());
}
