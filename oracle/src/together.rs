//! Whole frames through every call of the bindings, in one scratch for all cases: each plane's scores, their combination, and the decibels
//! of the frame functions, against the published Rust of the unpadded copies, bit for bit. One figure is not the published one, combined HVS: it is
//! compared with its rule (`averaged.rs`), and the published one with the product's pair, multiplied as the Rust does.

use crate::averaged::averaged;
use crate::edges;
use crate::family::{run, Family, Run};
use crate::fenced::{judging, watch};
use crate::heights::{self, HEIGHTS};
use crate::hvs;
use crate::limits::SIDE;
use crate::plain_ssim::Plain;
use crate::random::Random;
use crate::samples::{sound_of, Pair};
use crate::ssim as similarity;
use fuavelino::video::psnr::calculate_frame_psnr;
use fuavelino::video::psnr_hvs::calculate_frame_psnr_hvs;
use fuavelino::video::ssim::{calculate_frame_msssim_with, calculate_frame_ssim_with, product};
use fuavelino::video::{self, ChromaSampling, Field, MetricsError, PlanarMetrics};
use fuavelino::{Kernel, PlaneKind, Record, Refusal, Sample, Scratch};
use published::frame::Frame;
use published::plane::Plane;
use published::prelude::ChromaSampling as Published;
use published::video::pixel::Pixel;
use published::video::{psnr, psnr_hvs, ssim};
use std::time::Instant;

const SAMPLINGS: [(ChromaSampling, Published); 4] = [
    (ChromaSampling::Cs420, Published::Cs420),
    (ChromaSampling::Cs422, Published::Cs422),
    (ChromaSampling::Cs444, Published::Cs444),
    (ChromaSampling::Cs400, Published::Cs400),
];
const KINDS: [PlaneKind; 3] = [PlaneKind::Y, PlaneKind::U, PlaneKind::V];
const FIELDS: [Field; 3] = [Field::Y, Field::U, Field::V];
const PERFECT: f64 = 100.0;
/// What a frame function can meet: a side below its least, a score that is not a number, one that nothing can better.
const LOW_SIDE: u8 = 3;
const NO_NUMBER: u8 = 9;
const NO_FAULT: u8 = 100;
/// The least sides of HVS and of MS-SSIM.
const BLOCK: usize = 8;
const SCALES: usize = 16;

pub fn compare(ask: Run) -> bool {
    let _watch = watch();
    let cases = if ask.full { 40_000 } else { 1_000 };
    if let Err(why) = kernels(ask).and_then(|()| edges::kernels(ask)) {
        println!("together: FAILED: {}", why);
        return false;
    }
    let mut frames = Frames { scratch: Scratch::new(), plain: Plain::new() };
    let agree = run("together", &mut frames, cases, ask);
    if agree {
        frames.plain.tell("together");
    }
    agree
}

/// The kernels that the bindings take from the chart or build, for planes of every height and for other arguments.
fn kernels(ask: Run) -> Result<(), String> {
    let began = Instant::now();
    let mut most_taps = 0;
    for height in 1..=SIDE {
        most_taps = most_taps.max(of_height(height).map_err(|e| format!("height {}, {}", height, e))?);
    }
    let time = began.elapsed().as_secs_f64();
    for number in 0..10_000 {
        let r = &mut Random::of(ask.seed, "kernels", number);
        let sigma = r.within(1, 4_000) as f64 / 64.0 * r.pick(&[1.0, 0.01, 1.1]);
        let (most, weight) = (r.within(1, 300), r.pick(&[1, 256, 1_024, 65_536, 1 << 40]));
        let ours = fuavelino::build_gaussian_kernel(sigma, most, weight);
        same("kernel", ours, ssim::probe_kernel(sigma, most, weight)).map_err(|e| format!("sigma {}, {}", sigma, e))?;
    }
    println!("together: the kernels of every height to {} are those published, and lawful, in {:.1} s", SIDE, time);
    println!(
        "together: none of more than one tap ends in 0, for {} widths each; the most taps are {}",
        WIDTHS, most_taps
    );
    Ok(())
}

/// Of each height so many widths are asked: as wide as high, one less, a third, the widest, and the narrowest.
const WIDTHS: usize = 7;

/// The most taps of the kernels of a height. Where the chart lists the height and the width is no smaller, the kernel is the chart's.
fn of_height(height: usize) -> Result<usize, String> {
    let listed = HEIGHTS.contains(&height);
    let widths: [usize; WIDTHS] = [height, (height - 1).max(1), height / 3 + 1, SIDE, 1, 2, 5];
    let mut most = 0;
    for width in widths {
        let kernel = Kernel::for_plane(width, height);
        let taps: Vec<i64> = kernel.taps().iter().map(|t| i64::from(*t)).collect();
        same("kernel", taps, ssim::probe_kernel(height as f64 * 1.5 / 256.0, width.min(height), 256))?;
        same("taken from the chart", kernel.is_charted(), listed && width >= height)?;
        same("lawful", (similarity::lawful(kernel.taps()), kernel.check()), (true, Ok(())))?;
        most = most.max(kernel.taps().len());
    }
    let owed = listed.then(|| heights::kernel(height)).ok_or(Refusal::Height);
    same("charted", Kernel::charted(height).map(|kernel| kernel.taps().to_vec()), owed)?;
    Ok(most)
}

/// Two frames of one number: one pair of planes, or three, all of one depth.
#[derive(Clone)]
struct Case {
    frame: u32,
    sampling: usize,
    planes: Vec<Pair>,
}

struct Frames {
    scratch: Scratch,
    plain: Plain,
}

impl Family for Frames {
    type Case = Case;

    fn case(&self, number: u64, r: &mut Random) -> Case {
        judging(number);
        let sampling = number as usize % SAMPLINGS.len();
        let depth = r.within(1, 12) as u32;
        let (width, height) = sides(r);
        let half = |side: usize| (side + 1) / 2;
        let chroma = match SAMPLINGS[sampling].0 {
            ChromaSampling::Cs420 => vec![(half(width), half(height)); 2],
            ChromaSampling::Cs422 => vec![(half(width), height); 2],
            ChromaSampling::Cs444 => vec![(width, height); 2],
            ChromaSampling::Cs400 => vec![],
        };
        let all = [(width, height)].into_iter().chain(chroma);
        let planes = all.map(|(w, h)| sound_of(r, depth, w, h)).collect();
        Case { frame: number as u32, sampling, planes }
    }

    fn judge(&mut self, c: &Case) -> Result<u8, String> {
        let met = if c.planes[0].wide {
            judged(c, &mut self.scratch, |s| s)?
        } else {
            judged(c, &mut self.scratch, |s| s as u8)?
        };
        for p in &c.planes {
            similarity::witnessed(&mut self.plain, p, Kernel::for_plane(p.width, p.height).taps(), c.frame.into())?;
        }
        Ok(met)
    }

    fn smaller(&self, c: &Case) -> Vec<Case> {
        let mut list = Vec::new();
        if c.planes.len() > 1 {
            list.extend(c.planes.iter().map(|pair| Case { sampling: 3, planes: vec![pair.clone()], ..*c }));
        }
        let sound = |next: &Pair| next.depth == c.planes[0].depth && next.refusal(0) == 0;
        for i in 0..c.planes.len() {
            for next in c.planes[i].smaller().into_iter().filter(sound) {
                let mut planes = c.planes.clone();
                planes[i] = next;
                list.push(Case { planes, ..c.clone() });
            }
        }
        list
    }

    fn show(&self, c: &Case) -> String {
        let planes: Vec<String> = c.planes.iter().map(Pair::show).collect();
        format!("frame {}, {:?} of\n  {}", c.frame, SAMPLINGS[c.sampling].0, planes.join("\n  "))
    }

    /// 0 where there is nothing to settle; else the last of what was met.
    fn answers(&self) -> Vec<u8> {
        vec![0, LOW_SIDE, NO_NUMBER, NO_FAULT]
    }
}

fn sides(r: &mut Random) -> (usize, usize) {
    match r.below(12) {
        0 => (r.within(1, 15), r.within(1, 15)),
        1 => (r.within(60, 100), r.within(31, 64)),
        2 => (r.within(31, 64), r.within(60, 100)),
        _ => (r.within(16, 50), r.within(16, 50)),
    }
}

fn judged<T: Sample + Pixel + PartialEq>(c: &Case, scratch: &mut Scratch, narrow: fn(u16) -> T) -> Result<u8, String> {
    let scores = planes(c, scratch, narrow)?;
    combined(c, &scores)?;
    let samples: Vec<[Vec<T>; 2]> =
        c.planes.iter().map(|p| [0, 1].map(|i| p.samples[i].iter().map(|s| narrow(*s)).collect())).collect();
    let ours = [0, 1].map(|i| frame(c, i, &samples));
    let copies: Vec<[Plane<T>; 2]> = c.planes.iter().map(|p| p.unpadded(narrow)).collect();
    let theirs = [0, 1].map(|i| published_frame(c, i, &copies));
    let mut met = errors(c, &ours, &theirs)?;
    met = met.max(similarities(c, &scores, &ours, &theirs, scratch)?);
    met = met.max(scales(c, &scores, &ours, &theirs, scratch)?);
    Ok(met.max(seen(c, &scores, &ours, &theirs)?))
}

/// Both frame functions gave the same figures, or the same error. What was met then.
fn agreed(what: &str, said: Figures, owed: Figures) -> Result<u8, String> {
    same(what, said, owed)?;
    Ok(match owed {
        Ok(figures) if figures.contains(&PERFECT.to_bits()) => NO_FAULT,
        Ok(_) => 0,
        Err(MetricsError::NotANumber { .. }) => NO_NUMBER,
        Err(_) => LOW_SIDE,
    })
}

/// The bits of y, u, v and the average.
type Figures = Result<[u64; 4], MetricsError>;

/// The published scores of the planes, with which the product's agree.
struct Scores {
    records: Vec<Record>,
    ssim: Vec<f64>,
    /// None where a side is below the least.
    products: Vec<Option<f64>>,
    hvs: Vec<Option<f64>>,
}

fn planes<T: Sample + Pixel + PartialEq>(
    c: &Case,
    scratch: &mut Scratch,
    narrow: fn(u16) -> T,
) -> Result<Scores, String> {
    let mut scores = Scores { records: vec![], ssim: vec![], products: vec![], hvs: vec![] };
    for (i, p) in c.planes.iter().enumerate() {
        let kernel = Kernel::for_plane(p.width, p.height);
        let copies = p.unpadded(narrow);
        let said = p.lend(narrow, |a, b| {
            let (a, b, shape) = (p.plane(0, a), p.plane(1, b), p.shape());
            same("check", fuavelino::check(a, b, shape, 0), Ok(()))?;
            let record = fuavelino::squared_error(a, b, shape, c.frame, KINDS[i].number());
            let pair =
                fuavelino::ssim(a, b, shape, &kernel, scratch).map(|pair| [pair.ssim, pair.cs].map(f64::to_bits));
            let five = fuavelino::msssim(a, b, shape, scratch).map(|five| bits(product(&five)));
            let score = fuavelino::psnr_hvs(a, b, shape, KINDS[i]).map(f64::to_bits);
            Ok((record, pair, five, score))
        })?;
        let (record, pair, five, score) = said.map_err(|why: String| format!("plane {}: {}", i, why))?;
        scores.records.push(Record { frame: c.frame, plane: i as u32, ..published_record(p, &copies) });
        same("squared error", record, Ok(scores.records[i]))?;
        let taps: Vec<i64> = kernel.taps().iter().map(|t| i64::from(*t)).collect();
        same("kernel", &taps, &ssim::probe_kernel(p.height as f64 * 1.5 / 256.0, p.width.min(p.height), 256))?;
        let (s, cs) = similarity::published(p, kernel.taps());
        scores.ssim.push(s);
        same("SSIM", pair, Ok([s, cs].map(f64::to_bits)))?;
        scores.products.push(least(p, SCALES).then(|| ssim::probe_product(&copies[0], &copies[1], p.depth as usize)));
        same("MS-SSIM", five, scores.products[i].map(bits).ok_or(Refusal::Side))?;
        scores.hvs.push(least(p, BLOCK).then(|| hvs::published(p, i)));
        same("HVS", score, scores.hvs[i].map(f64::to_bits).ok_or(Refusal::Side))?;
    }
    Ok(scores)
}

fn least(p: &Pair, side: usize) -> bool {
    p.width >= side && p.height >= side
}

/// A number's bits, all that are not a number being one.
fn bits(x: f64) -> u64 {
    if x.is_nan() {
        f64::NAN.to_bits()
    } else {
        x.to_bits()
    }
}

pub fn same<T: PartialEq + std::fmt::Debug>(what: &str, ours: T, theirs: T) -> Result<(), String> {
    if ours == theirs {
        Ok(())
    } else {
        Err(format!("{}: {:X?}, not {:X?}", what, ours, theirs))
    }
}

/// The published record, which does not say whose it is.
fn published_record<T: Pixel>(p: &Pair, copies: &[Plane<T>; 2]) -> Record {
    let (sq_err, n, max) = psnr::probe_record(&copies[0], &copies[1], p.depth as usize);
    Record { sq_err, n_pixels: n as u64, sample_max: max as u32, ..Record::default() }
}

/// Three scores as they are combined: what is not there weighs nothing.
fn three(list: &[f64]) -> [f64; 3] {
    [0, 1, 2].map(|i| *list.get(i).unwrap_or(&list[0]))
}

/// The calls that take no planes: series, combining, and with the frame's own numbers root and transform.
fn combined(c: &Case, scores: &Scores) -> Result<(), String> {
    let weight = SAMPLINGS[c.sampling].0.get_chroma_weight();
    let [y, u, v] = three(&scores.ssim);
    let pair = fuavelino::combine_ssim(weight, y, u, v);
    same("combined SSIM", pair, Ok(ssim::probe_combined(weight, [y, u, v])))?;
    if let Some(list) = scores.hvs.iter().copied().collect::<Option<Vec<f64>>>() {
        let [y, u, v] = three(&list);
        let score = fuavelino::combine_hvs(weight, y, u, v).map(f64::to_bits);
        same("combined HVS", score, Ok(averaged(weight, [y, u, v]).to_bits()))?;
    }
    let sum = scores.records.iter().fold((0.0, 0), |sum, r| (sum.0 + r.sq_err, sum.1 + r.n_pixels));
    let total = fuavelino::series(&scores.records).map(|t| (t.sq_err, t.n_pixels));
    same("series", total, Ok(sum))?;
    same("root", fuavelino::root(sum.0), Ok(sum.0.sqrt()))?;
    let [a, b] = c.planes[0].visible();
    let block: Vec<i32> = (0..64).map(|i| i32::from(a[i % a.len()]) - i32::from(b[i % b.len()])).collect();
    let (mut out, mut back, mut then) = ([0; 64], [0; 64], block.clone());
    psnr_hvs::probe_forward(&mut then);
    same("forward", fuavelino::forward(&block, &mut out).map(|()| out.to_vec()), Ok(then))?;
    same("inverse", fuavelino::inverse(&out, &mut back).map(|()| back.to_vec()), Ok(block))
}

fn frame<'a, T>(c: &Case, which: usize, samples: &'a [[Vec<T>; 2]]) -> video::Frame<'a, T> {
    let plane = |i: usize| {
        let (width, height, stride) = c.planes.get(i).map_or((0, 0, 0), |p| (p.width, p.height, p.strides[which]));
        let data = samples.get(i).map_or(&[][..], |pair| &pair[which][..]);
        video::Plane { data, cfg: video::PlaneConfig { width, height, stride } }
    };
    video::Frame { planes: [plane(0), plane(1), plane(2)] }
}

/// The published functions score three planes whatever the sampling: they are lent the first thrice where there is no other.
fn published_frame<T: Copy>(c: &Case, which: usize, copies: &[[Plane<T>; 2]]) -> Frame<T> {
    let plane = |i: usize| copies[if c.planes.len() == 1 { 0 } else { i }][which].clone();
    Frame { planes: [plane(0), plane(1), plane(2)] }
}

/// The figures that the frame functions owe: decibels of scores, or the first plane with none.
fn owed(planes: [Option<f64>; 3], avg: Option<f64>) -> Figures {
    let number = |x: Option<f64>, field: Field| x.map(f64::to_bits).ok_or(MetricsError::NotANumber { field });
    let [y, u, v] = [0, 1, 2].map(|i| number(planes[i], FIELDS[i]));
    Ok([y?, u?, v?, number(avg, Field::Avg)?])
}

fn given(said: Result<PlanarMetrics, MetricsError>) -> Figures {
    said.map(|m| [m.y, m.u, m.v, m.avg].map(f64::to_bits))
}

/// PSNR. The published sum is over three planes: where there is one, its own figure is the average.
fn errors<T: Sample + Pixel>(c: &Case, ours: &[video::Frame<'_, T>; 2], theirs: &[Frame<T>; 2]) -> Result<u8, String> {
    let (depth, (sampling, published)) = (c.planes[0].depth as usize, SAMPLINGS[c.sampling]);
    let m = psnr::calculate_frame_psnr(&theirs[0], &theirs[1], depth, published).map_err(|e| e.to_string())?;
    let avg = if c.planes.len() == 1 { m.y } else { m.avg };
    let wanted = owed([m.y, m.u, m.v].map(Some), Some(avg));
    agreed("frame PSNR", given(calculate_frame_psnr(&ours[0], &ours[1], depth, sampling)), wanted)
}

/// The first plane of which a side is below the least.
fn refused(c: &Case, side: usize) -> Option<MetricsError> {
    let low = c.planes.iter().position(|p| !least(p, side))?;
    Some(MetricsError::Refused { field: FIELDS[low], refusal: Refusal::Side })
}

/// Decibels of SSIM and its like: those published, but 100 for a score that comes to its weight, and none for what is not a number.
fn settled(score: f64, weight: f64, published: f64) -> Option<f64> {
    if score >= weight {
        Some(PERFECT)
    } else {
        Some(published).filter(|_| !score.is_nan())
    }
}

fn settle_all(c: &Case, scores: &[f64], m: published::video::PlanarMetrics) -> Figures {
    let weight = SAMPLINGS[c.sampling].0.get_chroma_weight();
    let list = three(scores);
    let (sum, all) = ssim::probe_combined(weight, list);
    let planes = [(0, m.y), (1, m.u), (2, m.v)].map(|(i, decibels)| settled(list[i], 1.0, decibels));
    owed(planes, settled(sum, all, m.avg))
}

fn similarities<T: Sample + Pixel>(
    c: &Case,
    scores: &Scores,
    ours: &[video::Frame<'_, T>; 2],
    theirs: &[Frame<T>; 2],
    scratch: &mut Scratch,
) -> Result<u8, String> {
    let (depth, (sampling, published)) = (c.planes[0].depth as usize, SAMPLINGS[c.sampling]);
    let m = ssim::calculate_frame_ssim(&theirs[0], &theirs[1], depth, published).map_err(|e| e.to_string())?;
    let said = given(calculate_frame_ssim_with(&ours[0], &ours[1], depth, sampling, scratch));
    agreed("frame SSIM", said, settle_all(c, &scores.ssim, m))
}

fn scales<T: Sample + Pixel>(
    c: &Case,
    scores: &Scores,
    ours: &[video::Frame<'_, T>; 2],
    theirs: &[Frame<T>; 2],
    scratch: &mut Scratch,
) -> Result<u8, String> {
    let (depth, (sampling, published)) = (c.planes[0].depth as usize, SAMPLINGS[c.sampling]);
    let said = given(calculate_frame_msssim_with(&ours[0], &ours[1], depth, sampling, scratch));
    if let Some(error) = refused(c, SCALES) {
        return agreed("frame MS-SSIM", said, Err(error));
    }
    let m = ssim::calculate_frame_msssim(&theirs[0], &theirs[1], depth, published).map_err(|e| e.to_string())?;
    let list: Vec<f64> = scores.products.iter().flatten().copied().collect();
    agreed("frame MS-SSIM", said, settle_all(c, &list, m))
}

fn seen<T: Sample + Pixel>(
    c: &Case,
    scores: &Scores,
    ours: &[video::Frame<'_, T>; 2],
    theirs: &[Frame<T>; 2],
) -> Result<u8, String> {
    let (depth, (sampling, published)) = (c.planes[0].depth as usize, SAMPLINGS[c.sampling]);
    let said = given(calculate_frame_psnr_hvs(&ours[0], &ours[1], depth, sampling));
    if let Some(error) = refused(c, BLOCK) {
        return agreed("frame HVS", said, Err(error));
    }
    let m = psnr_hvs::calculate_frame_psnr_hvs(&theirs[0], &theirs[1], depth, published).map_err(|e| e.to_string())?;
    let list = three(&scores.hvs.iter().flatten().copied().collect::<Vec<f64>>());
    let weight = sampling.get_chroma_weight();
    same("published frame HVS", bits(multiplied(weight, list)?), bits(m.avg))?;
    let settled = |score: f64, decibels: f64| Some(if score == 0.0 { PERFECT } else { decibels });
    let all = averaged(weight, list);
    // where there is one plane, the published u and v are of its samples under other tables
    let [u, v] = if c.planes.len() == 1 { [m.y; 2] } else { [m.u, m.v] };
    let planes = [settled(list[0], m.y), settled(list[1], u), settled(list[2], v)];
    agreed("frame HVS", said, owed(planes, settled(all, psnr_hvs::probe_decibels(all))))
}

/// The decibels of the product's pair with the Rust's last step, by which alone the two differ.
fn multiplied(weight: f64, [y, u, v]: [f64; 3]) -> Result<f64, String> {
    let (sum, whole) = fuavelino::combine_ssim(weight, y, u, v).map_err(|e| e.to_string())?;
    Ok(psnr_hvs::probe_decibels(whole * sum))
}
