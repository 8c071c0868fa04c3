//! Kernels that are built with a sigma at which their count of taps changes, and with the doubles next to it: there the outermost tap is half a unit,
//! and rounding alone decides whether it is there, and whether it is 0 or 1. Ours are those published, whatever comes of it.

use crate::family::Run;
use crate::ssim::{lawful, trimmed};
use crate::together::same;
use fuavelino::{build_gaussian_kernel, Kernel};
use published::video::ssim;
use std::time::Instant;

/// A sigma of one tap; the one with the most, 256 / sqrt(pi e / 2); and a larger one of one tap again. Between them the count changes step by step.
const SIGMAS: [f64; 3] = [0.01, 123.888, 205.0];
/// What the taps sum to.
const WEIGHT: usize = 256;

/// What was found.
#[derive(Default)]
struct Found {
    built: usize,
    idle: usize,
    /// The first sigma with idle ends that was met, and its count of taps.
    first: Option<(f64, usize)>,
    /// The farthest that one was from the step, in doubles.
    far: u64,
}

pub fn kernels(ask: Run) -> Result<(), String> {
    let (began, near) = (Instant::now(), if ask.full { 5_000 } else { 500 });
    let [low, peak, high] = SIGMAS;
    let mut found = Found::default();
    for side in 1..=reach(peak) {
        let grows = step(low, peak, |sigma| reach(sigma) >= side);
        let falls = step(peak, high, |sigma| reach(sigma) < side);
        for at in [grows, falls] {
            for bits in at - near..=at + near {
                let sigma = f64::from_bits(bits);
                judged(sigma, bits.abs_diff(at), &mut found).map_err(|e| format!("sigma {:?}: {}", sigma, e))?;
            }
        }
    }
    let (time, steps) = (began.elapsed().as_secs_f64(), 2 * reach(peak));
    println!(
        "together: {} kernels within {} doubles of {} sigmas at which the count of taps changes are those published, in {:.1} s",
        found.built, near, steps, time
    );
    let first =
        found.first.map_or(String::new(), |(sigma, taps)| format!("; the first: sigma {:?}, {} taps", sigma, taps));
    println!(
        "together: {} of these have idle ends, {} doubles off at most, and are lawful when trimmed{}",
        found.idle, found.far, first
    );
    Ok(())
}

/// How many taps a published kernel has on each side.
fn reach(sigma: f64) -> usize {
    ssim::probe_kernel(sigma, usize::MAX, WEIGHT).len() / 2
}

/// The first double past `low`, as bits, from which on it is so; at `high` it is.
fn step(low: f64, high: f64, so: impl Fn(f64) -> bool) -> u64 {
    let (mut low, mut high) = (low.to_bits(), high.to_bits());
    while high - low > 1 {
        let between = low + (high - low) / 2;
        if so(f64::from_bits(between)) {
            high = between;
        } else {
            low = between;
        }
    }
    high
}

/// One kernel: published and ours are alike, and it is lawful, or would be without one idle tap at each end.
fn judged(sigma: f64, off: u64, found: &mut Found) -> Result<(), String> {
    let theirs = ssim::probe_kernel(sigma, usize::MAX, WEIGHT);
    same("kernel", build_gaussian_kernel(sigma, usize::MAX, WEIGHT), theirs.clone())?;
    let taps: Vec<u16> = theirs.into_iter().map(|tap| u16::try_from(tap).unwrap_or(u16::MAX)).collect();
    let kernel = Kernel::from_taps(taps.clone());
    same("lawful", kernel.check().is_ok(), lawful(&taps))?;
    found.built += 1;
    if !lawful(&taps) {
        same("trimmed", (kernel.trimmed().taps(), lawful(trimmed(&taps))), (&taps[1..taps.len() - 1], true))?;
        found.idle += 1;
        found.far = found.far.max(off);
        found.first.get_or_insert((sigma, taps.len()));
    }
    Ok(())
}
