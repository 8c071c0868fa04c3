//! PSNR-HVS of both widths and the three kinds: the published score of the unpadded copies, and the model's refusals.

use crate::family::{number, run, Family, Run};
use crate::hvs_ways;
use crate::limits::SIDE;
use crate::plane;
use crate::random::Random;
use crate::samples::{sound, sound_of, Pair};
use fuavelino::{no_alloc, PlaneKind, Sample};
use published::plane::Plane;
use published::video::pixel::Pixel;
use published::video::psnr_hvs;

/// By number.
const KINDS: [PlaneKind; 3] = [PlaneKind::Y, PlaneKind::U, PlaneKind::V];

/// What the score holds before a call, and must hold after a refusal.
const BEFORE: u64 = 0x7FF4_DEAD_BEEF_0001;
const LEAST: usize = 8;

pub fn compare(ask: Run) -> bool {
    let cases = if ask.full { 1_000_000 } else { 150_000 };
    let telling = match hvs_ways::telling() {
        Ok(list) => list,
        Err(why) => {
            println!("hvs: FAILED: {}", why);
            return false;
        }
    };
    println!("hvs: {} kept pairs tell the published steps from others", telling.len());
    run("hvs", &mut Scores { listed: [telling, listed()].concat() }, cases, ask)
}

struct Scores {
    listed: Vec<(Pair, usize)>,
}

/// A pair of planes, and the kind: 0 is y, 1 is u, 2 is v.
impl Family for Scores {
    type Case = (Pair, usize);

    fn case(&self, number: u64, r: &mut Random) -> (Pair, usize) {
        if let Some(case) = self.listed.get(number as usize) {
            return case.clone();
        }
        let pair = if r.once_in(5) {
            Pair::of(&plane::any(r, LEAST))
        } else {
            let (width, height) = sides(r);
            sound(r, width, height)
        };
        (pair, r.below(3))
    }

    fn judge(&mut self, (p, kind): &(Pair, usize)) -> Result<u8, String> {
        let (answer, left) = if p.wide {
            p.lend(|s| s, |a, b| asked(KINDS[*kind], p, a, b))?
        } else {
            p.lend(|s| s as u8, |a, b| asked(KINDS[*kind], p, a, b))?
        };
        let (wanted, then) = match p.refusal(LEAST) {
            0 => finite(published(p, *kind)),
            refused => (refused, BEFORE),
        };
        if (answer, left) == (wanted, then) {
            return Ok(answer);
        }
        let show = |bits: u64| format!("{} ({:#018X})", f64::from_bits(bits), bits);
        Err(format!("answered {} and left {}, not {} and {}", answer, show(left), wanted, show(then)))
    }

    fn smaller(&self, (p, kind): &(Pair, usize)) -> Vec<(Pair, usize)> {
        let pairs = p.smaller().into_iter().map(|next| (next, *kind));
        pairs.chain((0..*kind).map(|less| (p.clone(), less))).collect()
    }

    fn show(&self, (p, kind): &(Pair, usize)) -> String {
        format!("HVS {} of {}", ["y", "u", "v"][*kind], p.show())
    }

    fn answers(&self) -> Vec<u8> {
        (0..=6).collect()
    }
}

fn asked<T: Sample>(kind: PlaneKind, p: &Pair, a: &[T], b: &[T]) -> (u8, u64) {
    let mut score = f64::from_bits(BEFORE);
    let answer = number(no_alloc::psnr_hvs(p.plane(0, a), p.plane(1, b), p.shape(), kind, &mut score));
    (answer, score.to_bits())
}

fn finite(score: f64) -> (u8, u64) {
    if score.is_finite() {
        (0, score.to_bits())
    } else {
        (9, BEFORE)
    }
}

/// The published score of planes that are not refused.
pub fn published(p: &Pair, kind: usize) -> f64 {
    fn of<T: Pixel>(planes: &[Plane<T>; 2], kind: usize, depth: u32) -> f64 {
        psnr_hvs::probe_plane(&planes[0], &planes[1], kind, depth as usize)
    }
    if p.wide {
        of(&p.unpadded(|s| s), kind, p.depth)
    } else {
        of(&p.unpadded(|s| s as u8), kind, p.depth)
    }
}

fn sides(r: &mut Random) -> (usize, usize) {
    match r.below(400) {
        0 => (r.within(100, 300), r.within(60, 200)),
        1 => (r.within(SIDE - 7, SIDE), r.within(8, 15)),
        2 => (r.within(8, 15), r.within(SIDE - 7, SIDE)),
        3..=60 => (r.within(8, 64), r.within(8, 64)),
        61..=100 => (r.within(6, 9), r.within(6, 9)),
        101..=200 => (r.pick(&[8, 14, 15, 21, 22, 23, 29]), r.pick(&[8, 14, 15, 21, 22, 23, 29])),
        _ => (r.within(8, 24), r.within(8, 24)),
    }
}

/// Every depth and kind on both sides of each limit of a side, flat, and with the largest contrast.
fn listed() -> Vec<(Pair, usize)> {
    let mut r = Random::of(0, "hvs, listed", 0);
    let mut list = Vec::new();
    for (depth, kind) in (1..=12u32).flat_map(|depth| [0, 1, 2].map(|kind| (depth, kind))) {
        for (width, height) in [(7, 8), (8, 7), (8, 8), (SIDE, 8), (8, SIDE), (SIDE + 1, 8), (8, SIDE + 1)] {
            list.push((sound_of(&mut r, depth, width, height), kind));
        }
        let max = (1 << depth) - 1;
        let flat = |value: u16| vec![value; 22 * 15];
        list.extend(
            [[0, 0], [max, max], [max, 0], [0, max], [max / 2, max]]
                .map(|[a, b]| (Pair::plain(depth, 22, [flat(a), flat(b)]), kind)),
        );
        for at in [0, 1, 7, 8, 21, 22 * 7 + 7, 22 * 8 + 8, 22 * 15 - 1] {
            let mut one = flat(max / 2);
            one[at] = max;
            list.push((Pair::plain(depth, 22, [flat(max / 2), one.clone()]), kind));
            list.push((Pair::plain(depth, 22, [one, flat(max / 2)]), kind));
        }
    }
    list
}
