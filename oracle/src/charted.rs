//! The chart of kernels: the published kernel for each height of its order, its refusals, and SSIM under each kernel.

use crate::family::{number, run, Family, Run};
use crate::heights::{kernel, HEIGHTS};
use crate::limits::SIDE;
use crate::plane::less;
use crate::random::Random;
use crate::samples::{runs, sound_of};
use crate::ssim;
use fuavelino::no_alloc;

/// The lent places stand in the middle of a longer run, so that places that were not lent are seen too.
const MARGIN: usize = 2;

/// What the count is before most listed calls: no kernel's.
const COUNT: usize = 0xDEAD_BEEF_0001;

/// Room for any lawful kernel.
const ROOM: usize = 255;

/// Counts of places that are enough, and would not be if they were kept in one byte or in two.
const MANY: [usize; 5] = [256, 257, 1_000, 65_536, 65_537];

pub fn compare(ask: Run) -> bool {
    let cases = if ask.full { 3_000_000 } else { 300_000 };
    run("charted", &mut Charted { listed: listed() }, cases, ask) && all_scored(ask)
}

/// SSIM under each kernel of the chart.
fn all_scored(ask: Run) -> bool {
    let said = HEIGHTS.iter().try_for_each(|height| scored(*height, ask));
    match &said {
        Ok(()) => println!("charted: SSIM under each of the {} kernels is the published one", HEIGHTS.len()),
        Err(why) => println!("charted: FAILED: {}", why),
    }
    said.is_ok()
}

struct Charted {
    listed: Vec<Case>,
}

/// What is asked, and what the count is before. The places are filled with noise that the seed gives.
#[derive(Clone)]
struct Case {
    height: usize,
    places: usize,
    count: usize,
    seed: u64,
}

/// What the call answered and left, with the places about those that were lent.
#[derive(PartialEq)]
struct Left {
    answer: u8,
    count: usize,
    room: Vec<u16>,
}

impl Left {
    fn show(&self, c: &Case) -> String {
        let room: Vec<(u16, u16)> = self.room.iter().copied().zip(noise(c)).collect();
        let words = runs(&room, |(now, was)| if now == was { "kept".to_string() } else { now.to_string() });
        format!("{}, the count {}, and {}", self.answer, self.count, words.join(" "))
    }
}

impl Family for Charted {
    type Case = Case;

    fn case(&self, number: u64, r: &mut Random) -> Case {
        match self.listed.get(number as usize) {
            Some(case) => case.clone(),
            None => any(r),
        }
    }

    fn judge(&mut self, c: &Case) -> Result<u8, String> {
        let (left, wanted) = (asked(c), wanted(c));
        if left != wanted {
            return Err(format!("gave {}; not {}", left.show(c), wanted.show(c)));
        }
        let taps = &left.room[MARGIN..];
        if left.answer == 0 && !ssim::lawful(&taps[..left.count]) {
            return Err(format!("the kernel {:?} is unlawful", &taps[..left.count]));
        }
        Ok(left.answer)
    }

    fn smaller(&self, c: &Case) -> Vec<Case> {
        let lower = HEIGHTS.into_iter().chain(less(c.height)).filter(|height| *height < c.height);
        let mut list: Vec<Case> = lower.map(|height| Case { height, ..c.clone() }).collect();
        let taps = needed(c.height);
        let fewer = less(c.places).into_iter().chain([taps, taps + 1]).filter(|places| *places < c.places);
        list.extend(fewer.map(|places| Case { places, ..c.clone() }));
        list.extend(less(c.count).into_iter().map(|count| Case { count, ..c.clone() }));
        list
    }

    fn show(&self, c: &Case) -> String {
        format!("the kernel of height {} in {} places, the count being {}", c.height, c.places, c.count)
    }

    fn answers(&self) -> Vec<u8> {
        vec![0, 8, 14]
    }
}

/// What the run of places holds before a call: no tap, and another at each place.
fn noise(c: &Case) -> Vec<u16> {
    (0..c.places + 2 * MARGIN).map(|at| c.seed.wrapping_add(at as u64) as u16 | 0x8000).collect()
}

fn asked(c: &Case) -> Left {
    let (mut room, mut count) = (noise(c), c.count);
    let answer = number(no_alloc::kernel(c.height, &mut room[MARGIN..][..c.places], &mut count));
    Left { answer, count, room }
}

fn wanted(c: &Case) -> Left {
    let (mut room, count) = (noise(c), c.count);
    if !HEIGHTS.contains(&c.height) {
        return Left { answer: 14, count, room };
    }
    let taps = kernel(c.height);
    if c.places < taps.len() {
        return Left { answer: 8, count, room };
    }
    room[MARGIN..][..taps.len()].copy_from_slice(&taps);
    Left { answer: 0, count: taps.len(), room }
}

/// The places that the kernel of this height needs, 0 where there is none.
fn needed(height: usize) -> usize {
    HEIGHTS.iter().find(|listed| **listed == height).map_or(0, |listed| kernel(*listed).len())
}

/// Small planes under a kernel of the chart, some smaller than it reaches: bytes and words, at the ends of the depths.
fn scored(height: usize, ask: Run) -> Result<(), String> {
    let left = asked(&Case { height, places: ROOM, count: COUNT, seed: ask.seed });
    let taps = &left.room[MARGIN..][..left.count];
    let r = &mut Random::of(ask.seed, "charted, scored", height as u64);
    for (depth, side) in [1, 8, 9, 12].into_iter().flat_map(|depth| [1, 8, 70].map(|side| (depth, side))) {
        let judged = match ssim::judged(sound_of(r, depth, side, side), taps.to_vec()) {
            Ok(0) => continue,
            Ok(answer) => format!("answered {}", answer),
            Err(why) => why,
        };
        return Err(format!(
            "SSIM of side {}, depth {}, under the kernel of height {}: {}",
            side, depth, height, judged
        ));
    }
    Ok(())
}

/// With room enough and with none: every height that a plane may have, and one past them; what a listed height becomes
/// when one of its bits is turned, or all; large ones. Then listed heights with places about the count, and with many;
/// and their neighbours with many.
fn listed() -> Vec<Case> {
    let mut heights: Vec<usize> = (0..=SIDE + 1).collect();
    for height in HEIGHTS {
        heights.extend((0..usize::BITS).map(|bit| height ^ 1 << bit));
        heights.extend([height.wrapping_neg(), !height, height << 16, height << 32]);
    }
    heights.extend((0..4).flat_map(|n| [65_536 + n, (1 << 32) + n, usize::MAX - n, usize::MAX / 2 - n]));
    let mut list: Vec<Case> =
        heights.into_iter().flat_map(|height| [ROOM, 0].map(|n| (height, n))).map(plain).collect();
    for height in HEIGHTS {
        let taps = needed(height);
        let about = [1, taps / 2, taps - 1, taps, taps + 1];
        list.extend(about.into_iter().chain(MANY).map(|places| plain((height, places))));
        list.extend([height - 1, height + 1].into_iter().flat_map(|other| MANY.map(|places| plain((other, places)))));
    }
    list
}

fn plain((height, places): (usize, usize)) -> Case {
    Case { height, places, count: COUNT, seed: 0 }
}

/// Most often a listed height; else one near it, one that shares its low bits, or any.
fn any(r: &mut Random) -> Case {
    let listed = r.pick(&HEIGHTS);
    let height = match r.below(12) {
        0 => listed - r.within(1, 3),
        1 => listed + r.within(1, 3),
        2 => listed + (r.bits(48) << 16) as usize,
        3 => r.bits(64) as usize,
        _ => listed,
    };
    let taps = needed(listed);
    let places = match r.below(8) {
        0 => r.below(taps),
        1 => taps - 1,
        2 => taps + r.within(1, 9),
        3 => r.within(0, 300),
        4 => 0,
        _ => taps,
    };
    let count = r.bits(64) as usize;
    Case { height, places, count: r.pick(&[count, 0, taps, taps + 1, usize::MAX]), seed: r.next() }
}
