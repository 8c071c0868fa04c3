//! MS-SSIM's downscale by itself, sample for sample, and the places that it is to leave alone. The product's library has no such call: the
//! crate `probe` runs the inner step.

use crate::family::{run, Family, Run};
use crate::limits::SIDE;
use crate::plane::less;
use crate::random::Random;
use crate::samples::runs;
use published::video::ssim;

extern "C" {
    fn probe_downscale(room: *mut u32, room_len: usize, width: usize, height: usize) -> u8;
}

/// The largest sample of a plane of depth 12, and the largest that the step takes.
const BRIGHT: u32 = 4_095;
const MOST: u32 = 1 << 20;

pub fn compare(ask: Run) -> bool {
    let cases = if ask.full { 400_000 } else { 40_000 };
    run("downscale", &mut Downscales { listed: listed() }, cases, ask)
}

/// The sides that are named, and what is lent: the samples row after row, and what stands after them.
#[derive(Clone)]
struct Case {
    width: usize,
    height: usize,
    room: Vec<u32>,
}

struct Downscales {
    listed: Vec<Case>,
}

impl Family for Downscales {
    type Case = Case;

    fn case(&self, number: u64, r: &mut Random) -> Case {
        match self.listed.get(number as usize) {
            Some(case) => case.clone(),
            None => any(r),
        }
    }

    fn judge(&mut self, c: &Case) -> Result<u8, String> {
        let mut room = c.room.clone();
        let answer = unsafe { probe_downscale(room.as_mut_ptr(), room.len(), c.width, c.height) };
        let wanted = refusal(c);
        if answer != wanted {
            return Err(format!("answered {}, not {}", answer, wanted));
        }
        let mut then = c.room.clone();
        if wanted == 0 {
            let below = ssim::probe_downscale(&c.room, c.width, c.height);
            then[..below.len()].copy_from_slice(&below);
        }
        match (0..room.len()).find(|i| room[*i] != then[*i]) {
            Some(i) => Err(format!("left {} at place {}, not {}", room[i], i, then[i])),
            None => Ok(answer),
        }
    }

    fn smaller(&self, c: &Case) -> Vec<Case> {
        let mut list = Vec::new();
        if refusal(c) == 0 {
            list.extend(less(c.width).into_iter().filter(|w| *w > 0).map(|width| part(c, width, c.height)));
            list.extend(less(c.height).into_iter().filter(|h| *h > 0).map(|height| part(c, c.width, height)));
        }
        for room in quieter(&c.room) {
            list.push(Case { room, ..c.clone() });
        }
        list
    }

    fn show(&self, c: &Case) -> String {
        let room = runs(&c.room, |s| s.to_string()).join(" ");
        format!("the downscale of {} by {} in {} places: {}", c.width, c.height, c.room.len(), room)
    }

    fn answers(&self) -> Vec<u8> {
        vec![0, 2, 5, 6]
    }
}

/// What the step is refused for when it is run by itself.
fn refusal(c: &Case) -> u8 {
    if [c.width, c.height].iter().any(|side| *side == 0 || *side > SIDE) {
        2
    } else if c.room.len() < c.width * c.height {
        5
    } else if c.room.iter().any(|sample| *sample > MOST) {
        6
    } else {
        0
    }
}

/// The first rows and columns, with nothing after them.
fn part(c: &Case, width: usize, height: usize) -> Case {
    let rows = (0..height).flat_map(|y| c.room[y * c.width..][..width].to_vec());
    Case { width, height, room: rows.collect() }
}

/// Samples nearer 0: all of them, and of a few each by itself.
fn quieter(room: &[u32]) -> Vec<Vec<u32>> {
    let all = [0, 1, 2].map(|by| room.iter().map(|s| if by == 0 { 0 } else { s >> by }).collect::<Vec<u32>>());
    let mut list: Vec<Vec<u32>> = all.into_iter().filter(|next| next != room).collect();
    if room.len() <= 64 {
        for (i, s) in room.iter().enumerate() {
            for value in less(*s as usize) {
                let mut next = room.to_vec();
                next[i] = value as u32;
                list.push(next);
            }
        }
    }
    list
}

/// The document's 1 to 9; every pair of small sides, bright at each of the scales that are made smaller; and the largest sides.
fn listed() -> Vec<Case> {
    let mut list = vec![Case { width: 3, height: 3, room: (1..=9).collect() }];
    for (width, height) in (1..=9).flat_map(|width| (1..=9).map(move |height| (width, height))) {
        list.extend((0..4).map(|k| Case { width, height, room: vec![BRIGHT << (2 * k); width * height] }));
    }
    for (width, height) in [(SIDE, 2), (2, SIDE), (SIDE, 3), (SIDE + 1, 1), (1, SIDE + 1), (0, 4), (4, 0)] {
        list.push(Case { width, height, room: (0..width as u32 * height as u32).map(|i| i % 4_096).collect() });
    }
    for last in [MOST, MOST + 1, u32::MAX] {
        list.push(Case { width: 2, height: 2, room: vec![MOST, MOST, MOST, last] });
        list.push(Case { width: 2, height: 2, room: vec![1, 2, 3, 4, last] });
    }
    let wraps = [(1 << 32, 1 << 32), (usize::MAX, 2), (1, usize::MAX), (1 << 63, 2)];
    list.extend(wraps.iter().map(|(width, height)| Case { width: *width, height: *height, room: vec![7; 16] }));
    list
}

/// Sides of 1 to 96, samples of one of the scales that are made smaller: any, all of the largest, nearly so, or the two ends.
fn any(r: &mut Random) -> Case {
    let most = if r.once_in(8) { 3 } else { 96 };
    let (width, height) = (r.within(1, most), r.within(1, 96));
    let (width, height) = if r.once_in(2) { (height, width) } else { (width, height) };
    let max = BRIGHT << (2 * r.below(4));
    let kind = r.below(4);
    let sample = |r: &mut Random| match kind {
        0 => max,
        1 => max - r.below(3) as u32,
        2 => r.pick(&[0, max]),
        _ => r.below(max as usize + 1) as u32,
    };
    let all = width * height;
    let places = if r.once_in(24) { r.below(all) } else { all + r.pick(&[0, 1, 9]) };
    let mut room: Vec<u32> = (0..places).map(|_| sample(r)).collect();
    if places > 0 && r.once_in(24) {
        let at = r.below(places);
        room[at] = r.pick(&[MOST, MOST + 1, u32::MAX]);
    }
    Case { width, height, room }
}
