//! MS-SSIM's five pairs of both widths: the published pair at each published scale, the rules' refusals, and what is left in all that is lent.

use crate::family::{number, run, Family, Run};
use crate::five;
use crate::limits::SIDE;
use crate::plane;
use crate::random::Random;
use crate::samples::{sound, sound_of, Pair};
use fuavelino::{no_alloc, Sample};

/// What each place of the answer holds before a call, and must hold after a refusal.
const BEFORE: u64 = 0x7FF4_DEAD_BEEF_0001;
/// Random cases hold no more samples than this.
const ROOM: usize = 40_000;

pub fn compare(ask: Run) -> bool {
    let cases = if ask.full { 100_000 } else { 20_000 };
    run("scales", &mut Scales { listed: listed() }, cases, ask)
}

/// What is asked, with how many places are lent over what is needed, or short of it.
#[derive(Clone)]
struct Case {
    pair: Pair,
    over: [isize; 3],
}

struct Scales {
    listed: Vec<Case>,
}

impl Family for Scales {
    type Case = Case;

    fn case(&self, number: u64, r: &mut Random) -> Case {
        match self.listed.get(number as usize) {
            Some(case) => case.clone(),
            None => any(r),
        }
    }

    fn judge(&mut self, c: &Case) -> Result<u8, String> {
        let mut scratch: Vec<i64> = (0..places(c, 0)).map(|i| noise(i) as i64).collect();
        let mut rooms = [1, 2].map(|k| (0..places(c, k)).map(noise).collect::<Vec<u32>>());
        let [x, y] = &mut rooms;
        let (answer, left) = if c.pair.wide {
            c.pair.lend(|s| s, |a, b| asked(c, &mut scratch, x, y, a, b))?
        } else {
            c.pair.lend(|s| s as u8, |a, b| asked(c, &mut scratch, x, y, a, b))?
        };
        let (wanted, then) = model(c);
        if (answer, left) != (wanted, then) {
            return Err(format!("answered {} and left {:X?}, not {} and {:X?}", answer, left, wanted, then));
        }
        let cleared = |k: usize| if wanted == 0 || wanted == 9 { needed(&c.pair, k) } else { 0 };
        let clean = |k: usize, i: usize| if i < cleared(k) { 0 } else { noise(i) };
        let dirty = (0..scratch.len()).find(|i| scratch[*i] != clean(0, *i) as i64).map(|i| (0, i));
        let in_room = |k: usize| (0..rooms[k - 1].len()).find(|i| rooms[k - 1][*i] != clean(k, *i)).map(|i| (k, i));
        match dirty.or_else(|| in_room(1)).or_else(|| in_room(2)) {
            Some((k, i)) => Err(format!("place {} of what is lent as number {} is not as it should be", i, k)),
            None => Ok(answer),
        }
    }

    fn smaller(&self, c: &Case) -> Vec<Case> {
        let pairs = c.pair.smaller().into_iter().map(|pair| Case { pair, ..c.clone() });
        let lent = (0..3).filter(|k| c.over[*k] != 0).map(|k| {
            let mut next = c.clone();
            next.over[k] = 0;
            next
        });
        pairs.chain(lent).collect()
    }

    fn show(&self, c: &Case) -> String {
        format!("MS-SSIM of {}\n    places lent over the need: {:?}", c.pair.show(), c.over)
    }

    fn answers(&self) -> Vec<u8> {
        vec![0, 1, 2, 3, 4, 5, 6, 8]
    }
}

/// Never 0.
fn noise(at: usize) -> u32 {
    (at as u32).wrapping_mul(0x9E37_79B1) | 1
}

/// The places that the call needs of scratch, and of room for each plane.
fn needed(p: &Pair, which: usize) -> usize {
    let (width, height) = (p.width.min(SIDE), p.height.min(SIDE));
    if which == 0 {
        96 * width
    } else {
        width * height
    }
}

fn places(c: &Case, which: usize) -> usize {
    (needed(&c.pair, which) as isize + c.over[which]).max(0) as usize
}

fn asked<T: Sample>(c: &Case, scratch: &mut [i64], x: &mut [u32], y: &mut [u32], a: &[T], b: &[T]) -> (u8, [u64; 10]) {
    let before = f64::from_bits(BEFORE);
    let mut out = [fuavelino::Pair { ssim: before, cs: before }; 5];
    let (a, b, shape) = (c.pair.plane(0, a), c.pair.plane(1, b), c.pair.shape());
    let answer = number(no_alloc::msssim(a, b, shape, scratch, x, y, &mut out));
    let at = |i: usize| if i % 2 == 0 { out[i / 2].ssim } else { out[i / 2].cs };
    (answer, [0, 1, 2, 3, 4, 5, 6, 7, 8, 9].map(|i| at(i).to_bits()))
}

/// The answer, and what the ten places hold after it.
fn model(c: &Case) -> (u8, [u64; 10]) {
    let short = (0..3).any(|k| places(c, k) < needed(&c.pair, k));
    match c.pair.refusal(16) {
        0 if short => (8, [BEFORE; 10]),
        0 => {
            let planes = c.pair.visible().map(|list| list.into_iter().map(u32::from).collect());
            let pairs = five::pairs(planes, c.pair.width, c.pair.height, c.pair.max() as u64);
            if pairs.iter().all(|x| x.is_finite()) {
                (0, pairs.map(f64::to_bits))
            } else {
                (9, [BEFORE; 10])
            }
        }
        refused => (refused, [BEFORE; 10]),
    }
}

/// The least sides and one below, odd sides, the largest, and bright planes at every depth.
fn listed() -> Vec<Case> {
    let mut r = Random::of(0, "scales, listed", 0);
    let mut list = Vec::new();
    for (width, height) in [(15, 16), (16, 15), (16, 16), (17, 31), (33, 16), (95, 63), (320, 180)] {
        list.push(Case { pair: sound(&mut r, width, height), over: [0; 3] });
    }
    // sides at their limit, with just enough lent and with one place less, and one past the limit
    for depth in [8, 12] {
        for (width, height) in [(SIDE, 16), (16, SIDE), (SIDE, 17), (SIDE + 1, 16), (16, SIDE + 1)] {
            let pair = sound_of(&mut r, depth, width, height);
            let short = [[0; 3], [-1, 0, 0], [0, -1, 0], [0, 0, -1]];
            list.extend(short.map(|over| Case { pair: pair.clone(), over }));
        }
    }
    for depth in 1..=12 {
        let max = (1u16 << depth) - 1;
        let bright = vec![max; 33 * 35];
        let mut other = bright.clone();
        other[33 * 17 + 16] = max / 2;
        list.push(Case { pair: Pair::plain(depth, 33, [bright.clone(), bright]), over: [0; 3] });
        list.push(Case { pair: Pair::plain(depth, 33, [other.clone(), vec![max; 33 * 35]]), over: [0; 3] });
        let pair = sound_of(&mut r, depth, 48, 40);
        list.extend((0..3).flat_map(|k| [-1, 1].map(|by| (k, by))).map(|(k, by)| {
            let mut over = [0; 3];
            over[k] = by;
            Case { pair: pair.clone(), over }
        }));
    }
    list
}

fn any(r: &mut Random) -> Case {
    let over = [0; 3].map(|_: isize| if r.once_in(24) { r.pick(&[-1, 1, 100]) } else { r.pick(&[0, 0, 1]) });
    if r.once_in(4) {
        let pair = Pair::of(&plane::any(r, 16));
        if needed(&pair, 1) <= ROOM {
            return Case { pair, over };
        }
    }
    let (width, height) = (r.within(16, 96), r.within(16, 96));
    Case { pair: sound(r, width, height), over }
}
