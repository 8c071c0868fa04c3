//! The cases of the choice between two candidates: listed ones at both sides of every limit and with each mix of what planes break, and random ones.

use crate::better_rule::{squared, Contest, FIRST, ORIGINAL, SECOND};
use crate::limits::{SIDE, STRIDE};
use crate::model::needs;
use crate::plane::odd_depth;
use crate::random::Random;
use crate::samples::{sound, sound_of, third, Pair, Planes};

/// A contest, and the seed by which it is lent and asked about.
#[derive(Clone)]
pub struct Case {
    pub contest: Contest,
    pub seed: u64,
}

/// The numbers that one plane can break alone, and none.
pub const OWN: [u8; 4] = [0, 4, 5, 6];
/// Those that all planes break together: none, 1, 2, or both.
pub const SHARED: [[bool; 2]; 4] = [[false, false], [true, false], [false, true], [true, true]];

/// The largest number that samples of this width can be.
fn top(wide: bool) -> u16 {
    if wide {
        u16::MAX
    } else {
        255
    }
}

/// With one more candidate beside the planes of a pair.
fn with_third(r: &mut Random, p: Pair) -> Contest {
    let (stride, samples) = third(r, &p);
    let ([x, y], [o, a]) = (p.strides, p.samples);
    let Planes { wide, depth, width, height, .. } = p;
    Contest { wide, depth, width, height, strides: [x, y, stride], samples: [o, a, samples] }
}

fn contest(r: &mut Random, depth: u32, width: usize, height: usize) -> Contest {
    let pair = sound_of(r, depth, width, height);
    with_third(r, pair)
}

/// The place of a sample that is seen.
fn place(c: &Contest, plane: usize, x: usize, y: usize) -> usize {
    y * c.strides[plane] + x
}

/// Gives the second candidate a sample for each that is seen: from the original's and the first's.
fn second_from(c: &mut Contest, of: impl Fn(u16, u16) -> u16) {
    for (y, x) in (0..c.height).flat_map(|y| (0..c.width).map(move |x| (y, x))) {
        let [o, a, b] = [ORIGINAL, FIRST, SECOND].map(|i| place(c, i, x, y));
        c.samples[SECOND][b] = of(c.samples[ORIGINAL][o], c.samples[FIRST][a]);
    }
}

/// As far from the original as the first's sample is, to the other side where there is room.
fn mirrored(o: u16, a: u16, max: u16) -> u16 {
    match (2 * o).checked_sub(a) {
        Some(b) if b <= max => b,
        _ => a,
    }
}

/// Ends each candidate in a sample of its own, so that they can be told apart where they are alike.
fn tagged(c: &mut Contest) {
    c.samples[FIRST].push(0x11);
    c.samples[SECOND].push(0x22);
}

/// Another sample at a place that is seen, so far off the original's as the first's is, and one more or less.
fn nearly_tied(r: &mut Random, c: &mut Contest) {
    let max = c.max() as u16;
    second_from(c, |o, a| mirrored(o, a, max));
    let (x, y) = (r.below(c.width), r.below(c.height));
    let at = place(c, SECOND, x, y);
    let sample = &mut c.samples[SECOND][at];
    *sample = if *sample == max || r.once_in(2) { sample.saturating_sub(1) } else { *sample + 1 };
}

pub fn any(r: &mut Random) -> Case {
    let (width, height) = sides(r);
    let pair = sound(r, width, height);
    let mut c = with_third(r, pair);
    let max = c.max() as u16;
    match r.below(12) {
        0 | 1 => second_from(&mut c, |_, a| a),
        2 | 3 => second_from(&mut c, |o, a| mirrored(o, a, max)),
        4 | 5 => nearly_tied(r, &mut c),
        6 => second_from(&mut c, |o, _| o),
        _ => {}
    }
    if r.once_in(2) {
        tagged(&mut c);
    }
    if r.once_in(3) {
        for _ in 0..r.pick(&[1, 1, 1, 2, 2, 3]) {
            spoil(r, &mut c);
        }
    }
    if r.once_in(2) {
        exchange(&mut c);
    }
    Case { contest: c, seed: r.next() }
}

pub fn exchange(c: &mut Contest) {
    c.strides.swap(FIRST, SECOND);
    c.samples.swap(FIRST, SECOND);
}

fn sides(r: &mut Random) -> (usize, usize) {
    match r.below(300) {
        0 => (r.within(SIDE - 2, SIDE), r.within(1, 2)),
        1 => (r.within(1, 2), r.within(SIDE - 2, SIDE)),
        2..=4 => (r.within(100, 400), r.within(1, 9)),
        5..=50 => (r.within(1, 40), r.within(1, 40)),
        51..=120 => (r.within(1, 3), r.within(1, 3)),
        _ => (r.within(1, 12), r.within(1, 12)),
    }
}

/// Changes one thing, at or about its limit.
fn spoil(r: &mut Random, c: &mut Contest) {
    let i = r.below(3);
    match r.below(8) {
        0 => c.depth = odd_depth(r),
        1 => {
            let side = r.pick(&[0, 0, SIDE, SIDE + 1, SIDE + 2, 1 << 32, (1 << 32) + 1, usize::MAX]);
            *(if r.once_in(2) { &mut c.width } else { &mut c.height }) = side;
        }
        2 | 3 => {
            let below = c.width.wrapping_sub(1);
            let near = [below, below, below, STRIDE + 1, STRIDE + 1, (1 << 32) + c.width.min(99), 0, usize::MAX];
            c.strides[i] = r.pick(&near);
        }
        4 | 5 => {
            let needs = needs(c.strides[i], c.width, c.height).min(1 << 20) as usize;
            let fewer = r.pick(&[needs.saturating_sub(1), needs.saturating_sub(1), needs, needs / 2, 0]);
            c.samples[i].truncate(fewer);
        }
        _ => too_large(r, c, i),
    }
}

/// Puts the largest sample or a larger one to a place that is seen, the last or any, or to one that is not.
fn too_large(r: &mut Random, c: &mut Contest, i: usize) {
    let max = (1u32 << c.depth.min(15)) - 1;
    let value = r.pick(&[max, max + 1, max + 1, u32::from(u16::MAX)]).min(u32::from(top(c.wide))) as u16;
    let (width, height) = (c.width.clamp(1, SIDE), c.height.clamp(1, SIDE));
    let stride = c.strides[i].min(STRIDE + 1);
    let (x, y) = (r.below(width), r.below(height));
    let last = c.samples[i].len().saturating_sub(1);
    let at = r.pick(&[y * stride + x, y * stride + x, (height - 1) * stride + width - 1, y * stride + width, last]);
    if let Some(sample) = c.samples[i].get_mut(at) {
        *sample = value;
    }
}

pub fn listed() -> Vec<Case> {
    let mut r = Random::of(0, "better, listed", 0);
    let mut list = mixes();
    list.extend(alike(&mut r));
    list.extend(limits(&mut r));
    list.extend(large());
    let seeded = |contest: Contest| [0, 1, 2].map(|_| Case { contest: contest.clone(), seed: r.next() });
    list.into_iter().flat_map(seeded).collect()
}

/// A contest of three unlike strides, with padding and tails that would be refused if they were judged, which the second wins.
fn plain(depth: u32, width: usize, height: usize) -> Contest {
    let (wide, max) = (depth > 8, (1 << depth) - 1);
    let strides = [width + 2, width + 1, width + 4];
    let samples = [0, 1, 2].map(|i| {
        let mut list = vec![top(wide) - i as u16; strides[i] * (height - 1) + width + i + 1];
        for y in 0..height {
            list[y * strides[i]..][..width].fill(max);
        }
        list[1] = if i == FIRST { max / 2 } else { max };
        list
    });
    Contest { wide, depth, width, height, strides, samples }
}

fn small(depth: u32) -> Contest {
    plain(depth, 3, 2)
}

/// Each mix of what the planes break, each by itself and all together, in both sample widths.
fn mixes() -> Vec<Contest> {
    let mut list = Vec::new();
    for (wide, [odd_depth, odd_side]) in [false, true].into_iter().flat_map(|wide| SHARED.map(|shared| (wide, shared)))
    {
        let depth = [[7, 10], [0, 13]][usize::from(odd_depth)][usize::from(wide)];
        let sound = if odd_side { plain(depth, SIDE + 1, 1) } else { small(depth) };
        for own in 0..OWN.len().pow(3) {
            let mut c = sound.clone();
            for i in 0..3 {
                breaking(&mut c, i, OWN[own / OWN.len().pow(i as u32) % OWN.len()]);
            }
            list.push(c);
        }
    }
    list
}

/// Has a plane break a test, and none of lower number that planes can differ in.
fn breaking(c: &mut Contest, i: usize, number: u8) {
    let last = c.strides[i] * (c.height - 1) + c.width - 1;
    match number {
        4 => c.strides[i] = c.width - 1,
        5 => c.samples[i].truncate(last),
        6 => c.samples[i][last] = c.max() as u16 + 1,
        _ => {}
    }
}

/// Candidates that are alike, tied, off by one, or the original itself; at each depth and in some sides.
fn alike(r: &mut Random) -> Vec<Contest> {
    let mut list = Vec::new();
    for depth in 1..=12 {
        for (width, height) in [(1, 1), (2, 1), (1, 3), (5, 4), (33, 9)] {
            let max = (1 << depth) - 1;
            let mut forms = [(); 6].map(|()| contest(r, depth, width, height));
            second_from(&mut forms[0], |_, a| a);
            second_from(&mut forms[1], |o, a| mirrored(o, a, max));
            second_from(&mut forms[2], |o, _| o);
            nearly_tied(r, &mut forms[3]);
            forms[4].samples[FIRST] = forms[4].samples[ORIGINAL].clone();
            forms[4].strides[FIRST] = forms[4].strides[ORIGINAL];
            second_from(&mut forms[4], |o, _| o);
            for mut form in forms {
                list.push(form.clone());
                tagged(&mut form);
                list.push(form.clone());
                exchange(&mut form);
                list.push(form);
            }
        }
    }
    list.push(crossed());
    list
}

/// A tie of planes that differ from the original in other places, and by other amounts: 5² is 3² + 4².
fn crossed() -> Contest {
    let samples = [vec![100, 100, 100, 100], vec![105, 100, 100, 100], vec![100, 100, 103, 96]];
    Contest { wide: false, depth: 8, width: 2, height: 2, strides: [2; 3], samples }
}

/// Sides, strides, lengths, depths and samples at their limits and one past them, of each plane.
fn limits(r: &mut Random) -> Vec<Contest> {
    let mut list = Vec::new();
    for depth in [7, 8, 9, 12] {
        for (width, height) in [(SIDE, 1), (1, SIDE), (SIDE + 1, 1), (1, SIDE + 1), (SIDE - 1, 2)] {
            list.push(contest(r, depth, width, height));
        }
        let sound = small(depth);
        list.extend([(0, 2), (3, 0), (0, 0)].map(|(width, height)| Contest { width, height, ..sound.clone() }));
        let depths = [0, 1, 8, 9, 12, 13, 16, 256 + depth, (1 << 16) + depth, u32::MAX];
        list.extend(depths.map(|depth| Contest { depth, ..sound.clone() }));
        list.extend((0..3).flat_map(|i| of_plane(&sound, i)));
    }
    list
}

fn of_plane(sound: &Contest, i: usize) -> Vec<Contest> {
    let (max, top) = (sound.max() as u16, top(sound.wide));
    let mut list = Vec::new();
    for stride in [2, 3, STRIDE - 1, STRIDE, STRIDE + 1, (1 << 32) + 5, usize::MAX] {
        let mut c = sound.clone();
        c.strides[i] = stride;
        c.samples[i] = vec![top; stride.min(STRIDE + 1) + 3];
        for y in 0..2 {
            c.samples[i][y * stride.min(STRIDE + 1)..][..3].fill(max);
        }
        list.push(c);
    }
    let last = sound.strides[i] + sound.width;
    for len in [last - 1, last, last + 1, 2 * sound.strides[i], sound.strides[i], 0] {
        let mut c = sound.clone();
        c.samples[i].resize(len, top);
        list.push(c);
    }
    for at in [0, 2, 3, last - 1, last] {
        for value in [max, max + 1, top].into_iter().filter(|value| *value <= top) {
            let mut c = sound.clone();
            c.samples[i][at] = value;
            list.push(c);
        }
    }
    list
}

/// Errors past 32 bits: the smaller one with the larger low half; and such that a single cannot tell from each other.
fn large() -> Vec<Contest> {
    let (width, height, depth) = (64, 64, 12);
    let flat = |sample: u16| vec![sample; width * height];
    let mut near = flat(0);
    near[7] = 1;
    let of = |samples: [Vec<u16>; 3]| {
        let c = Contest { wide: true, depth, width, height, strides: [width; 3], samples };
        let mut other = c.clone();
        exchange(&mut other);
        [c, other]
    };
    // 4,096 × 1,024² is 2^32, so that its low half is nothing
    let list = [of([flat(0), flat(1_024), flat(1_023)]), of([flat(4_095), flat(0), near])].concat();
    assert!(squared(&list[0], FIRST) == 1 << 32 && squared(&list[0], SECOND) < 1 << 32);
    list
}
