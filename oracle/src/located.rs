//! The first difference and the error map, of both widths: a model written from the rule, and the published error as the map's total.

use crate::family::{also, number, run, Family, Run};
use crate::limits::SIDE;
use crate::mapped::Mapped;
use crate::plane::{any, less};
use crate::random::Random;
use crate::samples::{runs, sound, sound_of, Pair};
use fuavelino::{no_alloc, Place, Sample, Tiles};
use published::plane::Plane;
use published::video::pixel::Pixel;
use published::video::psnr;

/// The side of a tile.
const TILE: usize = 8;

/// What the places hold before a call, and must hold after a refusal.
const DIFFERS: u8 = 0xA7;
const PLACE: Place = Place { row: 0xDEAD_0001, column: 0xDEAD_0002 };
const TILES: Tiles = Tiles { across: 0xBEEF_0003, down: 0xBEEF_0004 };

/// The lent map stands in the middle of a longer run, so that places that were not lent are seen too.
const MARGIN: usize = 2;

/// So many places fewer that none are left.
const NONE_LEFT: isize = isize::MIN / 2;

/// Sides about those of a tile.
const SIDES: [usize; 5] = [1, 7, 8, 9, 17];

pub fn compare(ask: Run) -> bool {
    let cases = if ask.full { 1_500_000 } else { 150_000 };
    run("located", &mut Located { listed: listed() }, cases, ask)
        && also("located: 16,384 by 16,384 at depth 12, with all samples off and with the last", largest)
}

struct Located {
    listed: Vec<Case>,
}

/// Two planes, and how many places more than the tiles the map has; fewer below 0.
#[derive(Clone)]
struct Case {
    pair: Pair,
    over: isize,
}

impl Case {
    fn places(&self) -> usize {
        (needed(self.pair.width, self.pair.height) as isize + self.over).max(0) as usize
    }
}

/// What the locator answered and left.
#[derive(Debug, PartialEq)]
struct First {
    answer: u8,
    differs: u8,
    place: Place,
}

/// What the map's call answered and left, with the places about the map.
#[derive(PartialEq)]
struct Map {
    answer: u8,
    tiles: Tiles,
    room: Vec<u64>,
}

impl Map {
    fn show(&self) -> String {
        let room = runs(&self.room, |e| if *e > u64::MAX / 2 { "kept".to_string() } else { e.to_string() });
        format!("{} {:?} {}", self.answer, self.tiles, room.join(" "))
    }
}

impl Family for Located {
    type Case = Case;

    fn case(&self, number: u64, r: &mut Random) -> Case {
        match self.listed.get(number as usize) {
            Some(case) => case.clone(),
            None => {
                let pair = if r.once_in(4) { Pair::of(&any(r, 0)) } else { marked(r) };
                Case { pair, over: r.pick(&[0, 0, 0, 1, 2, 9, -1, -1, -2, NONE_LEFT]) }
            }
        }
    }

    fn judge(&mut self, c: &Case) -> Result<u8, String> {
        let p = &c.pair;
        let (first, mapped) =
            if p.wide { p.lend(|s| s, |a, b| asked(c, a, b))? } else { p.lend(|s| s as u8, |a, b| asked(c, a, b))? };
        let wanted = wanted_first(p);
        if first != wanted {
            return Err(format!("the locator gave {:?}, not {:?}", first, wanted));
        }
        let wanted = wanted_map(c);
        if mapped != wanted {
            return Err(format!("the map's call gave {}, not {}", mapped.show(), wanted.show()));
        }
        let (said, needed) = (no_alloc::error_map_places(p.width, p.height), needed(p.width, p.height));
        if said != needed {
            return Err(format!("a map is said to need {} places, not {}", said, needed));
        }
        if mapped.answer == 0 {
            totalled(p, &mapped.room[MARGIN..][..needed])?;
        }
        Ok(mapped.answer)
    }

    fn smaller(&self, c: &Case) -> Vec<Case> {
        let over = less(c.over.unsigned_abs()).into_iter().map(|n| n as isize * c.over.signum());
        let mut list: Vec<Case> = over.map(|over| Case { over, ..c.clone() }).collect();
        list.extend(c.pair.smaller().into_iter().map(|pair| Case { pair, ..c.clone() }));
        list
    }

    fn show(&self, c: &Case) -> String {
        format!("{}\n    a map of {} places", c.pair.show(), c.places())
    }

    fn answers(&self) -> Vec<u8> {
        vec![0, 1, 2, 4, 5, 6, 8]
    }
}

/// What a place of the run holds before a call: no error is that large, and no two places hold the same.
fn noise(at: usize) -> u64 {
    u64::MAX - at as u64
}

fn asked<T: Sample>(c: &Case, a: &[T], b: &[T]) -> (First, Map) {
    let (a, b, shape) = (c.pair.plane(0, a), c.pair.plane(1, b), c.pair.shape());
    let (mut differs, mut place, mut tiles) = (DIFFERS, PLACE, TILES);
    let answer = number(no_alloc::first_difference(a, b, shape, &mut differs, &mut place));
    let first = First { answer, differs, place };
    let mut room: Vec<u64> = (0..c.places() + 2 * MARGIN).map(noise).collect();
    let answer = number(no_alloc::error_map(a, b, shape, &mut room[MARGIN..][..c.places()], &mut tiles));
    (first, Map { answer, tiles, room })
}

/// The first place at which the samples that are seen, one row after the other, are not the same.
fn wanted_first(p: &Pair) -> First {
    let answer = p.refusal(0);
    if answer != 0 {
        return First { answer, differs: DIFFERS, place: PLACE };
    }
    let [a, b] = p.visible();
    match a.iter().zip(&b).position(|(x, y)| x != y) {
        Some(at) => First { answer, differs: 1, place: Place { row: at / p.width, column: at % p.width } },
        None => First { answer, differs: 0, place: PLACE },
    }
}

/// The tiles' errors in the first places, and noise wherever nothing is written.
fn wanted_map(c: &Case) -> Map {
    let mut room: Vec<u64> = (0..c.places() + 2 * MARGIN).map(noise).collect();
    let answer = c.pair.refusal(0);
    if answer != 0 {
        return Map { answer, tiles: TILES, room };
    }
    let errors = errors(&c.pair);
    if c.places() < errors.iter().flatten().count() {
        return Map { answer: 8, tiles: TILES, room };
    }
    let tiles = Tiles { across: errors[0].len(), down: errors.len() };
    for (place, error) in room[MARGIN..].iter_mut().zip(errors.concat()) {
        *place = error;
    }
    Map { answer, tiles, room }
}

/// The squared error of each tile: rows are taken eight by eight, and each row's samples eight by eight, as many as there are.
fn errors(p: &Pair) -> Vec<Vec<u64>> {
    let [a, b] = p.visible();
    let off: Vec<u64> = a.iter().zip(&b).map(|(x, y)| u64::from(x.max(y) - x.min(y)).pow(2)).collect();
    let rows: Vec<Vec<u64>> =
        off.chunks(p.width).map(|row| row.chunks(TILE).map(|part| part.iter().sum()).collect()).collect();
    let column = |band: &[Vec<u64>], i: usize| band.iter().map(|row| row[i]).sum();
    rows.chunks(TILE).map(|band| (0..band[0].len()).map(|i| column(band, i)).collect()).collect()
}

/// The tiles of planes of these sides; 0 where planes may not have them.
fn needed(width: usize, height: usize) -> usize {
    let tiles = |side: usize| if side > SIDE { 0 } else { (0..side).step_by(TILE).count() };
    tiles(width) * tiles(height)
}

/// The map's total is the squared error of the published code.
fn totalled(p: &Pair, map: &[u64]) -> Result<(), String> {
    let published = if p.wide { published(&p.unpadded(|s| s)) } else { published(&p.unpadded(|s| s as u8)) };
    let total = map.iter().sum::<u64>();
    if total as f64 == published {
        return Ok(());
    }
    Err(format!("the map's total is {}, and the published error {}", total, published))
}

fn published<T: Pixel>(planes: &[Plane<T>; 2]) -> f64 {
    psnr::probe_squared_error(&planes[0], &planes[1])
}

/// A pair that is accepted but perhaps for one sample: pictures of their own, or the same picture but in a few places that tell ways apart.
fn marked(r: &mut Random) -> Pair {
    let (width, height) = sides(r);
    let mut p = sound(r, width, height);
    if !r.once_in(4) {
        same(&mut p);
        for (row, column) in places(r, width, height) {
            alter(&mut p, row, column);
        }
    }
    if r.once_in(4) {
        spoil(r, &mut p);
    }
    p
}

fn sides(r: &mut Random) -> (usize, usize) {
    let side = |r: &mut Random| if r.once_in(2) { r.pick(&SIDES) } else { r.within(1, 40) };
    match r.below(200) {
        0 => (r.within(SIDE - 2, SIDE), r.within(1, 3)),
        1 => (r.within(1, 3), r.within(SIDE - 2, SIDE)),
        _ => (side(r), side(r)),
    }
}

/// Gives the second plane the samples of the first, and leaves what is not seen.
fn same(p: &mut Pair) {
    let [a, b] = &mut p.samples;
    for y in 0..p.height {
        b[y * p.strides[1]..][..p.width].copy_from_slice(&a[y * p.strides[0]..][..p.width]);
    }
}

/// Makes a sample of the second plane another one, as far off as the depth allows or by one.
fn alter(p: &mut Pair, row: usize, column: usize) {
    let max = p.max() as u16;
    let sample = &mut p.samples[1][row * p.strides[1] + column];
    *sample = if (row + column) % 2 == 0 { max - *sample } else { *sample ^ 1 };
}

/// None; the last; the last of the first row with the first of the second; by the borders of tiles; anywhere.
fn places(r: &mut Random, width: usize, height: usize) -> Vec<(usize, usize)> {
    let by_border = |r: &mut Random, side: usize| r.pick(&[0, 7, 8, 15, 16, side - 1]).min(side - 1);
    let count = r.within(1, 4);
    match r.below(5) {
        0 => vec![],
        1 => vec![(height - 1, width - 1)],
        2 => vec![(1.min(height - 1), 0), (0, width - 1)],
        3 => (0..count).map(|_| (by_border(r, height), by_border(r, width))).collect(),
        _ => (0..count).map(|_| (r.below(height), r.below(width))).collect(),
    }
}

/// Puts the largest sample, or one above it where the width has one, to a place that is seen, the last or any, or to one of padding.
fn spoil(r: &mut Random, p: &mut Pair) {
    let i = r.below(2);
    let above = if p.depth == 8 { 0 } else { r.below(2) };
    let value = (p.max() + above) as u16;
    let last = (p.height - 1) * p.strides[i] + p.width - 1;
    let any = r.below(p.height) * p.strides[i] + r.below(p.width);
    let padding = r.below(p.height) * p.strides[i] + p.width;
    let at = r.pick(&[last, any, padding]);
    if let Some(sample) = p.samples[i].get_mut(at) {
        *sample = value;
    }
}

/// Each pair of sides about a tile's, at the ends of the depths: alike, the last sample off, a later column in an earlier row, all as far off as
/// can be; with a map that fits, is one short, or is one longer. And sides at their limits and one past them.
fn listed() -> Vec<Case> {
    let mut r = Random::of(0, "located, listed", 0);
    let mut list = Vec::new();
    for depth in [1, 7, 8, 9, 12] {
        for (width, height) in SIDES.iter().flat_map(|w| SIDES.iter().map(move |h| (*w, *h))) {
            let every = (0..height).flat_map(|y| (0..width).map(move |x| (y, x)));
            for places in
                [vec![], vec![(height - 1, width - 1)], vec![(0, width - 1), (height.min(2) - 1, 0)], every.collect()]
            {
                let mut pair = sound_of(&mut r, depth, width, height);
                same(&mut pair);
                places.iter().for_each(|(row, column)| alter(&mut pair, *row, *column));
                list.extend([0, -1, 1].map(|over| Case { pair: pair.clone(), over }));
            }
        }
        for (width, height) in [(SIDE, 1), (1, SIDE), (SIDE - 1, 2), (2, SIDE - 1), (SIDE + 1, 1), (1, SIDE + 1)] {
            let pair = sound_of(&mut r, depth, width, height);
            list.extend([0, -1, 1].map(|over| Case { pair: pair.clone(), over }));
        }
    }
    list
}

/// The largest planes: every tile of the largest error, and none different but the last sample. They are mapped, or are
/// pages of zeros that nobody writes.
fn largest() -> Result<(), String> {
    const ERROR: u64 = 64 * 4_095 * 4_095;
    let pair = Pair { wide: true, depth: 12, width: SIDE, height: SIDE, strides: [SIDE; 2], samples: [vec![], vec![]] };
    let c = Case { pair, over: 1 };
    let row = vec![4_095u16; SIDE];
    let bright = Mapped::new(&row, &row, SIDE).map_err(|e| format!("nothing mapped: {}", e))?;
    let mut other = vec![0u16; SIDE * SIDE];
    let tiles = Tiles { across: SIDE / TILE, down: SIDE / TILE };
    let count = tiles.across * tiles.down;
    let held = |said: (First, Map), row: usize, column: usize, error: &dyn Fn(usize) -> u64| {
        let (first, map) = said;
        let wanted = |at: usize| if (MARGIN..MARGIN + count).contains(&at) { error(at - MARGIN) } else { noise(at) };
        first == First { answer: 0, differs: 1, place: Place { row, column } }
            && (map.answer, map.tiles) == (0, tiles)
            && map.room.iter().enumerate().all(|(at, place)| *place == wanted(at))
    };
    if !held(asked(&c, &bright, &other), 0, 0, &|_| ERROR) {
        return Err("not where all samples differ".to_string());
    }
    let zeros = vec![0u16; SIDE * SIDE];
    other[SIDE * SIDE - 1] = 4_095;
    if !held(asked(&c, &zeros, &other), SIDE - 1, SIDE - 1, &|tile| if tile + 1 == count { 4_095 * 4_095 } else { 0 }) {
        return Err("not where the last sample differs".to_string());
    }
    Ok(())
}
