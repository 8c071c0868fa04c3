//! What a plane may be: the check of both widths, against the model.

use crate::family::{also, number, run, Family, Run};
use crate::limits::{FORWARD, INVERSE, PLANE, SAMPLES, SIDE, STRIDE};
use crate::mapped::Mapped;
use crate::model::{Check, Plane};
use crate::random::Random;
use fuavelino::{no_alloc, Sample, Shape};

/// Random planes hold no more samples than this.
const ROOM: u128 = 80_000;

pub fn compare(ask: Run) -> bool {
    let cases = if ask.full { 5_000_000 } else { 250_000 };
    run("plane", &mut Checks { listed: walls() }, cases, ask)
        && also("plane: 16,384 by 16,384, sound and with the last sample too large", largest)
        && also("plane: the limits that the bindings name", named)
}

/// The limits that the bindings name are those that every family expects.
fn named() -> Result<(), String> {
    let of_planes = (fuavelino::MOST_SIDE, fuavelino::MOST_STRIDE, fuavelino::MOST_SAMPLES, fuavelino::MOST_PLANE);
    let of_numbers = (fuavelino::MOST_FORWARD, fuavelino::MOST_INVERSE);
    if (of_planes, of_numbers) == ((SIDE, STRIDE, SAMPLES, PLANE), (FORWARD, INVERSE)) {
        return Ok(());
    }
    Err(format!("{:?}, {:?}", of_planes, of_numbers))
}

struct Checks {
    listed: Vec<Check>,
}

impl Family for Checks {
    type Case = Check;

    fn case(&self, number: u64, random: &mut Random) -> Check {
        match self.listed.get(number as usize) {
            Some(case) => case.clone(),
            None => {
                let least = random.pick(&[0, 0, 1, 8, 16]);
                any(random, least)
            }
        }
    }

    fn judge(&mut self, c: &Check) -> Result<u8, String> {
        let [a, b] = [&c.a, &c.b].map(|p| p.samples(c.width, c.height));
        let (answer, kept) = if c.wide { ask16(c, &a, &b) } else { ask8(c, &a, &b) };
        let wanted = c.lent(&a, &b).refusal();
        if !kept {
            Err("a plane was altered".to_string())
        } else if answer != wanted {
            Err(format!("answered {}, not {}", answer, wanted))
        } else {
            Ok(answer)
        }
    }

    fn smaller(&self, c: &Check) -> Vec<Check> {
        let mut list = smaller_sides(c);
        with(&mut list, c, |c| &mut c.width, less(c.width));
        with(&mut list, c, |c| &mut c.height, less(c.height));
        with(&mut list, c, |c| &mut c.least, less(c.least));
        with(&mut list, c, |c| &mut c.depth, less(c.depth as usize).iter().map(|d| *d as u32).collect());
        smaller_plane(&mut list, c, |c| &mut c.a, &c.a);
        smaller_plane(&mut list, c, |c| &mut c.b, &c.b);
        list
    }

    fn show(&self, c: &Check) -> String {
        let name = if c.wide { "check16" } else { "check8" };
        let (a, b) = (show(&c.a), show(&c.b));
        format!(
            "{} of {} by {}, depth {}, least {}\n    a: {}\n    b: {}",
            name, c.width, c.height, c.depth, c.least, a, b
        )
    }

    fn answers(&self) -> Vec<u8> {
        (0..=6).collect()
    }
}

fn show(p: &Plane) -> String {
    let odd: Vec<String> = p.odd.iter().map(|(at, value)| format!(", [{}] = {}", at, value)).collect();
    format!("stride {}, {} samples, visible {}, others {}{}", p.stride, p.len, p.fill, p.padding, odd.concat())
}

/// Asks, and says whether both planes are as they were.
fn ask8(c: &Check, a: &[u16], b: &[u16]) -> (u8, bool) {
    let [x, y] = [a, b].map(|list| list.iter().map(|s| *s as u8).collect::<Vec<u8>>());
    let answer = asked(c, &x, &y);
    let kept = |now: &[u8], was: &[u16]| now.iter().map(|s| u16::from(*s)).eq(was.iter().copied());
    (answer, kept(&x, a) && kept(&y, b))
}

fn ask16(c: &Check, a: &[u16], b: &[u16]) -> (u8, bool) {
    let (x, y) = (a.to_vec(), b.to_vec());
    (asked(c, &x, &y), x == a && y == b)
}

fn asked<T: Sample>(c: &Check, a: &[T], b: &[T]) -> u8 {
    let shape = Shape { width: c.width, height: c.height, bit_depth: c.depth };
    let (a, b) = (fuavelino::Plane { data: a, stride: c.a.stride }, fuavelino::Plane { data: b, stride: c.b.stride });
    number(no_alloc::check(a, b, shape, c.least))
}

/// Smaller numbers to try in place of this one.
pub fn less(n: usize) -> Vec<usize> {
    let mut list = vec![0, 1, n / 2, n.saturating_sub(1)];
    list.retain(|m| *m < n);
    list
}

fn with<T>(list: &mut Vec<Check>, c: &Check, place: fn(&mut Check) -> &mut T, values: Vec<T>) {
    for value in values {
        let mut next = c.clone();
        *place(&mut next) = value;
        list.push(next);
    }
}

/// Fewer rows or columns, all else moved along: the strides' and lengths' surplus, and the odd samples.
fn smaller_sides(c: &Check) -> Vec<Check> {
    let narrow = less(c.width).into_iter().map(|width| (width, c.height));
    let low = less(c.height).into_iter().map(|height| (c.width, height));
    narrow.chain(low).filter_map(|(width, height)| moved(c, width, height)).collect()
}

fn moved(c: &Check, width: usize, height: usize) -> Option<Check> {
    let mut next = Check { width, height, ..c.clone() };
    for (plane, was) in [(&mut next.a, &c.a), (&mut next.b, &c.b)] {
        plane.stride = (was.stride + width).checked_sub(c.width)?;
        let (old, new) = (was.needs(c.width, c.height), plane.needs(width, height));
        plane.len = (was.len as u128 + new).checked_sub(old)? as usize;
        for (at, _) in plane.odd.iter_mut() {
            let (x, y) = (at.checked_rem(was.stride)?, *at / was.stride);
            let x = if x < c.width { x.min(width.checked_sub(1)?) } else { x + width - c.width };
            *at = y.min(height.checked_sub(1)?) * plane.stride + x;
        }
    }
    Some(next)
}

fn smaller_plane(list: &mut Vec<Check>, c: &Check, place: fn(&mut Check) -> &mut Plane, p: &Plane) {
    let mut planes = Vec::new();
    for i in 0..p.odd.len() {
        let mut odd = p.odd.clone();
        let (at, value) = odd.remove(i);
        planes.push(Plane { odd: odd.clone(), ..p.clone() });
        for at in less(at) {
            let odd = [&odd[..], &[(at, value)]].concat();
            planes.push(Plane { odd, ..p.clone() });
        }
        for value in less(usize::from(value)) {
            let odd = [&odd[..], &[(at, value as u16)]].concat();
            planes.push(Plane { odd, ..p.clone() });
        }
    }
    planes.extend(less(p.len).into_iter().map(|len| Plane { len, ..p.clone() }));
    planes.extend(less(p.stride).into_iter().map(|stride| Plane { stride, ..p.clone() }));
    planes.extend(less(usize::from(p.fill)).into_iter().map(|f| Plane { fill: f as u16, ..p.clone() }));
    planes.extend(less(usize::from(p.padding)).into_iter().map(|f| Plane { padding: f as u16, ..p.clone() }));
    with(list, c, place, planes);
}

/// Sides and strides at their limits and one past them, and about the limits that were.
fn walls() -> Vec<Check> {
    let mut list = Vec::new();
    for (wide, depth) in [(false, 7), (false, 8), (true, 9), (true, 12)] {
        let padding = if wide { u16::MAX } else { 255 };
        let of = |width: usize, height: usize, [a, b]: [usize; 2]| {
            let plane = |stride: usize| {
                let plane = Plane { stride, len: 0, fill: (1 << depth) - 1, padding, odd: Vec::new() };
                Plane { len: plane.needs(width, height) as usize, ..plane }
            };
            Check { wide, depth, width, height, least: 0, a: plane(a), b: plane(b) }
        };
        for side in [SIDE - 1, SIDE, SIDE + 1, 8_191, 8_192, 8_193, 8_194] {
            list.extend([1, 2].map(|rows| of(side, rows, [side, side + 1])));
            list.extend([1, 2].map(|columns| of(columns, side, [columns, columns + 1])));
        }
        for stride in [STRIDE - 1, STRIDE, STRIDE + 1, 16_383, 16_384, 16_385, 16_386] {
            for width in [3, SIDE] {
                list.extend([[width, stride], [stride, width]].map(|strides| of(width, 2, strides)));
            }
        }
    }
    list
}

/// The largest planes at the least and at the largest stride, sound, and with the last sample too large. The padding
/// would be refused if it were read.
fn largest() -> Result<(), String> {
    for stride in [SIDE, STRIDE] {
        largest_of(stride, 8, [255u8; 3])?;
        largest_of(stride, 7, [127u8, 128, 255])?;
        largest_of(stride, 12, [4_095u16, 4_096, u16::MAX])?;
    }
    Ok(())
}

/// Of the samples one is seen, one is the last of the second plane, and one is padding.
fn largest_of<T: Sample + Copy + PartialEq>(
    stride: usize,
    depth: u32,
    [seen, last, padding]: [T; 3],
) -> Result<(), String> {
    let row = [vec![seen; SIDE], vec![padding; stride - SIDE]].concat();
    let mut end = row.clone();
    end[SIDE - 1] = last;
    let mapped = |end: &[T]| Mapped::new(&row, end, SIDE).map_err(|e| format!("nothing mapped: {}", e));
    let (a, b, shape) = (mapped(&row)?, mapped(&end)?, Shape { width: SIDE, height: SIDE, bit_depth: depth });
    let wanted = if last == seen { 0 } else { 6 };
    for (b, wanted) in [(&a, 0), (&b, wanted)] {
        let [a, b] = [&a, b].map(|rows| fuavelino::Plane { data: &rows[..stride * (SIDE - 1) + SIDE], stride });
        let answer = number(no_alloc::check(a, b, shape, 16));
        if answer != wanted {
            return Err(format!("at stride {} and depth {} answered {}, not {}", stride, depth, answer, wanted));
        }
    }
    Ok(())
}

/// A check of planes of one value each, sound or with a few oddities.
pub fn any(r: &mut Random, least: usize) -> Check {
    let mut c = sound(r, least);
    for _ in 0..r.pick(&[0, 1, 1, 1, 1, 2, 2, 3]) {
        match r.below(6) {
            0 => c.depth = odd_depth(r),
            1 => odd_side(r, &mut c),
            2 => odd_stride(r, &mut c),
            3 => odd_length(r, &mut c),
            _ => odd_sample(r, &mut c),
        }
    }
    c
}

/// A check that is accepted.
fn sound(r: &mut Random, least: usize) -> Check {
    let wide = r.once_in(2);
    let depth = if wide { r.within(9, 12) } else { r.within(1, 8) } as u32;
    let (width, height) = sides(r, least);
    let [a, b] = [(), ()].map(|()| sound_plane(r, width, height, depth, wide));
    Check { wide, depth, width, height, least, a, b }
}

fn sides(r: &mut Random, least: usize) -> (usize, usize) {
    let short = |r: &mut Random| r.pick(&[1, 1, 2, 3, 5, 8, 9, 15, 16, 17, 24]).max(least);
    let long = |r: &mut Random| r.within(SIDE - 2, SIDE);
    match r.below(60) {
        0 if least < 2 => (r.within(1, 2), long(r)),
        1 if least < 2 => (long(r), r.within(1, 2)),
        _ => (short(r), short(r)),
    }
}

fn sound_plane(r: &mut Random, width: usize, height: usize, depth: u32, wide: bool) -> Plane {
    let stride = match r.below(20) {
        0 if height == 1 => r.within(STRIDE - 1, STRIDE),
        0..=9 => width,
        _ => (width + r.below(5)).min(STRIDE),
    };
    let padding = if wide { r.next() as u16 } else { u16::from(r.next() as u8) };
    let padding = r.pick(&[0, padding, if wide { u16::MAX } else { 255 }]);
    let fill = r.below(1 << depth) as u16;
    let fill = r.pick(&[0, (1 << depth) - 1, fill]);
    let mut plane = Plane { stride, len: 0, fill, padding, odd: Vec::new() };
    plane.len = plane.needs(width, height) as usize + r.pick(&[0, 0, 0, 1, 2, 7]);
    plane
}

/// Depths about the limits, and ones that a narrower number would take for lawful ones.
pub fn odd_depth(r: &mut Random) -> u32 {
    let high = r.pick(&[1 << 8, 1 << 16, 1 << 31, u32::MAX - 15]);
    let depth = r.below(21) as u32;
    if r.once_in(4) {
        high.wrapping_add(depth)
    } else {
        depth
    }
}

/// Numbers about the limits of a side, and ones whose products with others wrap.
fn odd_side(r: &mut Random, c: &mut Check) {
    if r.once_in(6) {
        c.least = r.pick(&[2, 9, 17, SIDE, SIDE + 1, usize::MAX]);
        return;
    }
    let below = c.least.saturating_sub(1);
    let high: usize = r.pick(&[1 << 32, 1 << 63, 1 << 62, 1 << 51, 1 << 50]);
    let near = [0, 0, 1, below, below, c.least, SIDE - 1, SIDE, SIDE + 1, SIDE + 2, STRIDE];
    let far = [high, high + 1, high.wrapping_add(c.width), high.wrapping_add(c.height), usize::MAX, usize::MAX - 1];
    let side = if r.once_in(3) { r.pick(&far) } else { r.pick(&near) };
    let both = r.once_in(8);
    if both || r.once_in(2) {
        c.width = side;
    }
    if both || c.width != side {
        c.height = side;
    }
    if r.once_in(2) {
        refit(c);
    }
}

fn odd_stride(r: &mut Random, c: &mut Check) {
    let far = [1 << 32, (1 << 32) + c.width.min(99), 1 << 63, usize::MAX, usize::MAX / 2 + 2];
    let below = c.width.wrapping_sub(1);
    let near = [0, below, below, c.width, STRIDE - 1, STRIDE, STRIDE + 1, STRIDE + 1, STRIDE + 2];
    let stride = if r.once_in(4) { r.pick(&far) } else { r.pick(&near) };
    one_of(r, c).stride = stride;
    if r.once_in(2) {
        refit(c);
    }
}

fn odd_length(r: &mut Random, c: &mut Check) {
    let (width, height) = (c.width, c.height);
    let turn = r.next() as usize;
    let plane = one_of(r, c);
    let needs = plane.needs(width, height).min(ROOM) as usize;
    let whole = needs.saturating_sub(width) + plane.stride.min(ROOM as usize);
    let short = needs.saturating_sub(1);
    let list = [short, short, needs, needs + 1, whole, needs / 2, 0, 1, width.min(needs)];
    plane.len = list[turn % list.len()];
}

/// A sample at or above the largest, at each kind of place: seen, in padding, and past what is needed.
fn odd_sample(r: &mut Random, c: &mut Check) {
    let max = (1usize << c.depth.min(16)) - 1;
    let top = if c.wide { 65_535 } else { 255 };
    let value = r.below(top + 1);
    let value = r.pick(&[max, max + 1, max + 1, max + 2, top, value]).min(top) as u16;
    let (width, height) = (c.width.clamp(1, SIDE), c.height.clamp(1, SIDE));
    let (x, y) = (r.below(width), r.below(height));
    let kind = r.below(9);
    let plane = one_of(r, c);
    let (stride, len) = (plane.stride.min(STRIDE + 1), plane.len);
    let last = (height - 1) * stride;
    let at = match kind {
        0 => 0,
        1 => last + width - 1,
        2 => last + x,
        3 => y * stride + width - 1,
        4 => y * stride + x,
        5 => y * stride,
        6 => y * stride + width,
        7 => (y + 1) * stride.max(1) - 1,
        _ => len.saturating_sub(1),
    };
    plane.odd.push((at, value));
}

fn one_of<'a>(r: &mut Random, c: &'a mut Check) -> &'a mut Plane {
    if r.once_in(2) {
        &mut c.a
    } else {
        &mut c.b
    }
}

/// Gives each plane the stride and length that the sides now ask for, where that is small enough.
fn refit(c: &mut Check) {
    let (width, height) = (c.width, c.height);
    for plane in [&mut c.a, &mut c.b] {
        if plane.stride < width && width < SIDE + 2 {
            plane.stride = width;
        }
        if plane.needs(width, height) <= ROOM {
            plane.len = plane.needs(width, height) as usize;
        }
    }
}
