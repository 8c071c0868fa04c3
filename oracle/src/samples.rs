//! Planes of samples, two or three together: how they are made, padded, lent, made smaller and shown.

use crate::limits::STRIDE;
use crate::model::{needs, Check, Lent};
use crate::plane::less;
use crate::random::Random;
use fuavelino::Shape;
use published::plane::Plane;
use std::array::from_fn;

/// Planes as a call is lent them, with stride and samples of each. Bytes are kept as words here.
#[derive(Clone)]
pub struct Planes<const N: usize> {
    pub wide: bool,
    pub depth: u32,
    pub width: usize,
    pub height: usize,
    pub strides: [usize; N],
    pub samples: [Vec<u16>; N],
}

pub type Pair = Planes<2>;

/// What the planes are called: of two the last two.
const NAMES: [&str; 3] = ["o", "a", "b"];

/// Planes of more samples than this are made smaller as a whole only.
const FEW: usize = 80;

impl Pair {
    /// The planes that a check describes.
    pub fn of(c: &Check) -> Pair {
        let samples = c.planes().map(|p| p.samples(c.width, c.height));
        let strides = [c.a.stride, c.b.stride];
        Pair { wide: c.wide, depth: c.depth, width: c.width, height: c.height, strides, samples }
    }

    /// Planes with no padding, of these visible samples.
    pub fn plain(depth: u32, width: usize, samples: [Vec<u16>; 2]) -> Pair {
        Pair { wide: depth > 8, depth, width, height: samples[0].len() / width, strides: [width; 2], samples }
    }

    /// Lends copies of both planes, and sees that they stay as they are.
    pub fn lend<T, R>(&self, narrow: fn(u16) -> T, call: impl FnOnce(&[T], &[T]) -> R) -> Result<R, String>
    where
        T: Copy + PartialEq,
    {
        let [a, b] = [0, 1].map(|i| self.samples[i].iter().map(|s| narrow(*s)).collect::<Vec<T>>());
        let answer = call(&a, &b);
        let kept = |i: usize, list: &[T]| self.samples[i].iter().zip(list).all(|(was, now)| narrow(*was) == *now);
        if kept(0, &a) && kept(1, &b) {
            Ok(answer)
        } else {
            Err("a plane was altered".to_string())
        }
    }
}

impl<const N: usize> Planes<N> {
    /// The lowest of tests 1 to 6 that applies, or 0.
    pub fn refusal(&self, least: usize) -> u8 {
        let planes: [(usize, &[u16]); N] = from_fn(|i| (self.strides[i], &self.samples[i][..]));
        let Planes { wide, depth, width, height, .. } = *self;
        Lent { wide, depth, width, height, least, planes }.refusal()
    }

    pub fn max(&self) -> usize {
        (1 << self.depth) - 1
    }

    /// The visible samples of each plane, with no padding, for planes that are not refused.
    pub fn visible(&self) -> [Vec<u16>; N] {
        from_fn(|i| {
            let rows = (0..self.height).map(|y| &self.samples[i][y * self.strides[i]..][..self.width]);
            rows.collect::<Vec<_>>().concat()
        })
    }

    /// The planes as the published code takes them.
    pub fn unpadded<T: Copy>(&self, narrow: fn(u16) -> T) -> [Plane<T>; N] {
        self.visible().map(|list| Plane::new(list.into_iter().map(narrow).collect(), self.width, self.height))
    }

    /// What the planes share, as the product takes it.
    pub fn shape(&self) -> Shape {
        Shape { width: self.width, height: self.height, bit_depth: self.depth }
    }

    /// One of the planes as the product takes it, of these samples.
    pub fn plane<'a, T>(&self, i: usize, data: &'a [T]) -> fuavelino::Plane<'a, T> {
        fuavelino::Plane { data, stride: self.strides[i] }
    }

    /// Simpler ones, the simplest first.
    pub fn smaller(&self) -> Vec<Planes<N>> {
        let mut list = Vec::new();
        if self.refusal(0) == 0 || self.refusal(0) == 6 {
            self.cut(&mut list);
            list.extend(self.tidy());
            self.quieter(&mut list);
        } else {
            self.other_numbers(&mut list);
        }
        list.extend(less(self.depth as usize).into_iter().map(|d| Planes { depth: d as u32, ..self.clone() }));
        list
    }

    /// Fewer rows or columns, from either end.
    fn cut(&self, list: &mut Vec<Planes<N>>) {
        for width in less(self.width).into_iter().filter(|w| *w > 0) {
            list.extend([0, self.width - width].map(|x| self.part(x, 0, width, self.height)));
        }
        for height in less(self.height).into_iter().filter(|h| *h > 0) {
            list.extend([0, self.height - height].map(|y| self.part(0, y, self.width, height)));
        }
    }

    /// A part of what is seen, with the padding and the tail that there are.
    fn part(&self, x: usize, y: usize, width: usize, height: usize) -> Planes<N> {
        let mut next = Planes { width, height, ..self.clone() };
        for i in 0..N {
            let (was, lost) = (self.strides[i], self.width - width);
            next.strides[i] = was - lost;
            let row = |y: usize| {
                let all = &self.samples[i][y * was..];
                let padding = &all[self.width.min(all.len())..was.min(all.len()).max(self.width)];
                [&all[x..x + width], padding].concat()
            };
            let tail = self.samples[i].len() - (was * (self.height - 1) + self.width);
            next.samples[i] = (y..y + height).flat_map(row).collect();
            let whole = was - lost;
            next.samples[i].truncate(whole * (height - 1) + width);
            next.samples[i].extend(&self.samples[i][self.samples[i].len() - tail..]);
        }
        next
    }

    /// With no padding, or none but zeros.
    fn tidy(&self) -> Vec<Planes<N>> {
        let plain = Planes { strides: [self.width; N], samples: self.visible(), ..self.clone() };
        let mut blank = self.clone();
        for i in 0..N {
            for (at, s) in blank.samples[i].iter_mut().enumerate() {
                if at / self.strides[i] >= self.height || at % self.strides[i] >= self.width {
                    *s = 0;
                }
            }
        }
        let mut list = vec![plain, blank];
        list.retain(|next| next.samples != self.samples);
        list
    }

    /// Samples nearer 0 or nearer each other.
    fn quieter(&self, list: &mut Vec<Planes<N>>) {
        let all = |i: usize, change: fn(u16) -> u16| {
            let mut next = self.clone();
            next.samples[i].iter_mut().for_each(|s| *s = change(*s));
            next
        };
        let changed = |next: &Planes<N>| next.samples != self.samples;
        list.extend((0..N).flat_map(|i| [all(i, |_| 0), all(i, |s| s / 2)]).filter(changed));
        if self.samples.iter().any(|list| list.len() > FEW) {
            return;
        }
        for (i, at) in (0..N).flat_map(|i| (0..self.samples[i].len()).map(move |at| (i, at))) {
            for value in less(usize::from(self.samples[i][at])) {
                let mut next = self.clone();
                next.samples[i][at] = value as u16;
                list.push(next);
            }
        }
    }

    /// Smaller numbers beside the planes, and shorter planes.
    fn other_numbers(&self, list: &mut Vec<Planes<N>>) {
        list.extend(less(self.width).into_iter().map(|width| Planes { width, ..self.clone() }));
        list.extend(less(self.height).into_iter().map(|height| Planes { height, ..self.clone() }));
        for i in 0..N {
            for stride in less(self.strides[i]) {
                let mut next = self.clone();
                next.strides[i] = stride;
                list.push(next);
            }
            for len in less(self.samples[i].len()) {
                let mut next = self.clone();
                next.samples[i].truncate(len);
                list.push(next);
            }
        }
    }

    pub fn show(&self) -> String {
        let width = if self.wide { "words" } else { "bytes" };
        let plane = |i: usize| {
            let list = &self.samples[i];
            let samples = runs(list, |s| s.to_string()).join(" ");
            format!("\n    {}: stride {}, {} samples: {}", NAMES[3 - N + i], self.strides[i], list.len(), samples)
        };
        let planes: String = (0..N).map(plane).collect();
        format!("{} of {} by {}, depth {}{}", width, self.width, self.height, self.depth, planes)
    }
}

/// A list in few words: what comes several times in a row is told once, and no more than a few runs are.
pub fn runs<T>(list: &[T], show: impl Fn(&T) -> String) -> Vec<String> {
    let mut told: Vec<(String, usize)> = Vec::new();
    for word in list.iter().map(show) {
        let again = matches!(told.last(), Some((last, _)) if *last == word);
        match told.last_mut() {
            Some((_, times)) if again => *times += 1,
            _ => told.push((word, 1)),
        }
        if told.len() > 2 * FEW {
            break;
        }
    }
    let more = told.len() > 2 * FEW;
    let words = told.into_iter().map(|(word, times)| if times > 1 { format!("{}*{}", times, word) } else { word });
    words.chain(more.then(|| "and more".to_string())).collect()
}

/// A pair that tests 1 to 6 accept, of these sides: both widths, every depth, noise wherever nothing is seen.
pub fn sound(r: &mut Random, width: usize, height: usize) -> Pair {
    let depth = if r.once_in(2) { r.within(9, 12) } else { r.within(1, 8) };
    sound_of(r, depth as u32, width, height)
}

pub fn sound_of(r: &mut Random, depth: u32, width: usize, height: usize) -> Pair {
    let wide = depth > 8;
    let top = if wide { u16::MAX } else { 255 };
    let max = (1 << depth) - 1;
    let a = picture(r, width, height, max);
    let b = beside(r, &a, width, height, max);
    let strides = [stride(r, width, height), stride(r, width, height)];
    let tails = [0, 1].map(|_| r.pick(&[0, 0, 0, 1, 2, 9]));
    let mut samples = [0, 1].map(|i| {
        let len = needs(strides[i], width, height) as usize + tails[i];
        let noise = r.pick(&[0, top, 1]);
        (0..len).map(|_| if noise == 1 { r.next() as u16 & top } else { noise }).collect::<Vec<u16>>()
    });
    for (i, list) in [a, b].iter().enumerate() {
        for y in 0..height {
            samples[i][y * strides[i]..][..width].copy_from_slice(&list[y * width..][..width]);
        }
    }
    Pair { wide, depth, width, height, strides, samples }
}

/// One more plane beside the first of these: its stride and its samples.
pub fn third(r: &mut Random, p: &Pair) -> (usize, Vec<u16>) {
    let [first, _] = p.visible();
    let (list, stride) = (beside(r, &first, p.width, p.height, p.max()), stride(r, p.width, p.height));
    let top = if p.wide { u16::MAX } else { 255 };
    let tail = r.pick(&[0, 0, 1, 2, 9]);
    let len = needs(stride, p.width, p.height) as usize + tail;
    let mut samples: Vec<u16> = (0..len).map(|_| r.next() as u16 & top).collect();
    for (row, seen) in samples.chunks_mut(stride).zip(list.chunks(p.width)) {
        row[..p.width].copy_from_slice(seen);
    }
    (stride, samples)
}

fn stride(r: &mut Random, width: usize, height: usize) -> usize {
    match r.below(40) {
        0 if height < 4 => r.within(STRIDE - 1, STRIDE),
        1 => 2 * width,
        2..=15 => width,
        _ => (width + r.below(9)).min(STRIDE),
    }
}

/// The samples of one plane: flat, nearly flat, sloping, the two ends, one spike, noise with a flat part, or noise.
fn picture(r: &mut Random, width: usize, height: usize, max: usize) -> Vec<u16> {
    let count = width * height;
    let base = r.below(max + 1);
    let base = r.pick(&[0, max, base, base]);
    match r.below(8) {
        0 => vec![base as u16; count],
        1 => {
            let span = r.pick(&[1, 2, 5]);
            (0..count).map(|_| (base + r.within(0, span)).min(max) as u16).collect()
        }
        2 => slope(r, width, height, max),
        3 => (0..count).map(|_| r.pick(&[0, max]) as u16).collect(),
        4 => {
            let mut list = vec![base as u16; count];
            list[r.below(count)] = r.below(max + 1) as u16;
            list
        }
        5 => {
            let (left, top) = (r.below(width), r.below(height));
            let flat = |i: usize| i % width >= left && i / width >= top;
            (0..count).map(|i| if flat(i) { base } else { r.below(max + 1) } as u16).collect()
        }
        _ => (0..count).map(|_| r.below(max + 1) as u16).collect(),
    }
}

fn slope(r: &mut Random, width: usize, height: usize, max: usize) -> Vec<u16> {
    let (right, down) = (r.below(max + 1), r.below(max + 1));
    let (turned, back) = (r.once_in(2), r.once_in(2));
    let long = if turned { height } else { width };
    let at = |x: usize, y: usize| {
        let (near, far) = if turned { (y, x) } else { (x, y) };
        let value = (right * near / long + down * far / (width.max(height))) % (max + 1);
        if back {
            max - value
        } else {
            value
        }
    };
    (0..width * height).map(|i| at(i % width, i / width) as u16).collect()
}

/// The other plane: the same, nearly so, one sample off, turned over, or a picture of its own.
fn beside(r: &mut Random, a: &[u16], width: usize, height: usize, max: usize) -> Vec<u16> {
    let near = |r: &mut Random, s: u16, span: usize| {
        let value = usize::from(s) + r.within(0, 2 * span);
        value.saturating_sub(span).min(max) as u16
    };
    match r.below(10) {
        0 => a.to_vec(),
        1 | 2 => {
            let mut b = a.to_vec();
            let at = r.below(b.len());
            b[at] = if r.once_in(2) { near(r, b[at], 1) } else { r.below(max + 1) as u16 };
            b
        }
        3 | 4 => a.iter().map(|s| near(r, *s, 1)).collect(),
        5 => {
            let span = r.within(1, max);
            a.iter().map(|s| near(r, *s, span)).collect()
        }
        6 => a.iter().map(|s| max as u16 - s).collect(),
        _ => picture(r, width, height, max),
    }
}
