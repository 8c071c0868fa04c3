//! Cases of row-fed SSIM: runs of calls over two planes, in any groups of rows, with refused calls, altered states, noise and older states between them.

use crate::limits::{SIDE, STRIDE};
use crate::model::needs;
use crate::random::Random;
use crate::rows_model::{Alter, Change, Noise, Step};
use crate::rows_rule::{places_needed, Begin, Feed, Held, TAPS};
use crate::samples::{sound_of, Pair};
use crate::ssim;

/// Calls one after the other. The seed gives what is held and lent before the first of them, and where things are lent.
#[derive(Clone)]
pub struct Case {
    pub steps: Vec<Step>,
    pub seed: u64,
}

impl Case {
    pub fn new(r: &mut Random, steps: Vec<Step>) -> Case {
        Case { steps, seed: r.next() }
    }

    /// The state before the first call: zeros, or noise.
    pub fn start(&self) -> Held {
        let mut r = Random::of(self.seed, "rows, start", 0);
        let mut held = Held { numbers: [0; 6], kernel: [0; TAPS], sums: [0; 3] };
        if r.once_in(2) {
            held.numbers.iter_mut().for_each(|n| *n = r.bits(64));
            held.kernel.iter_mut().for_each(|tap| *tap = r.next() as u16);
            held.sums.iter_mut().for_each(|sum| *sum = r.next());
        }
        held
    }

    /// The most places that a call is lent.
    pub fn places(&self) -> usize {
        self.steps.iter().map(Step::places).max().unwrap_or(0)
    }
}

/// Two planes and a kernel, of which calls are made.
#[derive(Clone)]
pub struct Frame {
    pub pair: Pair,
    pub kernel: Vec<u16>,
    /// Places of scratch beyond those that are needed.
    pub over: usize,
}

impl Frame {
    pub fn new(r: &mut Random, depth: u32, width: usize, height: usize, kernel: Vec<u16>) -> Frame {
        let pair = sound_of(r, depth, width, height);
        let pair = Pair { strides: [width; 2], samples: pair.visible(), ..pair };
        Frame { pair, kernel, over: r.pick(&[0, 0, 1, 7]) }
    }

    pub fn need(&self) -> usize {
        places_needed(self.pair.width as u64, self.kernel.len() as u64) as usize
    }

    pub fn places(&self) -> usize {
        self.need() + self.over
    }

    pub fn begin(&self) -> Begin {
        let Pair { wide, depth, width, height, .. } = self.pair;
        Begin { wide, width, height, depth, kernel: self.kernel.clone(), places: self.places() }
    }

    /// Rows of both planes, and any where there are none, each plane at a stride of its own with noise between.
    pub fn feed(&self, r: &mut Random, from: usize, rows: usize) -> Feed {
        let Pair { wide, width, .. } = self.pair;
        let strides = [stride(r, width, rows), stride(r, width, rows)];
        let samples = [0, 1].map(|i| self.rows(r, i, from, rows, strides[i]));
        Feed { wide, width, rows, strides, samples, places: self.places() }
    }

    fn rows(&self, r: &mut Random, plane: usize, from: usize, rows: usize, stride: usize) -> Vec<u16> {
        let Pair { wide, width, .. } = self.pair;
        let top = if wide { u16::MAX } else { 255 };
        let tail = r.pick(&[0, 0, 0, 1, 9]);
        let len = if rows > 0 { needs(stride, width, rows) as usize } else { 0 };
        let mut list = vec![r.pick(&[0, top, top]); len + tail];
        let plain: Vec<u16> = self.pair.samples[plane].iter().skip(from * width).take(rows * width).copied().collect();
        for (y, place) in (0..rows).map(|y| (y, y * stride)) {
            match plain.get(y * width..(y + 1) * width) {
                Some(row) => list[place..][..width].copy_from_slice(row),
                None => list[place..][..width].fill(r.below(self.pair.max() + 1) as u16),
            }
        }
        list
    }

    /// The feeds of such groups, from this row on.
    pub fn feeds(&self, r: &mut Random, from: usize, groups: &[usize]) -> Vec<Step> {
        let mut at = from;
        let mut list = Vec::new();
        for rows in groups {
            list.push(Step::Feed(self.feed(r, at, *rows)));
            at += rows;
        }
        list
    }

    /// A whole run in such groups.
    pub fn run(&self, r: &mut Random, groups: &[usize]) -> Vec<Step> {
        let begin = vec![Step::Begin(self.begin())];
        [begin, self.feeds(r, 0, groups), vec![Step::Finish(self.places())]].concat()
    }
}

fn stride(r: &mut Random, width: usize, rows: usize) -> usize {
    match r.below(40) {
        0 if rows < 3 => r.within(STRIDE - 1, STRIDE).max(width),
        1 => (2 * width).min(STRIDE),
        2..=15 => width,
        _ => (width + r.below(9)).min(STRIDE),
    }
}

/// What may be wrong with a feed: the state, a stride, a plane's length, a sample, the scratch, rows past the height.
pub type Faults = [bool; 6];

pub fn faults(bits: usize) -> Faults {
    [0, 1, 2, 3, 4, 5].map(|i| bits >> i & 1 == 1)
}

/// A feed with such faults, and the state as it was before and afterwards.
pub fn spoilt(r: &mut Random, frame: &Frame, from: usize, rows: usize, faults: Faults) -> Vec<Step> {
    let [state, stride, short, sample, room, past] = faults;
    let rows = if past { frame.pair.height - from + r.pick(&[1, 1, 2]) } else { rows };
    let mut feed = frame.feed(r, from, rows);
    let (i, width) = (r.below(2), feed.width);
    // no byte is above the largest of depth 8
    if sample && rows > 0 && frame.pair.depth != 8 {
        // in the last row, which lies past the height if any does
        let place = feed.strides[i] * (rows - 1) + r.pick(&[0, width - 1]);
        feed.samples[i][place] = frame.pair.max() as u16 + 1;
    }
    if short && rows > 0 {
        let i = r.below(2);
        let len = needs(feed.strides[i], width, rows) as usize;
        feed.samples[i].truncate(r.pick(&[0, len - 1, len - 1]));
    }
    if stride {
        feed.strides[r.below(2)] = r.pick(&[width - 1, 0, STRIDE + 1, usize::MAX]);
    }
    if room {
        let need = frame.need();
        feed.places = r.pick(&[need - 1, need - 1, need / 2, 0]);
    }
    if state {
        return wrapped(wrong_state(r), vec![Step::Feed(feed)]);
    }
    vec![Step::Feed(feed)]
}

/// Calls with an altered state, and the one that was before them afterwards.
pub fn wrapped(alter: Vec<Alter>, calls: Vec<Step>) -> Vec<Step> {
    let alters = [vec![Alter::Keep], alter].concat().into_iter().map(Step::Alter);
    alters.chain(calls).chain([Step::Alter(Alter::Lend)]).collect()
}

/// A change that leaves no possible state, but for one of the last place where the kernel has so many taps.
fn wrong_state(r: &mut Random) -> Vec<Alter> {
    vec![match r.below(6) {
        0 => Alter::Number(5, Change::Add(1)),
        1 => Alter::Number(5, Change::Add(u64::MAX)),
        2 => Alter::Number(2, Change::Add(1 << 32)),
        3 => Alter::Number(3, Change::Add(1)),
        4 => Alter::Number(r.below(6), Change::Set(u64::MAX)),
        _ => Alter::Tap(254, 1),
    }]
}

/// What a number of a state is changed by.
pub const CHANGES: [(&str, Change); 10] = [
    ("one more", Change::Add(1)),
    ("one less", Change::Add(u64::MAX)),
    ("0", Change::Set(0)),
    ("2^32 more", Change::Add(1 << 32)),
    ("the largest", Change::Set(u64::MAX)),
    ("256 more", Change::Add(256)),
    ("65,536 more", Change::Add(1 << 16)),
    ("2^31 more", Change::Add(1 << 31)),
    ("2^63 more", Change::Add(1 << 63)),
    ("the largest side", Change::Set(SIDE as u64)),
];

/// What scratch is filled with.
pub const NOISE: [Noise; 9] = [
    Noise::All(i64::MIN),
    Noise::All(-1),
    Noise::All(i64::MAX),
    Noise::All(0),
    Noise::Any,
    Noise::Any,
    Noise::At(0, -1),
    Noise::At(1, i64::MIN),
    Noise::At(2, i64::MAX),
];

/// What a sum is set to.
pub const SUMS: [f64; 9] =
    [f64::NAN, f64::INFINITY, f64::NEG_INFINITY, 0.0, -0.0, f64::MAX, f64::MIN_POSITIVE, -1.0, 5e-324];

pub fn any(r: &mut Random) -> Case {
    let frame = any_frame(r);
    let mut steps = if r.once_in(12) { wrong_begin(r, &frame) } else { vec![] };
    steps.push(Step::Begin(frame.begin()));
    let kind = r.below(8);
    let mut from = 0;
    for rows in groups(r, frame.pair.height) {
        between(r, &frame, from, kind, &mut steps);
        steps.push(Step::Feed(frame.feed(r, from, rows)));
        from += rows;
    }
    between(r, &frame, from, kind, &mut steps);
    steps.push(Step::Finish(frame.places()));
    if r.once_in(8) {
        between(r, &frame, from, kind, &mut steps);
        steps.push(Step::Finish(frame.places()));
    }
    if r.once_in(8) {
        let other = any_frame(r);
        let groups = groups(r, other.pair.height);
        steps.extend(other.run(r, &groups));
    }
    Case::new(r, steps)
}

/// What a caller does before a feed or a finish: nothing in half of the cases; refused calls, or altered states; noise and older states in a few.
fn between(r: &mut Random, frame: &Frame, from: usize, kind: usize, steps: &mut Vec<Step>) {
    let rest = frame.pair.height - from;
    match kind {
        4 | 5 if r.once_in(3) => steps.extend(refused(r, frame, from)),
        6 if r.once_in(3) => {
            let alter = altered(r);
            let rows = r.below(rest + 1);
            let call = match r.below(3) {
                0 => Step::Finish(frame.places()),
                _ => Step::Feed(frame.feed(r, from, rows)),
            };
            steps.extend(wrapped(alter, vec![call]));
        }
        7 if r.once_in(4) => steps.push(Step::Alter(match r.below(6) {
            0 => Alter::Keep,
            1 => Alter::Lend,
            2 => Alter::Sum(r.below(3), if r.once_in(2) { r.next() } else { r.pick(&SUMS).to_bits() }),
            3 => altered(r).remove(0),
            _ => Alter::Scratch(any_noise(r, frame)),
        })),
        _ => {}
    }
}

fn any_noise(r: &mut Random, frame: &Frame) -> Noise {
    let value = r.next() as i64;
    let list = [Noise::At(r.below(frame.need()), value), Noise::All(value)];
    let noise = r.pick(&NOISE);
    r.pick(&[noise, noise, list[0], list[1]])
}

/// A number, or a place of the kernel, changed.
fn altered(r: &mut Random) -> Vec<Alter> {
    let few = r.within(1, 3);
    (0..r.pick(&[1, 1, 1, few]))
        .map(|_| match r.below(5) {
            0 => Alter::Tap(r.below(TAPS), r.pick(&[0, 1, 256, 257, u16::MAX])),
            1 => Alter::Number(r.below(6), Change::Set(r.bits(15))),
            _ => Alter::Number(r.below(6), r.pick(&CHANGES).1),
        })
        .collect()
}

/// A call that is refused, mostly, and changes nothing.
fn refused(r: &mut Random, frame: &Frame, from: usize) -> Vec<Step> {
    let rest = frame.pair.height - from;
    match r.below(8) {
        0 => wrong_begin(r, frame),
        1 if rest > 0 => vec![Step::Finish(frame.places())],
        2 => vec![Step::Finish(r.below(frame.need()))],
        3 => {
            let rows = r.below(rest + 1);
            let mut feed = frame.feed(r, from, rows);
            feed.wide = !feed.wide;
            feed.samples.iter_mut().flatten().for_each(|s| *s %= 256);
            vec![Step::Feed(feed)]
        }
        _ => {
            let bits = 1 << r.below(6) | 1 << r.below(6);
            let rows = r.below(rest + 1);
            spoilt(r, frame, from, rows, faults(bits))
        }
    }
}

fn wrong_begin(r: &mut Random, frame: &Frame) -> Vec<Step> {
    let mut begin = frame.begin();
    for _ in 0..r.within(1, 2) {
        match r.below(4) {
            0 => begin.depth = r.pick(&[0, 9, 13, frame.pair.depth + 8, u32::MAX]),
            1 => *[&mut begin.width, &mut begin.height][r.below(2)] = r.pick(&[0, SIDE + 1, usize::MAX]),
            2 => begin.kernel = ssim::unlawful().swap_remove(r.below(20)),
            _ => begin.places = r.below(frame.need()),
        }
    }
    vec![Step::Begin(begin)]
}

fn any_frame(r: &mut Random) -> Frame {
    let depth = if r.once_in(2) { r.within(9, 12) } else { r.within(1, 8) };
    let (width, height) = match r.below(200) {
        0 => (r.within(300, 1_000), r.within(1, 4)),
        1 => (r.within(1, 3), r.within(300, 1_000)),
        2..=40 => (r.within(1, 40), r.within(1, 40)),
        41..=70 => (1, r.within(1, 30)),
        71..=130 => (r.within(1, 16), r.within(1, 16)),
        _ => (r.within(1, 6), r.within(1, 8)),
    };
    let shape = Pair::plain(depth as u32, width, [vec![0; width * height], vec![]]);
    let kernel = if r.once_in(5) { ssim::gaussian(r, &shape) } else { ssim::kernel(r, &shape) };
    Frame::new(r, depth as u32, width, height, kernel)
}

/// All rows in groups: one by one, all at once, or cut anywhere; with empty ones among them in half of the cases.
fn groups(r: &mut Random, height: usize) -> Vec<usize> {
    let mut list = Vec::new();
    let most = r.pick(&[1, 2, 3, 7, height]).max(height / 24);
    let mut rest = if r.once_in(6) {
        list.push(height);
        0
    } else {
        height
    };
    while rest > 0 {
        let rows = r.within(1, most).min(rest);
        list.push(rows);
        rest -= rows;
    }
    if r.once_in(2) {
        for _ in 0..r.within(1, 3) {
            list.insert(r.below(list.len() + 1), 0);
        }
    }
    list
}
