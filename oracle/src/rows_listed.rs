//! Cases of row-fed SSIM that every run has: both sides of each limit, refusals in pairs, each number of a state changed, noise, older states, the
//! largest sides, and every grouping of few rows.

use crate::limits::{SIDE, STRIDE};
use crate::random::Random;
use crate::rows_cases::*;
use crate::rows_model::{Alter, Change, Step};
use crate::rows_rule::{Begin, Feed, TAPS};
use crate::ssim::{self, hollow, level};

pub fn listed() -> Vec<Case> {
    let r = &mut Random::of(0, "rows, listed", 0);
    let mut list = begins(r);
    list.extend(feeds(r));
    list.extend(no_rows(r));
    list.extend(many_rows(r));
    list.extend(finishes(r));
    list.extend(states(r));
    list.extend(kernels(r));
    list.extend(noises(r));
    list.extend(older(r));
    list.extend(sizes(r));
    list.extend(groupings(r));
    list
}

const THREE: [u16; 3] = [64, 128, 64];

/// Small ones of both sample widths, with one tap, with few and with more than there are rows.
fn frames(r: &mut Random) -> Vec<Frame> {
    vec![
        Frame::new(r, 7, 3, 4, THREE.to_vec()),
        Frame::new(r, 10, 2, 3, vec![256]),
        Frame::new(r, 12, 4, 5, vec![10, 30, 176, 30, 10]),
        Frame::new(r, 8, 1, 3, level(9)),
    ]
}

/// The run of a frame that has got so far, row by row.
fn begun(r: &mut Random, frame: &Frame, rows: usize) -> Vec<Step> {
    [vec![Step::Begin(frame.begin())], frame.feeds(r, 0, &vec![1; rows])].concat()
}

/// The same from there on.
fn rest(r: &mut Random, frame: &Frame, from: usize) -> Vec<Step> {
    [frame.feeds(r, from, &vec![1; frame.pair.height - from]), vec![Step::Finish(frame.places())]].concat()
}

/// A run with steps after so many rows: once it ends with them, once it goes on.
fn amid(r: &mut Random, frame: &Frame, rows: usize, steps: Vec<Step>) -> [Case; 2] {
    let start = [begun(r, frame, rows), steps].concat();
    let whole = [start.clone(), rest(r, frame, rows)].concat();
    [Case::new(r, start), Case::new(r, whole)]
}

/// Each set of what begin refuses, before a run and amid one; and both sides of each limit.
fn begins(r: &mut Random) -> Vec<Case> {
    let mut list = Vec::new();
    for (frame, bits) in frames(r).iter().flat_map(|frame| (0..16).map(move |bits| (frame, bits))) {
        let mut begin = frame.begin();
        let [depth, side, kernel, room, ..] = faults(bits);
        if depth {
            begin.depth = if begin.wide { 8 } else { 9 };
        }
        if side {
            *[&mut begin.width, &mut begin.height][bits % 2] = 0;
        }
        if kernel {
            begin.kernel[0] += 1;
        }
        if room {
            begin.places = frame.need() - 1;
        }
        let steps = [vec![Step::Begin(begin.clone())], frame.run(r, &[frame.pair.height])].concat();
        list.push(Case::new(r, steps));
        list.extend(amid(r, frame, 1, vec![Step::Begin(begin)]));
    }
    list.extend(limits(r));
    list
}

fn limits(r: &mut Random) -> Vec<Case> {
    let frame = Frame::new(r, 8, 2, 2, THREE.to_vec());
    let mut list = Vec::new();
    for wide in [false, true] {
        for depth in [0, 1, 8, 9, 12, 13, 16, 256 + 8, 1 << 31, u32::MAX] {
            list.push(Begin { wide, depth, ..frame.begin() });
        }
    }
    let one = Frame { kernel: vec![256], over: 6 * SIDE, ..frame.clone() };
    for side in [1, SIDE - 1, SIDE, SIDE + 1, 1 << 32, (1 << 32) + 1, 1 << 63, usize::MAX] {
        list.push(Begin { width: side, ..one.begin() });
        list.push(Begin { height: side, ..one.begin() });
    }
    for kernel in [ssim::at_the_ends(), ssim::unlawful()].concat() {
        list.push(Frame { kernel, ..frame.clone() }.begin());
    }
    for over in [0, 1, 2, 40] {
        let need = frame.need();
        list.extend([need + over, need.saturating_sub(over)].map(|places| Begin { places, ..frame.begin() }));
    }
    list.into_iter().map(|begin| Case::new(r, vec![Step::Begin(begin)])).collect()
}

/// Each set of what a feed refuses, at the start of a run, amid it and at its end.
fn feeds(r: &mut Random) -> Vec<Case> {
    let mut list = Vec::new();
    for frame in &frames(r)[..3] {
        let height = frame.pair.height;
        for (from, rows) in [(0, 1), (1, 1), (1, 2), (height - 1, 1), (height, 1)] {
            for bits in 0..64 {
                let steps = spoilt(r, frame, from, rows, faults(bits));
                list.extend(amid(r, frame, from, steps));
            }
        }
        for from in 0..=height {
            let mut feed = frame.feed(r, from, 1);
            feed.wide = !feed.wide;
            feed.samples.iter_mut().flatten().for_each(|s| *s %= 128);
            list.extend(amid(r, frame, from, vec![Step::Feed(Feed { rows: 0, ..feed.clone() })]));
            list.extend(amid(r, frame, from, vec![Step::Feed(feed)]));
        }
    }
    list
}

/// Feeds of no rows: with no samples, with some that would be refused, with strides and scratch on both sides of their limits.
fn no_rows(r: &mut Random) -> Vec<Case> {
    let mut list = Vec::new();
    for frame in &frames(r) {
        let (wide, width, need) = (frame.pair.wide, frame.pair.width, frame.need());
        for from in 0..=frame.pair.height {
            for stride in [0, width - 1, width, STRIDE, STRIDE + 1, usize::MAX] {
                for (places, count) in [(need, 0), (need - 1, 0), (0, 1), (need, 40)] {
                    let samples = [vec![255; count], vec![255; count]];
                    let feed = |strides| Feed { wide, width, rows: 0, strides, samples: samples.clone(), places };
                    let steps = [feed([stride, width]), feed([width, stride])].map(Step::Feed);
                    list.extend(amid(r, frame, from, steps.to_vec()));
                }
            }
        }
    }
    list
}

/// More rows than anyone has, at strides by which their count wraps; and some past the height.
fn many_rows(r: &mut Random) -> Vec<Case> {
    let mut list = Vec::new();
    for frame in &frames(r) {
        let (width, height) = (frame.pair.width, frame.pair.height);
        for stride in [width, 4, 8, 1 << 12, STRIDE] {
            let most = usize::MAX / stride;
            let mut counts: Vec<usize> = (0..5).map(|more| (most - 1).saturating_add(more)).collect();
            counts.extend([1 << 63, (1 << 63) + 1, 1 << 62, (1 << 62) + 1, 1 << 32, (1 << 32) + 1, (1 << 32) + 2]);
            counts.extend([height, height + 1, 1 << 16, (1 << 16) + 1, usize::MAX, usize::MAX - 1]);
            for rows in counts {
                let feed = frame.feed(r, 1, 2);
                let samples = [0, 1].map(|i| feed.samples[i].iter().cycle().take(stride + width).copied().collect());
                let samples = samples.map(|list: Vec<u16>| list.iter().map(|s| s % 2).collect());
                let feed = Feed { strides: [stride; 2], samples, rows, ..feed };
                list.extend(amid(r, frame, 1, vec![Step::Feed(feed)]));
            }
        }
    }
    list
}

/// Each set of what finishing refuses; and a pair that is asked for again.
fn finishes(r: &mut Random) -> Vec<Case> {
    let mut list = Vec::new();
    for frame in &frames(r) {
        let height = frame.pair.height;
        for (bits, rows) in (0..4).flat_map(|bits| (0..=height).map(move |rows| (bits, rows))) {
            let [state, room, ..] = faults(bits);
            let places = if room { frame.need() - 1 } else { frame.places() };
            let mut steps = vec![Step::Finish(places); 2];
            if state {
                steps = wrapped(vec![Alter::Number(5, Change::Add(1))], steps);
            }
            list.extend(amid(r, frame, rows, steps));
        }
        let again = [Step::Finish(frame.need()), Step::Feed(frame.feed(r, height, 0))];
        list.extend(amid(r, frame, height, [&again[..], &again[..]].concat()));
    }
    list
}

/// Each number of a state changed, at each time of a run, for each call. The largest and the smallest width are among them.
fn states(r: &mut Random) -> Vec<Case> {
    let mut all = frames(r);
    all.push(Frame::new(r, 9, SIDE, 2, vec![256]));
    all.push(Frame::new(r, 1, 1, 2, THREE.to_vec()));
    // with scratch enough for other sides
    all.push(Frame { over: 6_000, ..Frame::new(r, 6, 4, 5, THREE.to_vec()) });
    let mut list = Vec::new();
    for frame in &all {
        let height = frame.pair.height;
        let wide = frame.pair.width == SIDE;
        for (i, (_, change)) in (0..6).flat_map(|i| CHANGES.map(|change| (i, change))) {
            for rows in (0..=height).filter(|rows| !wide || *rows == 1) {
                let more = usize::from(rows < height);
                let one = Step::Feed(frame.feed(r, rows, more));
                let none = Step::Feed(frame.feed(r, rows, 0));
                for call in [none, Step::Finish(frame.places()), one] {
                    let [part, whole] = amid(r, frame, rows, wrapped(vec![Alter::Number(i, change)], vec![call]));
                    list.extend([part, whole].into_iter().take(if wide { 1 } else { 2 }));
                }
            }
        }
    }
    list
}

/// Held kernels with each kind of fault, and tails that are not 0.
fn kernels(r: &mut Random) -> Vec<Case> {
    // with scratch enough for the longest
    let frame = Frame { over: 6 * 3 * 256, ..Frame::new(r, 8, 3, 3, THREE.to_vec()) };
    let mut held: Vec<Vec<Alter>> = Vec::new();
    for kernel in [ssim::unlawful(), ssim::at_the_ends()].concat().into_iter().filter(|taps| taps.len() <= TAPS) {
        let mut alters = vec![Alter::Number(3, Change::Set(kernel.len() as u64))];
        alters.extend((0..TAPS).map(|i| Alter::Tap(i, kernel.get(i).copied().unwrap_or(0))));
        held.push(alters);
    }
    held.extend([3, 4, 128, 253, 254].map(|at| vec![Alter::Tap(at, 1)]));
    held.extend([0, 1, 2].map(|at| vec![Alter::Tap(at, 65)]));
    // a kernel whose sum is right only with its tail, and one whose tail makes another lawful one
    held.push(vec![Alter::Tap(1, 120), Alter::Tap(3, 8)]);
    held.push(vec![Alter::Number(3, Change::Set(1)), Alter::Tap(0, 256)]);
    let mut list = Vec::new();
    for alters in held {
        let calls = [Step::Feed(frame.feed(r, 0, 1)), Step::Feed(frame.feed(r, 0, 0)), Step::Finish(frame.places())];
        for call in calls {
            list.extend(amid(r, &frame, 0, wrapped(alters.clone(), vec![call])));
        }
    }
    list
}

/// Noise in scratch and in sums, before each row of a run and before its end.
fn noises(r: &mut Random) -> Vec<Case> {
    let mut all = frames(r);
    all.push(Frame::new(r, 12, 5, 9, level(255)));
    let mut list = Vec::new();
    for frame in &all {
        for rows in 0..=frame.pair.height {
            for noise in NOISE {
                list.extend(amid(r, frame, rows, vec![Step::Alter(Alter::Scratch(noise))]));
            }
            for (i, sum) in (0..3).flat_map(|i| SUMS.map(|sum| (i, sum))) {
                list.extend(amid(r, frame, rows, vec![Step::Alter(Alter::Sum(i, sum.to_bits()))]));
            }
        }
    }
    list
}

/// A state of some rows ago lent again, and one of rows that have not come.
fn older(r: &mut Random) -> Vec<Case> {
    let mut list = Vec::new();
    for frame in &frames(r) {
        let height = frame.pair.height;
        for (rows, told) in (0..=height).flat_map(|rows| (0..=height).map(move |told| (rows, told))) {
            let scored = if told == height { height } else { told.saturating_sub(frame.kernel.len() / 2) };
            let set = |i: usize, n: usize| Step::Alter(Alter::Number(i, Change::Set(n as u64)));
            let steps = [begun(r, frame, rows), vec![set(4, told), set(5, scored)], rest(r, frame, told)].concat();
            list.push(Case::new(r, steps));
        }
        for (kept, lent) in (0..=height).flat_map(|kept| (kept..=height).map(move |lent| (kept, lent))) {
            for finished in [false, true] {
                let mut steps = begun(r, frame, kept);
                steps.push(Step::Alter(Alter::Keep));
                steps.extend(frame.feeds(r, kept, &vec![1; lent - kept]));
                if finished {
                    steps.push(Step::Finish(frame.places()));
                }
                steps.push(Step::Alter(Alter::Lend));
                steps.extend(rest(r, frame, kept));
                list.push(Case::new(r, steps));
            }
        }
    }
    list
}

/// Heights below half a kernel, one tap, one column, the most taps, the largest sides, and groups above the count of lines.
fn sizes(r: &mut Random) -> Vec<Case> {
    let mut list = Vec::new();
    let few = [(1, 1), (1, 2), (2, 1), (5, 3), (1, 40), (40, 1), (7, 30), (130, 4), (4, 260)];
    for (width, height) in few {
        for kernel in [vec![256], THREE.to_vec(), vec![127, 2, 127], level(33), level(255), hollow(255)] {
            for depth in [8, 12] {
                let frame = Frame::new(r, depth, width, height, kernel.clone());
                for groups in [vec![height], vec![0, 1, 0, height - 1, 0], vec![height / 2, height - height / 2]] {
                    let steps = frame.run(r, &groups);
                    list.push(Case::new(r, steps));
                }
            }
        }
    }
    for (width, height, kernel) in
        [(SIDE, 3, THREE.to_vec()), (2, SIDE, THREE.to_vec()), (1, SIDE, level(255)), (SIDE, 2, vec![256])]
    {
        for depth in [8, 12] {
            let frame = Frame::new(r, depth, width, height, kernel.clone());
            let steps = frame.run(r, &[1, 0, height / 2, height - height / 2 - 1]);
            list.push(Case::new(r, steps));
        }
    }
    list
}

/// The heights of which a run has every grouping go up to this, each with these widths and taps, the last more than there are rows.
pub const FEW: usize = 6;
pub const SHAPES: [(usize, usize); 6] = [(1, 1), (2, 1), (1, 3), (3, 3), (1, 15), (2, 15)];

/// Every way to cut few rows into groups, with an empty one or none at each place between them, at the start and at the end.
fn groupings(r: &mut Random) -> Vec<Case> {
    let mut list = Vec::new();
    for height in 1..=FEW {
        for ((width, taps), groups) in SHAPES.iter().flat_map(|shape| every_grouping(height).map(move |g| (shape, g))) {
            for depth in [5, 11] {
                let kernel = if *taps == 3 { THREE.to_vec() } else { level(*taps) };
                let frame = Frame::new(r, depth, *width, height, kernel);
                let steps = frame.run(r, &groups);
                list.push(Case::new(r, steps));
            }
        }
    }
    list
}

pub fn every_grouping(height: usize) -> impl Iterator<Item = Vec<usize>> {
    (0..1 << (height - 1)).flat_map(move |cuts| {
        let mut groups = vec![1];
        for at in 0..height - 1 {
            match cuts >> at & 1 {
                1 => groups.push(1),
                _ => *groups.last_mut().expect("one at least") += 1,
            }
        }
        (0..1 << (groups.len() + 1)).map(move |empty: usize| {
            let after = |i: usize| (empty >> i & 1 == 1).then_some(0);
            let with = groups.iter().enumerate().flat_map(|(i, rows)| [Some(*rows), after(i + 1)]);
            [after(0)].into_iter().chain(with).flatten().collect()
        })
    })
}
