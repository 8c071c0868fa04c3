//! Row-fed SSIM as a rule has it, call by call: the answer, the state, the sums bit for bit, the pair, and what becomes of the scratch.

use crate::rows_rule::*;
use crate::ssim_ways::{published_score, Moments};

/// A call, or what a caller does between calls.
#[derive(Clone)]
pub enum Step {
    Begin(Begin),
    Feed(Feed),
    /// With so many places of scratch.
    Finish(usize),
    Alter(Alter),
}

impl Step {
    /// How much of the scratch it is lent.
    pub fn places(&self) -> usize {
        match self {
            Step::Begin(begin) => begin.places,
            Step::Feed(feed) => feed.places,
            Step::Finish(places) => *places,
            Step::Alter(_) => 0,
        }
    }
}

/// What a caller may do to what it holds or lends.
#[derive(Clone)]
pub enum Alter {
    Number(usize, Change),
    Tap(usize, u16),
    Sum(usize, u64),
    Scratch(Noise),
    /// Keeps a copy of the state, or lends that one from here on.
    Keep,
    Lend,
}

#[derive(Clone, Copy)]
pub enum Change {
    /// With no regard to a carry, so that the largest number takes one away.
    Add(u64),
    Set(u64),
}

/// What all of the scratch is filled with, or one place of it.
#[derive(Clone, Copy, Debug)]
pub enum Noise {
    All(i64),
    Any,
    At(usize, i64),
}

/// What a call leaves.
#[derive(Clone, PartialEq)]
pub struct Left {
    pub answer: u8,
    pub held: Held,
    /// Whether the sums are told: they are not where the caller altered something before.
    pub told: bool,
    pub scratch: Scratch,
    pub pair: Option<[u64; 2]>,
}

pub struct Model {
    rule: Rule,
    pub held: Held,
    copy: Held,
    /// What the last accepted call left, as long as the scratch is what it left too.
    pub known: Option<Held>,
    /// The rows that came since, with no padding.
    pub planes: [Vec<u16>; 2],
    /// The centre rows that are in the sums.
    summed: u64,
}

impl Model {
    pub fn new(rule: Rule, held: Held) -> Model {
        Model { rule, held, copy: held, known: None, planes: [vec![], vec![]], summed: 0 }
    }

    /// Whether nothing was altered, and the state is not an older one.
    pub fn is_known(&self) -> bool {
        self.known == Some(self.held)
    }

    /// What a call will be answered.
    pub fn answer(&self, step: &Step) -> Option<u8> {
        match step {
            Step::Begin(begin) => Some(self.rule.begin_refusal(begin)),
            Step::Feed(feed) => Some(self.rule.feed_refusal(&self.held, feed)),
            Step::Finish(places) => Some(match self.rule.finish_refusal(&self.held, *places) {
                0 if !(self.rule.finite)(self.held.pair()) => 9,
                answer => answer,
            }),
            Step::Alter(_) => None,
        }
    }

    /// What a step leaves, where it is a call.
    pub fn step(&mut self, step: &Step) -> Option<Left> {
        let answer = self.answer(step)?;
        Some(match step {
            Step::Begin(begin) => self.begin(begin, answer),
            Step::Feed(feed) => self.feed(feed, answer),
            Step::Finish(places) => self.finish(*places, answer),
            Step::Alter(_) => return None,
        })
    }

    /// Takes sums that are not told from what was found.
    pub fn adopt(&mut self, left: &Left, sums: [u64; 3]) {
        if !left.told {
            self.held.sums = sums;
        }
    }

    pub fn alter(&mut self, alter: &Alter) {
        match *alter {
            Alter::Number(i, Change::Add(n)) => self.held.numbers[i] = self.held.numbers[i].wrapping_add(n),
            Alter::Number(i, Change::Set(n)) => self.held.numbers[i] = n,
            Alter::Tap(i, tap) => self.held.kernel[i] = tap,
            Alter::Sum(i, bits) => self.held.sums[i] = bits,
            Alter::Scratch(_) => self.known = None,
            Alter::Keep => self.copy = self.held,
            Alter::Lend => self.held = self.copy,
        }
    }

    fn begin(&mut self, begin: &Begin, answer: u8) -> Left {
        let need = places_needed(begin.width as u64, begin.kernel.len() as u64) as usize;
        if answer == 0 {
            self.held = (self.rule.begun)(begin, self.held);
            self.known = Some(self.held);
            self.planes = [vec![], vec![]];
            self.summed = 0;
        }
        self.leave(Done { call: Call::Begin, answer, need, places: begin.places }, true, None)
    }

    fn feed(&mut self, feed: &Feed, answer: u8) -> Left {
        let (need, known) = (self.held.places_needed() as usize, self.is_known());
        if answer == 0 {
            let rows = self.held.numbers[4] + feed.rows as u64;
            if known {
                self.take(feed);
            }
            self.held.numbers[5] = self.rule.scored_after(&self.held, rows);
            self.held.numbers[4] = rows;
            self.known = Some(self.held).filter(|_| known);
        }
        let told = answer != 0 || feed.rows == 0 || known;
        self.leave(Done { call: Call::Feed, answer, need, places: feed.places }, told, None)
    }

    fn finish(&mut self, places: usize, answer: u8) -> Left {
        let (need, known) = (self.held.places_needed() as usize, self.is_known());
        let pair = Some(self.held.pair().map(f64::to_bits)).filter(|_| answer == 0);
        if answer == 0 || answer == 9 {
            self.held = (self.rule.finished)(self.held);
            self.known = Some(self.held).filter(|_| known);
        }
        self.leave(Done { call: Call::Finish, answer, need, places }, true, pair)
    }

    fn leave(&mut self, done: Done, told: bool, pair: Option<[u64; 2]>) -> Left {
        if done.answer != 0 && done.answer != 9 {
            self.held = (self.rule.refused)(done.call, self.held);
        }
        Left { answer: done.answer, held: self.held, told, scratch: (self.rule.scratch)(&done), pair }
    }

    /// Takes the rows of a feed and scores the centre rows that are due, row by row.
    fn take(&mut self, feed: &Feed) {
        let [width, height, _, taps, came, _] = self.held.numbers;
        for (plane, (samples, stride)) in self.planes.iter_mut().zip(feed.samples.iter().zip(feed.strides)) {
            let lines = (0..feed.rows).map(|y| &samples[y * stride..][..width as usize]);
            lines.for_each(|line| plane.extend_from_slice(line));
        }
        let end = came + feed.rows as u64;
        let (adding, mut sums) = (self.rule.adding, self.held.sums());
        let mut by_feed = [0.0; 3];
        for rows in came + 1..=end {
            let due = |y: u64| y < height && (self.rule.summed)(&Came { y, rows, height, taps });
            while due(self.summed) {
                let mut by_row = [0.0; 3];
                let to = match adding {
                    Adding::OneByOne => &mut sums,
                    Adding::ByRow => &mut by_row,
                    Adding::ByFeed => &mut by_feed,
                };
                self.score(self.summed as usize, [rows as usize, end as usize], to);
                sums = add(sums, by_row);
                self.summed += 1;
            }
        }
        self.held.sums = add(sums, by_feed).map(f64::to_bits);
    }

    /// Adds the terms of one centre row, from the left.
    fn score(&self, y: usize, [came, end]: [usize; 2], sums: &mut [f64; 3]) {
        let [width, height, depth, taps, ..] = self.held.numbers;
        let (width, height, taps) = (width as usize, height as usize, taps as usize);
        let (kernel, half) = (&self.held.kernel[..taps], taps / 2);
        let mut columns = vec![[0i64; 6]; width];
        for v in y.saturating_sub(half)..(y + half + 1).min(height) {
            let (tap, line) = (i64::from(kernel[v + half - y]), (self.rule.line)(&Line { row: v, came, end, taps }));
            let lines = [0, 1].map(|i| self.planes[i].chunks(width).nth(line).unwrap_or(&[]));
            for (column, (a, b)) in columns.iter_mut().zip(lines[0].iter().zip(lines[1])) {
                let (a, b) = (i64::from(*a), i64::from(*b));
                gather(column, tap, &[a, b, a * a, a * b, b * b, 1]);
            }
        }
        let max = ((1u64 << depth) - 1) as f64;
        for x in 0..width {
            let mut moments = [0i64; 6];
            for u in x.saturating_sub(half)..(x + half + 1).min(width) {
                gather(&mut moments, i64::from(kernel[u + half - x]), &columns[u]);
            }
            let moments: Moments = moments.map(|sum| sum as f64);
            let (ssim, cs) = published_score(moments, max);
            *sums = add(*sums, [ssim, cs, moments[5]]);
        }
    }
}

fn gather(sums: &mut [i64; 6], tap: i64, terms: &[i64; 6]) {
    sums.iter_mut().zip(terms).for_each(|(sum, term)| *sum += tap * term);
}

fn add(sums: [f64; 3], terms: [f64; 3]) -> [f64; 3] {
    [0, 1, 2].map(|i| sums[i] + terms[i])
}
