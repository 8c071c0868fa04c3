//! The runs of records that are asked for: at the ends of counts, errors and numbers, spoilt and misnumbered at every kind of place, and any.

use crate::limits::SAMPLES;
use crate::random::Random;
use crate::records::*;
use fuavelino::{PsnrMetrics as Figures, Record};

/// Any run: most of them sound, of every kind of numbers; else bad in the figures or in the numbers of one record, seldom in both.
pub fn any(r: &mut Random) -> Vec<Record> {
    let depth = r.within(1, 12) as u32;
    let count = match r.below(400) {
        0 => 0,
        1 => r.within(1_000, 4_000),
        2..=20 => r.within(20, 100),
        _ => r.within(1, 12),
    };
    let figures = if r.once_in(8) { near_the_limit(r) } else { (0..count).map(|_| sound(r, depth)).collect() };
    let mut records = numbered(r, &figures);
    if !records.is_empty() && r.once_in(4) {
        let at = place(r, records.len());
        records[at] = of(spoilt(&figures[at], r.below(KINDS)), whose(&records[at]));
    }
    if !records.is_empty() && r.once_in(4) {
        let at = place(r, records.len());
        misnumber(&mut records, at, r.below(MISNUMBERED));
    }
    records
}

/// An end, the middle, or any place.
fn place(r: &mut Random, count: usize) -> usize {
    let some = r.below(count);
    r.pick(&[0, count / 2, count - 1, some])
}

/// So many equal figures, and one more at the end.
fn run_of(count: usize, figures: Figures, last: Figures) -> Vec<Figures> {
    [vec![figures; count], vec![last]].concat()
}

pub const SMALL: Figures = Figures { sq_err: 3.0, n_pixels: 7, sample_max: 255 };

/// A plane of the largest count and depth, of this error; and the largest that it may have.
pub fn full(error: u64) -> Figures {
    Figures { sq_err: error as f64, n_pixels: SAMPLES, sample_max: 4_095 }
}
pub const MOST: u64 = SAMPLES * 4_095 * 4_095;

pub fn listed() -> Vec<Vec<Record>> {
    // so many of the largest error, and what they are short of 2^53
    let (count, short) = ((MOST_ERROR / MOST) as usize, MOST_ERROR % MOST);
    let same = Figures { sq_err: 0.0, ..SMALL };
    let mut list = vec![
        vec![],
        vec![same],
        vec![same; 5],
        run_of(count, full(MOST), full(short)),
        run_of(count, full(MOST), full(short + 1)),
    ];
    list.extend([1, 2, 3, 4_098, 4_099].map(|count| vec![full(MOST); count]));
    // totals that come to little in 64 bits: 2^64 and a bit more
    let times = (u64::MAX / MOST) as usize;
    let rest = (MOST * times as u64).wrapping_neg();
    list.extend([0, 1, 5].map(|more| run_of(times, full(MOST), full(rest + more))));
    // a total in a double stays at 2^53 whatever ones are added
    list.push([run_of(count, full(MOST), full(short)), vec![full(1); 9]].concat());
    let mut list: Vec<Vec<Record>> = list.into_iter().map(|figures| in_turn(&figures)).collect();
    list.extend(longest());
    list.extend(told_numbers());
    for base in bases() {
        let last = base.len() - 1;
        for (kind, at) in (0..KINDS + MISNUMBERED).flat_map(|kind| [0, last / 2, last].map(|at| (kind, at))) {
            list.push(damaged(&base, at, kind));
        }
    }
    list
}

/// The run with the figures or the numbers of one record made bad; the kinds of numbers follow those of figures.
pub fn damaged(records: &[Record], at: usize, kind: usize) -> Vec<Record> {
    let mut next = records.to_vec();
    match kind.checked_sub(KINDS) {
        Some(kind) => misnumber(&mut next, at, kind),
        None => next[at] = of(spoilt(&next[at].metrics(), kind), whose(&next[at])),
    }
    next
}

/// As many records as there may be, about that many, and of all figures; then one plane of frames, the last that there are, and a fall at either end.
fn longest() -> Vec<Vec<Record>> {
    let same = Figures { sq_err: 0.0, ..SMALL };
    let mut list = Vec::new();
    for figures in [SMALL, same, full(MOST), full(0)] {
        list.extend([MOST_RECORDS - 1, MOST_RECORDS, MOST_RECORDS + 1].map(|count| in_turn(&vec![figures; count])));
    }
    for (step, first) in [(3, 1), (1, LAST_PLACE + 1 - MOST_RECORDS as u64), (2, LAST_PLACE - 2 * MOST_RECORDS as u64)]
    {
        list.extend([0, 1].map(|more| stepped(SMALL, first, step, MOST_RECORDS + more)));
    }
    let longest = in_turn(&vec![SMALL; MOST_RECORDS]);
    list.extend([1, MOST_RECORDS / 2, MOST_RECORDS - 1].map(|at| damaged(&longest, at, KINDS + 5)));
    list
}

/// So many of these figures from one place on, a step from each to the next.
pub fn stepped(figures: Figures, first: u64, step: u64, count: usize) -> Vec<Record> {
    let place = |at: usize| at_place(first + step * at as u64);
    (0..count).map(|at| of(figures, place(at))).collect()
}

/// Numbers that are told one by one.
fn told_numbers() -> Vec<Vec<Record>> {
    let (top, half, third) = (u32::MAX, 1 << 31, u32::MAX / 3);
    let numbers: [&[Whose]; 35] = [
        &[(0, 0)],
        &[LAST],
        &[(0, 0), LAST],
        &[LAST, (0, 0)],
        &[LAST, LAST],
        &[(0, 0), (0, 0)],
        &[(top, 1), LAST],
        &[LAST, (top, 1)],
        &[(top - 1, 2), (top, 0)],
        &[(top, 0), (top - 1, 2)],
        &[(1, 0), (0, 2)],
        &[(0, 2), (1, 0)],
        &[(5, 1), (5, 1)],
        &[(5, 1), (5, 2)],
        &[(5, 2), (5, 1)],
        &[(5, 0), (5, 2)],
        &[(5, 0), (5, 1), (5, 2)],
        &[(5, 2), (5, 1), (5, 0)],
        &[(5, 1), (6, 1), (5, 2)],
        &[(5, 1), (7, 1), (6, 1)],
        &[(5, 1), (6, 1), (5, 1)],
        &[(half - 1, 2), (half, 0)],
        &[(half, 0), (half - 1, 2)],
        &[(third, 0), (third, 1), (third + 1, 0)],
        &[(third + 1, 0), (third, 2)],
        &[(1 << 24, 0), ((1 << 24) + 1, 0)],
        &[((1 << 24) + 1, 0), (1 << 24, 0)],
        &[(65_535, 2), (65_536, 0)],
        &[(65_536, 0), (65_535, 2)],
        &[(0, 3)],
        &[(top, 3)],
        &[(0, 3), (1, 0), (2, 0)],
        &[(0, 0), (0, 1), (0, 3), (1, 0), (1, 1)],
        &[(0, 0), (1, 0), (1, 3)],
        &[(0, 0), (0, 1), (0, top), (1, 0), (1, 1)],
    ];
    let figures = [SMALL, Figures { sq_err: 0.0, ..SMALL }, full(3)];
    let of_all = |figures: Figures| numbers.map(|list| list.iter().map(|whose| of(figures, *whose)).collect());
    figures.into_iter().flat_map(of_all).collect()
}

/// Short and long, with little error, with none, and with more than 2^53; under numbers from the first on, far on, and of one plane.
fn bases() -> Vec<Vec<Record>> {
    let one = Figures { sq_err: 1.0, n_pixels: 1, sample_max: 1 };
    let runs = [
        (SMALL, 1),
        (SMALL, 3),
        (full(MOST), 9),
        (full(0), 4),
        (full(MOST), 101),
        (one, 3),
        (SMALL, 1_001),
        (full(MOST), 1),
        (full(MOST), 2),
        (full(MOST), 3),
    ];
    let numbers = [(0, 1), (3 << 31, 3), (LAST_PLACE - 3 * 1_001, 3)];
    let of_all = |(figures, count)| numbers.map(|(first, step)| stepped(figures, first, step, count));
    runs.into_iter().flat_map(of_all).collect()
}
