//! What is asked of PSNR in hundredths: runs of records and totals, most of them where one error more or less changes the answer.

use crate::decibels_rule::{ten, Rule, PLACES, SCALE};
use crate::limits::SAMPLES;
use crate::random::Random;
use crate::records::*;
use crate::series_cases::damaged;
use fuavelino::{PsnrMetrics as Figures, Record};

/// The most samples of a series.
pub const MOST_TOTAL: u64 = MOST_RECORDS as u64 * SAMPLES;

#[derive(Clone)]
pub enum Lent {
    Run(Vec<Record>),
    Total(Figures),
}

#[derive(Clone)]
pub struct Case {
    pub lent: Lent,
    /// Whether its bounds are seen to by big integers.
    pub exact: bool,
}

fn figures(e: u128, n: u64, max: u32) -> Figures {
    Figures { sq_err: e as u64 as f64, n_pixels: n, sample_max: max }
}

fn p_of(n: u64, max: u32) -> u128 {
    u128::from(n) * u128::from(max) * u128::from(max)
}

fn max_of(depth: usize) -> u32 {
    (1 << depth) - 1
}

/// As a total, and as a run of a record of it alone.
fn both(figures: Figures) -> [Case; 2] {
    [Lent::Total(figures), Lent::Run(in_turn(&[figures]))].map(|lent| Case { lent, exact: false })
}

/// The case with its bounds seen to.
fn exactly(figures: Figures) -> Case {
    let lent = if figures.n_pixels > SAMPLES { Lent::Total(figures) } else { Lent::Run(in_turn(&[figures])) };
    Case { lent, exact: true }
}

/// The numbers that are told in the rule, and each limit with what lies past it.
pub fn stated() -> Vec<Case> {
    let numbers = [
        (25.0, 3, 255),
        (195_075.0, 3, 255),
        (195_076.0, 3, 255),
        (1.0, 10, 1),
        (10.0, 99, 1),
        (1.0, 9_999_999_999, 1),
        (1.0, 10_000_000_000, 1),
        (1.0, 10_000_000_001, 1),
        (1.0, 8_192 * 8_192, 255),
        (1.0, 16_384 * 16_384, 255),
        (1.0, SAMPLES + 1, 255),
        (1.0, 154_000, 255),
        (1e9, 1_002_305_238, 1),
        (1e9, 1_002_305_237, 1),
        (1.0, MOST_TOTAL, 4_095),
        (0.0, MOST_TOTAL, 4_095),
        (1.0, MOST_TOTAL, 255),
        (0.0, 3, 255),
        (0.0, 0, 255),
        (1.0, 0, 255),
        (1.0, 1, 1),
        (2.0, 1, 1),
    ];
    let past = [MOST_TOTAL + 1, MOST_TOTAL * 2, u64::MAX].into_iter().flat_map(|n| [(1.0, n, 255), (0.0, n, 255)]);
    let maxima = [0, 1, 2, 3, 254, 255, 256, 4_094, 4_095, 4_096, 8_191, u32::MAX].map(|max| (1.0, 3, max));
    let most = MOST_ERROR as f64;
    let errors =
        [most, most - 1.0, most + 2.0, -0.0, 0.5, 24.5, -1.0, f64::NAN, -f64::NAN, f64::INFINITY, f64::MAX, 5e-324];
    let errors = errors.into_iter().flat_map(|e| [(e, MOST_TOTAL, 4_095), (e, 3, 255), (e, SAMPLES, 4_095)]);
    let all = numbers.into_iter().chain(past).chain(maxima).chain(errors);
    let mut list: Vec<Case> =
        all.flat_map(|(sq_err, n_pixels, sample_max)| both(Figures { sq_err, n_pixels, sample_max })).collect();
    let runs = counted().map(|run| in_turn(&run)).chain(told_numbers()).chain(misnumbered());
    list.extend(runs.map(|run| Case { lent: Lent::Run(run), exact: false }));
    list
}

/// One record and two, under numbers at both sides of what is taken.
fn told_numbers() -> impl Iterator<Item = Vec<Record>> {
    let numbers: [&[Whose]; 12] = [
        &[(0, 2)],
        &[(0, 3)],
        &[LAST],
        &[(u32::MAX, 3)],
        &[(7, u32::MAX)],
        &[(0, 2), (1, 0)],
        &[(1, 0), (0, 2)],
        &[(5, 1), (5, 1)],
        &[(5, 1), (5, 2)],
        &[(5, 2), (5, 1)],
        &[(0, 0), LAST],
        &[LAST, (0, 0)],
    ];
    let of_all = |e: u128| numbers.map(|list| list.iter().map(|w| of(figures(e, 3, 255), *w)).collect());
    [25, 0].into_iter().flat_map(of_all).collect::<Vec<_>>().into_iter()
}

/// Runs of little error, of none, and of more than 2^53, with bad numbers of every kind at both ends and between.
fn misnumbered() -> impl Iterator<Item = Vec<Record>> {
    let most = u128::from(SAMPLES) * 4_095 * 4_095;
    let runs = [figures(25, 3, 255), figures(0, 3, 255), figures(most, SAMPLES, 4_095)];
    let kinds =
        |run: Vec<Record>| (0..MISNUMBERED).flat_map(move |kind| [0, 4, 8].map(|at| damaged(&run, at, KINDS + kind)));
    runs.into_iter().flat_map(move |figures| kinds(in_turn(&[figures; 9])))
}

/// Runs at the ends of how many records there may be, and of what they may come to.
fn counted() -> impl Iterator<Item = Vec<Figures>> {
    let plain = figures(25, 3, 255);
    let full = |e: u64| figures(u128::from(e), SAMPLES, 4_095);
    let most = SAMPLES * 4_095 * 4_095;
    let counts = [0, 1, 2, MOST_RECORDS - 1, MOST_RECORDS, MOST_RECORDS + 1];
    let runs =
        counts.into_iter().flat_map(move |count| [vec![plain; count], vec![full(0); count], vec![full(1); count]]);
    let rest = MOST_ERROR - 2 * most;
    let ends = [vec![full(rest)], vec![full(rest), full(1)], vec![full(rest - 1)], vec![full(most)]];
    runs.chain(ends.into_iter().map(move |end| [vec![full(most); 2], end].concat()))
}

/// At every place of the chart the last error that has it and those beside it: of records, cheap ones seen to exactly; and where errors are large,
/// so that the chart's place is above the true one, of records and totals, some of them seen to exactly.
pub fn edges(rule: &Rule, r: &mut Random) -> Vec<Case> {
    let mut list = Vec::new();
    let turn = r.below(5);
    for k in 0..PLACES {
        let q = if k == 0 { r.within(1, 3) } else { r.within(0, 3) };
        let d = (PLACES * q + k) as u32;
        let (n, max) = (SAMPLES - r.next() % (SAMPLES / 2), r.pick(&[1, 3, 7]));
        let edge = rule.edge(p_of(n, max), d);
        list.extend([edge - 1, edge, edge + 1].map(|e| exactly(figures(e, n, max))));
        for (n, max) in [(SAMPLES - r.next() % 1_000_000, max_of(r.within(8, 12))), large(r)] {
            let edge = rule.edge(p_of(n, max), d);
            if edge > 1 && edge < u128::from(MOST_ERROR) {
                let cases = [edge, edge - 1, edge + 1].map(|e| exactly(figures(e, n, max)));
                let seen = k % 5 == turn;
                list.extend(cases.into_iter().enumerate().map(|(i, case)| Case { exact: seen && i == 0, ..case }));
            }
        }
    }
    list
}

/// A long series.
fn large(r: &mut Random) -> (u64, u32) {
    (MOST_TOTAL >> r.within(0, 12), max_of(r.within(1, 12)))
}

/// The last error that truly has a D, and the next, where the two are far from the chart's.
pub fn true_edges(rule: &Rule, r: &mut Random, count: usize) -> Vec<Case> {
    let mut list = Vec::new();
    for _ in 0..count {
        let (n, max) = (SAMPLES - r.next() % 1_000_000, max_of(r.within(10, 12)));
        let d = r.within(1, 1_500) as u32;
        let edge = rule.true_edge(p_of(n, max), d);
        list.extend([edge, edge + 1].map(|e| exactly(figures(e, n, max))));
    }
    list
}

/// Ratios that are a power of ten, or an entry of the chart, exactly; and those beside it.
pub fn whole(rule: &Rule, r: &mut Random) -> Vec<Case> {
    let mut list = Vec::new();
    let mut about = |e: u128, n: u64, max: u32| {
        let lawful = |e: &u128| (1..=p_of(n, max).min(u128::from(MOST_ERROR))).contains(e);
        list.extend([e - 1, e, e + 1].into_iter().filter(lawful).flat_map(|e| both(figures(e, n, max))));
    };
    for (q, depth) in (0..=13).flat_map(|q| (1..=12).map(move |depth| (q, depth))) {
        let (m, max) = (1 + r.next() % (MOST_TOTAL / ten(q) as u64), max_of(depth));
        let m = m.min((u128::from(MOST_ERROR) / p_of(1, max)) as u64);
        about(p_of(m, max), m * ten(q) as u64, max);
        let n = MOST_TOTAL - r.next() % MOST_TOTAL;
        about((p_of(n, max) / ten(q + 3)).max(1), n, max);
    }
    for k in 0..PLACES {
        let entry = rule.entry(k) as u64;
        about(SCALE, entry, 1);
        // as small as it can be made: common factors of the entry and of what is scaled
        for max in [255, 1_023, 4_095] {
            let by = [30, 15, 12, 10, 9, 6, 5]
                .into_iter()
                .find(|by| entry % by == 0 && p_of(1, max) * SCALE % u128::from(*by) == 0);
            if let Some(by) = by {
                about(p_of(1, max) * SCALE / u128::from(by), entry / by, max);
            }
        }
    }
    list
}

/// Any case: most of them near where the answer changes, some refused. One in a thousand is seen to exactly.
pub fn any(rule: &Rule, r: &mut Random) -> Case {
    let depth = r.within(1, 12);
    let lent = match r.below(12) {
        0 => {
            let figures = sound(r, depth as u32);
            Lent::Run(numbered(r, &[figures]))
        }
        1 => {
            let list = near_the_limit(r);
            Lent::Run(numbered(r, &list))
        }
        2 => Lent::Total(spoilt_total(rule, r)),
        3 => {
            let run = any_run(rule, r, depth);
            let (at, kind) = (r.below(run.len()), r.below(KINDS + MISNUMBERED));
            Lent::Run(damaged(&run, at, kind))
        }
        4..=7 => Lent::Run(any_run(rule, r, depth)),
        _ => Lent::Total(any_total(rule, r, depth)),
    };
    Case { lent, exact: r.once_in(1_000) }
}

fn any_total(rule: &Rule, r: &mut Random, depth: usize) -> Figures {
    let (n, max) = (1 + r.bits(44), max_of(depth));
    figures(error(rule, r, n, max), n, max)
}

fn any_run(rule: &Rule, r: &mut Random, depth: usize) -> Vec<Record> {
    let count = match r.below(100) {
        0 => r.within(100, 1_000),
        1..=9 => r.within(13, 40),
        10..=59 => r.within(2, 12),
        _ => 1,
    };
    let counts: Vec<u64> = (0..count).map(|_| 1 + r.bits(28)).collect();
    let max = max_of(depth);
    let e = error(rule, r, counts.iter().sum(), max);
    let list = shared(r, e, &counts, max);
    numbered(r, &list)
}

/// An error of so many samples: 1 and seldom 0, small, large, any, or where the ratio is a power of ten, a true power or an edge of the chart; or one
/// beside it.
fn error(rule: &Rule, r: &mut Random, n: u64, max: u32) -> u128 {
    let p = p_of(n, max);
    let most = p.min(u128::from(MOST_ERROR));
    let d = |e: u128| (1_000.0 * (p as f64 / e as f64).log10()) as usize;
    let d = r.within(d(most), d(1)) as u32;
    let e = match r.below(9) {
        0 => return if r.once_in(8) { 0 } else { 1 },
        1 => u128::from(r.bits(10)),
        2 => most - u128::from(r.bits(10)).min(most),
        3 => p / ten(r.within(0, 20)),
        4 => u128::from(r.next()) % most,
        5 => (p as f64 / 10f64.powf(f64::from(d) / 1_000.0)) as u128,
        _ => rule.edge(p, d),
    };
    (e + r.below(5) as u128).saturating_sub(2).clamp(1, most)
}

/// The error shared among planes of so many samples each, as far as each has room for it.
fn shared(r: &mut Random, mut e: u128, counts: &[u64], max: u32) -> Vec<Figures> {
    let mut room: u128 = counts.iter().map(|n| p_of(*n, max)).sum();
    let mut share = |n: &u64| {
        room -= p_of(*n, max);
        let (least, most) = (e.saturating_sub(room), p_of(*n, max).min(e));
        let part = least + u128::from(r.next()) % (most - least + 1);
        e -= part;
        figures(part, *n, max)
    };
    counts.iter().map(&mut share).collect()
}

fn spoilt_total(rule: &Rule, r: &mut Random) -> Figures {
    let depth = r.within(1, 12);
    let total = any_total(rule, r, depth);
    match r.below(KINDS + 3) {
        0 => Figures { n_pixels: MOST_TOTAL + 1 + r.bits(20), ..total },
        1 => Figures { n_pixels: MOST_TOTAL, sq_err: (MOST_ERROR + 2 + r.bits(20)) as f64, ..total },
        2 => Figures { n_pixels: r.next(), ..total },
        kind => spoilt(&total, kind - 3),
    }
}
