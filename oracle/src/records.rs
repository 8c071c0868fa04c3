//! Records of planes, with the numbers that say whose they are: how they are made, numbered, spoilt, made smaller and shown.

use crate::limits::SAMPLES;
use crate::plane::less;
use crate::random::Random;
use crate::samples::runs;
use fuavelino::{PsnrMetrics as Figures, Record};
use std::collections::BTreeSet;

/// A frame's number and a plane's.
pub type Whose = (u32, u32);

pub const MOST_RECORDS: usize = 65_536;
pub const MOST_ERROR: u64 = 1 << 53;

/// The last plane of the last frame, how many planes there are with it, and its place among them.
pub const LAST: Whose = (u32::MAX, 2);
const ALL: u64 = 3 << 32;
pub const LAST_PLACE: u64 = ALL - 1;

pub fn whose(r: &Record) -> Whose {
    (r.frame, r.plane)
}

pub fn of(figures: Figures, (frame, plane): Whose) -> Record {
    let Figures { sq_err, n_pixels, sample_max } = figures;
    Record { sq_err, n_pixels, sample_max, frame, plane }
}

/// All of a record, told apart by bits.
pub fn bits(r: &Record) -> (u64, u64, u32, u32, u32) {
    (r.sq_err.to_bits(), r.n_pixels, r.sample_max, r.frame, r.plane)
}

/// Of the planes of all frames, counted frame by frame, the one at this place.
pub fn at_place(place: u64) -> Whose {
    ((place / 3) as u32, (place % 3) as u32)
}

/// These figures as the planes of the first frame, of the second, and so on.
pub fn in_turn(figures: &[Figures]) -> Vec<Record> {
    figures.iter().zip(0..).map(|(figures, place)| of(*figures, at_place(place))).collect()
}

/// These figures under rising numbers of some kind.
pub fn numbered(r: &mut Random, figures: &[Figures]) -> Vec<Record> {
    figures.iter().zip(rising(r, figures.len())).map(|(figures, whose)| of(*figures, whose)).collect()
}

/// So many numbers that rise: all planes of frames, from the first, from any, to the last or about a power of two; one plane of frames; with small
/// gaps; a jump to the last; or far apart.
pub fn rising(r: &mut Random, count: usize) -> Vec<Whose> {
    let count = count as u64;
    let any = r.next() % (ALL - count);
    let about = 3 * r.pick(&[1 << 31, (1 << 32) / 3, 1 << 24, 1 << 16]) - r.next() % (count + 1);
    let from = |first: u64| (first..first + count).map(at_place).collect::<Vec<_>>();
    match r.below(10) {
        0 => from(0),
        1 => from(any),
        2 => from(ALL - count),
        3 => from(about),
        4 | 5 => {
            let (plane, some) = (r.below(3) as u32, r.next() % ((1 << 32) - count));
            let first = r.pick(&[0, 0, some, (1 << 32) - count]);
            (first..first + count).map(|frame| (frame as u32, plane)).collect()
        }
        6 => {
            let mut list = from(0);
            if let Some(end) = list.last_mut() {
                *end = (u32::MAX, r.below(3) as u32);
            }
            list
        }
        7 | 8 => {
            let mut place = r.pick(&[0, any / 9, about]);
            let most = r.pick(&[2, 3, 4, 9]);
            let mut next = || {
                place += 1 + r.below(most) as u64;
                at_place(place)
            };
            (0..count).map(|_| next()).collect()
        }
        _ => {
            let mut places = BTreeSet::new();
            while (places.len() as u64) < count {
                places.insert(r.next() % ALL);
            }
            places.into_iter().map(at_place).collect()
        }
    }
}

/// The figures of a sound record of this depth.
pub fn sound(r: &mut Random, depth: u32) -> Figures {
    let max = (1u64 << depth) - 1;
    let some = r.bits(28) + 1;
    let n = r.pick(&[1, 2, SAMPLES - 1, SAMPLES, some, some, some]);
    let most = n * max * max;
    let error = r.next() % (most + 1);
    let small = r.bits(20).min(most);
    let error = r.pick(&[0, 0, 1, most, most - 1, error, error, small]);
    Figures { sq_err: error as f64, n_pixels: n, sample_max: max as u32 }
}

/// The figures of a series whose error is 2^53, or a little off it.
pub fn near_the_limit(r: &mut Random) -> Vec<Figures> {
    let most = SAMPLES * 4_095 * 4_095 / r.pick(&[1, 1, 4, 9]);
    let mut left = MOST_ERROR + r.pick(&[0, 0, 1, 1, 2, 3, 1_000]) - r.pick(&[0, 0, 0, 1, 2]);
    let mut list = Vec::new();
    while left > 0 {
        let part = most - r.bits(40);
        let part = r.pick(&[most, part, part, 1]).min(left);
        list.push(Figures { sq_err: part as f64, n_pixels: SAMPLES, sample_max: 4_095 });
        left -= part;
    }
    // the small parts must not all come late
    for i in (1..list.len()).rev() {
        list.swap(i, r.below(i + 1));
    }
    list
}

/// The kinds of bad figures, made from sound ones: one more at the end for a max that is lawful, and not the first's.
pub const KINDS: usize = 24;

pub fn spoilt(figures: &Figures, kind: usize) -> Figures {
    let Figures { sq_err, n_pixels: n, sample_max: max } = *figures;
    let most = n as f64 * f64::from(max) * f64::from(max);
    let error = |sq_err: f64| Figures { sq_err, n_pixels: n, sample_max: max };
    let count = |n: u64| Figures { sq_err, n_pixels: n, sample_max: max };
    let largest = |sample_max: u32| Figures { sq_err, n_pixels: n, sample_max };
    match kind {
        0 => error(-1.0),
        1 => error(-0.0),
        2 => error(f64::NAN),
        3 => error(-f64::NAN),
        4 => error(f64::from_bits(0x7FF0_0000_0000_0001)),
        5 => error(f64::INFINITY),
        6 => error(f64::NEG_INFINITY),
        7 => error(0.5),
        8 => error(most - 0.5),
        9 => error(f64::from_bits(1)),
        10 => error(most + 1.0),
        11 => error(f64::from_bits(most.to_bits() + 1)),
        12 => error(9_007_199_254_740_994.0),
        13 => error(18_446_744_073_709_551_616.0 + 4_096.0),
        14 => error(f64::MAX),
        15 => Figures { sq_err: 0.0, ..count(0) },
        16 => count(SAMPLES + 1),
        17 => count(u64::MAX),
        18 => count(n + (1 << 32)),
        19 => largest(max + 1),
        20 => Figures { sq_err: 0.0, ..largest(max - 1) },
        21 => largest(8_191),
        22 => largest(u32::MAX),
        _ => Figures { sq_err: 0.0, ..largest(if max == 1 { 3 } else { max / 2 }) },
    }
}

/// The kinds of bad numbers: the first few are of a plane's, the others of the order.
pub const MISNUMBERED: usize = 13;

/// Gives a record about this place a number that the run must be refused for. A run of one has no order, and gets a bad plane.
pub fn misnumber(records: &mut [Record], at: usize, kind: usize) {
    let plane = records[at].plane;
    match kind {
        0 => records[at].plane = 3,
        1 => records[at].plane = u32::MAX,
        2 => records[at].plane = plane | 1 << 31,
        3 => records[at].plane = plane + 256,
        4 => records[at].plane = plane + 65_536,
        _ if records.len() == 1 => records[at].plane = 3 + kind as u32,
        _ => disorder(records, at.max(1), kind),
    }
}

/// Each puts the record at this place not above the one before it. Where there is nothing below that one, the two are made equal.
fn disorder(records: &mut [Record], at: usize, kind: usize) {
    let before = whose(&records[at - 1]);
    let (frame, plane) = match (kind, before) {
        (5, _) => before,
        (6, _) => {
            let after = whose(&records[at]);
            (records[at - 1].frame, records[at - 1].plane) = after;
            before
        }
        (7, (frame, _)) if frame > 0 => (frame - 1, 2),
        (8, (frame, plane)) if plane > 0 => (frame, plane - 1),
        // one that came long before
        (9, _) => whose(&records[(at - 1) / 2]),
        (10, _) => (0, 0),
        // as signed numbers they would rise
        (11, (frame, plane)) if frame >= 1 << 31 => (frame - (1 << 31), plane),
        (12, _) => {
            (records[at - 1].frame, records[at - 1].plane) = LAST;
            whose(&records[at])
        }
        _ => before,
    };
    (records[at].frame, records[at].plane) = (frame, plane);
}

/// Fewer records, all of them simpler, or one.
pub fn smaller(records: &[Record]) -> Vec<Vec<Record>> {
    let count = records.len();
    let mut list: Vec<_> =
        lower(count).into_iter().flat_map(|n| [records[..n].to_vec(), records[count - n..].to_vec()]).collect();
    let plain = Figures { sq_err: 0.0, n_pixels: 1, sample_max: 1 };
    let all = [records.iter().map(|r| of(plain, whose(r))).collect(), closer(records)];
    list.extend(all.into_iter().filter(|next: &Vec<Record>| !next.iter().map(bits).eq(records.iter().map(bits))));
    if count > 40 {
        return list;
    }
    for i in 0..count {
        list.push([&records[..i], &records[i + 1..]].concat());
        for next in smaller_record(&records[i]) {
            let mut records = records.to_vec();
            records[i] = next;
            list.push(records);
        }
    }
    list
}

/// The same under frames 0, 1 and so on, as many as there were: what is before, after or in one frame stays so.
fn closer(records: &[Record]) -> Vec<Record> {
    let frames: Vec<u32> = records.iter().map(|r| r.frame).collect::<BTreeSet<_>>().into_iter().collect();
    let rank = |frame: u32| frames.binary_search(&frame).map_or(frame, |rank| rank as u32);
    records.iter().map(|r| Record { frame: rank(r.frame), ..*r }).collect()
}

fn smaller_record(record: &Record) -> Vec<Record> {
    let mut list: Vec<Record> =
        smaller_figures(&record.metrics()).into_iter().map(|figures| of(figures, whose(record))).collect();
    list.extend(smaller_whose(whose(record)).into_iter().map(|whose| of(record.metrics(), whose)));
    list
}

pub fn smaller_whose((frame, plane): Whose) -> Vec<Whose> {
    let frames = lower(frame as usize).into_iter().map(|frame| (frame as u32, plane));
    let planes = lower(plane as usize).into_iter().map(|plane| (frame, plane as u32));
    frames.chain(planes).collect()
}

/// Smaller numbers, ever nearer to this one: a limit far from 0 and from its half is soon come to by them.
fn lower(n: usize) -> Vec<usize> {
    let mut list = vec![0, 1];
    list.extend((1..32).map(|by| n - (n >> by)).chain(n.checked_sub(1)));
    list.retain(|m| *m < n);
    list.dedup();
    list
}

pub fn smaller_figures(figures: &Figures) -> Vec<Figures> {
    let error = figures.sq_err;
    let errors = [0.0, 1.0, (error / 2.0).floor(), error - 1.0].into_iter().filter(|e| e.abs() < error.abs());
    let mut list: Vec<Figures> = errors.map(|sq_err| Figures { sq_err, ..*figures }).collect();
    list.extend(less(figures.n_pixels as usize).into_iter().map(|n| Figures { n_pixels: n as u64, ..*figures }));
    let maxima = less(figures.sample_max as usize).into_iter();
    list.extend(maxima.map(|max| Figures { sample_max: max as u32, ..*figures }));
    list
}

/// Each record with its numbers; where there are many, figures and numbers apart, so that what goes on alike is told in few words.
pub fn show(records: &[Record]) -> String {
    let figures = |r: &Record| show_figures(&r.metrics());
    let list = if records.len() > 12 {
        let mut list = runs(records, figures);
        list.push(format!("of (frame, plane) {}", show_numbers(records).join(", ")));
        list
    } else {
        records.iter().map(|r| format!("{} of frame {}, plane {}", figures(r), r.frame, r.plane)).collect()
    };
    format!("a series of {} records:\n    {}", records.len(), list.join("\n    "))
}

/// The numbers, those that follow each other by equal steps as the first and the last of them.
fn show_numbers(records: &[Record]) -> Vec<String> {
    let place = |r: &Record| 3 * i128::from(r.frame) + i128::from(r.plane);
    let step = |at: usize| place(&records[at + 1]) - place(&records[at]);
    let (mut list, mut first) = (Vec::new(), 0);
    while first < records.len() && list.len() < 40 {
        let mut last = first;
        while last + 1 < records.len() && step(last) == step(first) {
            last += 1;
        }
        let [from, to] = [first, last].map(|at| format!("({}, {})", records[at].frame, records[at].plane));
        list.push(if first == last { from } else { format!("{} to {} by equal steps", from, to) });
        first = last + 1;
    }
    list.extend((first < records.len()).then(|| "and more".to_string()));
    list
}

pub fn show_figures(r: &Figures) -> String {
    format!("{} ({:#018X}) {} {}", r.sq_err, r.sq_err.to_bits(), r.n_pixels, r.sample_max)
}
