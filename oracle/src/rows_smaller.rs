//! Runs of row-fed SSIM made smaller, and shown.

use crate::model::needs;
use crate::plane::less;
use crate::rows_cases::Case;
use crate::rows_model::{Alter, Change, Step};
use crate::rows_rule::{places_needed, Begin, Feed, NAMES};
use crate::samples::runs;
use crate::ssim;

/// Simpler runs, the simplest first. Whatever is left out, the rule says what the rest comes to.
pub fn smaller(case: &Case) -> Vec<Case> {
    let mut list = fewer(&case.steps);
    list.extend(shaped(&case.steps));
    list.extend(quieter(&case.steps));
    list.into_iter().map(|steps| Case { steps, ..*case }).collect()
}

/// With no more than the first calls, or without one.
fn fewer(steps: &[Step]) -> Vec<Vec<Step>> {
    let mut list: Vec<Vec<Step>> = less(steps.len()).into_iter().map(|n| steps[..n].to_vec()).collect();
    for at in 0..steps.len() {
        list.push([&steps[..at], &steps[at + 1..]].concat());
    }
    list
}

/// Where there is one begin alone: with fewer columns, rows or taps, and as much over or short of the need of scratch as before.
fn shaped(steps: &[Step]) -> Vec<Vec<Step>> {
    let mut begins = steps.iter().filter_map(|step| match step {
        Step::Begin(begin) => Some(begin),
        _ => None,
    });
    let mut list = Vec::new();
    if let (Some(was), None) = (begins.next(), begins.next()) {
        for width in less(was.width).into_iter().filter(|width| *width > 0) {
            list.push(each(steps, &Begin { width, ..was.clone() }, was, |feed| narrower(feed, was.width, width)));
        }
        for at in (0..steps.len()).filter(|_| was.height > 1) {
            let lower = Begin { height: was.height - 1, ..was.clone() };
            let mut next = each(steps, &lower, was, |_| {});
            let cut = match &mut next[at] {
                Step::Feed(feed) => shorter(feed),
                _ => false,
            };
            list.extend(Some(next).filter(|_| cut));
        }
        for height in less(was.height).into_iter().filter(|height| *height > 0) {
            list.push(each(steps, &Begin { height, ..was.clone() }, was, |_| {}));
        }
        for kernel in ssim::smaller_kernels(&was.kernel) {
            list.push(each(steps, &Begin { kernel, ..was.clone() }, was, |_| {}));
        }
    }
    list
}

/// Every step under another begin, with this done to feeds.
fn each(steps: &[Step], begin: &Begin, was: &Begin, change: impl Fn(&mut Feed)) -> Vec<Step> {
    let need = |begin: &Begin| places_needed(begin.width as u64, begin.kernel.len() as u64);
    let moved = |places: usize| (places as u128 + need(begin)).saturating_sub(need(was)) as usize;
    let step = |step: &Step| match step {
        Step::Begin(_) => Step::Begin(Begin { places: moved(was.places), ..begin.clone() }),
        Step::Feed(feed) => {
            let mut next = Feed { places: moved(feed.places), ..feed.clone() };
            change(&mut next);
            Step::Feed(next)
        }
        Step::Finish(places) => Step::Finish(moved(*places)),
        other => other.clone(),
    };
    steps.iter().map(step).collect()
}

/// With the first columns alone, and the padding that there is.
fn narrower(feed: &mut Feed, was: usize, width: usize) {
    let lost = was - width;
    if feed.width != was || feed.strides.iter().any(|stride| *stride < was) {
        return;
    }
    feed.width = width;
    for (samples, stride) in feed.samples.iter_mut().zip(&mut feed.strides) {
        let row = |row: &[u16]| [&row[..width.min(row.len())], &row[was.min(row.len())..]].concat();
        *samples = samples.chunks(*stride).flat_map(row).collect();
        *stride -= lost;
    }
}

/// Without its last row, if it has one.
fn shorter(feed: &mut Feed) -> bool {
    if feed.rows == 0 {
        return false;
    }
    feed.rows -= 1;
    for (samples, stride) in feed.samples.iter_mut().zip(feed.strides) {
        samples.truncate(if feed.rows > 0 { needs(stride, feed.width, feed.rows) as usize } else { 0 });
    }
    true
}

/// With simpler samples, and no padding.
fn quieter(steps: &[Step]) -> Vec<Vec<Step>> {
    let mut list = Vec::new();
    for (at, feed) in steps.iter().enumerate().filter_map(|(at, step)| match step {
        Step::Feed(feed) => Some((at, feed)),
        _ => None,
    }) {
        let mut push = |next: Feed| {
            let mut steps = steps.to_vec();
            steps[at] = Step::Feed(next);
            list.push(steps);
        };
        for i in 0..2 {
            let all = |change: fn(u16) -> u16| {
                let mut next = feed.clone();
                next.samples[i].iter_mut().for_each(|s| *s = change(*s));
                next
            };
            [all(|_| 0), all(|s| s / 2)].into_iter().filter(|next| next.samples != feed.samples).for_each(&mut push);
        }
        if feed.strides.iter().any(|stride| *stride > feed.width) && feed.width > 0 {
            let rows = |i: usize| feed.samples[i].chunks(feed.strides[i].max(1)).take(feed.rows);
            let plain = |i: usize| rows(i).flat_map(|row| row.iter().take(feed.width).copied()).collect();
            push(Feed { strides: [feed.width; 2], samples: [plain(0), plain(1)], ..feed.clone() });
        }
    }
    list
}

pub fn show(case: &Case) -> String {
    let lines: Vec<String> =
        case.steps.iter().enumerate().map(|(at, step)| format!("\n    {}: {}", at, shown(step))).collect();
    format!("{} steps, lent by {:#X}{}", case.steps.len(), case.seed, lines.concat())
}

fn shown(step: &Step) -> String {
    let kind = |wide: bool| if wide { "words" } else { "bytes" };
    match step {
        Step::Begin(Begin { wide, width, height, depth, kernel, places }) => {
            let kernel = runs(kernel, u16::to_string).join(" ");
            let sides = format!("{} of {} by {}, depth {}", kind(*wide), width, height, depth);
            format!("begin {}, kernel {}, in {} places", sides, kernel, places)
        }
        Step::Feed(Feed { wide, rows, strides, samples, places, .. }) => {
            let plane = |i: usize| {
                let words = runs(&samples[i], u16::to_string).join(" ");
                format!("stride {}, {} samples: {}", strides[i], samples[i].len(), words)
            };
            let (a, b) = (plane(0), plane(1));
            format!("feed {} rows of {}, in {} places\n        a: {}\n        b: {}", rows, kind(*wide), places, a, b)
        }
        Step::Finish(places) => format!("finish in {} places", places),
        Step::Alter(alter) => altered(alter),
    }
}

fn altered(alter: &Alter) -> String {
    match alter {
        Alter::Number(i, Change::Add(n)) => format!("{} changes by {:+}", NAMES[*i], *n as i64),
        Alter::Number(i, Change::Set(n)) => format!("{} becomes {}", NAMES[*i], n),
        Alter::Tap(i, tap) => format!("place {} of the held kernel becomes {}", i, tap),
        Alter::Sum(i, bits) => format!("sum {} becomes {}", i, f64::from_bits(*bits)),
        Alter::Scratch(noise) => format!("scratch is filled: {:?}", noise),
        Alter::Keep => "the state is kept".to_string(),
        Alter::Lend => "the kept state is lent again".to_string(),
    }
}
