//! The same runs through `RowFed`, which owns state and scratch: nothing can be altered there, and no scratch is too short.

use crate::rows_cases::Case;
use crate::rows_model::{Model, Step};
use crate::rows_rule::{Begin, Feed, Held, RIGHT, TAPS};
use fuavelino::{Kernel, Plane, Refusal, RowFed, Sample, Shape};

/// One of either sample width, if it was begun.
#[derive(Default)]
struct Fed {
    bytes: Option<RowFed<u8>>,
    words: Option<RowFed<u16>>,
}

/// What a call said: its answer, and the pair where it gives one.
type Said = (u8, Option<[u64; 2]>);

/// How many calls agree, if all of them do.
pub fn agrees(case: &Case) -> Result<u64, String> {
    let start = Held { numbers: [0; 6], kernel: [0; TAPS], sums: [0; 3] };
    let mut models = [Model::new(RIGHT, start), Model::new(RIGHT, start)];
    let (mut fed, mut wide, mut calls) = (Fed::default(), false, 0);
    for (at, step) in case.steps.iter().enumerate() {
        if let Step::Begin(Begin { wide: next, .. }) | Step::Feed(Feed { wide: next, .. }) = step {
            wide = *next;
        }
        let call = unbounded(step);
        let said = if wide { said(&mut fed.words, &call, |s| s) } else { said(&mut fed.bytes, &call, |s| s as u8) };
        let model = &mut models[usize::from(wide)];
        if let (Some((said, numbers)), Some(left)) = (said, call.as_ref().and_then(|call| model.step(call))) {
            let [width, height, depth, _, rows, scored] = left.held.numbers;
            if (said, numbers) != ((left.answer, left.pair), [width, height, depth, rows, scored]) {
                return Err(format!("call {}: RowFed says {:?} and is {:?}, not {}", at, said, numbers, left.answer));
            }
            calls += 1;
        }
    }
    Ok(calls)
}

/// The call with scratch that is never too short. What a caller may alter elsewhere is out of reach here.
fn unbounded(step: &Step) -> Option<Step> {
    let places = usize::MAX;
    match step {
        Step::Begin(begin) => Some(Step::Begin(Begin { places, ..begin.clone() })),
        Step::Feed(feed) => Some(Step::Feed(Feed { places, ..feed.clone() })),
        Step::Finish(_) => Some(Step::Finish(places)),
        Step::Alter(_) => None,
    }
}

/// What a call said, and the numbers afterwards, if there was or is a `RowFed` to ask.
fn said<T: Sample>(fed: &mut Option<RowFed<T>>, call: &Option<Step>, narrow: fn(u16) -> T) -> Option<(Said, [u64; 5])> {
    let said = match call.as_ref()? {
        Step::Begin(begin) => begun(fed, begin).map(|()| None),
        Step::Feed(feed) => {
            let samples = [0, 1].map(|i| feed.samples[i].iter().map(|s| narrow(*s)).collect::<Vec<T>>());
            let [a, b] = [0, 1].map(|i| Plane { data: &samples[i][..], stride: feed.strides[i] });
            fed.as_mut()?.feed(a, b, feed.rows).map(|()| None)
        }
        _ => fed.as_mut()?.finish().map(|pair| Some([pair.ssim.to_bits(), pair.cs.to_bits()])),
    };
    let said = said.map_or_else(|refusal| (refusal.number(), None), |pair| (0, pair));
    let numbers = fed.as_ref().map_or([0; 5], |fed| {
        let Shape { width, height, bit_depth } = fed.shape();
        [width, height, bit_depth as usize, fed.received(), fed.scored()].map(|n| n as u64)
    });
    Some((said, numbers))
}

fn begun<T: Sample>(fed: &mut Option<RowFed<T>>, begin: &Begin) -> Result<(), Refusal> {
    let shape = Shape { width: begin.width, height: begin.height, bit_depth: begin.depth };
    let kernel = Kernel::from_taps(begin.kernel.clone());
    match fed {
        Some(fed) => fed.begin_again(shape, &kernel),
        None => RowFed::begin(shape, &kernel).map(|new| *fed = Some(new)),
    }
}
