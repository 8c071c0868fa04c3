//! The calls of row-fed SSIM: through the bindings, which lend a state as one, and through the exports below them, which lend each part of it by itself.
//! All that is lent lies between fences, with noise beside it, and goes to another place at each call.

use crate::family::number;
use crate::fenced::{Fenced, Side};
use crate::rows_rule::{Begin, Feed, Held, TAPS};
use fuavelino::no_alloc::{self, RowState};
use fuavelino::{Pair, Plane, Sample, Shape};
use std::os::raw::c_void;

/// A pair's places before a call, which must be so after a refusal.
pub const BEFORE: [u64; 2] = [0x7FF4_DEAD_BEEF_0003, 0xFFF4_DEAD_BEEF_0004];

/// Declares the exports of both sample widths.
macro_rules! exports {
    ($($begin:ident $feed:ident)*) => {
        extern "C" {
            $(fn $begin(
                width: usize,
                height: usize,
                depth: u32,
                kernel: *const u16,
                taps: usize,
                scratch: *mut i64,
                places: usize,
                numbers: *mut u64,
                held: *mut u16,
                sums: *mut u64,
            ) -> u8;
            fn $feed(
                a: *const c_void,
                a_len: usize,
                b: *const c_void,
                b_len: usize,
                stride_a: usize,
                stride_b: usize,
                rows: usize,
                scratch: *mut i64,
                places: usize,
                numbers: *mut u64,
                held: *const u16,
                sums: *mut u64,
            ) -> u8;)*
            fn fuavelino_rows_finish(
                scratch: *mut i64,
                places: usize,
                numbers: *const u64,
                held: *const u16,
                sums: *const u64,
                ssim: *mut u64,
                cs: *mut u64,
            ) -> u8;
        }
    };
}

exports!(fuavelino_rows_begin8 fuavelino_rows_feed8 fuavelino_rows_begin16 fuavelino_rows_feed16);

/// Where what is lent lies, and whether the state is lent in parts, to the exports.
#[derive(Clone, Copy, Debug)]
pub struct How {
    pub side: Side,
    pub parts: bool,
}

/// What a call answered, and left of the state and of a pair's places.
pub struct Found {
    pub answer: u8,
    pub held: Held,
    pub pair: [u64; 2],
}

/// A place for each thing that is lent.
pub struct Desk {
    scratch: Fenced,
    kernel: Fenced,
    planes: [Fenced; 2],
    state: Fenced,
    parts: [Fenced; 3],
    pair: [Fenced; 2],
}

impl Desk {
    pub fn new() -> Desk {
        let one = Fenced::new;
        Desk {
            scratch: one(),
            kernel: one(),
            planes: [one(), one()],
            state: one(),
            parts: [one(), one(), one()],
            pair: [one(), one()],
        }
    }

    pub fn begin(&mut self, how: How, begin: &Begin, held: &Held, scratch: &mut [i64]) -> Result<Found, String> {
        let lent = self.scratch.lend(scratch, how.side);
        let kernel = self.kernel.lend(&begin.kernel, how.side);
        let (width, height, depth) = (begin.width, begin.height, begin.depth);
        let found = if how.parts {
            let call = if begin.wide { fuavelino_rows_begin16 } else { fuavelino_rows_begin8 };
            let (k, taps, s, places) = (kernel.as_ptr(), kernel.len(), lent.as_mut_ptr(), lent.len());
            // SAFETY: each pointer goes with the count of its own slice, and the state's parts have so many places as they must.
            in_parts(&mut self.parts, how.side, held, |[numbers, held, sums]| unsafe {
                call(width, height, depth, k, taps, s, places, numbers.cast(), held.cast(), sums.cast())
            })
        } else {
            let call = if begin.wide { no_alloc::rows_begin::<u16> } else { no_alloc::rows_begin::<u8> };
            let shape = Shape { width, height, bit_depth: depth };
            as_one(&mut self.state, how.side, held, |state| number(call(shape, kernel, lent, state)))
        };
        if *kernel != begin.kernel[..] {
            return Err("the lent kernel was altered".to_string());
        }
        scratch.copy_from_slice(lent);
        self.seen(found)
    }

    pub fn feed(&mut self, how: How, feed: &Feed, held: &Held, scratch: &mut [i64]) -> Result<Found, String> {
        if feed.wide {
            self.feed_of(how, feed, held, scratch, |s| s)
        } else {
            self.feed_of(how, feed, held, scratch, |s| s as u8)
        }
    }

    fn feed_of<T: Sample + PartialEq>(
        &mut self,
        how: How,
        feed: &Feed,
        held: &Held,
        scratch: &mut [i64],
        narrow: fn(u16) -> T,
    ) -> Result<Found, String> {
        let samples = [0, 1].map(|i| feed.samples[i].iter().map(|s| narrow(*s)).collect::<Vec<T>>());
        let lent = self.scratch.lend(scratch, how.side);
        let [first, second] = &mut self.planes;
        let [a, b] = [&*first.lend(&samples[0], how.side), &*second.lend(&samples[1], how.side)];
        let found = if how.parts {
            let call = if feed.wide { fuavelino_rows_feed16 } else { fuavelino_rows_feed8 };
            let (s, places, [one, other]) = (lent.as_mut_ptr(), lent.len(), feed.strides);
            let (x, i, y, j) = (a.as_ptr().cast(), a.len(), b.as_ptr().cast(), b.len());
            // SAFETY: each pointer goes with the count of its own slice, and the state's parts have so many places as they must.
            in_parts(&mut self.parts, how.side, held, |[numbers, held, sums]| unsafe {
                call(x, i, y, j, one, other, feed.rows, s, places, numbers.cast(), held.cast(), sums.cast())
            })
        } else {
            let [a, b] = [(a, 0), (b, 1)].map(|(data, i)| Plane { data, stride: feed.strides[i] });
            as_one(&mut self.state, how.side, held, |state| number(no_alloc::rows_feed(a, b, feed.rows, lent, state)))
        };
        if *a != samples[0][..] || *b != samples[1][..] {
            return Err("a plane was altered".to_string());
        }
        scratch.copy_from_slice(lent);
        self.seen(found)
    }

    pub fn finish(&mut self, how: How, held: &Held, scratch: &mut [i64]) -> Result<Found, String> {
        let lent = self.scratch.lend(scratch, how.side);
        let [first, second] = &mut self.pair;
        let found = if how.parts {
            let (ssim, cs) = (first.lend(&BEFORE[..1], how.side), second.lend(&BEFORE[1..], how.side));
            let (s, places, x, y) = (lent.as_mut_ptr(), lent.len(), ssim.as_mut_ptr(), cs.as_mut_ptr());
            // SAFETY: the pointer goes with the count of its slice, and the state's parts and both results have so many places as they must.
            let found = in_parts(&mut self.parts, how.side, held, |[numbers, held, sums]| unsafe {
                fuavelino_rows_finish(s, places, numbers.cast(), held.cast(), sums.cast(), x, y)
            });
            Found { pair: [ssim[0], cs[0]], ..found }
        } else {
            let [ssim, cs] = BEFORE.map(f64::from_bits);
            let pair = &mut first.lend(&[Pair { ssim, cs }], how.side)[0];
            let found =
                as_one(&mut self.state, how.side, held, |state| number(no_alloc::rows_finish(lent, state, pair)));
            Found { pair: [pair.ssim.to_bits(), pair.cs.to_bits()], ..found }
        };
        scratch.copy_from_slice(lent);
        self.seen(found)
    }

    /// That nothing was written beside what was lent.
    fn seen(&mut self, found: Found) -> Result<Found, String> {
        let Desk { scratch, kernel, planes, state, parts, pair } = self;
        let [numbers, held, sums] = parts;
        let [a, b] = planes;
        let [ssim, cs] = pair;
        let all = [
            ("the scratch", scratch),
            ("the lent kernel", kernel),
            ("the first plane", a),
            ("the second plane", b),
            ("the state", state),
            ("the numbers", numbers),
            ("the held kernel", held),
            ("the sums", sums),
            ("the score", ssim),
            ("the contrast", cs),
        ];
        for (what, place) in all {
            if !place.kept() {
                return Err(format!("wrote beside {}", what));
            }
        }
        Ok(found)
    }
}

/// Lends a state as the bindings have it.
fn as_one(place: &mut Fenced, side: Side, held: &Held, call: impl FnOnce(&mut RowState) -> u8) -> Found {
    let Held { numbers, kernel, .. } = *held;
    let state = &mut place.lend(&[RowState { numbers, kernel, sums: held.sums() }], side)[0];
    let answer = call(state);
    let RowState { numbers, kernel, sums } = *state;
    Found { answer, held: Held { numbers, kernel, sums: sums.map(f64::to_bits) }, pair: BEFORE }
}

/// Lends the three parts of a state, each at a place of its own.
fn in_parts(places: &mut [Fenced; 3], side: Side, held: &Held, call: impl FnOnce([*mut c_void; 3]) -> u8) -> Found {
    let [first, second, third] = places;
    let numbers = first.lend(&held.numbers, side);
    let kernel = second.lend(&held.kernel, side);
    let sums = third.lend(&held.sums, side);
    let answer = call([numbers.as_mut_ptr().cast(), kernel.as_mut_ptr().cast(), sums.as_mut_ptr().cast()]);
    let mut left = Held { numbers: [0; 6], kernel: [0; TAPS], sums: [0; 3] };
    left.numbers.copy_from_slice(numbers);
    left.kernel.copy_from_slice(kernel);
    left.sums.copy_from_slice(sums);
    Found { answer, held: left, pair: BEFORE }
}
