//! The exports of `libfuavelino.a`, declared once, and the only unsafe code of this crate.
//!
//! Each export is proved to read and write no place but those that it is lent, whatever the numbers beside them. What is left to its
//! caller (include/fuavelino.h) is what a slice or a reference of Rust is by itself: not null, aligned, as long as it says, and alone
//! where it is written.

#![allow(unsafe_code)]

use crate::locate::{Place, Tiles};
use crate::no_alloc::{RowState, MOST_TAPS};
use crate::plane::{Pair, Plane, PlaneKind, PsnrMetrics, Record, Shape};

extern "C" {
    fn fuavelino_version() -> u32;
    fn fuavelino_ssim_places(width: usize, taps: usize) -> usize;
    fn fuavelino_msssim_places(width: usize) -> usize;
    fn fuavelino_msssim_samples(width: usize, height: usize) -> usize;
    fn fuavelino_error_map_places(width: usize, height: usize) -> usize;
    fn fuavelino_kernel(height: usize, taps: *mut u16, places: usize, count: &mut usize) -> u8;
    fn fuavelino_rows_finish(
        scratch: *mut i64,
        places: usize,
        numbers: &[u64; 6],
        held: &[u16; MOST_TAPS],
        sums: &[f64; 3],
        ssim: &mut f64,
        cs: &mut f64,
    ) -> u8;
    fn fuavelino_root(x: f64, out: &mut f64) -> u8;
    fn fuavelino_series(
        records: *const Record,
        count: usize,
        sq_err: &mut f64,
        n: &mut u64,
        sample_max: &mut u32,
    ) -> u8;
    fn fuavelino_decibels(records: *const Record, count: usize, hundredths: &mut u32, identical: &mut u8) -> u8;
    fn fuavelino_total_decibels(sq_err: f64, n: u64, sample_max: u32, hundredths: &mut u32, identical: &mut u8) -> u8;
    fn fuavelino_combine_ssim(c: f64, y: f64, u: f64, v: f64, sum: &mut f64, weight: &mut f64) -> u8;
    fn fuavelino_combine_hvs(c: f64, y: f64, u: f64, v: f64, score: &mut f64) -> u8;
    fn fuavelino_forward(block: *const i32, block_len: usize, out: *mut i32, out_len: usize) -> u8;
    fn fuavelino_inverse(coefs: *const i32, coefs_len: usize, out: *mut i32, out_len: usize) -> u8;
}

#[inline]
pub fn version() -> u32 {
    // SAFETY: it takes nothing and reads nothing.
    unsafe { fuavelino_version() }
}

#[inline]
pub fn ssim_places(width: usize, taps: usize) -> usize {
    // SAFETY: it takes any numbers, and no place.
    unsafe { fuavelino_ssim_places(width, taps) }
}

#[inline]
pub fn msssim_places(width: usize) -> usize {
    // SAFETY: it takes any number, and no place.
    unsafe { fuavelino_msssim_places(width) }
}

#[inline]
pub fn msssim_samples(width: usize, height: usize) -> usize {
    // SAFETY: it takes any numbers, and no place.
    unsafe { fuavelino_msssim_samples(width, height) }
}

#[inline]
pub fn error_map_places(width: usize, height: usize) -> usize {
    // SAFETY: it takes any numbers, and no place.
    unsafe { fuavelino_error_map_places(width, height) }
}

#[inline]
pub fn kernel(height: usize, taps: &mut [u16], count: &mut usize) -> u8 {
    // SAFETY: any height is taken, the pointer and the count of places are those of one slice, lent to be written, and `count` is a place
    // of its own.
    unsafe { fuavelino_kernel(height, taps.as_mut_ptr(), taps.len(), count) }
}

#[inline]
pub fn rows_finish(scratch: &mut [i64], state: &RowState, out: &mut Pair) -> u8 {
    let RowState { numbers, kernel, sums } = state;
    let Pair { ssim, cs } = out;
    // SAFETY: the pointer and the count of places are those of one slice, lent to be written; any state is taken, its three parts are only
    // read, and both results are places of their own.
    unsafe { fuavelino_rows_finish(scratch.as_mut_ptr(), scratch.len(), numbers, kernel, sums, ssim, cs) }
}

#[inline]
pub fn root(x: f64, out: &mut f64) -> u8 {
    // SAFETY: any x is taken, and `out` is a place of its own.
    unsafe { fuavelino_root(x, out) }
}

#[inline]
pub fn series(records: &[Record], out: &mut PsnrMetrics) -> u8 {
    let PsnrMetrics { sq_err, n_pixels, sample_max } = out;
    // SAFETY: the pointer and the count are those of one slice, of C's layout; the three fields are places of their own.
    unsafe { fuavelino_series(records.as_ptr(), records.len(), sq_err, n_pixels, sample_max) }
}

#[inline]
pub fn decibels(records: &[Record], hundredths: &mut u32, identical: &mut u8) -> u8 {
    // SAFETY: the pointer and the count are those of one slice, of C's layout; both results are places of their own.
    unsafe { fuavelino_decibels(records.as_ptr(), records.len(), hundredths, identical) }
}

#[inline]
pub fn total_decibels(total: PsnrMetrics, hundredths: &mut u32, identical: &mut u8) -> u8 {
    let PsnrMetrics { sq_err, n_pixels, sample_max } = total;
    // SAFETY: any numbers are taken, and both results are places of their own.
    unsafe { fuavelino_total_decibels(sq_err, n_pixels, sample_max, hundredths, identical) }
}

#[inline]
pub fn combine_ssim(c: f64, y: f64, u: f64, v: f64, sum: &mut f64, weight: &mut f64) -> u8 {
    // SAFETY: any numbers are taken, and both results are places of their own.
    unsafe { fuavelino_combine_ssim(c, y, u, v, sum, weight) }
}

#[inline]
pub fn combine_hvs(c: f64, y: f64, u: f64, v: f64, score: &mut f64) -> u8 {
    // SAFETY: any numbers are taken, and `score` is a place of its own.
    unsafe { fuavelino_combine_hvs(c, y, u, v, score) }
}

#[inline]
pub fn forward(block: &[i32], out: &mut [i32]) -> u8 {
    // SAFETY: each pointer goes with the count of its own slice, of any length, and `out` is lent to be written.
    unsafe { fuavelino_forward(block.as_ptr(), block.len(), out.as_mut_ptr(), out.len()) }
}

#[inline]
pub fn inverse(coefs: &[i32], out: &mut [i32]) -> u8 {
    // SAFETY: as for `forward`.
    unsafe { fuavelino_inverse(coefs.as_ptr(), coefs.len(), out.as_mut_ptr(), out.len()) }
}

/// The exports of one sample width.
pub trait Width: Copy {
    fn check(a: Plane<'_, Self>, b: Plane<'_, Self>, shape: Shape, least: usize) -> u8;

    fn squared_error(
        a: Plane<'_, Self>,
        b: Plane<'_, Self>,
        shape: Shape,
        frame: u32,
        plane: u32,
        out: &mut Record,
    ) -> u8;

    fn better(
        original: Plane<'_, Self>,
        first: Plane<'_, Self>,
        second: Plane<'_, Self>,
        shape: Shape,
        sq_err: &mut f64,
        which: &mut u8,
    ) -> u8;

    fn first_difference(
        a: Plane<'_, Self>,
        b: Plane<'_, Self>,
        shape: Shape,
        differs: &mut u8,
        place: &mut Place,
    ) -> u8;

    fn error_map(a: Plane<'_, Self>, b: Plane<'_, Self>, shape: Shape, map: &mut [u64], tiles: &mut Tiles) -> u8;

    fn ssim(
        a: Plane<'_, Self>,
        b: Plane<'_, Self>,
        shape: Shape,
        kernel: &[u16],
        scratch: &mut [i64],
        out: &mut Pair,
    ) -> u8;

    fn plain_ssim(a: Plane<'_, Self>, b: Plane<'_, Self>, shape: Shape, kernel: &[u16], out: &mut Pair) -> u8;

    fn rows_begin(shape: Shape, kernel: &[u16], scratch: &mut [i64], state: &mut RowState) -> u8;

    fn rows_feed(a: Plane<'_, Self>, b: Plane<'_, Self>, rows: usize, scratch: &mut [i64], state: &mut RowState) -> u8;

    fn msssim(
        a: Plane<'_, Self>,
        b: Plane<'_, Self>,
        shape: Shape,
        scratch: &mut [i64],
        a32: &mut [u32],
        b32: &mut [u32],
        out: &mut [Pair; 5],
    ) -> u8;

    fn psnr_hvs(a: Plane<'_, Self>, b: Plane<'_, Self>, shape: Shape, kind: PlaneKind, out: &mut f64) -> u8;
}

/// Declares the exports of one width by their names, and has the width call them.
macro_rules! width {
    (
        $sample:ty, $check:ident, $squared_error:ident, $better:ident, $first_difference:ident, $error_map:ident, $ssim:ident,
        $plain_ssim:ident, $rows_begin:ident, $rows_feed:ident, $msssim:ident, $hvs_y:ident, $hvs_u:ident, $hvs_v:ident
    ) => {
        declare!($sample, $check: least: usize);
        declare!($sample, $squared_error: frame: u32, plane: u32, sq_err: &mut f64, n: &mut u64, sample_max: &mut u32);
        declare!($sample, $first_difference: differs: &mut u8, row: &mut usize, column: &mut usize);
        declare!($sample, $error_map: map: *mut u64, places: usize, across: &mut usize, down: &mut usize);
        declare!(
            $sample, $ssim: kernel: *const u16, taps: usize, scratch: *mut i64, places: usize, ssim: &mut f64, cs: &mut f64
        );
        declare!($sample, $plain_ssim: kernel: *const u16, taps: usize, ssim: &mut f64, cs: &mut f64);
        declare!(
            $sample, $msssim: scratch: *mut i64, places: usize, a32: *mut u32, a32_places: usize, b32: *mut u32,
            b32_places: usize, pairs: *mut Pair
        );
        extern "C" {
            fn $better(
                o: *const $sample,
                o_len: usize,
                a: *const $sample,
                a_len: usize,
                b: *const $sample,
                b_len: usize,
                width: usize,
                height: usize,
                stride_o: usize,
                stride_a: usize,
                stride_b: usize,
                depth: u32,
                sq_err: &mut f64,
                which: &mut u8,
            ) -> u8;
            fn $rows_begin(
                width: usize,
                height: usize,
                depth: u32,
                kernel: *const u16,
                taps: usize,
                scratch: *mut i64,
                places: usize,
                numbers: &mut [u64; 6],
                held: &mut [u16; MOST_TAPS],
                sums: &mut [f64; 3],
            ) -> u8;
            fn $rows_feed(
                a: *const $sample,
                a_len: usize,
                b: *const $sample,
                b_len: usize,
                stride_a: usize,
                stride_b: usize,
                rows: usize,
                scratch: *mut i64,
                places: usize,
                numbers: &mut [u64; 6],
                held: &[u16; MOST_TAPS],
                sums: &mut [f64; 3],
            ) -> u8;
        }
        declare!($sample, $hvs_y: score: &mut f64);
        declare!($sample, $hvs_u: score: &mut f64);
        declare!($sample, $hvs_v: score: &mut f64);

        impl Width for $sample {
            #[inline]
            fn check(a: Plane<'_, Self>, b: Plane<'_, Self>, shape: Shape, least: usize) -> u8 {
                lend!($check, a, b, shape, least)
            }

            #[inline]
            fn squared_error(
                a: Plane<'_, Self>,
                b: Plane<'_, Self>,
                shape: Shape,
                frame: u32,
                plane: u32,
                out: &mut Record,
            ) -> u8 {
                let Record { sq_err, n_pixels, sample_max, .. } = out;
                let number = lend!($squared_error, a, b, shape, frame, plane, sq_err, n_pixels, sample_max);
                if number == 0 {
                    (out.frame, out.plane) = (frame, plane);
                }
                number
            }

            #[inline]
            fn better(
                original: Plane<'_, Self>,
                first: Plane<'_, Self>,
                second: Plane<'_, Self>,
                shape: Shape,
                sq_err: &mut f64,
                which: &mut u8,
            ) -> u8 {
                let Shape { width, height, bit_depth } = shape;
                let [o, a, b] = [original, first, second].map(|plane| plane.data.as_ptr());
                let [i, j, k] = [original, first, second].map(|plane| plane.data.len());
                let [p, q, r] = [original, first, second].map(|plane| plane.stride);
                // SAFETY: each pointer goes with the count of its own slice, any shape and strides are taken, and both results are places of
                // their own.
                unsafe { $better(o, i, a, j, b, k, width, height, p, q, r, bit_depth, sq_err, which) }
            }

            #[inline]
            fn first_difference(
                a: Plane<'_, Self>,
                b: Plane<'_, Self>,
                shape: Shape,
                differs: &mut u8,
                place: &mut Place,
            ) -> u8 {
                let Place { row, column } = place;
                lend!($first_difference, a, b, shape, differs, row, column)
            }

            #[inline]
            fn error_map(
                a: Plane<'_, Self>,
                b: Plane<'_, Self>,
                shape: Shape,
                map: &mut [u64],
                tiles: &mut Tiles,
            ) -> u8 {
                let Tiles { across, down } = tiles;
                let places = map.len();
                lend!($error_map, a, b, shape, map.as_mut_ptr(), places, across, down)
            }

            #[inline]
            fn ssim(
                a: Plane<'_, Self>,
                b: Plane<'_, Self>,
                shape: Shape,
                kernel: &[u16],
                scratch: &mut [i64],
                out: &mut Pair,
            ) -> u8 {
                let (taps, places) = (kernel.len(), scratch.len());
                let Pair { ssim, cs } = out;
                lend!($ssim, a, b, shape, kernel.as_ptr(), taps, scratch.as_mut_ptr(), places, ssim, cs)
            }

            #[inline]
            fn plain_ssim(a: Plane<'_, Self>, b: Plane<'_, Self>, shape: Shape, kernel: &[u16], out: &mut Pair) -> u8 {
                let taps = kernel.len();
                let Pair { ssim, cs } = out;
                lend!($plain_ssim, a, b, shape, kernel.as_ptr(), taps, ssim, cs)
            }

            #[inline]
            fn rows_begin(shape: Shape, kernel: &[u16], scratch: &mut [i64], state: &mut RowState) -> u8 {
                let Shape { width, height, bit_depth } = shape;
                let (k, taps, s, places) = (kernel.as_ptr(), kernel.len(), scratch.as_mut_ptr(), scratch.len());
                let RowState { numbers, kernel, sums } = state;
                // SAFETY: each pointer goes with the count of its own slice, any shape is taken, and scratch and the three parts of the state
                // are lent to be written.
                unsafe { $rows_begin(width, height, bit_depth, k, taps, s, places, numbers, kernel, sums) }
            }

            #[inline]
            fn rows_feed(
                a: Plane<'_, Self>,
                b: Plane<'_, Self>,
                rows: usize,
                scratch: &mut [i64],
                state: &mut RowState,
            ) -> u8 {
                let (x, y, s) = (a.data.as_ptr(), b.data.as_ptr(), scratch.as_mut_ptr());
                let (i, j, places) = (a.data.len(), b.data.len(), scratch.len());
                let RowState { numbers, kernel, sums } = state;
                // SAFETY: each pointer goes with the count of its own slice, any strides, count of rows and state are taken, and scratch and
                // the state's numbers and sums are lent to be written.
                unsafe { $rows_feed(x, i, y, j, a.stride, b.stride, rows, s, places, numbers, kernel, sums) }
            }

            #[inline]
            fn msssim(
                a: Plane<'_, Self>,
                b: Plane<'_, Self>,
                shape: Shape,
                scratch: &mut [i64],
                a32: &mut [u32],
                b32: &mut [u32],
                out: &mut [Pair; 5],
            ) -> u8 {
                let (s, x, y) = (scratch.as_mut_ptr(), a32.as_mut_ptr(), b32.as_mut_ptr());
                let (i, j, k) = (scratch.len(), a32.len(), b32.len());
                // five pairs lie in memory as the ten doubles that the export writes
                lend!($msssim, a, b, shape, s, i, x, j, y, k, out.as_mut_ptr())
            }

            #[inline]
            fn psnr_hvs(a: Plane<'_, Self>, b: Plane<'_, Self>, shape: Shape, kind: PlaneKind, out: &mut f64) -> u8 {
                match kind {
                    PlaneKind::Y => lend!($hvs_y, a, b, shape, out),
                    PlaneKind::U => lend!($hvs_u, a, b, shape, out),
                    PlaneKind::V => lend!($hvs_v, a, b, shape, out),
                }
            }
        }
    };
}

/// Declares one export that is lent two planes, then what is named.
macro_rules! declare {
    ($sample:ty, $name:ident: $($place:ident: $kind:ty),*) => {
        extern "C" {
            fn $name(
                a: *const $sample,
                a_len: usize,
                b: *const $sample,
                b_len: usize,
                width: usize,
                height: usize,
                stride_a: usize,
                stride_b: usize,
                depth: u32,
                $($place: $kind),*
            ) -> u8;
        }
    };
}

/// Calls such an export: each slice is lent with its own length.
macro_rules! lend {
    ($name:ident, $a:ident, $b:ident, $shape:ident, $($value:expr),*) => {{
        let (x, y) = ($a.data.as_ptr(), $b.data.as_ptr());
        let (i, j, Shape { width, height, bit_depth }) = ($a.data.len(), $b.data.len(), $shape);
        // SAFETY: each pointer goes with the count of its own slice, any shape and strides are taken, and what the values name to be
        // written is lent for that by a `&mut` of the caller.
        unsafe { $name(x, i, y, j, width, height, $a.stride, $b.stride, bit_depth, $($value),*) }
    }};
}

width!(
    u8,
    fuavelino_check8,
    fuavelino_squared_error8,
    fuavelino_better8,
    fuavelino_first_difference8,
    fuavelino_error_map8,
    fuavelino_ssim8,
    fuavelino_plain_ssim8,
    fuavelino_rows_begin8,
    fuavelino_rows_feed8,
    fuavelino_msssim8,
    fuavelino_psnr_hvs_y8,
    fuavelino_psnr_hvs_u8,
    fuavelino_psnr_hvs_v8
);
width!(
    u16,
    fuavelino_check16,
    fuavelino_squared_error16,
    fuavelino_better16,
    fuavelino_first_difference16,
    fuavelino_error_map16,
    fuavelino_ssim16,
    fuavelino_plain_ssim16,
    fuavelino_rows_begin16,
    fuavelino_rows_feed16,
    fuavelino_msssim16,
    fuavelino_psnr_hvs_y16,
    fuavelino_psnr_hvs_u16,
    fuavelino_psnr_hvs_v16
);
