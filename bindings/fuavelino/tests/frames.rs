//! The frame functions of those who come from av-metrics: what they say where it gave infinity or not a number.

use fuavelino::video::psnr::calculate_frame_psnr;
use fuavelino::video::psnr_hvs::calculate_frame_psnr_hvs;
use fuavelino::video::ssim::{calculate_frame_msssim, calculate_frame_ssim, calculate_frame_ssim_with};
use fuavelino::video::{
    psnr, psnr_hvs, ssim, ChromaSampling, Field, Frame, MetricsError, PlanarMetrics, Plane, PlaneConfig,
};
use fuavelino::{PlaneKind, PsnrMetrics, Refusal, Sample, Scratch, Shape};

const SIDE: usize = 32;
const EVERY: [ChromaSampling; 4] =
    [ChromaSampling::Cs420, ChromaSampling::Cs422, ChromaSampling::Cs444, ChromaSampling::Cs400];

fn plane<T>(data: &[T]) -> Plane<'_, T> {
    Plane { data, cfg: PlaneConfig { width: SIDE, height: SIDE, stride: SIDE } }
}

fn frame<T: Copy>(data: &[T]) -> Frame<'_, T> {
    Frame { planes: [plane(data); 3] }
}

fn each<T: Sample>(
    a: &Frame<'_, T>,
    b: &Frame<'_, T>,
    depth: usize,
    sampling: ChromaSampling,
) -> [Result<PlanarMetrics, MetricsError>; 4] {
    [
        calculate_frame_psnr(a, b, depth, sampling),
        calculate_frame_ssim(a, b, depth, sampling),
        calculate_frame_msssim(a, b, depth, sampling),
        calculate_frame_psnr_hvs(a, b, depth, sampling),
    ]
}

/// A picture with some life in it.
fn lively(seed: usize) -> Vec<u8> {
    (0..SIDE * SIDE).map(|i| (i * (7 + seed) % 251) as u8 ^ (i / 29) as u8).collect()
}

#[test]
fn identical_frames_are_100() {
    for value in [0u8, 90, 255] {
        let same = vec![value; SIDE * SIDE];
        for said in EVERY.iter().flat_map(|sampling| each(&frame(&same), &frame(&same), 8, *sampling)) {
            let figures = said.unwrap();
            // rounding may leave SSIM a little below 1, which is above 100 decibels
            assert!([figures.y, figures.u, figures.v, figures.avg].iter().all(|f| *f >= 100.0 && f.is_finite()));
        }
    }
}

/// Contrast turned over: av-metrics raises a negative number to a power, and its not-a-number is below no threshold.
#[test]
fn turned_over_is_no_number() {
    let a = lively(0);
    let b: Vec<u8> = a.iter().map(|s| 255 - s).collect();
    let [psnr, ssim, msssim, hvs] = each(&frame(&a), &frame(&b), 8, ChromaSampling::Cs444);
    assert_eq!(msssim, Err(MetricsError::NotANumber { field: Field::Y }));
    let good = |f: f64| f >= 20.0;
    for figures in [psnr, ssim, hvs].map(Result::unwrap) {
        assert!(![figures.y, figures.u, figures.v, figures.avg].iter().any(|f| good(*f)));
    }
}

/// PSNR-HVS of the three is an average: it lies among its planes, and is as far above av-metrics' figure, which multiplies, as is said.
#[test]
fn hvs_of_the_three_is_an_average() {
    let shape = Shape { width: SIDE, height: SIDE, bit_depth: 8 };
    let (a, b) = (lively(0), [lively(1), lively(2), lively(3)]);
    let other = Frame { planes: [plane(&b[0]), plane(&b[1]), plane(&b[2])] };
    let score = |i: usize, kind| {
        let [a, b] = [&a, &b[i]].map(|data| fuavelino::Plane { data: &data[..], stride: SIDE });
        fuavelino::psnr_hvs(a, b, shape, kind).unwrap()
    };
    let [y, u, v] = [score(0, PlaneKind::Y), score(1, PlaneKind::U), score(2, PlaneKind::V)];
    for (sampling, c, above) in
        [(ChromaSampling::Cs420, 0.25, 3.52), (ChromaSampling::Cs422, 0.5, 6.02), (ChromaSampling::Cs444, 1.0, 9.54)]
    {
        let figures = calculate_frame_psnr_hvs(&frame(&a), &other, 8, sampling).unwrap();
        let (low, high) = (figures.y.min(figures.u).min(figures.v), figures.y.max(figures.u).max(figures.v));
        assert!(low < figures.avg && figures.avg < high, "{:?}", figures);
        let (sum, weight) = (y + c * (u + v), 1.0 + 2.0 * c);
        assert_eq!(Some(figures.avg.to_bits()), psnr_hvs::decibels(sum / weight).map(f64::to_bits));
        let moved = figures.avg - psnr_hvs::decibels(weight * sum).unwrap();
        assert_eq!(format!("{:.2}", moved), format!("{:.2}", above));
    }
}

/// PSNR goes by the errors and the counts alone: of each plane, and of all samples together. The planes of a frame are unlike in size too.
#[test]
fn psnr_of_the_three_is_that_of_all_samples() {
    let (a, b) = (lively(0), [lively(1), lively(2), lively(3)]);
    let sized = |data, height| Plane { data, cfg: PlaneConfig { width: SIDE, height, stride: SIDE } };
    let heights = [SIDE, SIDE / 2, SIDE / 4];
    let frame = |data: [_; 3]| Frame { planes: [0, 1, 2].map(|i| sized(data[i], heights[i])) };
    let of = |i: usize| {
        let count = SIDE * heights[i];
        let error = a.iter().zip(&b[i]).take(count).map(|(x, y)| f64::from(x.abs_diff(*y)).powi(2)).sum();
        PsnrMetrics { sq_err: error, n_pixels: count as u64, sample_max: 255 }
    };
    let planes = [of(0), of(1), of(2)];
    let sq_err = planes.iter().map(|plane| plane.sq_err).sum();
    let all = PsnrMetrics { sq_err, n_pixels: planes.iter().map(|plane| plane.n_pixels).sum(), sample_max: 255 };
    let [y, u, v] = planes.map(|plane| psnr::decibels(plane).unwrap());
    assert!(y != u && u != v && y != v);
    let (one, other) = (frame([&a[..]; 3]), frame([&b[0][..], &b[1][..], &b[2][..]]));
    for sampling in &EVERY[..3] {
        let figures = calculate_frame_psnr(&one, &other, 8, *sampling);
        assert_eq!(figures, Ok(PlanarMetrics { y, u, v, avg: psnr::decibels(all).unwrap() }));
    }
    let gray = calculate_frame_psnr(&one, &other, 8, ChromaSampling::Cs400);
    assert_eq!(gray, Ok(PlanarMetrics { y, u: y, v: y, avg: y }));
}

#[test]
fn past_the_weight() {
    assert_eq!(ssim::decibels(1.0, 1.0), Some(100.0));
    assert_eq!(ssim::decibels(1.000_000_000_000_000_2, 1.0), Some(100.0));
    assert_eq!([1.1, f64::NAN, f64::INFINITY].map(|score| ssim::decibels(score, 1.0)), [None; 3]);
    assert_eq!(psnr_hvs::decibels(0.0), Some(100.0));
    assert_eq!(psnr_hvs::decibels(0.01), Some(20.0));
    assert_eq!([-1.0, f64::NAN, f64::INFINITY].map(psnr_hvs::decibels), [None; 3]);
    let record = PsnrMetrics { sq_err: 0.0, n_pixels: 3, sample_max: 255 };
    assert_eq!(psnr::decibels(record), Some(100.0));
    let bad = [f64::NAN, -1.0, f64::INFINITY].map(|sq_err| PsnrMetrics { sq_err, ..record });
    assert_eq!(bad.map(psnr::decibels), [None; 3]);
    // nothing was compared, so nothing is said to be identical
    assert_eq!(psnr::decibels(PsnrMetrics::default()), None);
    assert!(record.is_identical() && !PsnrMetrics::default().is_identical());
}

#[test]
fn without_chroma() {
    let a = lively(0);
    let b: Vec<u8> = a.iter().map(|s| s / 2 + 9).collect();
    let empty = Plane { data: &[][..], cfg: PlaneConfig { width: 0, height: 0, stride: 0 } };
    let other = Plane { data: &b[..3], cfg: PlaneConfig { width: 3, height: 1, stride: 3 } };
    let (x, y) = (Frame { planes: [plane(&a), empty, empty] }, Frame { planes: [plane(&b), other, empty] });
    let (gray, whole) =
        (each(&x, &y, 8, ChromaSampling::Cs400), each(&frame(&a), &frame(&b), 8, ChromaSampling::Cs444));
    for (gray, whole) in gray.iter().zip(whole) {
        let (gray, whole) = (gray.unwrap(), whole.unwrap());
        assert_eq!(gray.y.to_bits(), whole.y.to_bits());
        assert_eq!([gray.u, gray.v, gray.avg].map(f64::to_bits), [gray.y.to_bits(); 3]);
    }
    assert_eq!(
        calculate_frame_psnr(&x, &y, 8, ChromaSampling::Cs420),
        Err(MetricsError::InputMismatch { field: Field::U })
    );
}

#[test]
fn errors_name_their_plane() {
    let (a, words) = (lively(0), [4_096u16; SIDE * SIDE]);
    let (good, wide) = (frame(&a), frame(&words));
    let mut low = good;
    low.planes[2].cfg.height = SIDE - 1;
    for said in each(&good, &low, 8, ChromaSampling::Cs420) {
        assert_eq!(said, Err(MetricsError::InputMismatch { field: Field::V }));
    }
    let mut short = good;
    short.planes[1].data = &a[1..];
    for said in each(&good, &short, 8, ChromaSampling::Cs420) {
        assert_eq!(said, Err(MetricsError::Refused { field: Field::U, refusal: Refusal::Short }));
    }
    // 2^32 + 8 must not be taken for 8
    for depth in [0, 9, 16, usize::MAX, (u32::MAX as usize).wrapping_add(9)] {
        for said in each(&good, &good, depth, ChromaSampling::Cs420) {
            assert_eq!(said, Err(MetricsError::Refused { field: Field::Y, refusal: Refusal::Depth }));
        }
    }
    for said in each(&wide, &wide, 12, ChromaSampling::Cs420) {
        assert_eq!(said, Err(MetricsError::Refused { field: Field::Y, refusal: Refusal::Sample }));
    }
    let text = MetricsError::Refused { field: Field::U, refusal: Refusal::Short }.to_string();
    assert_eq!(text, "u: refusal 5: a plane has too few samples");
}

#[test]
fn lent_room_changes_nothing() {
    let mut scratch = Scratch::new();
    let (a, b) = (lively(0), lively(3));
    for sampling in EVERY {
        let kept = calculate_frame_ssim_with(&frame(&a), &frame(&b), 8, sampling, &mut scratch);
        assert_eq!(kept, calculate_frame_ssim(&frame(&a), &frame(&b), 8, sampling));
        assert!(kept.is_ok());
    }
}

#[test]
fn each_plane_has_its_own_stride() {
    let (a, b) = (lively(0), lively(2));
    let mut padded = Vec::new();
    b.chunks(SIDE).for_each(|row| padded.extend(row.iter().copied().chain([255; 5])));
    let wide = Plane { data: &padded[..], cfg: PlaneConfig { width: SIDE, height: SIDE, stride: SIDE + 5 } };
    let with = each(&frame(&a), &Frame { planes: [wide; 3] }, 8, ChromaSampling::Cs422);
    assert_eq!(with, each(&frame(&a), &frame(&b), 8, ChromaSampling::Cs422));
    assert!(with[0].is_ok() && with[1].is_ok() && with[3].is_ok());
}
