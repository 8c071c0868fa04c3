//! Every refusal, reached through the safe functions, with what a refused call leaves; and the published numbers of the rules.

use fuavelino::*;

const SHAPE: Shape = Shape { width: 16, height: 16, bit_depth: 8 };
const BEFORE: Pair = Pair { ssim: 0.125, cs: -7.5 };
const RECORD: Record = Record { sq_err: 25.0, n_pixels: 3, sample_max: 255, frame: 7, plane: 0 };

fn plane<T>(data: &[T], stride: usize) -> Plane<'_, T> {
    Plane { data, stride }
}

/// How many calls [`all`] makes.
const CALLS: usize = 11;

/// What each call that takes planes says: squared error, the better of two, first difference, error map, SSIM by both engines, MS-SSIM, PSNR-HVS of
/// each kind, and the check itself.
fn all<T: Sample>(a: Plane<'_, T>, b: Plane<'_, T>, shape: Shape) -> Vec<Result<(), Refusal>> {
    let mut scratch = Scratch::new();
    let kernel = Kernel::for_plane(shape.width, shape.height);
    let hvs = |kind| psnr_hvs(a, b, shape, kind).map(|_| ());
    vec![
        squared_error(a, b, shape, 7, 0).map(|_| ()),
        better(a, b, a, shape).map(|_| ()),
        first_difference(a, b, shape).map(|_| ()),
        error_map(a, b, shape).map(|_| ()),
        ssim(a, b, shape, &kernel, &mut scratch).map(|_| ()),
        plain_ssim(a, b, shape, &Kernel::from_taps(vec![64, 128, 64])).map(|_| ()),
        msssim(a, b, shape, &mut scratch).map(|_| ()),
        hvs(PlaneKind::Y),
        hvs(PlaneKind::U),
        hvs(PlaneKind::V),
        check(a, b, shape, 0),
    ]
}

#[test]
fn planes_are_taken() {
    let (bytes, words) = ([200u8; 256], [4_095u16; 256]);
    assert_eq!(all(plane(&bytes, 16), plane(&bytes, 16), SHAPE), [Ok(()); CALLS]);
    assert_eq!(all(plane(&words, 16), plane(&words, 16), Shape { bit_depth: 12, ..SHAPE }), [Ok(()); CALLS]);
}

/// The longest rows and the most of them, each row as far from the next as it may be; and one past each limit.
#[test]
fn planes_at_the_limits() {
    // zeros that nobody writes: no memory stands behind them
    let long = vec![0u8; MOST_STRIDE * (MOST_SIDE - 1) + 16];
    let (near, far) = (plane(&long, MOST_SIDE), plane(&long, MOST_STRIDE));
    for (width, height) in [(MOST_SIDE, 16), (16, MOST_SIDE)] {
        let shape = Shape { width, height, bit_depth: 8 };
        assert_eq!(all(near, far, shape), [Ok(()); CALLS]);
        assert_eq!(all(near, plane(&long, MOST_STRIDE + 1), shape), [Err(Refusal::Stride); CALLS]);
    }
    for (width, height) in [(MOST_SIDE + 1, 16), (16, MOST_SIDE + 1)] {
        assert_eq!(all(far, far, Shape { width, height, bit_depth: 8 }), [Err(Refusal::Size); CALLS]);
    }
}

#[test]
fn planes_are_refused_alike() {
    let (bytes, words) = ([200u8; 256], [4_095u16; 256]);
    let (a, w) = (plane(&bytes, 16), plane(&words, 16));
    let each = |refusal| [Err(refusal); CALLS];
    for bit_depth in [0, 9, 16, u32::MAX] {
        assert_eq!(all(a, a, Shape { bit_depth, ..SHAPE }), each(Refusal::Depth));
    }
    for bit_depth in [0, 8, 13, u32::MAX] {
        assert_eq!(all(w, w, Shape { bit_depth, ..SHAPE }), each(Refusal::Depth));
    }
    for side in [0, MOST_SIDE + 1, usize::MAX] {
        assert_eq!(all(a, a, Shape { width: side, ..SHAPE }), each(Refusal::Size));
        assert_eq!(all(a, a, Shape { height: side, ..SHAPE }), each(Refusal::Size));
    }
    for stride in [0, 15, MOST_STRIDE + 1, usize::MAX] {
        assert_eq!(all(a, plane(&bytes, stride), SHAPE), each(Refusal::Stride));
        assert_eq!(all(plane(&bytes, stride), a, SHAPE), each(Refusal::Stride));
    }
    for count in [0, 1, 255] {
        assert_eq!(all(plane(&bytes[..count], 16), a, SHAPE), each(Refusal::Short));
        assert_eq!(all(a, plane(&bytes[..count], 16), SHAPE), each(Refusal::Short));
    }
    assert_eq!(all(a, a, Shape { bit_depth: 7, ..SHAPE }), each(Refusal::Sample));
    assert_eq!(all(w, w, Shape { bit_depth: 11, ..SHAPE }), each(Refusal::Sample));
}

#[test]
fn padding_is_not_read() {
    // 17 by 16 with one place of padding, which holds what no sample of the depth may be
    let mut padded = vec![99u16; 17 * 16 - 1];
    let seen = vec![99u16; 256];
    padded.iter_mut().skip(16).step_by(17).for_each(|s| *s = u16::MAX);
    let shape = Shape { bit_depth: 10, ..SHAPE };
    assert_eq!(all(plane(&padded, 17), plane(&seen, 16), shape), [Ok(()); CALLS]);
    assert!(squared_error(plane(&padded, 17), plane(&seen, 16), shape, 7, 0).unwrap().is_identical());
}

#[test]
fn least_sides() {
    let bytes = [7u8; 256];
    let a = plane(&bytes, 16);
    for (width, height) in [(16, 15), (15, 16)] {
        let shape = Shape { width, height, bit_depth: 8 };
        assert_eq!(msssim(a, a, shape, &mut Scratch::new()), Err(Refusal::Side));
    }
    for (width, height) in [(7, 8), (8, 7)] {
        let shape = Shape { width, height, bit_depth: 8 };
        assert_eq!(psnr_hvs(a, a, shape, PlaneKind::V), Err(Refusal::Side));
        assert_eq!(check(a, a, shape, 8), Err(Refusal::Side));
        assert_eq!(check(a, a, shape, 7), Ok(()));
    }
}

#[test]
fn kernels() {
    let bytes = [7u8; 256];
    let a = plane(&bytes, 16);
    let asked = |taps: &[u16]| ssim(a, a, SHAPE, &Kernel::from_taps(taps.to_vec()), &mut Scratch::new()).map(|_| ());
    for taps in [&[64, 128, 64][..], &[256], &[1, 254, 1], &[1, 0, 254, 0, 1]] {
        assert_eq!(asked(taps), Ok(()));
    }
    for taps in [&[][..], &[128, 0, 128], &[128, 128], &[257], &[63, 128, 65], &[0; 300], &[u16::MAX; 255]] {
        assert_eq!(asked(taps), Err(Refusal::Kernel));
    }
    // idle ends
    for taps in [&[0, 256, 0][..], &[0, 64, 128, 64, 0], &[0, 0, 1, 254, 1, 0, 0]] {
        assert_eq!(asked(taps), Err(Refusal::Kernel));
    }
}

/// An unlawful kernel leaves every place as it was. It comes before scratch that is too short, and after planes.
#[test]
fn idle_ends_change_nothing() {
    let (bytes, words) = ([7u8; 256], [7u16; 256]);
    let idle = [0, 64, 128, 64, 0];
    for places in [0, 6 * 16 * 8, 6 * 16 * 8 + 9] {
        let (mut sums, mut out) = (vec![5i64; places], BEFORE);
        let a = plane(&bytes, 16);
        assert_eq!(no_alloc::ssim(a, a, SHAPE, &idle, &mut sums, &mut out), Err(Refusal::Kernel));
        let a = plane(&words, 16);
        let shape = Shape { bit_depth: 9, ..SHAPE };
        assert_eq!(no_alloc::ssim(a, a, shape, &idle, &mut sums, &mut out), Err(Refusal::Kernel));
        assert_eq!(no_alloc::ssim(a, a, SHAPE, &idle, &mut sums, &mut out), Err(Refusal::Depth));
        assert_eq!((sums, out), (vec![5; places], BEFORE));
    }
}

#[test]
fn scratch_too_short_changes_nothing() {
    let bytes = [7u8; 256];
    let a = plane(&bytes, 16);
    let taps = [64, 128, 64];
    let (mut sums, mut out) = (vec![5i64; 6 * 16 * 4 - 1], BEFORE);
    assert_eq!(no_alloc::ssim(a, a, SHAPE, &taps, &mut sums, &mut out), Err(Refusal::Scratch));
    assert_eq!((sums, out), (vec![5; 6 * 16 * 4 - 1], BEFORE));
    let needed = [96 * 16, 256, 256];
    for short in 0..3 {
        let mut lens = needed;
        lens[short] -= 1;
        let (mut sums, mut x, mut y) = (vec![5i64; lens[0]], vec![6u32; lens[1]], vec![7u32; lens[2]]);
        let mut out = [BEFORE; 5];
        let said = no_alloc::msssim(a, a, SHAPE, &mut sums, &mut x, &mut y, &mut out);
        assert_eq!(said, Err(Refusal::Scratch));
        assert_eq!((sums, x, y), (vec![5; lens[0]], vec![6; lens[1]], vec![7; lens[2]]));
        assert_eq!(out, [BEFORE; 5]);
    }
}

#[test]
fn scratch_past_the_need_is_kept() {
    let bytes = [7u8; 256];
    let a = plane(&bytes, 16);
    let (mut sums, mut out) = (vec![5i64; 6 * 16 * 4 + 9], BEFORE);
    no_alloc::ssim(a, a, SHAPE, &[64, 128, 64], &mut sums, &mut out).unwrap();
    assert!(sums[..6 * 16 * 4].iter().all(|s| *s == 0) && sums[6 * 16 * 4..] == [5; 9]);
    assert_ne!(out, BEFORE);
}

#[test]
fn series_of_records() {
    let most = MOST_SAMPLES * 4_095 * 4_095;
    let full = Record { sq_err: most as f64, n_pixels: MOST_SAMPLES, sample_max: 4_095, frame: 7, plane: 0 };
    // numbered as they come
    let error = |run: &[Record]| {
        let run: Vec<Record> = (0..).zip(run).map(|(frame, record)| Record { frame, ..*record }).collect();
        series(&run).map(|total| total.sq_err)
    };
    // of planes with the largest error one and two fit, three do not
    assert_eq!(error(&[full]), Ok(4_501_400_872_550_400.0));
    assert_eq!(error(&[full; 2]), Ok(9_002_801_745_100_800.0));
    assert_eq!(error(&[full; 3]), Err(Refusal::Total));
    let rest = Record { sq_err: ((1u64 << 53) - 2 * most) as f64, ..full };
    assert_eq!(error(&[full, full, rest]), Ok(9_007_199_254_740_992.0));
    assert_eq!(error(&[full, full, rest, Record { sq_err: 1.0, ..full }]), Err(Refusal::Total));
    assert_eq!(error(&vec![RECORD; 65_536]), Ok(1_638_400.0));
    assert_eq!(error(&vec![RECORD; 65_537]), Err(Refusal::Record));
    let next = Record { plane: 1, ..RECORD };
    let bad = [f64::NAN, -0.0, 0.5, -1.0, f64::INFINITY, 195_076.0].map(|sq_err| Record { sq_err, ..next });
    for record in bad.into_iter().chain([
        Record { n_pixels: 0, ..next },
        Record { n_pixels: MOST_SAMPLES + 1, ..next },
        Record { sample_max: 254, ..next },
        Record { sample_max: 1_023, ..next },
        Record { plane: 3, ..next },
        Record { frame: 6, ..next },
        RECORD,
    ]) {
        let mut total = RECORD.metrics();
        assert_eq!(no_alloc::series(&[RECORD, record], &mut total), Err(Refusal::Record));
        assert_eq!(total, RECORD.metrics());
    }
    assert_eq!(series(&[RECORD, next]).map(|total| total.sq_err), Ok(50.0));
}

#[test]
fn values() {
    for x in [-0.0, -1.0, f64::NAN, f64::INFINITY] {
        let mut out = 3.0;
        assert_eq!(no_alloc::root(x, &mut out), Err(Refusal::Value));
        assert_eq!(out, 3.0);
        assert_eq!(root(x), Err(Refusal::Value));
    }
    let (mut out, mut back) = ([0; 64], [0; 64]);
    assert_eq!(forward(&[8; 64], &mut out), Ok(()));
    assert_eq!((out[0], &out[1..]), (65, &[0; 63][..]));
    assert_eq!(inverse(&out, &mut back), Ok(()));
    assert_eq!(back, [8; 64]);
    for call in [forward, inverse] {
        assert_eq!(call(&[0; 63], &mut out), Err(Refusal::Value));
        assert_eq!(call(&[0; 64], &mut [0; 65]), Err(Refusal::Value));
        assert_eq!(call(&[i32::MIN; 64], &mut out), Err(Refusal::Value));
        assert_eq!(call(&[], &mut []), Err(Refusal::Value));
    }
    assert_eq!(out[0], 65);
}

#[test]
fn combining() {
    for c in [-0.25, 1.000_000_1, f64::NAN, f64::INFINITY] {
        assert_eq!(combine_ssim(c, 1.0, 1.0, 1.0), Err(Refusal::Weight));
        assert_eq!(combine_hvs(c, 1.0, 1.0, 1.0), Err(Refusal::Weight));
    }
    let (mut sum, mut weight, mut score) = (3.0, 4.0, 5.0);
    let high = f64::MAX;
    assert_eq!(no_alloc::combine_ssim(1.0, high, high, 0.0, &mut sum, &mut weight), Err(Refusal::NotFinite));
    assert_eq!(no_alloc::combine_hvs(1.0, high, high, 0.0, &mut score), Err(Refusal::NotFinite));
    // 0 times an infinite sum is not a number
    assert_eq!(no_alloc::combine_hvs(0.0, 1.0, high, high, &mut score), Err(Refusal::NotFinite));
    assert_eq!((sum, weight, score), (3.0, 4.0, 5.0));
    // what would overflow if it were multiplied by 1 + 2c
    assert_eq!(combine_hvs(1.0, high, 0.0, 0.0), Ok(high / 3.0));
    assert_eq!(combine_hvs(-0.0, 1.0, 9.0, 9.0), Ok(1.0));
    assert_eq!(combine_ssim(-0.0, 1.0, 9.0, 9.0), Ok((1.0, 1.0)));
}

#[test]
fn heights() {
    let (mut taps, mut count) = ([5; 4], 6);
    assert_eq!(no_alloc::kernel(143, &mut taps, &mut count), Err(Refusal::Height));
    assert_eq!(no_alloc::kernel(143, &mut [], &mut count), Err(Refusal::Height));
    assert_eq!(no_alloc::kernel(144, &mut taps, &mut count), Err(Refusal::Scratch));
    assert_eq!((taps, count), ([5; 4], 6));
    assert_eq!(Kernel::charted(143), Err(Refusal::Height));
}

/// tests/rows.rs has all that makes a state impossible.
#[test]
fn states() {
    let bytes = [7u8; 256];
    let (a, shape) = (plane(&bytes, 16), Shape { height: 3, ..SHAPE });
    let mut fed = RowFed::begin(shape, &Kernel::from_taps(vec![64, 128, 64])).unwrap();
    assert_eq!(fed.feed(a, a, 4), Err(Refusal::State));
    assert_eq!(fed.feed(a, a, 2), Ok(()));
    assert_eq!(fed.finish(), Err(Refusal::State));
    let mut out = BEFORE;
    let never = no_alloc::RowState::default();
    assert_eq!(no_alloc::rows_finish(&mut [], &never, &mut out), Err(Refusal::State));
    assert_eq!(out, BEFORE);
}

#[test]
fn numbers_and_rules() {
    let every: Vec<Refusal> = (1..=15).filter_map(Refusal::from_number).collect();
    assert_eq!(every.iter().map(|r| r.number()).collect::<Vec<u8>>(), (1..=15).collect::<Vec<u8>>());
    assert_eq!([0, 16, 255].map(Refusal::from_number), [None; 3]);
    let said = Refusal::Sample.to_string();
    assert_eq!(said, "refusal 6: a visible sample is above the depth's largest");
    assert!(Refusal::Record.rule().ends_with(&format!("a plane number above {}", MOST_PLANE)));
}
