//! The plain engine of SSIM: the pair of the other, bit for bit, under every kernel that is taken; no scratch; and each of its refusals from both sides.

use fuavelino::*;

const BEFORE: Pair = Pair { ssim: 0.125, cs: -7.5 };

fn bits(pair: Pair) -> [u64; 2] {
    [pair.ssim, pair.cs].map(f64::to_bits)
}

/// As many taps as can be, none of them 0.
fn longest() -> Kernel {
    Kernel::from_taps((0..no_alloc::MOST_TAPS).map(|i| if i == no_alloc::MOST_TAPS / 2 { 2 } else { 1 }).collect())
}

/// Kernels of one tap and of as many as can be, with a 0 between the ends, flat, steep, and all of the chart.
fn kernels() -> Vec<Kernel> {
    let mut hollow = vec![0; no_alloc::MOST_TAPS];
    (hollow[0], hollow[127], hollow[254]) = (1, 254, 1);
    let own = [vec![256], vec![64, 128, 64], vec![1, 254, 1], vec![127, 2, 127], vec![1, 0, 254, 0, 1]];
    let own = own.into_iter().chain([vec![10, 60, 116, 60, 10], vec![3, 0, 25, 200, 25, 0, 3], hollow]);
    let chart = (0..=2_160).filter_map(|height| Kernel::charted(height).ok());
    let every: Vec<Kernel> = own.map(Kernel::from_taps).chain([longest()]).chain(chart).collect();
    assert_eq!(every.len(), 9 + 14);
    every
}

/// Two planes with strides of their own, and padding that no sample of the depth may be.
fn drawn<T>(shape: Shape, make: fn(u64) -> T) -> [(Vec<T>, usize); 2] {
    [(0, shape.width + 3), (1, shape.width)].map(|(seed, stride): (u64, usize)| {
        let sample = |i: usize| {
            let value = (i as u64 * 2 + seed + 1).wrapping_mul(0x9E37_79B9_7F4A_7C15) >> (64 - shape.bit_depth);
            // a half is common to both, so that neither is all noise
            let common = (i as u64 / 2).wrapping_mul(0x9E37_79B9_7F4A_7C15) >> (64 - shape.bit_depth);
            (value + 3 * common) / 4
        };
        let at = |i: usize| if i % stride < shape.width { sample(i / stride * 977 + i % stride) } else { u64::MAX };
        ((0..stride * (shape.height - 1) + shape.width).map(|i| make(at(i))).collect(), stride)
    })
}

/// Both engines, under each kernel.
fn same<T: Sample>(shape: Shape, make: fn(u64) -> T, kernels: &[Kernel], scratch: &mut Scratch) {
    let [a, b] = drawn(shape, make);
    let (a, b) = (Plane { data: &a.0[..], stride: a.1 }, Plane { data: &b.0[..], stride: b.1 });
    for kernel in kernels {
        let wanted = ssim(a, b, shape, kernel, scratch).unwrap();
        let pair = plain_ssim(a, b, shape, kernel).unwrap();
        assert_eq!(bits(pair), bits(wanted), "{:?} under {} taps", shape, kernel.taps().len());
        let mut out = BEFORE;
        assert_eq!(no_alloc::plain_ssim(a, b, shape, kernel.taps(), &mut out), Ok(()));
        assert_eq!(bits(out), bits(wanted));
    }
}

#[test]
fn the_same_bits_under_every_kernel() {
    let (kernels, mut scratch) = (kernels(), Scratch::new());
    for (width, height) in [(1, 1), (1, 40), (40, 1), (2, 3), (19, 11), (11, 19), (24, 20)] {
        for bit_depth in [1, 5, 8] {
            same(Shape { width, height, bit_depth }, |value| value as u8, &kernels, &mut scratch);
        }
        for bit_depth in [9, 10, 12] {
            same(Shape { width, height, bit_depth }, |value| value as u16, &kernels, &mut scratch);
        }
    }
}

/// Where the order of the planes shows in the bits, as it can for a dark plane and a bright one, both engines show it alike.
#[test]
fn the_planes_are_not_exchanged() {
    let (kernel, shape) = (Kernel::from_taps(vec![85, 86, 85]), Shape { width: 3, height: 3, bit_depth: 12 });
    let dark = [446u16, 365, 387, 310, 377, 468, 163, 13, 475];
    let bright = [3_990u16, 3_661, 3_696, 3_680, 3_931, 3_646, 3_967, 3_955, 3_632];
    let [a, b] = [&dark, &bright].map(|list| Plane { data: &list[..], stride: 3 });
    let whole = [(a, b), (b, a)].map(|(a, b)| bits(ssim(a, b, shape, &kernel, &mut Scratch::new()).unwrap()));
    let plain = [(a, b), (b, a)].map(|(a, b)| bits(plain_ssim(a, b, shape, &kernel).unwrap()));
    assert_eq!(plain, whole);
    assert_ne!(whole[0], whole[1]);
}

/// The widest row and the highest column under the most taps. They have one pair, and the column's is known by the other engine, which wants little scratch for
/// it, but for the row the most that it ever wants.
#[test]
fn never_eight() {
    let list: Vec<u16> = (0..MOST_SIDE as u32).map(|i| (i * i % 4_093) as u16).collect();
    let other: Vec<u16> = list.iter().map(|sample| sample ^ 5).collect();
    let kernel = &longest();
    let both = |stride| (Plane { data: &list[..], stride }, Plane { data: &other[..], stride });
    let row = Shape { width: MOST_SIDE, height: 1, bit_depth: 12 };
    let column = Shape { width: 1, height: MOST_SIDE, bit_depth: 12 };
    let ((a, b), (c, d)) = (both(MOST_SIDE), both(1));
    let none = no_alloc::ssim(a, b, row, kernel.taps(), &mut [], &mut Pair::default());
    assert_eq!(none, Err(Refusal::Scratch));
    let known = ssim(c, d, column, kernel, &mut Scratch::new()).map(bits);
    assert!(known.is_ok());
    assert_eq!((plain_ssim(a, b, row, kernel).map(bits), plain_ssim(c, d, column, kernel).map(bits)), (known, known));
}

/// Refused with this, and nothing written.
fn refused<T: Sample>(a: Plane<'_, T>, b: Plane<'_, T>, shape: Shape, taps: &[u16], refusal: Refusal) {
    let mut out = BEFORE;
    assert_eq!(no_alloc::plain_ssim(a, b, shape, taps, &mut out), Err(refusal));
    assert_eq!(bits(out), bits(BEFORE));
    assert_eq!(plain_ssim(a, b, shape, &Kernel::from_taps(taps.to_vec())), Err(refusal));
}

/// Each limit of a plane from both sides, for either plane, with a lawful kernel and, since 7 comes after them, with one that is not.
fn limits<T: Sample>(most: T, past: T, depth: u32, depths: [u32; 4]) {
    let (good, mut bright) = ([most; 3 * 9 + 7], [most; 3 * 9 + 7]);
    bright[3 * 9 + 6] = past;
    let shape = Shape { width: 7, height: 4, bit_depth: depth };
    let (a, row) = (Plane { data: &good[..], stride: 9 }, Shape { height: 1, ..shape });
    for taps in [&[64, 128, 64][..], &[128, 0, 128], &[]] {
        let both = |plane, shape, refusal| {
            refused(a, plane, shape, taps, refusal);
            refused(plane, a, shape, taps, refusal);
        };
        depths.into_iter().for_each(|bit_depth| both(a, Shape { bit_depth, ..shape }, Refusal::Depth));
        [0, MOST_SIDE + 1, usize::MAX].into_iter().for_each(|width| both(a, Shape { width, ..shape }, Refusal::Size));
        [0, MOST_SIDE + 1, usize::MAX].into_iter().for_each(|height| both(a, Shape { height, ..shape }, Refusal::Size));
        [0, 6, MOST_STRIDE + 1, usize::MAX]
            .into_iter()
            .for_each(|stride| both(Plane { stride, ..a }, shape, Refusal::Stride));
        [0, 1, 3 * 9 + 6]
            .into_iter()
            .for_each(|len| both(Plane { data: &good[..len], stride: 9 }, shape, Refusal::Short));
        both(Plane { data: &bright[..], stride: 9 }, shape, Refusal::Sample);
    }
    let kernel = Kernel::from_taps(vec![64, 128, 64]);
    let taken =
        |b, shape| assert!(plain_ssim(a, b, shape, &kernel).is_ok() && plain_ssim(b, a, shape, &kernel).is_ok());
    taken(a, shape);
    [7, MOST_STRIDE].into_iter().for_each(|stride| taken(Plane { data: &good[..7], stride }, row));
    // what is not seen may be anything
    taken(Plane { data: &bright[..], stride: 9 }, Shape { width: 6, ..shape });
}

#[test]
fn limits_of_planes() {
    limits(127u8, 128, 7, [0, 9, 12, u32::MAX]);
    limits(1_023u16, 1_024, 10, [0, 8, 13, u32::MAX]);
}

/// Both sides of each rule of kernels: as the other engine judges them.
#[test]
fn kernels_that_are_not_taken() {
    let list = [7u8; 12];
    let (a, shape) = (Plane { data: &list[..], stride: 4 }, Shape { width: 4, height: 3, bit_depth: 8 });
    assert_eq!(plain_ssim(a, a, shape, &longest()).map(|_| ()), Ok(()));
    for taps in [&[][..], &[257], &[255], &[128, 128], &[64, 127, 64], &[64, 129, 64], &[63, 128, 65], &[128, 0, 128]] {
        refused(a, a, shape, taps, Refusal::Kernel);
    }
    // an end of 0, more taps than there may be, and sums that wrap
    for taps in [
        &[0, 256, 0][..],
        &[0, 255, 1],
        &[0, 64, 128, 64, 0],
        &[0; 257],
        &[1; 256],
        &[u16::MAX; 255],
        &[32_768, 256, 32_768],
    ] {
        refused(a, a, shape, taps, Refusal::Kernel);
    }
    let mut long = vec![1; 257];
    (long[0], long[256], long[128]) = (0, 0, 2);
    refused(a, a, shape, &long, Refusal::Kernel);
}
