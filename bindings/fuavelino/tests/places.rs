//! How many places the library says that a score needs: by the rules, and as refusal 8 has it. And its version.

use fuavelino::*;

const WILD: [usize; 12] = [0, 1, 2, 15, 16, 17, 255, 256, MOST_SIDE, MOST_SIDE + 1, usize::MAX - 1, usize::MAX];

#[test]
fn of_ssim() {
    for (width, taps) in WILD.iter().flat_map(|w| WILD.iter().map(move |t| (*w, *t))) {
        let taken = (1..=MOST_SIDE).contains(&width) && (1..=255).contains(&taps);
        let needed = if taken { 6 * width * taps.next_power_of_two() } else { 0 };
        assert_eq!(no_alloc::ssim_places(width, taps), needed, "{} by {} taps", width, taps);
    }
    let every = (1..=255).map(|taps| no_alloc::ssim_places(1, taps));
    assert!(every.eq((1..=255usize).map(|taps| 6 * taps.next_power_of_two())));
}

#[test]
fn of_msssim() {
    let taken = |side: usize| (16..=MOST_SIDE).contains(&side);
    for width in WILD {
        assert_eq!(no_alloc::msssim_places(width), if taken(width) { 96 * width } else { 0 });
        for height in WILD {
            let needed = if taken(width) && taken(height) { width * height } else { 0 };
            assert_eq!(no_alloc::msssim_samples(width, height), needed);
        }
    }
}

#[test]
fn of_the_error_map() {
    let taken = |side: usize| (1..=MOST_SIDE).contains(&side);
    for (width, height) in WILD.iter().flat_map(|w| WILD.iter().map(move |h| (*w, *h))) {
        let tiles = |side: usize| side / 8 + usize::from(side % 8 > 0);
        let needed = if taken(width) && taken(height) { tiles(width) * tiles(height) } else { 0 };
        assert_eq!(no_alloc::error_map_places(width, height), needed, "{} by {}", width, height);
    }
}

/// With so many places the score is given, and with one less it is refused.
#[test]
fn no_more_and_no_fewer() {
    let samples = [7u8; 17 * 19];
    let plane = Plane { data: &samples[..], stride: 17 };
    let shape = Shape { width: 17, height: 19, bit_depth: 8 };
    let kernel = [10, 60, 116, 60, 10];
    let mut sums = vec![5; no_alloc::ssim_places(17, 5)];
    let mut pair = Pair::default();
    assert_eq!(no_alloc::ssim(plane, plane, shape, &kernel, &mut sums[1..], &mut pair), Err(Refusal::Scratch));
    assert_eq!(no_alloc::ssim(plane, plane, shape, &kernel, &mut sums, &mut pair), Ok(()));
    let mut state = no_alloc::RowState::default();
    let mut begin = |places: &mut [i64]| no_alloc::rows_begin::<u8>(shape, &kernel, places, &mut state);
    assert_eq!((begin(&mut sums[1..]), begin(&mut sums)), (Err(Refusal::Scratch), Ok(())));
    let (sums, room) = (no_alloc::msssim_places(17), no_alloc::msssim_samples(17, 19));
    for (less, said) in [
        ([0, 0, 0], Ok(())),
        ([1, 0, 0], Err(Refusal::Scratch)),
        ([0, 1, 0], Err(Refusal::Scratch)),
        ([0, 0, 1], Err(Refusal::Scratch)),
    ] {
        let (mut s, mut a, mut b) = (vec![5; sums - less[0]], vec![5; room - less[1]], vec![5; room - less[2]]);
        let mut pairs = [pair; 5];
        assert_eq!(no_alloc::msssim(plane, plane, shape, &mut s, &mut a, &mut b, &mut pairs), said);
    }
}

/// The library's own, that of this package, and (in tests/c) that of the header are one.
#[test]
fn the_version() {
    let part = |text: &str| text.parse::<u32>().unwrap();
    let [major, minor, patch] =
        [env!("CARGO_PKG_VERSION_MAJOR"), env!("CARGO_PKG_VERSION_MINOR"), env!("CARGO_PKG_VERSION_PATCH")].map(part);
    assert_eq!(version(), 10_000 * major + 100 * minor + patch);
}
