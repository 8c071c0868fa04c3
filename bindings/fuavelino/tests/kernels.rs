//! Kernels of the chart, and those that are built; which are lawful, and what is said of those that are not.

use fuavelino::no_alloc::{self, MOST_TAPS};
use fuavelino::{
    build_gaussian_kernel, ssim, Kernel, KernelFault, Pair, Plane, Refusal, Sample, Scratch, Shape, MOST_SIDE,
};

/// The heights that the chart lists.
const LISTED: [usize; 14] = [144, 180, 240, 270, 288, 360, 405, 480, 540, 576, 720, 1_080, 1_440, 2_160];

/// SSIM of one sample under a kernel.
fn score(kernel: &Kernel) -> Result<Pair, Refusal> {
    let plane = Plane { data: &[7u8], stride: 1 };
    let (mut sums, mut pair) = ([0; 6 * 256], Pair::default());
    no_alloc::ssim(plane, plane, Shape { width: 1, height: 1, bit_depth: 8 }, kernel.taps(), &mut sums, &mut pair)?;
    Ok(pair)
}

/// These taps with so many idle ones before and after them.
fn padded(taps: &[u16], before: usize, after: usize) -> Vec<u16> {
    [&vec![0; before][..], taps, &vec![0; after][..]].concat()
}

/// So many taps: these two ends, the rest of the weight in the middle, and 0 between.
fn hollow(count: usize, end: u16) -> Vec<u16> {
    let mut taps = vec![0; count];
    taps[count / 2] = 256 - 2 * end;
    taps[0] = end;
    taps[count - 1] = end;
    taps
}

/// So many taps of 1, and the rest of the weight in the middle.
fn level(count: usize) -> Vec<u16> {
    let mut taps = vec![1; count];
    taps[count / 2] = 257 - count as u16;
    taps
}

/// Numbers that look random (xorshift), from 0 to `most`.
struct Noise(u64);

impl Noise {
    fn next(&mut self, most: usize) -> usize {
        self.0 ^= self.0 << 13;
        self.0 ^= self.0 >> 7;
        self.0 ^= self.0 << 17;
        (self.0 >> 11) as usize % (most + 1)
    }
}

/// What is built for a plane, as words.
fn built(width: usize, height: usize) -> Vec<u16> {
    let taps = build_gaussian_kernel(height as f64 * 1.5 / 256.0, width.min(height), 256);
    taps.into_iter().map(|tap| u16::try_from(tap).unwrap()).collect()
}

#[test]
fn the_chart_has_its_heights_and_no_other() {
    // with the low bits of listed ones, too
    let huge = [65_536 + 144, usize::MAX / 2 + 1 + 144, usize::MAX - 1, usize::MAX];
    let heights: Vec<usize> = (0..=MOST_SIDE + 1).chain(huge).collect();
    let charted: Vec<usize> = heights.iter().copied().filter(|height| Kernel::charted(*height).is_ok()).collect();
    assert_eq!(charted, LISTED);
    for height in heights.into_iter().filter(|height| !LISTED.contains(height)) {
        assert_eq!(Kernel::charted(height), Err(Refusal::Height), "{} rows", height);
    }
}

#[test]
fn the_chart_has_what_would_be_built() {
    for height in LISTED {
        let kernel = Kernel::charted(height).unwrap();
        assert_eq!(kernel.taps(), built(height, height), "{} rows", height);
        assert!(kernel.is_charted());
        // equal is who has the same taps
        let same = Kernel::from_taps(kernel.taps().to_vec());
        assert!(same == kernel && !same.is_charted());
        assert_ne!(Kernel::from_taps(kernel.taps()[1..].to_vec()), kernel);
    }
}

#[test]
fn a_plane_of_a_listed_height_gets_a_charted_one() {
    for height in LISTED {
        for width in [height, height + 1, usize::MAX] {
            let kernel = Kernel::for_plane(width, height);
            assert!(kernel.is_charted() && kernel == Kernel::charted(height).unwrap(), "{} by {}", width, height);
        }
        for width in [1, 2, height - 1] {
            let kernel = Kernel::for_plane(width, height);
            assert!(!kernel.is_charted() && kernel.taps() == built(width, height), "{} by {}", width, height);
        }
    }
    assert!(![143, 145, MOST_SIDE].iter().any(|height| Kernel::for_plane(MOST_SIDE, *height).is_charted()));
}

/// No place, one too few, all that are needed, and more, which are left as they are.
#[test]
fn room_for_a_charted_one() {
    for height in LISTED {
        let kernel = built(height, height);
        let mut noise: Vec<u16> = (0..kernel.len() as u16 + 9).map(|place| 300 + place * 211).collect();
        let before = noise.clone();
        for places in [0, kernel.len() - 1] {
            let mut count = 77;
            assert_eq!(no_alloc::kernel(height, &mut noise[..places], &mut count), Err(Refusal::Scratch));
            assert_eq!((&noise, count), (&before, 77));
        }
        for more in [0, 1, 9] {
            let (mut room, mut count) = (before[..kernel.len() + more].to_vec(), 77);
            assert_eq!(no_alloc::kernel(height, &mut room, &mut count), Ok(()));
            assert_eq!((&room[..count], &room[count..]), (&kernel[..], &before[kernel.len()..][..more]));
        }
    }
}

#[test]
fn the_rules_number() {
    assert_eq!(build_gaussian_kernel(1.5, 5, 1_024), [8, 37, 112, 218, 274, 218, 112, 37, 8]);
}

/// A kernel that is cut short by a narrow plane has inner taps for its ends, and a larger middle.
#[test]
fn every_plane_gets_a_lawful_one() {
    for height in 1..=MOST_SIDE {
        for width in [height, height - 1, height / 2, height / 40, 5, 2, 1] {
            let kernel = Kernel::for_plane(width, height);
            assert_eq!((kernel.check(), score(&kernel).map(|_| ())), (Ok(()), Ok(())), "{} by {}", width, height);
        }
    }
}

#[test]
fn a_narrow_plane_cuts_it() {
    let whole = Kernel::for_plane(1_080, 1_080);
    assert_eq!(whole.taps().len(), 33);
    let cut = Kernel::for_plane(5, 1_080);
    assert_eq!(cut.taps()[..4], whole.taps()[12..16]);
    assert_eq!(cut.taps().iter().sum::<u16>(), 256);
    assert_eq!(Kernel::for_plane(1, 1_080).taps(), [256]);
    assert_eq!(Kernel::for_plane(0, 0).taps(), [256]);
}

#[test]
fn odd_arguments() {
    let sigmas = [0.0, -0.0, -1.0, 1e-300, 1e300, 5e-324, f64::NAN, f64::INFINITY, f64::NEG_INFINITY, 1.5, 1e9, 1e18];
    for (sigma, max_len) in sigmas.iter().flat_map(|s| [0, 1, 2, usize::MAX].map(|len| (*s, len))) {
        for weight in [0, 1, 256, usize::MAX / 2, usize::MAX] {
            let kernel = build_gaussian_kernel(sigma, max_len, weight);
            assert!(kernel.len() % 2 == 1 && kernel.len() <= 131_071);
            assert!(kernel.iter().eq(kernel.iter().rev()));
        }
    }
    assert_eq!(build_gaussian_kernel(f64::NAN, 9, 256), [256]);
    assert_eq!(build_gaussian_kernel(1.5, 0, 256), [256]);
    let _ = [(usize::MAX, usize::MAX), (0, usize::MAX), (usize::MAX, 0)].map(|(w, h)| Kernel::for_plane(w, h));
}

/// Lawful ones at the limits of each rule.
fn lawful() -> Vec<Vec<u16>> {
    let few = [&[256][..], &[1, 254, 1], &[64, 128, 64], &[127, 2, 127], &[1, 0, 254, 0, 1], &[1, 0, 1, 252, 1, 0, 1]];
    let mut list: Vec<Vec<u16>> = few.iter().map(|taps| taps.to_vec()).collect();
    list.extend([hollow(MOST_TAPS, 1), hollow(MOST_TAPS, 127), level(MOST_TAPS), hollow(5, 3), level(253)]);
    list
}

/// Taps that break a rule, with what is said of them.
fn unlawful() -> Vec<(Vec<u16>, KernelFault)> {
    use KernelFault::*;
    let few: [(&[u16], KernelFault); 16] = [
        (&[], Count { count: 0 }),
        (&[128, 128], Count { count: 2 }),
        (&[0, 128, 128, 0], Count { count: 4 }),
        (&[257], Tap { at: 0, tap: 257 }),
        (&[0, 0, u16::MAX, 300, 0], Tap { at: 2, tap: u16::MAX }),
        (&[0], Sum { sum: 0 }),
        (&[0, 0, 0], Sum { sum: 0 }),
        (&[64, 127, 64], Sum { sum: 255 }),
        (&[63, 128, 65], Mirror { at: 0, other: 2 }),
        (&[0, 255, 1], Mirror { at: 0, other: 2 }),
        (&[1, 2, 250, 3, 0], Mirror { at: 0, other: 4 }),
        (&[1, 2, 249, 3, 1], Mirror { at: 1, other: 3 }),
        (&[128, 0, 128], Middle { at: 1 }),
        (&[0, 128, 0, 128, 0], Middle { at: 2 }),
        (&[0, 256, 0], IdleEnds { idle: 1, last: 2 }),
        (&[0, 64, 128, 64, 0], IdleEnds { idle: 1, last: 4 }),
    ];
    let mut list: Vec<(Vec<u16>, KernelFault)> = few.iter().map(|(taps, fault)| (taps.to_vec(), *fault)).collect();
    list.extend([
        (padded(&[1, 0, 254, 0, 1], 2, 2), IdleEnds { idle: 2, last: 8 }),
        (padded(&[256], 127, 127), IdleEnds { idle: 127, last: 254 }),
        (padded(&[1, 254, 1], 126, 126), IdleEnds { idle: 126, last: 254 }),
        (padded(&level(253), 1, 1), IdleEnds { idle: 1, last: 254 }),
        (padded(&level(MOST_TAPS), 1, 1), Count { count: 257 }),
        (hollow(257, 1), Count { count: 257 }),
        (padded(&level(253), 2, 0), Mirror { at: 0, other: 254 }),
        (padded(&level(253), 0, 2), Mirror { at: 0, other: 254 }),
    ]);
    list
}

/// SSIM of a small picture and of its mirror image.
fn pictured<T: Sample>(kernel: &Kernel, bit_depth: u32, of: fn(usize) -> T) -> Result<[u64; 2], Refusal> {
    let samples: Vec<T> = (0..9 * 7).map(|i| of(i * i * 5 % 251)).collect();
    let turned: Vec<T> = samples.iter().rev().copied().collect();
    let [a, b] = [&samples, &turned].map(|data| Plane { data: &data[..], stride: 9 });
    let pair = ssim(a, b, Shape { width: 9, height: 7, bit_depth }, kernel, &mut Scratch::new())?;
    Ok([pair.ssim, pair.cs].map(f64::to_bits))
}

#[test]
fn lawful_ones_are_taken() {
    for kernel in lawful().into_iter().map(Kernel::from_taps) {
        assert_eq!(kernel.check(), Ok(()), "{:?}", kernel);
        let taken = [pictured(&kernel, 8, |s| s as u8), pictured(&kernel, 10, |s| s as u16)].map(|said| said.is_ok());
        assert_eq!(taken, [true; 2], "{:?}", kernel);
        assert_eq!(kernel.trimmed(), kernel);
    }
}

#[test]
fn unlawful_ones_are_told_by_their_rule() {
    for (taps, fault) in unlawful() {
        let kernel = Kernel::from_taps(taps);
        assert_eq!(kernel.check(), Err(fault), "{:?}", kernel);
        let refused = [pictured(&kernel, 8, |s| s as u8), pictured(&kernel, 10, |s| s as u16)];
        assert_eq!(refused, [Err(Refusal::Kernel); 2], "{:?}", kernel);
        assert_eq!(Refusal::from(fault), Refusal::Kernel);
    }
}

/// Lawful taps with idle ones about them are refused, and trimmed they are what they were.
#[test]
fn trimming_mends_idle_ends() {
    for taps in lawful() {
        let kernel = Kernel::from_taps(taps.clone());
        for idle in [1, 2, 3, 40, 127] {
            let long = Kernel::from_taps(padded(&taps, idle, idle));
            assert_eq!((score(&long), long.check().is_err()), (Err(Refusal::Kernel), true), "{:?}", long);
            let mended = long.trimmed();
            assert_eq!((mended.taps(), mended.check()), (&taps[..], Ok(())));
            assert_eq!(pictured(&mended, 8, |s| s as u8), pictured(&kernel, 8, |s| s as u8));
        }
        // not at one end alone
        for (before, after) in [(1, 0), (0, 1), (2, 0), (0, 2), (3, 4)] {
            let long = Kernel::from_taps(padded(&taps, before, after));
            let both = before.min(after);
            assert_eq!(long.trimmed().taps(), padded(&taps, before - both, after - both), "{:?}", long);
        }
    }
}

#[test]
fn what_is_trimmed_is_never_empty() {
    for count in 0..=9 {
        let left = Kernel::from_taps(vec![0; count]).trimmed().taps().len();
        assert_eq!(left, if count % 2 == 1 { 1 } else { count.min(2) }, "{} taps", count);
    }
    assert_eq!(Kernel::from_taps(vec![0, 0, 5, 0]).trimmed().taps(), [0, 5]);
    assert_eq!(Kernel::from_taps(vec![0, 7, 0, 7, 0]).trimmed().taps(), [7, 0, 7]);
    for height in LISTED {
        let kernel = Kernel::charted(height).unwrap();
        let same = kernel.trimmed();
        assert!(same == kernel && same.is_charted());
    }
}

#[test]
fn each_fault_has_its_words() {
    let said = |taps: &[u16]| Kernel::from_taps(taps.to_vec()).check().unwrap_err().to_string();
    let words = [
        (said(&[]), "it has 0 taps, not an odd count from 1 to 255"),
        (said(&padded(&level(MOST_TAPS), 1, 1)), "it has 257 taps, not an odd count from 1 to 255"),
        (said(&[0, 300, 0]), "tap 1 is 300, above 256"),
        (said(&[64, 127, 64]), "its taps sum to 255, not 256"),
        (said(&[1, 2, 249, 3, 1]), "tap 1 is not what tap 3, its mirror, is"),
        (said(&[128, 0, 128]), "tap 1, its middle, is 0"),
        (said(&[0, 256, 0]), "taps 0 and 2, its ends, are 0; Kernel::trimmed leaves idle ends off"),
        (
            said(&padded(&[1, 254, 1], 2, 2)),
            "taps 0 to 1 and 5 to 6, its ends, are 0; Kernel::trimmed leaves idle ends off",
        ),
        (
            said(&padded(&[256], 127, 127)),
            "taps 0 to 126 and 128 to 254, its ends, are 0; Kernel::trimmed leaves idle ends off",
        ),
    ];
    for (said, rule) in words {
        assert_eq!(said, format!("{}: {}", Refusal::Kernel, rule));
    }
    let unknown = KernelFault::Unknown.to_string();
    assert_eq!(unknown, "refusal 7: the kernel is unlawful: by a rule that this crate does not know");
    // numbers that no kernel has are told too
    for (idle, last) in [(0, 0), (0, usize::MAX), (usize::MAX, 0), (usize::MAX, usize::MAX)] {
        assert!(!KernelFault::IdleEnds { idle, last }.to_string().is_empty());
    }
}

/// Lawful taps of which some are moved, changed, left off or added.
fn any(noise: &mut Noise) -> Vec<u16> {
    let list = lawful();
    let mut taps = list[noise.next(list.len() - 1)].clone();
    for _ in 0..noise.next(2) {
        let (at, end) = (noise.next(taps.len().max(1) - 1), taps.len().saturating_sub(1));
        match noise.next(6) {
            0 => taps = padded(&taps, noise.next(2), noise.next(2)),
            1 if !taps.is_empty() => taps.swap(at, end / 2),
            2 if !taps.is_empty() => taps[at] = noise.next(300) as u16,
            3 => taps.truncate(at),
            4 if !taps.is_empty() => gather(&mut taps, at),
            5 if !taps.is_empty() => scatter(&mut taps, at),
            _ => taps = padded(&taps, 1, 1),
        }
    }
    taps
}

/// What a tap and its mirror have goes to the middle.
fn gather(taps: &mut [u16], at: usize) {
    let (mirror, middle) = (taps.len() - 1 - at, taps.len() / 2);
    for from in [at, mirror] {
        let tap = std::mem::take(&mut taps[from]);
        taps[middle] += tap;
    }
}

/// What the middle has goes to a tap and its mirror.
fn scatter(taps: &mut [u16], at: usize) {
    let (mirror, middle) = (taps.len() - 1 - at, taps.len() / 2);
    let half = taps[middle] / 2;
    taps[middle] -= 2 * half;
    taps[at] += half;
    taps[mirror] += half;
}

/// What is checked is what SSIM says.
#[test]
fn a_check_agrees_with_ssim() {
    let (mut noise, mut seen) = (Noise(0x5EED_0007), [0; 8]);
    for _ in 0..20_000 {
        let kernel = Kernel::from_taps(any(&mut noise));
        let said = kernel.check();
        assert_eq!(score(&kernel).map(|_| ()), said.map_err(Refusal::from), "{:?}", kernel);
        let rule = match said {
            Ok(()) => 0,
            Err(KernelFault::Count { .. }) => 1,
            Err(KernelFault::Tap { .. }) => 2,
            Err(KernelFault::Sum { .. }) => 3,
            Err(KernelFault::Mirror { .. }) => 4,
            Err(KernelFault::Middle { .. }) => 5,
            Err(KernelFault::IdleEnds { .. }) => 6,
            Err(_) => 7,
        };
        seen[rule] += 1;
    }
    assert!(seen[..7].iter().all(|n| *n > 100) && seen[7] == 0, "{:?}", seen);
}

/// The first double past `low`, and up to `high`, that is beyond.
fn bound(low: f64, high: f64, beyond: impl Fn(f64) -> bool) -> u64 {
    let (mut low, mut high) = (low.to_bits(), high.to_bits());
    while high - low > 1 {
        let between = low + (high - low) / 2;
        if beyond(f64::from_bits(between)) {
            high = between;
        } else {
            low = between;
        }
    }
    high
}

/// With the sigma the count of taps grows up to 247, then it falls to 1 again. Only where it changes can a kernel that is built end in 0: there the
/// outermost tap is half a unit, and rounding makes it 0 or 1.
#[test]
fn built_ones_that_end_in_0() {
    let of = |sigma: f64| {
        let taps = build_gaussian_kernel(sigma, usize::MAX, 256);
        Kernel::from_taps(taps.into_iter().map(|tap| u16::try_from(tap).unwrap()).collect())
    };
    let side = |sigma: f64| of(sigma).taps().len() / 2;
    let (none, widest, past) = (0.01, 123.888, 205.0);
    assert_eq!([side(none), side(widest), side(past)], [0, 123, 0]);
    let mut idle = 0;
    for count in 1..=side(widest) {
        for at in [bound(none, widest, |sigma| side(sigma) >= count), bound(widest, past, |sigma| side(sigma) < count)]
        {
            for kernel in (at - 50..at + 50).map(|bits| of(f64::from_bits(bits))) {
                let fault = match kernel.check() {
                    Ok(()) => continue,
                    Err(fault) => fault.to_string(),
                };
                let ends = format!(": taps 0 and {}, its ends, are 0; ", kernel.taps().len() - 1);
                assert!(fault.starts_with("refusal 7: ") && fault.contains(&ends), "{}", fault);
                assert_eq!((score(&kernel), kernel.trimmed().check()), (Err(Refusal::Kernel), Ok(())));
                idle += 1;
            }
        }
    }
    assert!(idle > 0);
}
