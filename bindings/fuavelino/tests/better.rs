//! Which of two candidates is nearer the original: its error, its number and its slice; ties; and the lowest refusal of three planes.

use fuavelino::*;

const SHAPE: Shape = Shape { width: 7, height: 5, bit_depth: 7 };
const WIDE: Shape = Shape { bit_depth: 10, ..SHAPE };
const SEEN: usize = 7 * 5;

/// Of the original and both candidates, no two alike.
const STRIDES: [usize; 3] = [9, 12, 7];

/// The stride where one serves for all three, and the samples that a plane needs then.
const STRIDE: usize = 12;
const NEEDED: usize = STRIDE * (SHAPE.height - 1) + SHAPE.width;

/// Samples past what a plane needs.
const TAIL: usize = 4;

/// What the lent places hold before a call.
const ERROR: f64 = -7.25;
const WHICH: u8 = 77;

/// The visible samples of a plane, without padding.
type Picture = [u16; SEEN];

fn byte(sample: u16) -> u8 {
    sample as u8
}

fn word(sample: u16) -> u16 {
    sample
}

/// A picture, laid out with a stride and a tail. What is not seen is no sample of the depth, and differs from plane to plane.
fn laid<T: Copy>(picture: &Picture, stride: usize, make: fn(u16) -> T) -> Vec<T> {
    let mut list = vec![make(u16::MAX - stride as u16); stride * (SHAPE.height - 1) + SHAPE.width + TAIL];
    for (y, row) in picture.chunks(SHAPE.width).enumerate() {
        row.iter().enumerate().for_each(|(x, sample)| list[y * stride + x] = make(*sample));
    }
    list
}

fn planes<T>(lists: &[Vec<T>; 3], strides: [usize; 3]) -> [Plane<'_, T>; 3] {
    [0, 1, 2].map(|i| Plane { data: &lists[i][..], stride: strides[i] })
}

/// All three ways to ask, where the planes are taken. The winner's slice is the one that was lent.
fn asked<T: Sample>([original, first, second]: [Plane<'_, T>; 3], shape: Shape) -> Better {
    let (mut sq_err, mut which) = (ERROR, WHICH);
    assert_eq!(no_alloc::better(original, first, second, shape, &mut sq_err, &mut which), Ok(()));
    let said = better(original, first, second, shape).unwrap();
    assert_eq!((said.sq_err.to_bits(), said.which as u8), (sq_err.to_bits(), which));
    let lent = said.which.of(first.data, second.data);
    let won = winner(original, first, second, shape);
    assert_eq!((won.as_ptr(), won.len()), (lent.as_ptr(), lent.len()));
    let record = squared_error(original, said.which.of(first, second), shape, 0, 0).unwrap();
    assert_eq!(record.sq_err.to_bits(), sq_err.to_bits());
    said
}

/// The error of two pictures, sample by sample.
fn error(a: &Picture, b: &Picture) -> u64 {
    a.iter().zip(b).map(|(a, b)| u64::from(a.abs_diff(*b)).pow(2)).sum()
}

/// What is right, by the pictures.
fn wanted([original, first, second]: [&Picture; 3]) -> Better {
    let (a, b) = (error(original, first), error(original, second));
    if b < a {
        Better { sq_err: b as f64, which: Candidate::Second }
    } else {
        Better { sq_err: a as f64, which: Candidate::First }
    }
}

/// Pictures in bytes and in words, with each order of the strides.
fn judged(pictures: [&Picture; 3]) -> Better {
    let said = wanted(pictures);
    let [i, j, k] = STRIDES;
    for strides in [[i, j, k], [i, k, j], [j, i, k], [j, k, i], [k, i, j], [k, j, i]] {
        let at = |i: usize| laid(pictures[i], strides[i], byte);
        assert_eq!(asked(planes(&[at(0), at(1), at(2)], strides), SHAPE), said);
        let at = |i: usize| laid(pictures[i], strides[i], word);
        assert_eq!(asked(planes(&[at(0), at(1), at(2)], strides), WIDE), said);
    }
    said
}

/// Pictures of 7 bits without end, far from each other and near.
fn drawn() -> impl FnMut(u16) -> Picture {
    let mut state = 1u64;
    move |spread| {
        std::array::from_fn(|_| {
            state = state.wrapping_mul(6_364_136_223_846_793_005).wrapping_add(1);
            64 + (state >> 40) as u16 % spread
        })
    }
}

#[test]
fn the_smaller_error() {
    let mut draw = drawn();
    let mut won = [0; 2];
    for spread in [2, 3, 10, 64].repeat(12) {
        let [original, first, second] = [0; 3].map(|_| draw(spread));
        won[judged([&original, &first, &second]).which as usize - 1] += 1;
        // the original itself wins wherever it stands
        assert_eq!(judged([&original, &second, &original]), Better { sq_err: 0.0, which: Candidate::Second });
        assert_eq!(judged([&original, &original, &second]), Better { sq_err: 0.0, which: Candidate::First });
    }
    assert!(won[0] > 10 && won[1] > 10, "{:?}", won);
}

/// What differs in one sample only, the first or the last that is seen, decides.
/// SCOPE, "Numbers to hold it to".
#[test]
fn numbers_of_the_rules() {
    let shape = Shape { width: 3, height: 1, bit_depth: 8 };
    let plane = |data: &'static [u8; 3]| Plane { data: &data[..], stride: 3 };
    let original = plane(&[10, 20, 30]);
    let (by_25, by_16) = (plane(&[13, 20, 26]), plane(&[10, 20, 34]));
    for (first, second, sq_err, which) in [
        (by_25, by_16, 16.0, Candidate::Second),
        (by_16, by_25, 16.0, Candidate::First),
        (by_25, plane(&[10, 20, 35]), 25.0, Candidate::First),
        (by_25, by_25, 25.0, Candidate::First),
    ] {
        assert_eq!(asked([original, first, second], shape), Better { sq_err, which });
    }
    // 3 by 2 samples, lent as 9 with a stride of 4
    let (shape, lent) = (Shape { height: 2, ..shape }, Plane { data: &[5u8; 9][..], stride: 4 });
    assert_eq!(winner(lent, lent, lent, shape).len(), 9);
    assert_eq!(winner(lent, lent, Plane { data: &lent.data[..6], ..lent }, shape).len(), 0);
}

#[test]
fn by_one_sample() {
    let original = [64; SEEN];
    for at in [0, 6, 7, SEEN - 7, SEEN - 1] {
        let [mut near, mut far] = [original; 2];
        (near[at], far[at]) = (65, 62);
        assert_eq!(judged([&original, &near, &far]), Better { sq_err: 1.0, which: Candidate::First });
        assert_eq!(judged([&original, &far, &near]), Better { sq_err: 1.0, which: Candidate::Second });
    }
}

#[test]
fn equal_candidates() {
    let (original, built) = ([64; SEEN], [67; SEEN]);
    let first = Better { sq_err: (9 * SEEN) as f64, which: Candidate::First };
    assert_eq!(judged([&original, &built, &built]), first);
    // one slice lent twice, and all three the same
    let list = laid(&built, 9, byte);
    let (plane, other) = (Plane { data: &list[..], stride: 9 }, Plane { data: &[64u8; SEEN], stride: 7 });
    assert_eq!(asked([other, plane, plane], SHAPE), first);
    assert_eq!(asked([plane; 3], SHAPE), Better { sq_err: 0.0, which: Candidate::First });
}

/// Unlike planes of one error: the first, whichever it is, with the same error; one less, and it is the one that has it.
#[test]
fn a_tie_of_errors() {
    let original = [64; SEEN];
    let [mut once, mut twice, mut below] = [original; 3];
    once[3] = 69;
    (twice[20], twice[SEEN - 1]) = (61, 68);
    (below[0], below[1], below[2]) = (60, 62, 66);
    assert_eq!([&once, &twice, &below].map(|picture| error(&original, picture)), [25, 25, 24]);
    let tie = Better { sq_err: 25.0, which: Candidate::First };
    assert_eq!((judged([&original, &once, &twice]), judged([&original, &twice, &once])), (tie, tie));
    assert_eq!(judged([&original, &once, &below]), Better { sq_err: 24.0, which: Candidate::Second });
    assert_eq!(judged([&original, &below, &twice]), Better { sq_err: 24.0, which: Candidate::First });
}

/// Exchanged candidates exchange the answer, but on a tie.
#[test]
fn exchanged() {
    let mut draw = drawn();
    let mut ties = 0;
    for _ in 0..60 {
        let [original, first, second] = [0; 3].map(|_| draw(2));
        let (one, other) = (judged([&original, &first, &second]), judged([&original, &second, &first]));
        assert_eq!(one.sq_err, other.sq_err);
        let tie = error(&original, &first) == error(&original, &second);
        assert_eq!(one.which == other.which, tie);
        assert!(!tie || one.which == Candidate::First);
        ties += usize::from(tie);
    }
    assert!(ties > 0 && ties < 60);
}

/// Errors of 4.4 × 10^12 that differ in one sample by one.
#[test]
fn large_errors() {
    let (black, white) = (vec![0u16; 512 * 512], vec![4_095u16; 512 * 512]);
    let mut less = white.clone();
    less[512 * 512 - 1] = 4_094;
    let shape = Shape { width: 512, height: 512, bit_depth: 12 };
    let [o, far, near] = [&black, &white, &less].map(|list| Plane { data: &list[..], stride: 512 });
    let smaller = (512.0 * 512.0 - 1.0) * 4_095.0 * 4_095.0 + 4_094.0 * 4_094.0;
    assert_eq!(asked([o, far, near], shape), Better { sq_err: smaller, which: Candidate::Second });
    assert_eq!(asked([o, near, far], shape), Better { sq_err: smaller, which: Candidate::First });
}

/// The winner is what was lent: from its first sample to its last, padding and tail included, where planes lie behind each other in one list.
#[test]
fn the_winner_is_the_lent_slice() {
    let list = [64, 70, 65].map(|sample| laid(&[sample; SEEN], STRIDE, byte)).concat();
    for more in 0..=TAIL {
        let lent = [0, 1, 2].map(|i| &list[i * (NEEDED + TAIL)..][..NEEDED + more]);
        let [original, first, second] = lent.map(|data| Plane { data, stride: STRIDE });
        assert!(std::ptr::eq(winner(original, first, second, SHAPE), lent[2]));
        assert!(std::ptr::eq(winner(original, second, first, SHAPE), lent[2]));
    }
}

/// Planes may overlap: here each is the other moved on by one sample.
#[test]
fn candidates_overlap() {
    let list: Vec<u8> = (0..=SEEN as u8).map(|i| i.wrapping_mul(i) % 100).collect();
    let [near, far] = [&list[..SEEN], &list[1..]].map(|data| Plane { data, stride: 7 });
    assert!(std::ptr::eq(winner(near, far, near, SHAPE), near.data));
    assert!(std::ptr::eq(winner(far, far, near, SHAPE), far.data));
    assert_eq!(asked([near, far, near], SHAPE).which, Candidate::Second);
}

/// The slice lives as long as the candidates, and not as the original or the planes that told of it.
#[test]
fn the_winner_outlives_the_original() {
    let builds = [[3u16; SEEN], [4; SEEN]];
    let won = {
        let original = [4u16; SEEN];
        let [a, b] = [0, 1].map(|i| Plane { data: &builds[i][..], stride: 7 });
        winner(Plane { data: &original[..], stride: 7 }, a, b, WIDE)
    };
    assert_eq!(won.as_ptr(), builds[1].as_ptr());
}

/// Refused with this, by all three ways: no place is written, and the part is empty.
fn refused<T: Sample>([original, first, second]: [Plane<'_, T>; 3], shape: Shape, refusal: Refusal) {
    let (mut sq_err, mut which) = (ERROR, WHICH);
    let said = no_alloc::better(original, first, second, shape, &mut sq_err, &mut which);
    assert_eq!((said, sq_err.to_bits(), which), (Err(refusal), ERROR.to_bits(), WHICH));
    assert_eq!(better(original, first, second, shape), Err(refusal));
    assert!(winner(original, first, second, shape).is_empty());
}

/// Planes with the number that refuses each, 0 where it is taken: of good samples, and of such with the last one too bright.
fn faulty<'a, T: Sample>(good: &'a [T], bright: &'a [T]) -> [(u8, Plane<'a, T>); 6] {
    [
        (0, Plane { data: good, stride: STRIDE }),
        (4, Plane { data: good, stride: SHAPE.width - 1 }),
        (4, Plane { data: &bright[..0], stride: MOST_STRIDE + 1 }),
        (5, Plane { data: &bright[..NEEDED - 1], stride: STRIDE }),
        (5, Plane { data: &good[..0], stride: 7 }),
        (6, Plane { data: bright, stride: STRIDE }),
    ]
}

/// Each mix of good and bad planes, in every place: the lowest number of all three, and 1 and 2 before them.
fn every_mix<T: Sample>(make: fn(u16) -> T, shape: Shape) {
    let good = laid(&[1; SEEN], STRIDE, make);
    let mut picture = [1; SEEN];
    picture[SEEN - 1] = 1 << shape.bit_depth;
    let bright = laid(&picture, STRIDE, make);
    let kinds = faulty(&good, &bright);
    let mut taken = 0;
    for i in 0..kinds.len() * kinds.len() * kinds.len() {
        let mix = [i / 36, i / 6 % 6, i % 6].map(|kind| kinds[kind]);
        let three = mix.map(|(_, plane)| plane);
        match mix.iter().filter_map(|(number, _)| Refusal::from_number(*number)).min() {
            Some(refusal) => refused(three, shape, refusal),
            None => {
                asked(three, shape);
                taken += 1;
            }
        }
        refused(three, Shape { width: 0, ..shape }, Refusal::Size);
        refused(three, Shape { height: MOST_SIDE + 1, ..shape }, Refusal::Size);
        refused(three, Shape { height: 0, bit_depth: 13, ..shape }, Refusal::Depth);
    }
    assert_eq!(taken, 1);
}

#[test]
fn the_lowest_number_of_three_planes() {
    every_mix(byte, SHAPE);
    every_mix(word, WIDE);
}

/// Three planes, one of them in this place, the others good.
fn with<'a, T: Sample>(good: Plane<'a, T>, place: usize, plane: Plane<'a, T>) -> [Plane<'a, T>; 3] {
    let mut three = [good; 3];
    three[place] = plane;
    three
}

/// Each limit of one plane from both sides, in each of the three places.
fn limits_of_each<T: Sample>(make: fn(u16) -> T, shape: Shape) {
    let most = (1 << shape.bit_depth) - 1;
    let list = laid(&[most; SEEN], STRIDE, make);
    let good = Plane { data: &list[..NEEDED], stride: STRIDE };
    let row = Shape { height: 1, ..shape };
    for place in 0..3 {
        asked([good; 3], shape);
        refused(with(good, place, Plane { data: &list[..NEEDED - 1], stride: STRIDE }), shape, Refusal::Short);
        // one row needs no stride, but has one
        asked(with(good, place, Plane { stride: MOST_STRIDE, ..good }), row);
        refused(with(good, place, Plane { stride: MOST_STRIDE + 1, ..good }), row, Refusal::Stride);
        asked(with(good, place, Plane { stride: SHAPE.width, ..good }), row);
        refused(with(good, place, Plane { stride: SHAPE.width - 1, ..good }), row, Refusal::Stride);
        for at in [0, 6, 7, SEEN - 1] {
            let mut picture = [most; SEEN];
            picture[at] += 1;
            let bright = laid(&picture, STRIDE, make);
            refused(with(good, place, Plane { data: &bright, stride: STRIDE }), shape, Refusal::Sample);
        }
    }
}

#[test]
fn limits_of_each_plane() {
    limits_of_each(byte, SHAPE);
    limits_of_each(word, WIDE);
}

#[test]
fn depths_and_sides() {
    let (bytes, words) = ([0u8; 9], [0u16; 9]);
    let (b, w) = ([Plane { data: &bytes[..], stride: 3 }; 3], [Plane { data: &words[..], stride: 3 }; 3]);
    let shape = |bit_depth| Shape { width: 3, height: 3, bit_depth };
    let same = Better { sq_err: 0.0, which: Candidate::First };
    (1..=8).for_each(|depth| assert_eq!(asked(b, shape(depth)), same));
    (9..=12).for_each(|depth| assert_eq!(asked(w, shape(depth)), same));
    [0, 9, 12, u32::MAX].into_iter().for_each(|depth| refused(b, shape(depth), Refusal::Depth));
    [0, 8, 13, u32::MAX].into_iter().for_each(|depth| refused(w, shape(depth), Refusal::Depth));
    for side in [0, MOST_SIDE + 1, 1 << 32, usize::MAX] {
        refused(b, Shape { width: side, ..shape(8) }, Refusal::Size);
        refused(w, Shape { height: side, ..shape(12) }, Refusal::Size);
    }
    // the largest sides are within the limit: what lacks is a stride, and samples
    refused(b, Shape { width: MOST_SIDE, ..shape(8) }, Refusal::Stride);
    refused(w, Shape { height: MOST_SIDE, ..shape(12) }, Refusal::Short);
}

#[test]
fn picked_by_name() {
    assert_eq!((Candidate::First.of(7, 9), Candidate::Second.of(7, 9)), (7, 9));
    assert_eq!((Candidate::First as u8, Candidate::Second as u8), (1, 2));
}
