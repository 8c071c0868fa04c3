//! The transform and its inverse: what each takes, what a refused call leaves, and that nothing is lost there and back.

use fuavelino::*;
use std::array::from_fn;

type Block = [i32; 64];
type Call = fn(&[i32], &mut [i32]) -> Result<(), Refusal>;

/// Both calls, each with the largest size that it takes.
const CALLS: [(&str, Call, i32); 2] = [("forward", forward, MOST_FORWARD), ("inverse", inverse, MOST_INVERSE)];
/// The largest sample of 12 bits.
const BRIGHT: i32 = 4_095;

/// What lent places hold before a call: no two alike, and none that any call would write.
fn before(places: usize) -> Vec<i32> {
    (0..places as i32).map(|i| 0x5EED_0000 + i).collect()
}

/// All of one value but at one place.
fn spike(rest: i32, at: usize, value: i32) -> Block {
    from_fn(|i| if i == at { value } else { rest })
}

/// Patterns of signs: rows, columns, boards and what lies between.
fn signs() -> impl Iterator<Item = Block> {
    (0..64usize).map(|pattern| from_fn(|i| if (pattern & i).count_ones() % 2 == 0 { 1 } else { -1 }))
}

/// Numbers from 0 to `most`, the same in each run.
fn seeded(seed: u64) -> impl FnMut(i32) -> i32 {
    let mut state = seed;
    move |most| {
        state = state.wrapping_mul(6_364_136_223_846_793_005).wrapping_add(1_442_695_040_888_963_407);
        ((state >> 33) % (most as u64 + 1)) as i32
    }
}

/// What a call writes; the places behind those that it was lent stay as they were.
fn taken(call: Call, values: &Block) -> Block {
    let mut out = before(128);
    assert_eq!(call(values, &mut out[..64]), Ok(()), "{:?}", values);
    assert_eq!(out[64..], before(128)[64..]);
    from_fn(|i| out[i])
}

/// Refused with 12, and every place is as it was.
fn refused(call: Call, values: &[i32], places: usize, why: &str) {
    let mut out = before(places + 64);
    assert_eq!(call(values, &mut out[..places]), Err(Refusal::Value), "{}", why);
    assert_eq!(out, before(places + 64), "{}", why);
}

fn there_and_back(block: &Block) {
    assert_eq!(taken(inverse, &taken(forward, block)), *block);
}

/// The block of these coefficients goes forward to them where it is in range, and is refused where it is not. Whether it was in range.
fn back_and_there(coefs: &Block) -> bool {
    let block = taken(inverse, coefs);
    let within = block.iter().all(|v| (-MOST_FORWARD..=MOST_FORWARD).contains(v));
    match within {
        true => assert_eq!(taken(forward, &block), *coefs),
        false => refused(forward, &block, 64, "a block outside what forward takes"),
    }
    within
}

/// Either end at each place, in a block of 0 and in one that is full to the ends; and the whole block.
#[test]
fn ends_are_taken() {
    for (_, call, limit) in CALLS {
        for end in [limit, -limit] {
            for (rest, at) in [0, limit, -limit].iter().flat_map(|rest| (0..64).map(move |at| (*rest, at))) {
                taken(call, &spike(rest, at, end));
            }
        }
    }
}

/// One past either end, and numbers that wrap to small ones in fewer bits, at each place; the other values are as far out as they may be.
#[test]
fn past_the_ends_is_refused() {
    for (name, call, limit) in CALLS {
        let wrapping = [1 << 22, 1 << 24, 1 << 30, i32::MAX, i32::MIN + 1, i32::MIN, i32::MIN + limit];
        for value in [limit + 1, -limit - 1].iter().chain(&wrapping) {
            for (rest, at) in [0, limit, -limit].iter().flat_map(|rest| (0..64).map(move |at| (*rest, at))) {
                refused(call, &spike(rest, at, *value), 64, &format!("{}: {} at {}", name, value, at));
            }
            refused(call, &[*value; 64], 64, &format!("{}: all {}", name, value));
        }
    }
}

/// 64 places in and out, and no other counts: also where the values are lawful, and where both counts are alike.
#[test]
fn counts() {
    const LENGTHS: [usize; 7] = [0, 1, 63, 64, 65, 128, 4_096];
    for (name, call, limit) in CALLS {
        for (values, places) in LENGTHS.iter().flat_map(|v| LENGTHS.iter().map(move |p| (*v, *p))) {
            let why = format!("{}: {} values, {} places", name, values, places);
            if (values, places) != (64, 64) {
                refused(call, &vec![0; values], places, &why);
                refused(call, &vec![limit; values], places, &why);
            }
            if values > 0 {
                refused(call, &vec![limit + 1; values], places, &why);
            }
        }
    }
}

/// What was refused when forward took −4,095 to 4,095 and inverse −1,048,575 to 1,048,575.
#[test]
fn what_was_refused_once() {
    for at in 0..64 {
        for sign in [1, -1] {
            there_and_back(&spike(0, at, sign * (BRIGHT + 1)));
            assert!(!back_and_there(&spike(0, at, sign << 20)), "a large coefficient has a large block");
        }
    }
}

/// Blocks at the ends of the range, in every pattern of signs and with one place turned, come back.
#[test]
fn forward_loses_nothing() {
    for pattern in signs() {
        for limit in [MOST_FORWARD, -MOST_FORWARD, MOST_FORWARD - 1] {
            let block = pattern.map(|sign| sign * limit);
            there_and_back(&block);
            assert!(back_and_there(&taken(forward, &block)));
            for at in 0..64 {
                there_and_back(&from_fn(|i| if i == at { -block[i] } else { block[i] }));
            }
        }
    }
    let mut next = seeded(9);
    for _ in 0..2_000 {
        there_and_back(&from_fn(|_| next(2 * MOST_FORWARD) - MOST_FORWARD));
    }
}

/// The block of coefficients in range goes forward to them, unless it is too large for forward; then that is said.
#[test]
fn inverse_loses_nothing() {
    for at in 0..64 {
        assert!(!back_and_there(&spike(0, at, MOST_INVERSE)) && !back_and_there(&spike(0, at, -MOST_INVERSE)));
        assert!(back_and_there(&spike(0, at, MOST_FORWARD)) && back_and_there(&spike(0, at, -MOST_FORWARD)));
    }
    for pattern in signs() {
        assert!(!back_and_there(&pattern.map(|sign| sign * MOST_INVERSE)));
    }
    let mut next = seeded(10);
    for _ in 0..2_000 {
        assert!(back_and_there(&from_fn(|_| next(1_000) - 500)));
        assert!(!back_and_there(&from_fn(|_| next(2 * MOST_INVERSE) - MOST_INVERSE)));
    }
}

/// The last flat block that forward takes, and the first that it does not, as inverse gives them.
#[test]
fn the_border() {
    let (inside, outside) = (spike(0, 0, 65_529), spike(0, 0, 65_530));
    assert_eq!((taken(inverse, &inside)[0], taken(inverse, &outside)[0]), (MOST_FORWARD, MOST_FORWARD + 1));
    assert!(back_and_there(&inside) && !back_and_there(&outside));
    assert!(back_and_there(&inside.map(|v| -v)) && !back_and_there(&outside.map(|v| -v)));
}

/// Answers at the ends, made by the steps of docs/SCOPE.md over wide numbers.
#[test]
fn answers_at_the_ends() {
    let board: Block = from_fn(|i| if (i / 8 + i) % 2 == 0 { MOST_FORWARD } else { -MOST_FORWARD });
    for sign in [1, -1] {
        assert_eq!(taken(forward, &[sign * MOST_FORWARD; 64])[0], sign * 65_529);
        let coefs = taken(forward, &board.map(|v| sign * v));
        assert_eq!((coefs[0], coefs[63]), (0, sign * 53_800));
        let block = taken(inverse, &spike(0, 0, sign * MOST_INVERSE));
        assert_eq!((block[0], block[63]), (sign * 262_148, sign * 262_148));
        let block = taken(inverse, &[sign * MOST_INVERSE; 64]);
        assert_eq!((block[0], block[63]), (sign * 14_636_811, sign * 13_063));
    }
}

/// The difference of two residues, each the difference of a block and what predicts it.
fn residue_of_residues(samples: &[Block; 4]) -> Block {
    let [now, guess, past, past_guess] = samples;
    from_fn(|i| (now[i] - guess[i]) - (past[i] - past_guess[i]))
}

/// Samples of 12 bits, dark and bright in all sixteen ways, each way alone and all of them in one block; and any samples.
#[test]
fn residues_of_residues_return() {
    let ways: Vec<[i32; 4]> =
        (0..16).map(|way| [8, 4, 2, 1].map(|bit| if way & bit == 0 { 0 } else { BRIGHT })).collect();
    for way in &ways {
        there_and_back(&residue_of_residues(&way.map(|sample| [sample; 64])));
    }
    for shift in 0..16 {
        let block = residue_of_residues(&from_fn(|k| from_fn(|i| ways[(i * (2 * (i / 16) + 1) + shift) % 16][k])));
        assert_eq!((block.iter().max(), block.iter().min()), (Some(&(2 * BRIGHT)), Some(&(-2 * BRIGHT))));
        there_and_back(&block);
        there_and_back(&block.map(|v| -v));
    }
    let mut next = seeded(11);
    for _ in 0..2_000 {
        there_and_back(&residue_of_residues(&from_fn(|_| from_fn(|_| next(BRIGHT)))));
    }
}

/// The largest of them, from one end of a residue to the other, comes back in every pattern of signs.
#[test]
fn the_largest_residues_return() {
    let [bright, dark] = [[BRIGHT; 64], [0; 64]];
    let most = residue_of_residues(&[bright, dark, dark, bright]);
    assert_eq!(most, [2 * BRIGHT; 64]);
    for pattern in signs() {
        let block: Block = from_fn(|i| pattern[i] * most[i]);
        there_and_back(&block);
        there_and_back(&block.map(|v| -v));
    }
}
