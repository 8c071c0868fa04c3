//! The transform's calls with one thing done otherwise, and the cases in which that would be seen. The run fails if no case tells such a way from the
//! rule, or if one of the sharp cases was not among its own.

use crate::lifting::{forward, forward_by, inverse, inverse_by, of, Part};
use crate::limits::{FORWARD, INVERSE};
use crate::model::VALUE;
use crate::transform::limit;

/// A call, and what became of it.
pub struct Met<'a> {
    /// Whether it was the inverse.
    pub back: bool,
    pub values: &'a [i32],
    pub places: usize,
    pub answer: u8,
    pub left: &'a [i32],
    /// Of an accepted one, what the other call said to what it left.
    pub again: Option<u8>,
}

impl Met<'_> {
    fn lengths(&self) -> (usize, usize) {
        (self.values.len(), self.places)
    }

    /// Whether it would be accepted if this were asked of it; the other of the two calls is as it is.
    fn asking(&self, back: bool, held: impl Fn(&[i32]) -> bool) -> bool {
        if self.back == back {
            self.lengths() == (64, 64) && held(self.values)
        } else {
            self.answer == 0
        }
    }

    /// The same if values from this to that were taken.
    fn range(&self, back: bool, low: i32, high: i32) -> bool {
        self.asking(back, |values| within(values, low, high))
    }

    /// The same if this were the size of a value.
    fn sized(&self, back: bool, size: fn(i32) -> i32) -> bool {
        self.asking(back, |values| values.iter().all(|v| size(*v) <= limit(back)))
    }

    /// Whether it would be accepted with such lengths, if its values are.
    fn room(&self, held: fn(usize, usize) -> bool) -> bool {
        let most = limit(self.back);
        held(self.values.len(), self.places) && within(self.values, -most, most)
    }

    /// What would be left if the steps had such parts; the other of the two calls is as it is.
    fn by(&self, back: bool, part: fn(Part, i64) -> i64) -> Vec<i32> {
        let wide = match self.back {
            call if call != back => return self.left.to_vec(),
            true => inverse_by(self.values, part),
            false => forward_by(self.values, part),
        };
        wide.iter().map(|v| *v as i32).collect()
    }

    /// The same if this became of each number at last.
    fn ending(&self, back: bool, becomes: fn(i32) -> i32) -> Vec<i32> {
        self.left.iter().map(|v| if self.back == back { becomes(*v) } else { *v }).collect()
    }

    /// The same if rows were gone through before columns.
    fn rows_first(&self, back: bool) -> Vec<i32> {
        let turned = |block: &[i32]| (0..64).map(|i| block[8 * (i % 8) + i / 8]).collect::<Vec<i32>>();
        match self.back {
            call if call != back => self.left.to_vec(),
            true => turned(&inverse(&turned(self.values))),
            false => turned(&forward(&turned(self.values))),
        }
    }

    /// Whether it was accepted, and has this among its values.
    fn took(&self, back: bool, value: i32) -> bool {
        (self.back, self.answer) == (back, 0) && self.values.contains(&value)
    }

    /// Whether it was refused for this value at this place alone.
    fn past(&self, back: bool, at: usize, value: i32) -> bool {
        let outside = |i: &usize| !within(&self.values[*i..=*i], -limit(back), limit(back));
        (self.back, self.answer, self.lengths()) == (back, VALUE, (64, 64))
            && self.values[at] == value
            && (0..64).filter(outside).eq([at])
    }

    /// Whether the inverse was accepted, left this, and forward of that had this answer.
    fn again(&self, answer: u8, value: i32) -> bool {
        self.back && self.again == Some(answer) && self.left.contains(&value)
    }

    /// Whether forward refuses the inverse for this value, at one place alone.
    fn again_past(&self, value: i32) -> bool {
        let outside = self.left.iter().filter(|v| v.abs() > FORWARD);
        self.again(VALUE, value) && outside.eq([&value])
    }

    /// Whether forward, or the inverse, left a number of which this holds.
    fn left(&self, back: bool, held: fn(i32) -> bool) -> bool {
        (self.back, self.answer) == (back, 0) && self.left.iter().any(|v| held(*v))
    }

    /// Whether it was refused for these lengths, with values that are taken.
    fn odd(&self, back: bool, lengths: (usize, usize)) -> bool {
        (self.back, self.answer, self.lengths()) == (back, VALUE, lengths) && within(self.values, -FORWARD, FORWARD)
    }
}

fn within(values: &[i32], low: i32, high: i32) -> bool {
    values.iter().all(|v| (low..=high).contains(v))
}

/// A way to judge what is lent, and whether a call would then be accepted.
pub type Limit = (&'static str, fn(&Met) -> bool);

pub const LIMITS: [Limit; 29] = [
    ("forward to 4,095, as it was", |met| met.range(false, -4_095, 4_095)),
    ("inverse to 1,048,575, as it was", |met| met.range(true, -1_048_575, 1_048_575)),
    ("forward of 8,192", |met| met.range(false, -FORWARD, FORWARD + 1)),
    ("forward of -8,192, as 14 bits have it", |met| met.range(false, -FORWARD - 1, FORWARD)),
    ("forward of less than 8,191", |met| met.range(false, -FORWARD, FORWARD - 1)),
    ("forward of more than -8,191", |met| met.range(false, -FORWARD + 1, FORWARD)),
    ("inverse of 2,097,152", |met| met.range(true, -INVERSE, INVERSE + 1)),
    ("inverse of -2,097,152, as 22 bits have it", |met| met.range(true, -INVERSE - 1, INVERSE)),
    ("inverse of less than 2,097,151", |met| met.range(true, -INVERSE, INVERSE - 1)),
    ("inverse of more than -2,097,151", |met| met.range(true, -INVERSE + 1, INVERSE)),
    ("forward with the inverse's limit", |met| met.range(false, -INVERSE, INVERSE)),
    ("inverse with forward's limit", |met| met.range(true, -FORWARD, FORWARD)),
    ("inverse of coefficients that forward leaves", |met| met.range(true, -65_537, 65_537)),
    ("forward judged by its coefficients", |met| met.asking(false, few)),
    ("inverse judged by its answer", |met| {
        met.asking(true, |_| met.answer == 0 && within(met.left, -INVERSE, INVERSE))
    }),
    ("forward judged by 63 values", |met| met.asking(false, |values| within(&values[..63], -FORWARD, FORWARD))),
    ("inverse judged by 63 values", |met| met.asking(true, |values| within(&values[..63], -INVERSE, INVERSE))),
    ("forward judged but for its first value", |met| {
        met.asking(false, |values| within(&values[1..], -FORWARD, FORWARD))
    }),
    ("inverse judged but for its first value", |met| {
        met.asking(true, |values| within(&values[1..], -INVERSE, INVERSE))
    }),
    ("forward holds values to its range", |met| met.asking(false, |_| true)),
    ("inverse holds values to its range", |met| met.asking(true, |_| true)),
    ("forward by sizes that wrap", |met| met.sized(false, i32::wrapping_abs)),
    ("inverse by sizes that wrap", |met| met.sized(true, i32::wrapping_abs)),
    ("forward of 16 bits", |met| met.sized(false, |v| i32::from(v as i16).abs())),
    ("inverse of 24 bits", |met| met.sized(true, |v| (v << 8 >> 8).abs())),
    ("more than 64 to read", |met| met.room(|values, places| values >= 64 && places == 64)),
    ("less than 64 to read", |met| met.room(|values, places| values <= 64 && places == 64)),
    ("more than 64 to write", |met| met.room(|values, places| values == 64 && places >= 64)),
    ("less than 64 to write", |met| met.room(|values, places| values == 64 && places <= 64)),
];

/// Whether all coefficients, of whatever values, are as small as those of lawful ones.
fn few(values: &[i32]) -> bool {
    forward_by(values, of).iter().all(|v| v.abs() <= 65_537)
}

/// A way to transform, and what an accepted call would then leave.
pub type Step = (&'static str, fn(&Met) -> Vec<i32>);

pub const STEPS: [Step; 21] = [
    ("coefficients of 16 bits", |met| met.ending(false, |v| i32::from(v as i16))),
    ("coefficients held to 16 bits", |met| met.ending(false, |v| v.clamp(-32_768, 32_767))),
    ("coefficients held to 8 × 8,191", |met| met.ending(false, |v| v.clamp(-8 * FORWARD, 8 * FORWARD))),
    ("an inverse of 24 bits", |met| met.ending(true, |v| v << 8 >> 8)),
    ("an inverse held to what it takes", |met| met.ending(true, |v| v.clamp(-INVERSE, INVERSE))),
    ("an inverse held to what forward takes", |met| met.ending(true, |v| v.clamp(-FORWARD, FORWARD))),
    ("forward with rows before columns", |met| met.rows_first(false)),
    ("inverse with rows before columns", |met| met.rows_first(true)),
    ("inverse with products of 32 bits", |met| met.by(true, of_32_bits)),
    ("forward with products of single floats", |met| met.by(false, of_floats)),
    ("inverse with products of single floats", |met| met.by(true, of_floats)),
    ("forward with products rounded down", |met| met.by(false, rounded_down)),
    ("inverse with products rounded down", |met| met.by(true, rounded_down)),
    ("forward with products cut toward 0", |met| met.by(false, cut)),
    ("inverse with products cut toward 0", |met| met.by(true, cut)),
    ("forward with halves of products rounded down", |met| met.by(false, halves_down)),
    ("inverse with halves of products rounded down", |met| met.by(true, halves_down)),
    ("forward with halves rounded down", |met| met.by(false, |part, t| halved(part, t, t >> 1))),
    ("inverse with halves rounded down", |met| met.by(true, |part, t| halved(part, t, t >> 1))),
    ("forward with halves rounded up", |met| met.by(false, |part, t| halved(part, t, (t + 1) >> 1))),
    ("inverse with halves rounded up", |met| met.by(true, |part, t| halved(part, t, (t + 1) >> 1))),
];

fn of_32_bits(part: Part, t: i64) -> i64 {
    product(part, t, |product, half, shift| (i64::from(product as i32) + half) >> shift)
}

fn of_floats(part: Part, t: i64) -> i64 {
    product(part, t, |product, half, shift| (product as f32 as i64 + half) >> shift)
}

fn rounded_down(part: Part, t: i64) -> i64 {
    product(part, t, |product, _, shift| product >> shift)
}

fn cut(part: Part, t: i64) -> i64 {
    product(part, t, |product, half, shift| (product + half) / (1 << shift))
}

fn halves_down(part: Part, t: i64) -> i64 {
    product(part, t, |product, half, shift| (product + half - 1) >> shift)
}

/// A part, of which this is made where it is a product: of that, half of what it is divided by, and how far it is shifted.
fn product(part: Part, t: i64, rounded: fn(i64, i64, u32) -> i64) -> i64 {
    match part {
        Part::Times(factor, shift) => rounded(t * factor, 1 << (shift - 1), shift),
        other => of(other, t),
    }
}

/// A part, which is this where it is a half.
fn halved(part: Part, t: i64, half: i64) -> i64 {
    match part {
        Part::Half => half,
        other => of(other, t),
    }
}

/// A case that a run must have met.
pub type Sharp = (&'static str, fn(&Met) -> bool);

pub const SHARP: [Sharp; 40] = [
    ("forward of 8,191", |met| met.took(false, FORWARD)),
    ("forward of -8,191", |met| met.took(false, -FORWARD)),
    ("forward of 8,192 at the first place", |met| met.past(false, 0, FORWARD + 1)),
    ("forward of -8,192 at the first place", |met| met.past(false, 0, -FORWARD - 1)),
    ("forward of 8,192 at the last place", |met| met.past(false, 63, FORWARD + 1)),
    ("forward of -8,192 at the last place", |met| met.past(false, 63, -FORWARD - 1)),
    ("forward of 4,096, which was refused", |met| met.took(false, 4_096)),
    ("forward of -4,096, which was refused", |met| met.took(false, -4_096)),
    ("forward of the least number", |met| met.past(false, 0, i32::MIN)),
    ("inverse of 2,097,151", |met| met.took(true, INVERSE)),
    ("inverse of -2,097,151", |met| met.took(true, -INVERSE)),
    ("inverse of 2,097,152 at the first place", |met| met.past(true, 0, INVERSE + 1)),
    ("inverse of -2,097,152 at the first place", |met| met.past(true, 0, -INVERSE - 1)),
    ("inverse of 2,097,152 at the last place", |met| met.past(true, 63, INVERSE + 1)),
    ("inverse of -2,097,152 at the last place", |met| met.past(true, 63, -INVERSE - 1)),
    ("inverse of 1,048,576, which was refused", |met| met.took(true, 1_048_576)),
    ("inverse of -1,048,576, which was refused", |met| met.took(true, -1_048_576)),
    ("inverse of the least number", |met| met.past(true, 0, i32::MIN)),
    ("back and forward again with 8,191", |met| met.again(0, FORWARD)),
    ("back and forward again with -8,191", |met| met.again(0, -FORWARD)),
    ("back and forward again with both", |met| met.again(0, FORWARD) && met.again(0, -FORWARD)),
    ("back to 8,192 at one place, which forward refuses", |met| met.again_past(FORWARD + 1)),
    ("back to -8,192 at one place, which forward refuses", |met| met.again_past(-FORWARD - 1)),
    ("a coefficient above 32,767", |met| met.left(false, |v| v > 32_767)),
    ("a coefficient below -32,768", |met| met.left(false, |v| v < -32_768)),
    ("a coefficient with a square above 2^31", |met| met.left(false, |v| i64::from(v) * i64::from(v) > 1 << 31)),
    ("a coefficient above 65,500", |met| met.left(false, |v| v > 65_500)),
    ("a coefficient below -65,500", |met| met.left(false, |v| v < -65_500)),
    ("a coefficient of 65,529", |met| met.left(false, |v| v == 65_529)),
    ("a coefficient of -65,529", |met| met.left(false, |v| v == -65_529)),
    ("an inverse above 14,000,000", |met| met.left(true, |v| v > 14_000_000)),
    ("an inverse below -14,000,000", |met| met.left(true, |v| v < -14_000_000)),
    ("forward of 63 numbers", |met| met.odd(false, (63, 64))),
    ("forward of 65 numbers", |met| met.odd(false, (65, 64))),
    ("forward into 63 places", |met| met.odd(false, (64, 63))),
    ("forward into 65 places", |met| met.odd(false, (64, 65))),
    ("inverse of 63 numbers", |met| met.odd(true, (63, 64))),
    ("inverse of 65 numbers", |met| met.odd(true, (65, 64))),
    ("inverse into 63 places", |met| met.odd(true, (64, 63))),
    ("inverse into 65 places", |met| met.odd(true, (64, 65))),
];
