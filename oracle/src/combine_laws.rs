//! What must hold of each average that the product gives: it lies among the three scores up to rounding, and of three equal scores it is that
//! score, but for a few units in the last place. How often, and how far off, is told.

/// Whether a number is neither below the least nor above the largest of the three by more than rounding allows.
pub fn among(score: f64, scores: [f64; 3]) -> bool {
    let largest = |list: [f64; 3]| list.into_iter().fold(f64::NEG_INFINITY, f64::max);
    !above(score, largest(scores)) && !above(-score, largest(scores.map(|s| -s)))
}

/// Whether x is above `high` by more than |high| × 2^-50 and twice the least double. Nothing is rounded: both are whole numbers of one unit.
fn above(x: f64, high: f64) -> bool {
    if x <= high {
        return false;
    }
    let ((m, e), (n, f)) = (parts(x), parts(high));
    // units so unlike: the two differ by more than 2^50 of the coarser, and what is allowed is some ten
    if e.abs_diff(f) > 1 {
        return true;
    }
    let unit = e.min(f);
    let (m, n) = (m << (e - unit), n << (f - unit));
    // whole numbers on both sides, so that a part of twice the least double can be dropped
    (m - n) << 50 > n.abs() + ((1i128 << 51) >> unit.min(52))
}

/// A finite double as a whole number, with its sign, times 2^e of the least double.
fn parts(x: f64) -> (i128, u32) {
    let (exponent, rest) = (x.to_bits() >> 52 & 0x7FF, i128::from(x.to_bits() << 12 >> 12));
    let (m, e) = if exponent == 0 { (rest, 0) } else { (rest | 1 << 52, exponent as u32 - 1) };
    (if x < 0.0 { -m } else { m }, e)
}

/// How many doubles apart.
fn steps(a: f64, b: f64) -> u64 {
    let place = |x: f64| {
        let far = (x.to_bits() << 1 >> 1) as i64;
        if x < 0.0 {
            -far
        } else {
            far
        }
    };
    place(a).abs_diff(place(b))
}

/// The weights by which equal scores are counted, and all the others.
const GROUPS: [(&str, f64); 5] = [("400", 0.0), ("420", 0.25), ("422", 0.5), ("444", 1.0), ("other weights", f64::NAN)];

/// Of three equal scores, under each weight: how many came back, how many did not, and by how much at most.
#[derive(Default)]
pub struct Equals {
    groups: [Group; GROUPS.len()],
}

#[derive(Clone, Copy, Default)]
struct Group {
    exact: u64,
    off: u64,
    most: u64,
}

impl Equals {
    pub fn count(&mut self, c: f64, scores: [f64; 3], score: f64) {
        let [y, u, v] = scores.map(f64::to_bits);
        if y != u || y != v {
            return;
        }
        let known = GROUPS.iter().position(|group| group.1 == c);
        let group = &mut self.groups[known.unwrap_or(GROUPS.len() - 1)];
        if score == scores[0] {
            group.exact += 1;
        } else {
            group.off += 1;
            group.most = group.most.max(steps(score, scores[0]));
        }
    }

    /// One line. A run must have met equal scores under each weight, some that come back and some that do not.
    pub fn tell(&self) -> Result<String, String> {
        if self.groups.iter().any(|group| group.exact == 0) || self.groups.iter().all(|group| group.off == 0) {
            return Err("no equal scores that come back under each weight, or none that do not".to_string());
        }
        let word = |(name, group): (&str, &Group)| match group.off {
            0 => format!("{}: all {}", name, group.exact),
            off => format!("{}: {}, and {} off by at most {} in the last place", name, group.exact, off, group.most),
        };
        let names = GROUPS.iter().map(|group| group.0);
        let words: Vec<String> = names.zip(&self.groups).map(word).collect();
        Ok(format!("the average of three equal HVS scores is that score ({})", words.join("; ")))
    }
}
