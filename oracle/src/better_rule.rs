//! Order 11's first half, written from its text: of an original and two candidates the one with the smaller squared error, the first on a tie; all three
//! planes judged, the lowest number overall; and the winner as it was lent, or nothing. In parts, each of which a way replaces.

use crate::limits::{SIDE, STRIDE};
use crate::model::{depth_suits, needs};
use crate::samples::Planes;

/// The original and two candidates.
pub type Contest = Planes<3>;

/// The planes by their places.
pub const ORIGINAL: usize = 0;
pub const FIRST: usize = 1;
pub const SECOND: usize = 2;

/// What a call answers, and what then stands in the places of the error, as bits, and of which it was.
#[derive(Clone, Copy, Debug, PartialEq)]
pub struct Told {
    pub answer: u8,
    pub error: u64,
    pub which: u8,
}

/// What both places hold before a call, and must hold after a refusal.
pub const BEFORE: Told = Told { answer: 0, error: 0x7FF4_DEAD_BEEF_0007, which: 0xA7 };

/// What is handed back: so many samples of one of the planes, from its first on.
#[derive(Clone, Copy, Debug, PartialEq)]
pub struct Part {
    pub plane: usize,
    pub len: usize,
}

/// A number, and whether a plane of a contest is refused by it.
pub type Test = (u8, fn(&Contest, usize) -> bool);

/// What both candidates came to: their errors, and the one chosen.
#[derive(Clone, Copy)]
pub struct Judged {
    pub errors: [u64; 2],
    pub chosen: usize,
}

impl Judged {
    /// The error of a candidate.
    pub fn error(&self, candidate: usize) -> u64 {
        self.errors[candidate - FIRST]
    }

    pub fn is_tie(&self) -> bool {
        self.errors[0] == self.errors[1]
    }
}

#[derive(Clone, Copy)]
pub struct Rule {
    /// How the planes are taken, where it is not as they are lent.
    pub taken: Option<fn(&Contest) -> Contest>,
    /// The tests in their order, and the planes that are judged together, group after group.
    pub tests: [Test; 5],
    pub groups: &'static [&'static [usize]],
    /// The error of a candidate.
    pub error: fn(&Contest, usize) -> u64,
    /// Whether the second is chosen, by both errors.
    pub second: fn([u64; 2]) -> bool,
    /// The error that is told, and which it is said to be.
    pub told: fn(&Judged) -> (u64, u8),
    /// What is left where the call is refused.
    pub refused: Told,
    /// What is handed back, of planes that are not refused, and of planes that are refused by a number.
    pub part: fn(&Contest, &Judged) -> Part,
    pub nothing: fn(&Contest, u8) -> Part,
}

pub const RIGHT: Rule = Rule {
    taken: None,
    tests: [DEPTH, SIDES, STRIDES, SHORT, ABOVE],
    groups: &[&[ORIGINAL, FIRST, SECOND]],
    error: squared,
    second: |[first, second]| second < first,
    told: |judged| (judged.error(judged.chosen), judged.chosen as u8),
    refused: BEFORE,
    part: |contest, judged| whole(contest, judged.chosen),
    nothing: |_, _| Part { plane: FIRST, len: 0 },
};

pub const DEPTH: Test = (1, |c, _| !depth_suits(c.wide, c.depth));
pub const SIDES: Test = (2, |c, _| [c.width, c.height].iter().any(|side| *side == 0 || *side > SIDE));
pub const STRIDES: Test = (4, |c, i| c.strides[i] < c.width || c.strides[i] > STRIDE);
pub const SHORT: Test = (5, |c, i| is_short(c, i, 0));
pub const ABOVE: Test = (6, |c, i| is_above(c, i, c.width, c.height));

/// Whether a plane has fewer samples than are needed and so many more.
pub fn is_short(c: &Contest, i: usize, more: i128) -> bool {
    (c.samples[i].len() as i128) < needs(c.strides[i], c.width, c.height) as i128 + more
}

/// Whether a sample of so many columns and rows is above the largest.
pub fn is_above(c: &Contest, i: usize, columns: usize, rows: usize) -> bool {
    let most = (1 << c.depth.min(15)) - 1;
    (0..rows.min(c.samples[i].len())).any(|y| row(c, i, y, columns).iter().any(|sample| *sample > most))
}

/// The samples that there are of a row, so many at most.
pub fn row(c: &Contest, i: usize, y: usize, columns: usize) -> &[u16] {
    let rest = y.checked_mul(c.strides[i]).and_then(|start| c.samples[i].get(start..)).unwrap_or(&[]);
    &rest[..columns.min(rest.len())]
}

/// The sum of (o − c)² over what is seen.
pub fn squared(c: &Contest, candidate: usize) -> u64 {
    summed(c, ORIGINAL, candidate, c.width, c.height, |o, s| u64::from(o.abs_diff(s)).pow(2))
}

/// A sum over so many columns and rows of two planes.
pub fn summed(c: &Contest, i: usize, j: usize, columns: usize, rows: usize, term: fn(u16, u16) -> u64) -> u64 {
    let of_row = |y: usize| -> u64 {
        let (a, b) = (row(c, i, y, columns), row(c, j, y, columns));
        a.iter().zip(b).map(|(x, y)| term(*x, *y)).sum()
    };
    (0..rows.min(c.samples[i].len())).map(of_row).sum()
}

/// All of a plane that is lent.
pub fn whole(c: &Contest, plane: usize) -> Part {
    Part { plane, len: c.samples[plane].len() }
}

impl Rule {
    /// The number of the first test that a plane breaks, 0 where none does.
    pub fn refusal(&self, c: &Contest) -> u8 {
        let of_group = |group: &&[usize]| self.tests.iter().find(|test| group.iter().any(|i| test.1(c, *i)));
        self.groups.iter().find_map(of_group).map_or(0, |test| test.0)
    }

    /// What both candidates come to, of planes that are not refused.
    pub fn judged(&self, c: &Contest) -> Judged {
        let errors = [FIRST, SECOND].map(|candidate| (self.error)(c, candidate));
        Judged { errors, chosen: if (self.second)(errors) { SECOND } else { FIRST } }
    }

    /// What a call answers and leaves, and what is handed back. The call's own planes are lent, so that a part is one of them whatever was judged.
    pub fn says(&self, lent: &Contest) -> (Told, Part) {
        let taken = self.taken.map(|taken| taken(lent));
        let c = taken.as_ref().unwrap_or(lent);
        match self.refusal(c) {
            0 => {
                let judged = self.judged(c);
                let (error, which) = (self.told)(&judged);
                (Told { answer: 0, error: (error as f64).to_bits(), which }, (self.part)(lent, &judged))
            }
            answer => (Told { answer, ..self.refused }, (self.nothing)(lent, answer)),
        }
    }
}
