//! What the squared error call asks of a plane's number, with one thing done otherwise, and the cases in which that would be seen. The run fails if no
//! case tells such a way from the rule, or if one of the sharp cases was not among its own.

use crate::records::{Whose, LAST};

/// A call: the refusal of its planes, 0 where they are sound, whose they are said to be, and what became of it.
pub struct Met {
    pub planes: u8,
    pub whose: Whose,
    pub answer: u8,
}

impl Met {
    fn plane(&self) -> u32 {
        self.whose.1
    }

    /// The answer if this is what is asked of the numbers, after what is asked of the planes.
    fn asking(&self, held: bool) -> u8 {
        match self.planes {
            0 => u8::from(!held) * 10,
            refused => refused,
        }
    }

    /// The answer if 10 were judged before this refusal.
    fn before(&self, refused: u8) -> u8 {
        if self.plane() > 2 && self.planes == refused {
            10
        } else {
            self.answer
        }
    }

    /// Whether planes with this refusal were said to be plane 3, and the refusal was told.
    fn third(&self, refused: u8) -> bool {
        self.plane() == 3 && (self.planes, self.answer) == (refused, refused)
    }

    fn is(&self, answer: u8, whose: Whose) -> bool {
        (self.planes, self.answer, self.whose) == (0, answer, whose)
    }
}

/// A way to judge, and what a call would then answer.
pub type Way = (&'static str, fn(&Met) -> u8);

pub const WAYS: [Way; 13] = [
    ("numbers not judged", |met| met.asking(true)),
    ("plane 3 taken", |met| met.asking(met.plane() <= 3)),
    ("plane 2 refused", |met| met.asking(met.plane() < 2)),
    ("planes of 8 bits", |met| met.asking(met.plane() as u8 <= 2)),
    ("planes of 16 bits", |met| met.asking(met.plane() as u16 <= 2)),
    ("planes as signed numbers", |met| met.asking(met.plane() as i32 <= 2)),
    ("the last frame refused", |met| met.asking(met.plane() <= 2 && met.whose.0 < u32::MAX)),
    ("frames as signed numbers", |met| met.asking(met.plane() <= 2 && met.whose.0 as i32 >= 0)),
    ("10 before 1", |met| met.before(1)),
    ("10 before 2", |met| met.before(2)),
    ("10 before 4", |met| met.before(4)),
    ("10 before 5", |met| met.before(5)),
    ("10 before 6", |met| met.before(6)),
];

/// A case that a run must have met.
pub type Sharp = (&'static str, fn(&Met) -> bool);

pub const SHARP: [Sharp; 14] = [
    ("plane 3 beside a bad depth, which is 1", |met| met.third(1)),
    ("plane 3 beside a bad side, which is 2", |met| met.third(2)),
    ("plane 3 beside a bad stride, which is 4", |met| met.third(4)),
    ("plane 3 beside a short plane, which is 5", |met| met.third(5)),
    ("plane 3 beside a sample too large, which is 6", |met| met.third(6)),
    ("plane 3 alone, which is 10", |met| met.is(10, (0, 3))),
    ("plane 3 of the last frame", |met| met.is(10, (u32::MAX, 3))),
    ("plane 2^31", |met| met.is(10, (0, 1 << 31))),
    ("plane 2^32 - 1", |met| met.is(10, (0, u32::MAX))),
    ("plane 256", |met| met.is(10, (1, 256))),
    ("plane 0 of frame 0", |met| met.is(0, (0, 0))),
    ("plane 1 of frame 0", |met| met.is(0, (0, 1))),
    ("plane 2 of frame 0", |met| met.is(0, (0, 2))),
    ("plane 2 of the last frame", |met| met.is(0, LAST)),
];
