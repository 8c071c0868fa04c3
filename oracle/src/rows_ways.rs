//! Row-fed SSIM with one thing done otherwise, and the calls in which that would be seen. The run fails if no case tells such a way from the rule, or if
//! one of the sharp calls was not among its own.

use crate::fenced::Side;
use crate::limits::{SIDE, STRIDE};
use crate::rows_calls::How;
use crate::rows_model::{Left, Step};
use crate::rows_rule::*;
use crate::ssim::{lawful, level, trimmed};

/// A way, as the rule with one part of it replaced.
pub type Way = (&'static str, Rule);

/// Ways to refuse a begin.
const BEGINS: [Way; 6] = [
    ("begin by sides before depth", begin(&[(2, sides), (1, depth), (7, kernel), (8, begin_room)])),
    ("begin by scratch before the kernel", begin(&[(1, depth), (2, sides), (8, begin_room), (7, kernel)])),
    ("begin by the kernel before sides", begin(&[(1, depth), (7, kernel), (2, sides), (8, begin_room)])),
    ("begin with a place less", begin(&[(1, depth), (2, sides), (7, kernel), (8, a_place_less)])),
    ("begin with as many lines as taps", begin(&[(1, depth), (2, sides), (7, kernel), (8, lines_of_taps)])),
    ("begin of idle ends", begin(&[(1, depth), (2, sides), (7, |b| !lawful(trimmed(&b.kernel))), (8, begin_room)])),
];

const fn begin(begin: &'static [BeginTest]) -> Rule {
    Rule { begin, ..RIGHT }
}

fn a_place_less(begin: &Begin) -> bool {
    begin_room(&Begin { places: begin.places.saturating_add(1), ..begin.clone() })
}

fn lines_of_taps(begin: &Begin) -> bool {
    begin.places < begin.width.saturating_mul(6 * begin.kernel.len())
}

/// Ways to refuse a feed.
const FEEDS: [Way; 27] = [
    ("an impossible state after 8", feed(&[FOUR, FIVE, SIX, EIGHT, ODD, PAST])),
    ("an impossible state after 4", feed(&[FOUR, ODD, FIVE, SIX, EIGHT, PAST])),
    ("an impossible state taken", feed(&[FOUR, FIVE, SIX, EIGHT, PAST])),
    ("5 before 4", feed(&[ODD, FIVE, FOUR, SIX, EIGHT, PAST])),
    ("6 before 5", feed(&[ODD, FOUR, SIX, FIVE, EIGHT, PAST])),
    ("8 before 6", feed(&[ODD, FOUR, FIVE, EIGHT, SIX, PAST])),
    ("8 before 4", feed(&[ODD, EIGHT, FOUR, FIVE, SIX, PAST])),
    ("rows past the height before 8", feed(&[ODD, FOUR, FIVE, SIX, PAST, EIGHT])),
    ("rows past the height before 6", feed(&[ODD, FOUR, FIVE, PAST, SIX, EIGHT])),
    ("rows past the height before 5", feed(&[ODD, FOUR, PAST, FIVE, SIX, EIGHT])),
    ("rows past the height first", feed(&[ODD, PAST, FOUR, FIVE, SIX, EIGHT])),
    ("nothing judged at no rows", feed(&[(0, |_, _, feed| feed.rows == 0), ODD, FOUR, FIVE, SIX, EIGHT, PAST])),
    ("the state alone judged at no rows", feed(&[ODD, (0, |_, _, feed| feed.rows == 0), FOUR, FIVE, SIX, EIGHT, PAST])),
    ("4 not judged at no rows", feed(&[ODD, (4, |r, h, f| f.rows > 0 && strides(r, h, f)), FIVE, SIX, EIGHT, PAST])),
    ("8 not judged at no rows", feed(&[ODD, FOUR, FIVE, SIX, (8, |r, h, f| f.rows > 0 && feed_room(r, h, f)), PAST])),
    (
        "5 judged at no rows",
        feed(&[ODD, FOUR, (5, |_, held, feed| lacks(held, feed, feed.rows.max(1))), SIX, EIGHT, PAST]),
    ),
    ("6 judged at no rows", feed(&[ODD, FOUR, FIVE, (6, |_, h, f| is_above(h, f, f.rows.max(1))), EIGHT, PAST])),
    ("6 judged up to the height", feed(&[ODD, FOUR, FIVE, (6, up_to_the_height), EIGHT, PAST])),
    ("6 judged in padding", feed(&[ODD, FOUR, FIVE, (6, in_padding), EIGHT, PAST])),
    ("6 judged of the first plane", feed(&[ODD, FOUR, FIVE, (6, of_the_first), EIGHT, PAST])),
    ("rows whose samples wrap in 64 bits", feed(&[ODD, FOUR, (5, wrapping), SIX, EIGHT, PAST])),
    (
        "rows of 32 bits",
        feed(&[ODD, FOUR, (5, |_, h, f| lacks(h, f, f.rows as u32 as usize)), SIX, EIGHT, (STATE, past_32)]),
    ),
    ("a whole last row wanted", feed(&[ODD, FOUR, (5, whole_rows), SIX, EIGHT, PAST])),
    (
        "the stride of the first plane judged",
        feed(&[ODD, (4, |_, h, f| odd_stride(h, f.strides[0])), FIVE, SIX, EIGHT, PAST]),
    ),
    (
        "a stride of any size",
        feed(&[ODD, (4, |_, h, f| f.strides.iter().any(|s| (*s as u64) < h.numbers[0])), FIVE, SIX, EIGHT, PAST]),
    ),
    (
        "the last row refused",
        feed(&[ODD, FOUR, FIVE, SIX, EIGHT, (STATE, |r, h, f| f.rows > 0 && at_the_height(r, h, f))]),
    ),
    ("no rows refused after the last", feed(&[ODD, FOUR, FIVE, SIX, EIGHT, (STATE, at_the_end)])),
];

const ODD: FeedTest = (STATE, impossible);
const FOUR: FeedTest = (4, strides);
const FIVE: FeedTest = (5, short);
const SIX: FeedTest = (6, above);
const EIGHT: FeedTest = (8, feed_room);
const PAST: FeedTest = (STATE, past);

const fn feed(feed: &'static [FeedTest]) -> Rule {
    Rule { feed, ..RIGHT }
}

/// Whether a plane has too few samples for so many rows.
fn lacks(held: &Held, feed: &Feed, rows: usize) -> bool {
    short(&RIGHT, held, &Feed { rows, ..feed.clone() })
}

fn up_to_the_height(_: &Rule, held: &Held, feed: &Feed) -> bool {
    let left = held.numbers[1].saturating_sub(held.numbers[4]);
    is_above(held, feed, feed.rows.min(left as usize))
}

fn in_padding(_: &Rule, held: &Held, feed: &Feed) -> bool {
    let all = |samples: &Vec<u16>| samples.iter().any(|s| u64::from(*s) >= 1 << held.numbers[2].min(16));
    feed.rows > 0 && feed.samples.iter().any(all)
}

fn of_the_first(_: &Rule, held: &Held, feed: &Feed) -> bool {
    let [first, _] = &feed.samples;
    is_above(held, &Feed { samples: [first.clone(), vec![]], ..feed.clone() }, feed.rows)
}

fn wrapping(_: &Rule, held: &Held, feed: &Feed) -> bool {
    let needed = |stride: usize| stride.wrapping_mul(feed.rows.wrapping_sub(1)).wrapping_add(held.numbers[0] as usize);
    feed.rows > 0 && (0..2).any(|i| feed.samples[i].len() < needed(feed.strides[i]))
}

fn whole_rows(_: &Rule, _: &Held, feed: &Feed) -> bool {
    (0..2).any(|i| (feed.samples[i].len() as u128) < feed.strides[i] as u128 * feed.rows as u128)
}

fn past_32(rule: &Rule, held: &Held, feed: &Feed) -> bool {
    past(rule, held, &Feed { rows: feed.rows as u32 as usize, ..feed.clone() })
}

fn odd_stride(held: &Held, stride: usize) -> bool {
    (stride as u64) < held.numbers[0] || stride > STRIDE
}

fn at_the_height(_: &Rule, held: &Held, feed: &Feed) -> bool {
    u128::from(held.numbers[4]) + feed.rows as u128 >= u128::from(held.numbers[1])
}

fn at_the_end(rule: &Rule, held: &Held, feed: &Feed) -> bool {
    past(rule, held, feed) || held.numbers[4] == held.numbers[1]
}

/// Ways to refuse a finish.
const FINISHES: [Way; 9] = [
    ("a finish before the last row before 8", finish(&[UNHEARD, EARLY, ROOM])),
    ("an impossible state after 8, at the finish", finish(&[ROOM, UNHEARD, EARLY])),
    ("an impossible state finished", finish(&[ROOM, EARLY])),
    ("a finish before the last row", finish(&[UNHEARD, ROOM])),
    ("a finish in any scratch", finish(&[UNHEARD, EARLY])),
    ("a finish of words only", finish(&[(STATE, |rule, held, _| !rule.is_possible(true, held)), ROOM, EARLY])),
    ("a finish of bytes only", finish(&[(STATE, |rule, held, _| !rule.is_possible(false, held)), ROOM, EARLY])),
    ("a finish judges the first quotient", Rule { finite: |pair| pair[0].is_finite(), ..RIGHT }),
    ("a finish judges the second quotient", Rule { finite: |pair| pair[1].is_finite(), ..RIGHT }),
];

const UNHEARD: FinishTest = (STATE, unheard);
const ROOM: FinishTest = (8, finish_room);
const EARLY: FinishTest = (STATE, early);

const fn finish(finish: &'static [FinishTest]) -> Rule {
    Rule { finish, ..RIGHT }
}

/// Ways to judge a state: by what it would be with something replaced.
const STATES: [Way; 19] = [
    ("the kernel's tail not judged", judging(|_, held| without_tail(held, held.numbers[3]))),
    ("the first place of the tail judged", judging(|_, held| without_tail(held, held.numbers[3].saturating_add(1)))),
    ("a width of 32 bits", judging(|_, held| narrow(held, 0, 32))),
    ("a height of 32 bits", judging(|_, held| narrow(held, 1, 32))),
    ("a depth of 32 bits", judging(|_, held| narrow(held, 2, 32))),
    ("taps of 32 bits", judging(|_, held| narrow(held, 3, 32))),
    ("rows of 32 bits in a state", judging(|_, held| narrow(held, 4, 32))),
    ("scored of 32 bits", judging(|_, held| narrow(held, 5, 32))),
    ("a depth of 8 bits", judging(|_, held| narrow(held, 2, 8))),
    ("taps of 8 bits", judging(|_, held| narrow(held, 3, 8))),
    ("sides of 16 bits", judging(|_, held| narrow(narrow(held, 0, 16), 1, 16))),
    ("the count of scored rows not judged", judging(|_, held| with_scored(held, |_| true))),
    (
        "any count of scored rows up to those received",
        judging(|_, held| with_scored(held, |h| h.numbers[5] <= h.numbers[4])),
    ),
    (
        "rows past the height in a state",
        judging(|_, held| with_scored(with(held, 4, held.numbers[4].min(held.numbers[1])), |_| true)),
    ),
    ("the held kernel not judged", judging(|_, held| with_lawful(held, |_| true))),
    ("the held kernel judged by its sum", judging(|_, held| with_lawful(held, sums_up))),
    ("idle ends held", judging(|_, held| with_lawful(held, |taps| lawful(trimmed(taps))))),
    ("samples of the other width", judging(with_depth)),
    (
        "sums that are not finite refused",
        judging(|_, held| if held.sums().iter().all(|s| s.is_finite()) { held } else { with(held, 0, 0) }),
    ),
];

const fn judging(judged: fn(bool, Held) -> Held) -> Rule {
    Rule { judged, ..RIGHT }
}

fn with(mut held: Held, i: usize, number: u64) -> Held {
    held.numbers[i] = number;
    held
}

fn narrow(held: Held, i: usize, bits: u32) -> Held {
    with(held, i, held.numbers[i] & ((1 << bits) - 1))
}

/// With zeros from this place of the kernel on.
fn without_tail(mut held: Held, from: u64) -> Held {
    held.kernel.iter_mut().skip(from as usize).for_each(|place| *place = 0);
    held
}

/// With the count of scored rows that is right, where this holds.
fn with_scored(held: Held, holds: fn(&Held) -> bool) -> Held {
    if holds(&held) {
        with(held, 5, RIGHT.scored_after(&held, held.numbers[4]))
    } else {
        held
    }
}

/// With a lawful kernel of as many taps, where this holds of the taps that are held.
fn with_lawful(mut held: Held, holds: fn(&[u16]) -> bool) -> Held {
    let taps = held.numbers[3] as usize;
    if taps % 2 == 1 && held.kernel.get(..taps).map_or(false, holds) {
        held.kernel[..taps].copy_from_slice(&level(taps));
    }
    held
}

fn sums_up(taps: &[u16]) -> bool {
    taps.iter().map(|tap| u64::from(*tap)).sum::<u64>() == 256
}

fn with_depth(wide: bool, held: Held) -> Held {
    match held.numbers[2] {
        1..=12 => with(held, 2, if wide { 9 } else { 8 }),
        _ => held,
    }
}

/// Ways to take rows, to score and to add.
const ENGINES: [Way; 15] = [
    ("scored one row early", scoring(|came| is_scored(&Came { y: came.y.saturating_sub(1), ..*came }))),
    ("scored one row late", scoring(|came| is_scored(&Came { y: came.y + 1, ..*came }))),
    ("the last rows not scored", scoring(|came| came.y + came.taps / 2 < came.rows)),
    ("the last row not scored", scoring(|came| is_scored(came) && came.y + 1 < came.height)),
    ("scored at the last row alone", scoring(|came| came.rows == came.height)),
    ("scored after a whole kernel", scoring(|came| is_scored(&Came { taps: 2 * came.taps, ..*came }))),
    (
        "told as scored one row early",
        Rule { scored: |came| is_scored(&Came { y: came.y.saturating_sub(1), ..*came }), ..RIGHT },
    ),
    ("in the sums one row late", Rule { summed: |came| is_scored(&Came { y: came.y + 1, ..*came }), ..RIGHT }),
    (
        "lines for one row less than the kernel",
        Rule { line: |line| newest(line.row, line.came, (line.taps - 1).max(1)), ..RIGHT },
    ),
    ("half of the lines", Rule { line: |line| newest(line.row, line.came, (lines(line) / 2).max(1)), ..RIGHT }),
    ("all rows of a feed stored first", Rule { line: |line| newest(line.row, line.end, lines(line)), ..RIGHT }),
    ("stored first, in lines by taps", Rule { line: |line| newest(line.row, line.end, line.taps), ..RIGHT }),
    ("the newest row for every other", Rule { line: |line| line.came - 1, ..RIGHT }),
    ("sums of a row by themselves", Rule { adding: Adding::ByRow, ..RIGHT }),
    ("sums of a feed by themselves", Rule { adding: Adding::ByFeed, ..RIGHT }),
];

const fn scoring(scored: fn(&Came) -> bool) -> Rule {
    Rule { scored, summed: scored, ..RIGHT }
}

fn lines(line: &Line) -> usize {
    line.taps.next_power_of_two()
}

/// The row that stands in the line of this one, among so many lines, when rows up to `came` are stored.
fn newest(row: usize, came: usize, lines: usize) -> usize {
    row + (came - 1).saturating_sub(row) / lines * lines
}

/// Ways to leave scratch and state.
const PLACES: [Way; 15] = [
    ("begin leaves scratch as it was", leaving(|done| unless(done, Call::Begin, 0, Scratch::Kept))),
    ("begin clears all that is lent", leaving(|done| unless(done, Call::Begin, 0, Scratch::Cleared(done.places)))),
    ("begin clears a sixth", leaving(|done| unless(done, Call::Begin, 0, Scratch::Own(done.need)))),
    ("a feed writes a place past the need", leaving(|done| unless(done, Call::Feed, 0, Scratch::Own(done.need + 1)))),
    ("finish leaves scratch as it is", leaving(|done| unless(done, Call::Finish, 0, Scratch::Own(done.need)))),
    ("finish clears all that is lent", leaving(|done| unless(done, Call::Finish, 0, Scratch::Cleared(done.places)))),
    ("9 leaves scratch as it is", leaving(|done| unless(done, Call::Finish, 9, Scratch::Kept))),
    ("a refused begin clears", leaving(|done| when_refused(done, Call::Begin))),
    ("a refused feed clears", leaving(|done| when_refused(done, Call::Feed))),
    ("a refused finish clears", leaving(|done| when_refused(done, Call::Finish))),
    (
        "a refused begin leaves no state",
        Rule { refused: |call, held| if call == Call::Begin { NONE } else { held }, ..RIGHT },
    ),
    (
        "a refused feed leaves no state",
        Rule { refused: |call, held| if call == Call::Feed { NONE } else { held }, ..RIGHT },
    ),
    ("finish leaves no state", Rule { finished: |_| NONE, ..RIGHT }),
    ("begin leaves the kernel's tail", Rule { begun: with_old_tail, ..RIGHT }),
    (
        "begin leaves the sums",
        Rule { begun: |begin, held| Held { sums: held.sums, ..(RIGHT.begun)(begin, held) }, ..RIGHT },
    ),
];

const NONE: Held = Held { numbers: [0; 6], kernel: [0; TAPS], sums: [0; 3] };

const fn leaving(scratch: fn(&Done) -> Scratch) -> Rule {
    Rule { scratch, ..RIGHT }
}

fn unless(done: &Done, call: Call, answer: u8, otherwise: Scratch) -> Scratch {
    if (done.call, done.answer) == (call, answer) {
        otherwise
    } else {
        (RIGHT.scratch)(done)
    }
}

fn when_refused(done: &Done, call: Call) -> Scratch {
    match (RIGHT.scratch)(done) {
        Scratch::Kept if done.call == call => Scratch::Cleared(done.need.min(done.places)),
        right => right,
    }
}

fn with_old_tail(begin: &Begin, held: Held) -> Held {
    let mut next = (RIGHT.begun)(begin, held);
    let taps = begin.kernel.len();
    next.kernel[taps..].copy_from_slice(&held.kernel[taps..]);
    next
}

pub fn ways() -> Vec<Way> {
    [&BEGINS[..], &FEEDS, &FINISHES, &STATES, &ENGINES, &PLACES].concat()
}

/// A call, and what became of it.
pub struct Met<'a> {
    pub step: &'a Step,
    pub how: How,
    /// The state that was lent, and the one that the last accepted call left.
    pub lent: &'a Held,
    pub known: Option<&'a Held>,
    pub left: &'a Left,
    /// What the call before it was answered.
    pub last: Option<u8>,
}

impl Met<'_> {
    fn begun(&self, answer: u8, held: impl Fn(&Begin) -> bool) -> bool {
        matches!(self.step, Step::Begin(begin) if self.left.answer == answer && held(begin))
    }

    /// A feed with this answer, of a state as it was left.
    fn fed(&self, answer: u8, held: impl Fn(&Feed) -> bool) -> bool {
        self.as_left() && self.fed_any(answer, held)
    }

    fn fed_any(&self, answer: u8, held: impl Fn(&Feed) -> bool) -> bool {
        matches!(self.step, Step::Feed(feed) if self.left.answer == answer && held(feed))
    }

    fn finished(&self, answer: u8) -> bool {
        matches!(self.step, Step::Finish(_)) && self.left.answer == answer
    }

    fn as_left(&self) -> bool {
        self.known == Some(self.lent)
    }

    fn number(&self, i: usize) -> usize {
        self.lent.numbers[i] as usize
    }

    /// The rows that were still to come.
    fn rest(&self) -> usize {
        self.number(1).saturating_sub(self.number(4))
    }

    /// Which number alone is not the one that was left.
    pub fn changed(&self) -> Option<usize> {
        let known = self.known?;
        let others = (known.kernel, known.sums) == (self.lent.kernel, self.lent.sums);
        let mut differ = (0..6).filter(|i| known.numbers[*i] != self.lent.numbers[*i]);
        let first = differ.next().filter(|_| others)?;
        Some(first).filter(|_| differ.next().is_none())
    }

    /// Whether a pair was given or a row fed in a state that is not the one that was left.
    fn unsafe_taken(&self) -> bool {
        !self.as_left() && self.fed_any(0, |feed| feed.rows > 0)
    }

    fn lies(&self, side: Side, parts: bool) -> bool {
        self.how.side == side && self.how.parts == parts && self.left.answer == 0
    }
}

/// A call that a run must have met.
pub type Sharp = (&'static str, fn(&Met) -> bool);

pub const SHARP: [Sharp; 59] = [
    ("begin of bytes of depth 8", |met| met.begun(0, |b| !b.wide && b.depth == 8)),
    ("begin of bytes of depth 9", |met| met.begun(1, |b| !b.wide && b.depth == 9)),
    ("begin of words of depth 12", |met| met.begun(0, |b| b.wide && b.depth == 12)),
    ("begin of words of depth 13", |met| met.begun(1, |b| b.wide && b.depth == 13)),
    ("begin of the largest width", |met| met.begun(0, |b| b.width == SIDE)),
    ("begin of one more", |met| met.begun(2, |b| b.width == SIDE + 1)),
    ("begin of the largest height", |met| met.begun(0, |b| b.height == SIDE)),
    ("begin of one row more", |met| met.begun(2, |b| b.height == SIDE + 1)),
    ("begin with 255 taps", |met| met.begun(0, |b| b.kernel.len() == TAPS)),
    ("begin with just enough scratch", |met| met.begun(0, |b| !begin_room(b) && a_place_too_few(b))),
    ("begin with a place too few", |met| met.begun(8, |b| !a_place_less(b))),
    ("a refused begin amid a run", |met| met.known.is_some() && met.begun(8, |_| met.number(4) > 0)),
    ("a feed of the first row", |met| met.fed(0, |f| f.rows == 1 && met.number(4) == 0)),
    ("a feed of all rows", |met| met.fed(0, |f| f.rows == met.number(1) && f.rows > 1)),
    ("a feed of more rows than lines", |met| met.fed(0, |f| f.rows > met.number(3).next_power_of_two())),
    ("a feed of the last row", |met| met.fed(0, |f| f.rows == 1 && met.rest() == 1)),
    ("a feed of one row past the height", |met| met.fed(STATE, |f| f.rows == met.rest() + 1)),
    ("a feed past the height, of what is above", |met| {
        met.fed(6, |f| f.rows > met.rest() && !up_to_the_height(&RIGHT, met.lent, f))
    }),
    ("a feed past the height, of a short plane", |met| met.fed(5, |f| f.rows == met.rest() + 1)),
    ("a feed past the height, in short scratch", |met| met.fed(8, |f| f.rows > met.rest())),
    ("a feed of the other sample width", |met| met.fed(STATE, |f| f.wide != (met.number(2) > 8) && f.rows > 0)),
    ("no rows of the other sample width", |met| met.fed(STATE, |f| f.wide != (met.number(2) > 8) && f.rows == 0)),
    ("no rows with no samples, before the first", |met| met.fed(0, |f| is_nothing(f) && met.number(4) == 0)),
    ("no rows with no samples, amid", |met| met.fed(0, |f| is_nothing(f) && met.number(4) > 0 && met.rest() > 0)),
    ("no rows with no samples, after the last", |met| met.fed(0, |f| is_nothing(f) && met.rest() == 0)),
    ("no rows at a wrong stride", |met| met.fed(4, is_nothing)),
    ("no rows in short scratch", |met| met.fed(8, is_nothing)),
    ("no rows beside samples that are above", |met| met.fed(0, |f| f.rows == 0 && is_above(met.lent, f, 1))),
    ("the most rows that can be told", |met| met.fed(5, |f| f.rows == usize::MAX)),
    ("rows whose samples come to few in 64 bits", |met| met.fed(5, |f| !wrapping(&RIGHT, met.lent, f))),
    ("rows that come to few in 32 bits", |met| {
        met.fed(5, |f| f.rows > 1 << 32 && !lacks(met.lent, f, f.rows as u32 as usize))
    }),
    ("a stride of 32,768", |met| met.fed(0, |f| f.rows > 1 && f.strides.contains(&STRIDE))),
    ("a stride of 32,769", |met| met.fed(4, |f| f.strides.contains(&(STRIDE + 1)))),
    ("two strides that differ", |met| met.fed(0, |f| f.rows > 1 && f.strides[0] != f.strides[1])),
    ("a feed in just enough scratch", |met| met.fed(0, |f| f.rows > 0 && f.places as u128 == met.lent.places_needed())),
    ("a feed in a place less", |met| met.fed(8, |f| f.places as u128 + 1 == met.lent.places_needed())),
    ("a feed that is taken after a refused one", |met| met.fed(0, |f| f.rows > 0 && met.last.map_or(false, |n| n > 0))),
    ("rows below half a kernel", |met| met.fed(0, |_| met.left.held.numbers[4] > 0 && met.left.held.numbers[5] == 0)),
    ("a height below half a kernel", |met| met.finished(0) && met.number(1) < met.number(3) / 2),
    ("a pair of the largest width", |met| met.finished(0) && met.number(0) == SIDE),
    ("a pair of the largest height", |met| met.finished(0) && met.number(1) == SIDE),
    ("a pair under one tap", |met| met.finished(0) && met.number(3) == 1),
    ("a pair of one column under 255 taps", |met| met.finished(0) && met.number(3) == TAPS && met.number(0) == 1),
    ("a pair asked for again", |met| met.finished(0) && met.last == Some(0) && met.as_left()),
    ("a finish before the first row", |met| met.finished(STATE) && met.as_left() && met.number(4) == 0),
    ("a finish before the last row", |met| met.finished(STATE) && met.as_left() && met.rest() == 1),
    ("a finish too early, in short scratch", |met| met.finished(8) && met.as_left() && met.rest() > 0),
    ("9 for the first quotient alone", |met| met.finished(9) && met.lent.pair()[1].is_finite()),
    ("9 for the second quotient alone", |met| met.finished(9) && met.lent.pair()[0].is_finite()),
    ("9 for a weight of 0", |met| met.finished(9) && met.lent.sums()[2] == 0.0),
    ("a pair of altered sums", |met| met.finished(0) && !met.as_left()),
    ("rows fed in an older state, or in noise", |met| met.unsafe_taken()),
    ("a changed width that is possible, fed", |met| met.changed() == Some(0) && met.unsafe_taken()),
    ("a changed height that is possible, fed", |met| met.changed() == Some(1) && met.unsafe_taken()),
    ("a changed depth that is possible, fed", |met| met.changed() == Some(2) && met.unsafe_taken()),
    ("a state that ends at a fence", |met| met.lies(Side::End, false)),
    ("a state that begins at a fence", |met| met.lies(Side::Start, false)),
    ("parts of a state that end at fences", |met| met.lies(Side::End, true)),
    ("parts of a state that begin at fences", |met| met.lies(Side::Start, true)),
];

fn a_place_too_few(begin: &Begin) -> bool {
    begin_room(&Begin { places: begin.places.saturating_sub(1), ..begin.clone() })
}

/// No rows, and no samples either.
fn is_nothing(feed: &Feed) -> bool {
    feed.rows == 0 && feed.samples.iter().all(Vec::is_empty)
}
