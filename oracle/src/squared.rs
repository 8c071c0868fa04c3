//! Squared error of both widths: the published record of the unpadded copies, and the model's refusals.

use crate::family::{add, all_seen, also, number, run, Family, Run};
use crate::limits::{PLANE, SAMPLES, SIDE, STRIDE};
use crate::mapped::Mapped;
use crate::plane::any;
use crate::random::Random;
use crate::records::{bits, smaller_whose, Whose, LAST};
use crate::samples::{sound, sound_of, Pair};
use crate::squared_ways::{Met, SHARP, WAYS};
use fuavelino::{no_alloc, Record, Sample};
use published::plane::Plane;
use published::video::pixel::Pixel;
use published::video::psnr;

/// What is left of a record: the error's bits, n, sample_max, frame, plane.
type Left = (u64, u64, u32, u32, u32);

/// What it holds before a call, and must hold after a refusal.
const BEFORE: Left = (0x7FF4_DEAD_BEEF_0001, 0x0123_4567_89AB_CDEF, 0xFEED_F00D, 0xDEAD_0005, 0xBEEF_0006);

/// 16,384² × 4,095², the largest error of one plane: below 2^53.
const LARGEST: u64 = 4_501_400_872_550_400;

pub fn compare(ask: Run) -> bool {
    let cases = if ask.full { 1_000_000 } else { 200_000 };
    let mut family = Errors { listed: listed(), ways: [0; WAYS.len()], sharp: [0; SHARP.len()] };
    run("squared", &mut family, cases, ask)
        && also("squared: every way told from the rule, every sharp case met", || family.enough())
        && also("squared: 16,384 by 16,384 at depth 12, with the largest error", largest)
        && (!ask.full || also("squared: the published record of such planes", largest_published))
}

/// Two planes, and whose they are said to be.
#[derive(Clone)]
struct Case {
    pair: Pair,
    whose: Whose,
}

impl Case {
    /// The lowest of 1 to 6 that applies; 10 where none does and the plane is not 0, 1 or 2; or 0.
    fn refusal(&self) -> u8 {
        match self.pair.refusal(0) {
            0 if !(0..=PLANE).contains(&self.whose.1) => 10,
            refused => refused,
        }
    }
}

struct Errors {
    listed: Vec<Case>,
    /// How many cases told each way from the rule, and were each of the sharp ones.
    ways: [u64; WAYS.len()],
    sharp: [u64; SHARP.len()],
}

impl Errors {
    fn enough(&self) -> Result<(), String> {
        all_seen(WAYS.iter().map(|way| way.0).collect(), &self.ways, "tells the rule from")?;
        all_seen(SHARP.iter().map(|sharp| sharp.0).collect(), &self.sharp, "is")
    }
}

impl Family for Errors {
    type Case = Case;

    fn case(&self, number: u64, r: &mut Random) -> Case {
        if let Some(case) = self.listed.get(number as usize) {
            return case.clone();
        }
        let pair = if r.once_in(4) {
            Pair::of(&any(r, 0))
        } else {
            let (width, height) = sides(r);
            sound(r, width, height)
        };
        Case { pair, whose: whose(r) }
    }

    fn judge(&mut self, c: &Case) -> Result<u8, String> {
        let p = &c.pair;
        let (said, above) =
            if p.wide { p.lend(|s| s, |a, b| asked(c, a, b))? } else { p.lend(|s| s as u8, |a, b| asked(c, a, b))? };
        let wanted = match c.refusal() {
            0 if p.wide => (0, record(&p.unpadded(|s| s), p.depth, c.whose)),
            0 => (0, record(&p.unpadded(|s| s as u8), p.depth, c.whose)),
            refused => (refused, BEFORE),
        };
        same("answered", said, wanted)?;
        same("the function above answered", above.unwrap_or(wanted), wanted)?;
        let met = Met { planes: p.refusal(0), whose: c.whose, answer: said.0 };
        add(&mut self.ways, WAYS.iter().map(|way| way.1(&met) != said.0));
        add(&mut self.sharp, SHARP.iter().map(|sharp| sharp.1(&met)));
        Ok(said.0)
    }

    fn smaller(&self, c: &Case) -> Vec<Case> {
        let mut list: Vec<Case> = smaller_whose(c.whose).into_iter().map(|whose| Case { whose, ..c.clone() }).collect();
        list.extend(c.pair.smaller().into_iter().map(|pair| Case { pair, ..*c }));
        list
    }

    fn show(&self, c: &Case) -> String {
        format!("{}\n    as those of frame {}, plane {}", c.pair.show(), c.whose.0, c.whose.1)
    }

    fn answers(&self) -> Vec<u8> {
        vec![0, 1, 2, 4, 5, 6, 10]
    }
}

/// Frames at the ends and any; planes that there are, and now and then others, that a narrower or a signed number would take.
fn whose(r: &mut Random) -> Whose {
    let (frame, plane) = (r.next() as u32, r.next() as u32);
    let frame = r.pick(&[0, 1, u32::MAX, frame, frame]);
    let known = r.below(3) as u32;
    let odd = [3, 3, 4, 1 << 31 | known, u32::MAX, 256 | known, 1 << 16 | known, plane];
    (frame, if r.once_in(6) { r.pick(&odd) } else { known })
}

type Answer = (u8, Left);

/// The answer, and what is left of the record; and where there are few samples, what the function above says.
fn asked<T: Sample>(c: &Case, a: &[T], b: &[T]) -> (Answer, Option<Answer>) {
    let (a, b, shape, (frame, plane)) = (c.pair.plane(0, a), c.pair.plane(1, b), c.pair.shape(), c.whose);
    let mut out = before();
    let answer = number(no_alloc::squared_error(a, b, shape, frame, plane, &mut out));
    let above = || match fuavelino::squared_error(a, b, shape, frame, plane) {
        Ok(record) => (0, bits(&record)),
        Err(refusal) => (refusal.number(), BEFORE),
    };
    ((answer, bits(&out)), (a.data.len().max(b.data.len()) < 1_000).then(above))
}

fn before() -> Record {
    let (error, n_pixels, sample_max, frame, plane) = BEFORE;
    Record { sq_err: f64::from_bits(error), n_pixels, sample_max, frame, plane }
}

fn same(what: &str, said: Answer, wanted: Answer) -> Result<(), String> {
    if said == wanted {
        return Ok(());
    }
    let show = |(answer, left): Answer| match left {
        BEFORE => format!("{} and left all as it was", answer),
        (error, n, max, frame, plane) => {
            let error = format!("{} ({:#018X})", f64::from_bits(error), error);
            format!("{} and left {} {} {} of frame {}, plane {}", answer, error, n, max, frame, plane)
        }
    };
    Err(format!("{} {}, not {}", what, show(said), show(wanted)))
}

/// The published record, said to be of this plane of this frame.
fn record<T: Pixel>(planes: &[Plane<T>; 2], depth: u32, (frame, plane): Whose) -> Left {
    let (error, n, max) = psnr::probe_record(&planes[0], &planes[1], depth as usize);
    (error.to_bits(), n as u64, max as u32, frame, plane)
}

fn sides(r: &mut Random) -> (usize, usize) {
    match r.below(200) {
        0 => (r.within(SIDE - 2, SIDE), r.within(1, 3)),
        1 => (r.within(1, 3), r.within(SIDE - 2, SIDE)),
        2 => (r.within(100, 300), r.within(50, 200)),
        3..=6 => (r.within(1, 1_100), r.within(1, 4)),
        7..=40 => (r.within(1, 64), r.within(1, 64)),
        41..=80 => (r.within(1, 4), r.within(1, 4)),
        _ => (r.within(1, 16), r.within(1, 16)),
    }
}

/// The pairs of planes, each as plane 2 of the last frame, as plane 3, or as any; and planes with one thing wrong, as each of some planes.
fn listed() -> Vec<Case> {
    let mut r = Random::of(0, "squared error, numbers", 0);
    let mut list: Vec<Case> = Vec::new();
    for pair in pairs() {
        let any = whose(&mut r);
        let whose = r.pick(&[LAST, (0, 3), any]);
        list.push(Case { pair, whose });
    }
    let numbers = [(0, 0), (0, 1), (0, 2), (0, 3), (7, 3), (u32::MAX, 3), LAST, (0, 1 << 31), (0, u32::MAX), (1, 256)];
    let of_all = |pair: Pair| numbers.map(|whose| Case { pair: pair.clone(), whose });
    list.extend(wrong().into_iter().flat_map(of_all));
    list
}

/// Planes of either width that are sound, and that 1, 2, 4, 5 or 6 alone is about, of either plane.
fn wrong() -> Vec<Pair> {
    let mut list = Vec::new();
    for depth in [7, 10] {
        let sound = Pair::plain(depth, 3, [vec![1; 6], vec![2; 6]]);
        list.push(sound.clone());
        list.push(Pair { depth: 0, ..sound.clone() });
        list.push(Pair { width: 0, ..sound.clone() });
        list.push(Pair { height: SIDE + 1, ..sound.clone() });
        for i in 0..2 {
            let mut odd = [(); 3].map(|()| sound.clone());
            odd[0].strides[i] = 2;
            odd[1].samples[i].pop();
            odd[2].samples[i][5] = 1 << depth;
            list.extend(odd);
        }
    }
    list
}

/// Sides and strides at their limits and one past them, and about the limits that were, at every depth; the largest
/// error of each.
fn pairs() -> Vec<Pair> {
    let mut r = Random::of(0, "squared error, listed", 0);
    let mut list = Vec::new();
    for depth in 1..=12u32 {
        for (width, height) in
            [(1, 1), (SIDE, 1), (1, SIDE), (SIDE - 1, 2), (2, SIDE - 1), (SIDE + 1, 1), (1, SIDE + 1)]
        {
            list.push(sound_of(&mut r, depth, width, height));
        }
        let old_walls = [(8_191, 2), (8_192, 1), (8_193, 1), (8_194, 2), (1, 8_192), (1, 8_193), (2, 8_194)];
        list.extend(old_walls.map(|(width, height)| sound_of(&mut r, depth, width, height)));
        list.extend(STRIDES.map(|strides| at_strides(depth, strides)));
        let max = (1 << depth) - 1;
        list.push(Pair::plain(depth, 64, [vec![max; 64 * 48], vec![0; 64 * 48]]));
        list.push(Pair::plain(depth, 64, [vec![0; 64 * 48], vec![max; 64 * 48]]));
        list.extend(WIDTHS.iter().flat_map(|width| at_width(depth, *width)));
    }
    list
}

/// The limit of strides and one past it, and the same of the limit that was.
const STRIDES: [[usize; 2]; 6] = [
    [16_384, 16_385],
    [16_386, 16_385],
    [STRIDE - 1, STRIDE],
    [STRIDE, STRIDE],
    [STRIDE, STRIDE + 1],
    [STRIDE + 1, STRIDE],
];

/// Two short rows of the largest error so far apart, and padding that would be refused if it were read.
fn at_strides(depth: u32, strides: [usize; 2]) -> Pair {
    let (max, top) = ((1 << depth) - 1, if depth > 8 { u16::MAX } else { 255 });
    let samples = [0, 1].map(|i| {
        let row = vec![[max, 0][i]; 5];
        [row.clone(), vec![top; strides[i] - row.len()], row].concat()
    });
    Pair { wide: depth > 8, depth, width: 5, height: 2, strides, samples }
}

/// About as long as a walk may make the parts of a row that it adds up in a smaller word, at the largest difference of
/// some depth.
const WIDTHS: [usize; 17] =
    [127, 128, 129, 255, 256, 257, 1_023, 1_024, 1_025, 4_095, 4_096, 4_097, 8_191, 8_192, 8_193, SIDE - 1, SIDE];

/// Two rows with the largest error; and the same with one sample too large, by one or as large as its width allows, at
/// either end of the last row of either plane.
fn at_width(depth: u32, width: usize) -> Vec<Pair> {
    let (max, top) = ((1 << depth) - 1, if depth > 8 { u16::MAX } else { 255 });
    let whole = Pair::plain(depth, width, [vec![max; 2 * width], vec![0; 2 * width]]);
    let mut list = vec![whole.clone()];
    for (plane, place) in [(0, width), (0, 2 * width - 1), (1, width), (1, 2 * width - 1)] {
        for value in [max + 1, top].into_iter().filter(|value| *value > max && *value <= top) {
            let mut pair = whole.clone();
            pair.samples[plane][place] = value;
            list.push(pair);
        }
    }
    list
}

/// The largest planes of the largest error that there is, either way round, at the least and at the largest stride:
/// accepted and exact. The padding would be refused if it were read. The zeros are pages that nobody writes.
fn largest() -> Result<(), String> {
    let wanted = (0, ((LARGEST as f64).to_bits(), SAMPLES, 4_095, u32::MAX, 2));
    for stride in [SIDE, STRIDE] {
        let len = stride * (SIDE - 1) + SIDE;
        let row = [vec![4_095; SIDE], vec![u16::MAX; stride - SIDE]].concat();
        let bright = Mapped::new(&row, &row, SIDE).map_err(|e| format!("nothing mapped: {}", e))?;
        let (bright, zeros) = (&bright[..len], &vec![0u16; len][..]);
        for (a, b) in [(bright, zeros), (zeros, bright)] {
            same(&format!("at stride {}", stride), asked(&widest(stride), a, b).0, wanted)?;
        }
    }
    Ok(())
}

/// The published record of planes of the largest error, which has no padding and is all in memory.
fn largest_published() -> Result<(), String> {
    let planes = [4_095u16, 0].map(|sample| Plane::new(vec![sample; SIDE * SIDE], SIDE, SIDE));
    let wanted = (0, ((LARGEST as f64).to_bits(), SAMPLES, 4_095, 0, 0));
    same("the published record:", (0, record(&planes, 12, (0, 0))), wanted)
}

/// Planes of the largest sides, whose samples stand elsewhere.
fn widest(stride: usize) -> Case {
    let samples = [vec![], vec![]];
    let pair = Pair { wide: true, depth: 12, width: SIDE, height: SIDE, strides: [stride; 2], samples };
    Case { pair, whose: LAST }
}
