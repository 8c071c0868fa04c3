//! Row-fed SSIM: runs of calls against the rule, call by call, with every number and sum of the state, the scratch and what lies beside it; and the final
//! pair against the published one and against the product's own SSIM of the whole planes, of both engines. The cases are in `rows_cases.rs` and `rows_listed.rs`.

use crate::family::{add, all_seen, also, run, Family, Run};
use crate::fenced::{judging, watch, SIDES};
use crate::plain_ssim::{Asked, Plain};
use crate::random::Random;
use crate::rows_above;
use crate::rows_calls::{Desk, Found, How, BEFORE};
use crate::rows_cases::{any, Case, CHANGES};
use crate::rows_listed::{every_grouping, listed, FEW, SHAPES};
use crate::rows_model::{Alter, Change, Left, Model, Noise, Step};
use crate::rows_rule::*;
use crate::rows_ways::{ways, Met, Way, SHARP};
use crate::samples::Pair;
use crate::ssim;
use fuavelino::no_alloc;
use std::collections::HashSet;

/// The changes of a number that a run must meet: those of the first five.
const MUST: usize = 5;
/// One case in so many goes through `RowFed` too.
const SHARE: u64 = 4;
/// So many pairs of cases go side by side.
const TWO: u64 = 1_000;

pub fn compare(ask: Run) -> bool {
    let _watch = watch();
    let cases = if ask.full { 1_000_000 } else { 80_000 };
    let mut family = Rows::new();
    if !run("rows", &mut family, cases, ask) {
        return false;
    }
    family.tell();
    let two = also("rows: two runs side by side", || family.side_by_side(ask.seed));
    two && also(
        "rows: every way told from the rule, every sharp call and grouping met, each number of a state changed",
        || family.enough(),
    )
}

struct Rows {
    desk: Desk,
    plain: Plain,
    listed: Vec<Case>,
    /// Each way, and how many cases told it from the rule.
    ways: Vec<Way>,
    told: Vec<u64>,
    /// How many calls were each of the sharp ones.
    sharp: [u64; SHARP.len()],
    /// Of each number, how often a state was refused in which it alone was changed so.
    changed: [[u64; MUST]; 6],
    /// Of each call, how often each answer was met.
    answers: [[u64; STATE as usize + 1]; 3],
    /// Whole runs of few rows.
    grouped: HashSet<Grouped>,
    /// Final pairs that were compared with those of whole planes, and calls that `RowFed` answered the same.
    pairs: u64,
    above: u64,
}

/// A whole run of few rows: width, taps, whether they were words, and the rows of each feed.
type Grouped = (usize, usize, bool, Vec<usize>);

/// What the rule says of a call, and the sums that were found after it.
type Told = (Left, [u64; 3]);

/// A case on its way: the rule's side of it, the scratch, and what became of each step.
struct Course<'c> {
    case: &'c Case,
    model: Model,
    scratch: Vec<i64>,
    trace: Vec<Option<Told>>,
    last: Option<u8>,
}

impl<'c> Course<'c> {
    fn new(case: &'c Case) -> Course<'c> {
        let mut scratch = vec![0; case.places()];
        fill(&mut scratch, Noise::Any, case.seed);
        Course { case, model: Model::new(RIGHT, case.start()), scratch, trace: Vec::new(), last: None }
    }

    /// Where what the next call is lent lies.
    fn how(&self) -> How {
        let mut r = Random::of(self.case.seed, "rows", self.trace.len() as u64);
        How { side: r.pick(&SIDES), parts: r.once_in(2) }
    }

    fn alter(&mut self, alter: &Alter) {
        self.model.alter(alter);
        if let Alter::Scratch(noise) = alter {
            fill(&mut self.scratch, *noise, self.case.seed ^ self.trace.len() as u64);
        }
        self.trace.push(None);
    }
}

impl Rows {
    fn new() -> Rows {
        let ways = ways();
        Rows {
            desk: Desk::new(),
            plain: Plain::new(),
            listed: listed(),
            told: vec![0; ways.len()],
            ways,
            sharp: [0; SHARP.len()],
            changed: [[0; MUST]; 6],
            answers: [[0; STATE as usize + 1]; 3],
            grouped: HashSet::new(),
            pairs: 0,
            above: 0,
        }
    }

    /// Takes the next step of a case, if there is one.
    fn go(&mut self, course: &mut Course) -> Result<bool, String> {
        let at = course.trace.len();
        match course.case.steps.get(at) {
            None => return Ok(false),
            Some(Step::Alter(alter)) => course.alter(alter),
            Some(step) => {
                let (lent, known, how) = (course.model.held, course.model.known, course.how());
                let told = self.call(how, step, &mut course.model, &mut course.scratch[..step.places()]);
                let told = told.map_err(|why| format!("call {}: {}", at, why))?;
                let met = Met { step, how, lent: &lent, known: known.as_ref(), left: &told.0, last: course.last };
                self.meet(&met);
                course.last = Some(told.0.answer);
                course.trace.push(Some(told));
            }
        }
        Ok(true)
    }

    /// Takes the steps of two cases in turn: each has a state and scratch of its own.
    fn side_by_side(&mut self, seed: u64) -> Result<(), String> {
        for number in 0..TWO {
            let r = &mut Random::of(seed, "rows, side by side", number);
            let cases = [any(r), any(r)];
            let [mut one, mut other] = [0, 1].map(|i| Course::new(&cases[i]));
            while self.go(&mut one)? | self.go(&mut other)? {}
        }
        Ok(())
    }

    /// Makes a call, and sees that it leaves what the rule says.
    fn call(&mut self, how: How, step: &Step, model: &mut Model, scratch: &mut [i64]) -> Result<Told, String> {
        let lent = model.held;
        let known = model.is_known();
        let left = model.step(step).ok_or("no call")?;
        let kept = match left.scratch {
            Scratch::Kept => 0,
            Scratch::Cleared(need) | Scratch::Own(need) => need,
        };
        let before = scratch[kept.min(scratch.len())..].to_vec();
        let found = match step {
            Step::Begin(begin) => self.desk.begin(how, begin, &lent, scratch)?,
            Step::Feed(feed) => self.desk.feed(how, feed, &lent, scratch)?,
            _ => self.desk.finish(how, &lent, scratch)?,
        };
        agrees(&left, &found)?;
        if let Some(i) = (kept..scratch.len()).find(|i| scratch[*i] != before[i - kept]) {
            return Err(format!("wrote {} at {} of the scratch, where nothing may be written", scratch[i], i));
        }
        if let (Scratch::Cleared(need), Some(i)) =
            (left.scratch, scratch[..kept.min(scratch.len())].iter().position(|s| *s != 0))
        {
            return Err(format!("left {} at {} of the scratch, of which {} are needed", scratch[i], i, need));
        }
        if let (Some(pair), true) = (left.pair, known) {
            let (planes, kernel) = whole(model, pair)?;
            let asked = Asked { pair: &planes, kernel, before: BEFORE, seed: self.pairs };
            self.plain.agrees(&asked, 0, (0, pair))?;
            self.pairs += 1;
        }
        model.adopt(&left, found.held.sums);
        Ok((left, found.held.sums))
    }

    fn meet(&mut self, met: &Met) {
        let call = match met.step {
            Step::Begin(_) => 0,
            Step::Feed(_) => 1,
            _ => 2,
        };
        self.answers[call][usize::from(met.left.answer)] += 1;
        add(&mut self.sharp, SHARP.iter().map(|sharp| sharp.1(met)));
        if let (Some(i), STATE, Some(known)) = (met.changed(), met.left.answer, met.known) {
            let became = |change: &Change| match *change {
                Change::Add(n) => known.numbers[i].wrapping_add(n),
                Change::Set(n) => n,
            };
            add(&mut self.changed[i], CHANGES[..MUST].iter().map(|(_, change)| became(change) == met.lent.numbers[i]));
        }
    }

    /// Looks for ways that were not seen yet.
    fn tell_apart(&mut self, case: &Case, trace: &[Option<Told>]) {
        for (told, way) in self.told.iter_mut().zip(&self.ways).filter(|(told, _)| **told == 0) {
            *told = u64::from(differs(&way.1, case, trace));
        }
    }

    fn tell(&self) {
        for ((name, _), counts) in CALLS.iter().zip(&self.answers) {
            let list = counts.iter().enumerate().filter(|(_, n)| **n > 0);
            let words: Vec<String> = list.map(|(answer, n)| format!("{}: {}", answer, n)).collect();
            println!("rows: {} by answer {}", name, words.join(", "));
        }
        println!("rows: {} pairs are those of the whole planes, published and by the product", self.pairs);
        self.plain.tell("rows");
        println!("rows: {} calls of RowFed have the same answers", self.above);
    }

    /// That every grouping of few rows was among the runs, under each kernel and of both sample widths.
    fn every_grouping(&self) -> Result<(), String> {
        for groups in (1..=FEW).flat_map(every_grouping) {
            for ((width, taps), wide) in SHAPES.iter().flat_map(|shape| [false, true].map(|wide| (shape, wide))) {
                if !self.grouped.contains(&(*width, *taps, wide, groups.clone())) {
                    return Err(format!("no run has {:?} rows of width {} under {} taps", groups, width, taps));
                }
            }
        }
        Ok(())
    }

    fn enough(&self) -> Result<(), String> {
        for ((name, due), counts) in CALLS.iter().zip(&self.answers) {
            if let Some(answer) = due.iter().find(|answer| counts[usize::from(**answer)] == 0) {
                return Err(format!("no {} was answered by {}", name, answer));
            }
        }
        for (i, change) in (0..6).flat_map(|i| (0..MUST).map(move |change| (i, change))) {
            if self.changed[i][change] == 0 {
                return Err(format!("no state was refused for its {} alone: {}", NAMES[i], CHANGES[change].0));
            }
        }
        self.every_grouping()?;
        all_seen(self.ways.iter().map(|way| way.0).collect(), &self.told, "tells the rule from")?;
        all_seen(SHARP.iter().map(|sharp| sharp.0).collect(), &self.sharp, "is")
    }
}

/// The run of a case that is one, with a pair at its end, of few rows.
fn grouped(course: &Course) -> Option<Grouped> {
    let (begin, feeds) = match &course.case.steps[..] {
        [Step::Begin(begin), feeds @ .., Step::Finish(_)] if begin.height <= FEW => (begin, feeds),
        _ => return None,
    };
    let rows = |step: &Step| match step {
        Step::Feed(feed) => Some(feed.rows),
        _ => None,
    };
    let groups = feeds.iter().map(rows).collect::<Option<Vec<usize>>>()?;
    Some((begin.width, begin.kernel.len(), begin.wide, groups)).filter(|_| course.last == Some(0))
}

/// The calls with their answers, all of which a run must meet.
const CALLS: [(&str, &[u8]); 3] =
    [("begin", &[0, 1, 2, 7, 8]), ("feed", &[0, 4, 5, 6, 8, STATE]), ("finish", &[0, 8, 9, STATE])];

/// Whether a case would show that a library goes by this rule, and not by the right one.
fn differs(rule: &Rule, case: &Case, trace: &[Option<Told>]) -> bool {
    let mut model = Model::new(*rule, case.start());
    for (step, told) in case.steps.iter().zip(trace) {
        match (step, told) {
            (Step::Alter(alter), _) => model.alter(alter),
            (call, Some((left, sums))) => {
                if model.answer(call) != Some(left.answer) || model.step(call).as_ref() != Some(left) {
                    return true;
                }
                model.adopt(left, *sums);
            }
            _ => {}
        }
    }
    false
}

/// Whether the answer, the state and the pair are those that the rule says.
fn agrees(left: &Left, found: &Found) -> Result<(), String> {
    if found.answer != left.answer {
        return Err(format!("answered {}, not {}", found.answer, left.answer));
    }
    if found.held.numbers != left.held.numbers {
        return Err(format!("left the numbers {:?}, not {:?}", found.held.numbers, left.held.numbers));
    }
    if let Some(i) = (0..TAPS).find(|i| found.held.kernel[*i] != left.held.kernel[*i]) {
        return Err(format!("left {} at {} of the held kernel", found.held.kernel[i], i));
    }
    if left.told && found.held.sums != left.held.sums {
        return Err(format!("left the sums {}, not {}", show(&found.held.sums), show(&left.held.sums)));
    }
    let pair = left.pair.unwrap_or(BEFORE);
    if found.pair != pair {
        return Err(format!("gave {}, not {}", show(&found.pair), show(&pair)));
    }
    Ok(())
}

fn show(bits: &[u64]) -> String {
    let words: Vec<String> = bits.iter().map(|b| format!("{} ({:#018X})", f64::from_bits(*b), b)).collect();
    words.join(" ")
}

/// That the pair of the whole planes is this one, as it is published and as the product gives it. What was scored: these planes, under this kernel.
fn whole(model: &Model, pair: [u64; 2]) -> Result<(Pair, &[u16]), String> {
    let [width, _, depth, taps, ..] = model.held.numbers.map(|n| n as usize);
    let (planes, kernel) = (Pair::plain(depth as u32, width, model.planes.clone()), &model.held.kernel[..taps]);
    let published = ssim::published(&planes, kernel);
    let product = if planes.wide {
        planes.lend(|s| s, |a, b| score(&planes, a, b, kernel))?
    } else {
        planes.lend(|s| s as u8, |a, b| score(&planes, a, b, kernel))?
    };
    for (name, other) in [("published", published), ("product's", product?)] {
        let other = [other.0.to_bits(), other.1.to_bits()];
        if other != pair {
            return Err(format!(
                "gave {}, where the {} pair of the whole planes is {}",
                show(&pair),
                name,
                show(&other)
            ));
        }
    }
    Ok((planes, kernel))
}

/// The product's own pair.
fn score<T: fuavelino::Sample>(planes: &Pair, a: &[T], b: &[T], kernel: &[u16]) -> Result<(f64, f64), String> {
    let mut scratch = vec![0; places_needed(planes.width as u64, kernel.len() as u64) as usize];
    let mut out = fuavelino::Pair::default();
    no_alloc::ssim(planes.plane(0, a), planes.plane(1, b), planes.shape(), kernel, &mut scratch, &mut out)
        .map_err(|refusal| format!("SSIM of the whole planes: {}", refusal))?;
    Ok((out.ssim, out.cs))
}

fn fill(scratch: &mut [i64], noise: Noise, seed: u64) {
    match noise {
        Noise::All(value) => scratch.fill(value),
        Noise::Any => scratch.iter_mut().enumerate().for_each(|(i, place)| *place = ssim::noise(seed, i)),
        Noise::At(i, value) => scratch.iter_mut().skip(i).take(1).for_each(|place| *place = value),
    }
}

impl Family for Rows {
    type Case = Case;

    fn case(&self, number: u64, r: &mut Random) -> Case {
        judging(number);
        match self.listed.get(number as usize) {
            Some(case) => case.clone(),
            None => any(r),
        }
    }

    fn judge(&mut self, case: &Case) -> Result<u8, String> {
        let mut course = Course::new(case);
        while self.go(&mut course)? {}
        self.tell_apart(case, &course.trace);
        self.grouped.extend(grouped(&course));
        if case.seed % SHARE == 0 {
            self.above += rows_above::agrees(case)?;
        }
        Ok(course.last.unwrap_or(0))
    }

    fn smaller(&self, case: &Case) -> Vec<Case> {
        crate::rows_smaller::smaller(case)
    }

    fn show(&self, case: &Case) -> String {
        crate::rows_smaller::show(case)
    }

    fn answers(&self) -> Vec<u8> {
        vec![0, 1, 2, 4, 5, 6, 7, 8, 9, STATE]
    }
}
