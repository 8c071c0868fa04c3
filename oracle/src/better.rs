//! Which of two candidates is better, of both widths: the error and which it was against the rule, against the published error and against the product's own
//! squared errors; the winner as it was lent, sample by sample, also after the caller changed one. The cases are in `better_cases.rs`.

use crate::better_calls::{Asked, Change, Desk, Found, How, Won, NO_SAMPLE};
use crate::better_cases::{any, exchange, listed, Case, OWN, SHARED};
use crate::better_far;
use crate::better_rule::*;
use crate::better_ways::{ways, Met, Way, SHARP};
use crate::family::{add, all_seen, also, run, Family, Run};
use crate::fenced::{judging, watch};
use crate::limits::{SIDE, STRIDE};
use crate::mapped::Mapped;
use crate::plane::less;
use crate::random::Random;
use fuavelino::{no_alloc, Plane, Record, Sample, Shape};
use published::video::pixel::Pixel;
use published::video::psnr;

/// Planes of fewer samples than this go through the functions above `no_alloc` too.
const FEW: usize = 1_000;

pub fn compare(ask: Run) -> bool {
    let _watch = watch();
    let cases = if ask.full { 1_000_000 } else { 100_000 };
    let mut family = Betters::new();
    if !run("better", &mut family, cases, ask) {
        return false;
    }
    family.tell();
    also("better: every way told from the rule, every sharp case and every mix of refusals met", || family.enough())
        && also("better: candidates of 2^40 samples, all but what is read out of reach", better_far::compare)
        && also("better: 16,384 by 16,384 at depth 12, a tie of the largest errors, and one sample off it", largest)
}

struct Betters {
    desk: Desk,
    listed: Vec<Case>,
    /// Each way, and whether a case told it from the rule.
    ways: Vec<Way>,
    told: Vec<u64>,
    /// How many cases were each of the sharp ones.
    sharp: [u64; SHARP.len()],
    /// How many had each mix of what the planes break: by sample width, what all of them break, and each one's own.
    mixes: [[[u64; 64]; 4]; 2],
    /// Places of winners that were asked for, changes that were followed, and contests that went through the functions above.
    places: u64,
    changes: u64,
    above: u64,
}

impl Betters {
    fn new() -> Betters {
        let ways = ways();
        Betters {
            desk: Desk::new(),
            listed: listed(),
            told: vec![0; ways.len()],
            ways,
            sharp: [0; SHARP.len()],
            mixes: [[[0; 64]; 4]; 2],
            places: 0,
            changes: 0,
            above: 0,
        }
    }

    fn tell(&self) {
        println!(
            "better: {} places of winners have the lent samples, {} follow a change; {} contests have the same answer above, by squared errors and published",
            self.places, self.changes, self.above
        );
    }

    fn enough(&self) -> Result<(), String> {
        let lacking = self.mixes.iter().flatten().flatten().filter(|n| **n == 0).count();
        if lacking > 0 {
            return Err(format!("{} mixes of refusals were not met", lacking));
        }
        all_seen(self.ways.iter().map(|way| way.0).collect(), &self.told, "tells the rule from")?;
        all_seen(SHARP.iter().map(|sharp| sharp.0).collect(), &self.sharp, "is")
    }

    fn meet(&mut self, met: &Met) {
        let c = met.contest;
        add(&mut self.sharp, SHARP.iter().map(|sharp| sharp.1(met)));
        let shared = SHARED.iter().position(|shared| *shared == [DEPTH.1(c, 0), SIDES.1(c, 0)]);
        let own = |i: usize| {
            let number = [STRIDES, SHORT, ABOVE].iter().find(|test| test.1(c, i)).map_or(0, |test| test.0);
            OWN.iter().position(|no| *no == number)
        };
        if let (Some(shared), Some(o), Some(a), Some(b)) = (shared, own(0), own(1), own(2)) {
            self.mixes[usize::from(c.wide)][shared][o + 4 * a + 16 * b] += 1;
        }
    }

    /// Looks for ways that were not seen yet, in the answer or in what the winner's call says of these places.
    fn tell_apart(&mut self, c: &Contest, right: &(Told, Part), places: &[usize]) {
        for (told, (_, rule)) in self.told.iter_mut().zip(&self.ways).filter(|(told, _)| **told == 0) {
            let (other, part) = rule.says(c);
            let differs = |at: &usize| won(c, &part, *at) != won(c, &right.1, *at);
            *told = u64::from(other != right.0 || places.iter().any(differs));
        }
    }
}

impl Family for Betters {
    type Case = Case;

    fn case(&self, number: u64, r: &mut Random) -> Case {
        judging(number);
        match self.listed.get(number as usize) {
            Some(case) => case.clone(),
            None => any(r),
        }
    }

    fn judge(&mut self, case: &Case) -> Result<u8, String> {
        let (c, r) = (&case.contest, &mut Random::of(case.seed, "better, lent", 0));
        let right = RIGHT.says(c);
        let (told, part) = right;
        if told.answer != c.refusal(0) {
            return Err(format!("the rule's {} is not the model's {}", told.answer, c.refusal(0)));
        }
        let (how, places, change) = (How::any(r), places(r, c), change(r, c, &part));
        let found = self.desk.ask(&Asked { contest: c, how, places: &places, change })?;
        agrees(c, &right, &found, &places)?;
        let turned = change.map(|change| followed(c, &part, change, &found)).transpose()?;
        if c.samples.iter().all(|list| list.len() < FEW) {
            above(c, &told)?;
            self.above += 1;
        }
        self.places += places.len() as u64;
        self.changes += u64::from(change.is_some());
        let judged = (told.answer == 0).then(|| RIGHT.judged(c));
        self.meet(&Met { contest: c, how, told, judged, change: change.zip(turned) });
        self.tell_apart(c, &right, &places);
        Ok(told.answer)
    }

    fn smaller(&self, case: &Case) -> Vec<Case> {
        let of = |contest: Contest| Case { contest, seed: case.seed };
        let mut list: Vec<Case> = case.contest.smaller().into_iter().map(of).collect();
        // a seed that says how it is lent is as good as another
        list.extend(less(case.seed.min(64) as usize).into_iter().map(|n| Case { seed: n as u64, ..case.clone() }));
        list
    }

    fn show(&self, case: &Case) -> String {
        let how = How::any(&mut Random::of(case.seed, "better, lent", 0));
        format!("{}\n    lent by seed {}: {:?}", case.contest.show(), case.seed, how)
    }

    fn answers(&self) -> Vec<u8> {
        vec![0, 1, 2, 4, 5, 6]
    }
}

/// Places to ask the winner for: the first, the last that is seen, one of padding, the last of either candidate and the one behind it, and any.
fn places(r: &mut Random, c: &Contest) -> Vec<usize> {
    let lens = [FIRST, SECOND].map(|i| c.samples[i].len());
    let most = lens[0].max(lens[1]);
    let i = r.within(FIRST, SECOND);
    let seen = c.strides[i].wrapping_mul(c.height.wrapping_sub(1)).wrapping_add(c.width).wrapping_sub(1);
    let any = r.below(most + 2);
    let mut list = vec![0, seen, c.width, lens[0].wrapping_sub(1), lens[1].wrapping_sub(1), lens[0], lens[1], any];
    list.dedup();
    list
}

/// What the winner's call says of a place, if this is what it hands back.
fn won(c: &Contest, part: &Part, at: usize) -> Won {
    let unread = if c.wide { NO_SAMPLE } else { NO_SAMPLE & 0xFF };
    (part.len, c.samples[part.plane][..part.len].get(at).copied().unwrap_or(unread))
}

/// A sample of the winner that is changed: to any that its width has where it is not seen, else to any that its depth has.
fn change(r: &mut Random, c: &Contest, part: &Part) -> Option<Change> {
    if part.len == 0 {
        return None;
    }
    let at = r.below(part.len);
    let (x, y) = (at % c.strides[part.plane], at / c.strides[part.plane]);
    let most = match (x < c.width && y < c.height, c.wide) {
        (true, _) => c.max() as u16,
        (false, true) => u16::MAX,
        (false, false) => 255,
    };
    let now = c.samples[part.plane][at];
    let any = r.next() as u16 & most;
    let value = r.pick(&[now ^ 1, most - now.min(most), any]).min(most);
    Some((part.plane, at, if value == now { now ^ 1 } else { value }))
}

fn agrees(c: &Contest, (told, part): &(Told, Part), found: &Found, places: &[usize]) -> Result<(), String> {
    if found.told != *told {
        return Err(format!("answered {}, not {}", show(&found.told), show(told)));
    }
    for (at, said) in places.iter().zip(&found.won) {
        let wanted = won(c, part, *at);
        if *said != wanted {
            return Err(format!(
                "of place {} the winner has {} of {}, not {} of {}",
                at, said.1, said.0, wanted.1, wanted.0
            ));
        }
    }
    Ok(())
}

fn show(told: &Told) -> String {
    match *told {
        Told { answer, error, which } if (error, which) == (BEFORE.error, BEFORE.which) => {
            format!("{} and left all as it was", answer)
        }
        Told { answer, error, which } => {
            format!("{} with {} ({:#018X}) of candidate {}", answer, f64::from_bits(error), error, which)
        }
    }
}

/// That the winner's call goes by the sample as it was changed at the lent address, and whether the other candidate won then.
fn followed(c: &Contest, part: &Part, (plane, at, value): Change, found: &Found) -> Result<bool, String> {
    let mut then = c.clone();
    then.samples[plane][at] = value;
    let (_, next) = RIGHT.says(&then);
    let (said, wanted) = (found.after, won(&then, &next, at));
    if said != Some(wanted) {
        return Err(format!("after place {} became {} the winner has {:?} there, not {:?}", at, value, said, wanted));
    }
    Ok(next.plane != part.plane)
}

/// The functions above `no_alloc`, both ways round; the product's own squared errors; and the published ones.
fn above(c: &Contest, told: &Told) -> Result<(), String> {
    let mut other = c.clone();
    exchange(&mut other);
    let exchanged = RIGHT.says(&other).0;
    if c.wide {
        above_of(c, told, |s| s)?;
        above_of(&other, &exchanged, |s| s)
    } else {
        above_of(c, told, |s| s as u8)?;
        above_of(&other, &exchanged, |s| s as u8)
    }
}

fn above_of<T: Sample + Pixel>(c: &Contest, told: &Told, narrow: fn(u16) -> T) -> Result<(), String> {
    let samples = [0, 1, 2].map(|i| c.samples[i].iter().map(|s| narrow(*s)).collect::<Vec<T>>());
    let ([o, a, b], shape) = ([0, 1, 2].map(|i| c.plane(i, &samples[i])), c.shape());
    let wanted = (told.answer, told.which, told.error);
    let said = match fuavelino::better(o, a, b, shape) {
        Ok(said) => (0, said.which.of(1, 2), said.sq_err.to_bits()),
        Err(refusal) => (refusal.number(), BEFORE.which, BEFORE.error),
    };
    same("the function above", said, wanted)?;
    let part = fuavelino::winner(o, a, b, shape);
    let lent = match told.which {
        1 if told.answer == 0 => a.data,
        2 if told.answer == 0 => b.data,
        _ => &[],
    };
    if part.len() != lent.len() || !lent.is_empty() && part.as_ptr() != lent.as_ptr() {
        return Err(format!("the winner above is {} samples elsewhere, not the {} lent", part.len(), lent.len()));
    }
    same("by squared errors", by_errors([a, b].map(|candidate| error(o, candidate, shape))), wanted)?;
    if told.answer == 0 {
        let [o, a, b] = c.unpadded(narrow);
        let errors = [a, b].map(|candidate| Ok(psnr::probe_squared_error(&o, &candidate)));
        same("by published errors", by_errors(errors), wanted)?;
    }
    Ok(())
}

/// The answer, which it was, and the error as bits.
type Said = (u8, u8, u64);

fn same(what: &str, said: Said, wanted: Said) -> Result<(), String> {
    if said == wanted {
        return Ok(());
    }
    Err(format!("{}: {:?}, not {:?}", what, said, wanted))
}

fn error<T: Sample>(o: Plane<'_, T>, candidate: Plane<'_, T>, shape: Shape) -> Result<f64, u8> {
    let mut record = Record::default();
    no_alloc::squared_error(o, candidate, shape, 0, 0, &mut record).map_err(|refusal| refusal.number())?;
    Ok(record.sq_err)
}

/// What follows from the squared error of each candidate: the lower refusal, or the smaller error.
fn by_errors(errors: [Result<f64, u8>; 2]) -> Said {
    match errors {
        [Ok(first), Ok(second)] if second < first => (0, 2, second.to_bits()),
        [Ok(first), Ok(_)] => (0, 1, first.to_bits()),
        [Err(one), Err(other)] => (one.min(other), BEFORE.which, BEFORE.error),
        [Err(refused), _] | [_, Err(refused)] => (refused, BEFORE.which, BEFORE.error),
    }
}

/// The largest planes, candidates of the largest error both: a tie; and one sample nearer, the last that is seen, in either. The padding would be refused
/// if it were read. The zeros are pages that nobody writes.
fn largest() -> Result<(), String> {
    const ALL: u64 = 4_501_400_872_550_400;
    const NEARER: u64 = ALL - 4_095 * 4_095 + 4_094 * 4_094;
    for stride in [SIDE, STRIDE] {
        let len = stride * (SIDE - 1) + SIDE;
        let row = [vec![4_095; SIDE], vec![u16::MAX; stride - SIDE]].concat();
        let bright = Mapped::new(&row, &row, SIDE).map_err(|e| format!("nothing mapped: {}", e))?;
        let (zeros, mut nearer) = (vec![0u16; len], vec![0u16; len]);
        nearer[len - 1] = 1;
        for (a, b, wanted) in
            [(&zeros, &zeros, (ALL, 1)), (&zeros, &nearer, (NEARER, 2)), (&nearer, &zeros, (NEARER, 1))]
        {
            let [o, a, b] = [&bright[..len], a, b].map(|data| Plane { data, stride });
            let (mut error, mut which) = (0.0, 0);
            let shape = Shape { width: SIDE, height: SIDE, bit_depth: 12 };
            no_alloc::better(o, a, b, shape, &mut error, &mut which).map_err(|refusal| refusal.to_string())?;
            if (error as u64, which) != wanted {
                return Err(format!("at stride {} gave {} of {}, not {:?}", stride, error, which, wanted));
            }
        }
    }
    Ok(())
}
