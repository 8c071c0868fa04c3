//! How a family of cases is run: each case is made, judged and counted; the first that fails is made small.

use crate::random::Random;
use fuavelino::Refusal;
use std::panic::{catch_unwind, AssertUnwindSafe};
use std::sync::atomic::{AtomicBool, Ordering};
use std::time::{Duration, Instant};

pub trait Family {
    type Case: Clone;
    /// Case by number: first the listed ones, then random ones.
    fn case(&self, number: u64, random: &mut Random) -> Self::Case;
    /// The answer, if product and model agree on it; else what differs.
    fn judge(&mut self, case: &Self::Case) -> Result<u8, String>;
    /// Simpler cases, the simplest first. Each step must lead towards an end.
    fn smaller(&self, case: &Self::Case) -> Vec<Self::Case>;
    fn show(&self, case: &Self::Case) -> String;
    /// Answers that a run must meet, so that none goes untested.
    fn answers(&self) -> Vec<u8>;
}

/// What is asked of every family.
#[derive(Clone, Copy)]
pub struct Run {
    pub seed: u64,
    pub full: bool,
}

/// What a call said, as a number: 0, or its refusal's.
pub fn number(said: Result<(), Refusal>) -> u8 {
    said.map_or_else(Refusal::number, |()| 0)
}

/// How long a failing case is made smaller.
const PATIENCE: Duration = Duration::from_secs(20);

/// Runs so many cases, prints one line (or the failing case), and says whether all agreed.
pub fn run<F: Family>(name: &str, family: &mut F, cases: u64, run: Run) -> bool {
    let began = Instant::now();
    let mut met = [0u64; 256];
    for number in 0..cases {
        let case = family.case(number, &mut Random::of(run.seed, name, number));
        match guarded(family, &case) {
            Ok(answer) => met[usize::from(answer)] += 1,
            Err(why) => {
                println!("{}: case {} of seed {} FAILED: {}", name, number, run.seed, why);
                report_small(family, case, why);
                return false;
            }
        }
    }
    let missing: Vec<u8> = family.answers().into_iter().filter(|a| met[usize::from(*a)] == 0).collect();
    if !missing.is_empty() {
        println!("{}: FAILED: no case was answered by {:?}", name, missing);
        return false;
    }
    let time = began.elapsed().as_secs_f64();
    println!("{}: {} cases agree ({}) in {:.1} s", name, cases, counts(&met), time);
    true
}

/// Sees to one thing more of a family, prints one line, and says whether it is as it should be.
pub fn also(what: &str, see: impl FnOnce() -> Result<(), String>) -> bool {
    let began = Instant::now();
    let said = see();
    let word = said.as_ref().map_or_else(|why| format!("FAILED: {}", why), |()| "as it should be".to_string());
    println!("{}: {} in {:.1} s", what, word, began.elapsed().as_secs_f64());
    said.is_ok()
}

/// One more for each that was seen.
pub fn add(counts: &mut [u64], seen: impl Iterator<Item = bool>) {
    counts.iter_mut().zip(seen).for_each(|(n, seen)| *n += u64::from(seen));
}

/// That none of these was never seen; `what` is said before those that were not.
pub fn all_seen(names: Vec<&'static str>, counts: &[u64], what: &str) -> Result<(), String> {
    let lacking = names.into_iter().zip(counts).filter(|(_, n)| **n == 0).map(|(name, _)| name);
    match &lacking.collect::<Vec<&str>>()[..] {
        [] => Ok(()),
        list => Err(format!("no case {} {}", what, list.join(", "))),
    }
}

fn counts(met: &[u64; 256]) -> String {
    let list = met.iter().enumerate().filter(|(_, n)| **n > 0);
    let words: Vec<String> = list.map(|(answer, n)| format!("{}: {}", answer, n)).collect();
    format!("by answer {}", words.join(", "))
}

/// Set while a case is judged: a panic there is told by the case's own report.
static JUDGING: AtomicBool = AtomicBool::new(false);

/// Has a panic print its message, but for one that a case's report tells.
pub fn hush_panics() {
    let usual = std::panic::take_hook();
    std::panic::set_hook(Box::new(move |info| {
        if !JUDGING.load(Ordering::Relaxed) {
            usual(info)
        }
    }));
}

/// A panic of the published code, as when a sum wraps, is a failure of the case.
fn guarded<F: Family>(family: &mut F, case: &F::Case) -> Result<u8, String> {
    JUDGING.store(true, Ordering::Relaxed);
    let judged = catch_unwind(AssertUnwindSafe(|| family.judge(case)));
    JUDGING.store(false, Ordering::Relaxed);
    match judged {
        Ok(result) => result,
        Err(panic) => {
            let text = panic.downcast_ref::<String>().map(|s| s.as_str());
            let text = text.or_else(|| panic.downcast_ref::<&str>().copied());
            Err(format!("panicked: {}", text.unwrap_or("with no message")))
        }
    }
}

fn report_small<F: Family>(family: &mut F, mut case: F::Case, mut why: String) {
    let began = Instant::now();
    'again: while began.elapsed() < PATIENCE {
        for next in family.smaller(&case) {
            if let Err(said) = guarded(family, &next) {
                case = next;
                why = said;
                continue 'again;
            }
        }
        break;
    }
    println!("  smallest form found: {}", family.show(&case));
    println!("  {}", why);
}
