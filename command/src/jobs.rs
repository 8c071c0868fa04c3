//! Frames scored on several threads, and handed on in their order: what is told is what one job tells.
//!
//! One thread reads, as many as asked score, and the caller's gathers. A pair of frames is lent to the reader, goes through a
//! scorer to the gatherer, and back only once its scores are told: so many pairs as there are bound all that waits.

use crate::format::Format;
use crate::frames::{numbered, Frame, Source};
use crate::input::Stored;
use crate::score::{FrameScores, Metrics, Refused, Scorer};
use crate::stop::{Fault, Stop};
use std::collections::BTreeMap;
use std::io;
use std::num::NonZeroUsize;
use std::panic::{catch_unwind, resume_unwind, AssertUnwindSafe};
use std::sync::mpsc::{channel, Receiver, Sender};
use std::sync::{Arc, Mutex};
use std::thread;

/// The most that can be asked for.
pub const MOST: usize = 1_024;

/// The pairs of frames that each job may hold: one that it scores, one that waits.
const PAIRS: usize = 2;

/// A thread's stack. The scores were seen to do with a sixteenth of it: frames and scratch stand elsewhere.
const STACK: usize = 1 << 20;

/// As many jobs as there are cores.
pub fn cores() -> usize {
    thread::available_parallelism().map_or(1, NonZeroUsize::get).min(MOST)
}

type Pair<T> = [Frame<T>; 2];
type Scored = Result<FrameScores, Refused>;

/// What stands in a frame's place.
enum Outcome<T> {
    /// Its scores or its refusal, or a panic on the way to them.
    Scored(Box<thread::Result<Scored>>, Pair<T>),
    /// There is no such frame: both files ended, or something is wrong.
    Ended(Result<(), Fault>),
}

/// A frame's number with something of it.
type Numbered<V> = (u64, V);

/// A pair of frames to be scored, with the number as its records are to have it.
type Asked<T> = Numbered<(u32, Pair<T>)>;

/// Reads and scores every frame, and tells each outcome in order, until the files end or something is wrong.
pub fn each<T: Stored>(
    sources: Vec<Source>,
    metrics: Metrics,
    jobs: usize,
    tell: impl FnMut(Scored) -> Result<(), Stop>,
) -> Result<(), Stop> {
    if jobs == 1 {
        alone::<T>(sources, metrics, tell)
    } else {
        spread::<T>(sources, metrics, jobs, tell)
    }
}

/// With no thread but the caller's.
fn alone<T: Stored>(
    mut sources: Vec<Source>,
    metrics: Metrics,
    mut tell: impl FnMut(Scored) -> Result<(), Stop>,
) -> Result<(), Stop> {
    let format = sources[0].format;
    let (mut pair, mut scorer) = (pair::<T>(&format), Scorer::new(&format, metrics));
    while let Some(number) = numbered(&mut sources, &mut pair)? {
        tell(scorer.frame(number, &pair[0], &pair[1]))?;
    }
    Ok(())
}

fn spread<T: Stored>(
    sources: Vec<Source>,
    metrics: Metrics,
    jobs: usize,
    tell: impl FnMut(Scored) -> Result<(), Stop>,
) -> Result<(), Stop> {
    let format = sources[0].format;
    let (lend, lent) = channel();
    let (hand, outcomes) = channel();
    (0..PAIRS * jobs).for_each(|_| drop(lend.send(pair::<T>(&format))));
    let crew = Crew::new(format, metrics, jobs, hand);
    started(move || crew.read(sources, &lent)).map_err(|error| no_thread(&error))?;
    gather(&outcomes, &lend, tell)
}

fn pair<T>(format: &Format) -> Pair<T> {
    [Frame::new(format), Frame::new(format)]
}

/// Threads are not waited for: each ends when what it waits for is gone, and a reader may wait for a pipe without end.
fn started(work: impl FnOnce() + Send + 'static) -> io::Result<()> {
    thread::Builder::new().stack_size(STACK).spawn(work).map(drop)
}

fn no_thread(error: &io::Error) -> Fault {
    Fault::new(format!("cannot start a thread: {} (--jobs 1 needs none)", error))
}

/// The reader, and what it knows of the threads that score. Each of those starts when the next frame is there for it, so that
/// a short clip needs few.
struct Crew<T> {
    format: Format,
    metrics: Metrics,
    started: usize,
    most: usize,
    ask: Sender<Asked<T>>,
    asked: Arc<Mutex<Receiver<Asked<T>>>>,
    hand: Sender<Numbered<Outcome<T>>>,
}

impl<T: Stored> Crew<T> {
    fn new(format: Format, metrics: Metrics, most: usize, hand: Sender<Numbered<Outcome<T>>>) -> Crew<T> {
        let (ask, asked) = channel();
        Crew { format, metrics, started: 0, most, ask, asked: Arc::new(Mutex::new(asked)), hand }
    }

    /// Fills each pair that is lent, and ends with what ended the files.
    fn read(mut self, mut sources: Vec<Source>, lent: &Receiver<Pair<T>>) {
        for (number, pair) in (0..).zip(lent.iter()) {
            let ended = match self.next(&mut sources, number, pair) {
                Ok(true) => continue,
                Ok(false) => Ok(()),
                Err(fault) => Err(fault),
            };
            let _ = self.hand.send((number, Outcome::Ended(ended)));
            break;
        }
    }

    /// Reads a frame of each file and asks for its scores; there may be none.
    fn next(&mut self, sources: &mut [Source], number: u64, mut pair: Pair<T>) -> Result<bool, Fault> {
        let more = numbered(sources, &mut pair)?;
        if let Some(recorded) = more {
            self.grow()?;
            let _ = self.ask.send((number, (recorded, pair)));
        }
        Ok(more.is_some())
    }

    /// One thread more, until there are enough. Where no more can be had, fewer give the same report.
    fn grow(&mut self) -> Result<(), Fault> {
        if self.started == self.most {
            return Ok(());
        }
        let (asked, hand) = (self.asked.clone(), self.hand.clone());
        let scorer = Scorer::new(&self.format, self.metrics);
        match started(move || score(&asked, &hand, scorer)) {
            Ok(()) => self.started += 1,
            Err(error) if self.started == 0 => return Err(no_thread(&error)),
            Err(_) => self.most = self.started,
        }
        Ok(())
    }
}

/// A job: scores what is asked, until nothing more is or nobody wants it.
fn score<T: Stored>(asked: &Mutex<Receiver<Asked<T>>>, hand: &Sender<Numbered<Outcome<T>>>, mut scorer: Scorer) {
    let next = || asked.lock().ok().and_then(|asked| asked.recv().ok());
    while let Some((number, (recorded, pair))) = next() {
        // a panic goes on where the frame is told, so that the command ends as with one job
        let scored = catch_unwind(AssertUnwindSafe(|| scorer.frame(recorded, &pair[0], &pair[1])));
        if hand.send((number, Outcome::Scored(Box::new(scored), pair))).is_err() {
            break;
        }
    }
}

/// Tells the outcomes in their frames' order; those that come early wait.
fn gather<T>(
    outcomes: &Receiver<Numbered<Outcome<T>>>,
    lend: &Sender<Pair<T>>,
    mut tell: impl FnMut(Scored) -> Result<(), Stop>,
) -> Result<(), Stop> {
    let mut early = BTreeMap::new();
    let mut number = 0;
    loop {
        match early.remove(&number) {
            Some(Outcome::Ended(ended)) => return Ok(ended?),
            Some(Outcome::Scored(scored, pair)) => {
                tell((*scored).unwrap_or_else(|panic| resume_unwind(panic)))?;
                number += 1;
                // a reader that is gone wants no more
                let _ = lend.send(pair);
            }
            None => {
                let lost = |_| Fault::new(format!("frame {}: the threads ended before it was scored", number));
                let (at, outcome) = outcomes.recv().map_err(lost)?;
                early.insert(at, outcome);
            }
        }
    }
}

#[cfg(test)]
mod tests {
    use super::*;
    use crate::frames::tests::{near_the_end, sources, MONO};
    use fuavelino::Record;

    /// The record of a frame of one plane.
    fn recorded(scored: Scored) -> Record {
        scored.unwrap().planes[0].record.unwrap()
    }

    /// Frame i is off by i in one sample, which tells it apart from the others.
    #[test]
    fn each_frame_is_recorded_under_its_index_whatever_the_jobs() {
        for jobs in [1, 2, 3, 8] {
            // each run of a list begins anew
            for _ in 0..3 {
                let mut told = Vec::new();
                let ended = each::<u8>(sources(&format!("each-{}", jobs), 200), Metrics::ERROR, jobs, |scored| {
                    told.push(recorded(scored));
                    Ok(())
                });
                assert!(ended.is_ok() && told.len() == 200);
                for (index, record) in (0..).zip(&told) {
                    assert_eq!((record.frame, record.plane), (index, 0), "{} jobs", jobs);
                    assert_eq!(record.sq_err, f64::from(index) * f64::from(index), "{} jobs", jobs);
                }
            }
        }
    }

    /// What a job is asked for in another order than that of the frames keeps its number.
    #[test]
    fn a_job_numbers_by_frame_and_not_by_turn() {
        let ((ask, asked), (hand, outcomes)) = (channel(), channel());
        let numbers = [7, 3, u32::MAX, 0, 4];
        for number in numbers {
            let frame = |first: u8| Frame { planes: vec![vec![first, 0, 0, 0]] };
            ask.send((u64::from(number), (number, [frame(0), frame(number as u8)]))).unwrap();
        }
        drop(ask);
        score(&Mutex::new(asked), &hand, Scorer::new(&MONO, Metrics::ERROR));
        drop(hand);
        let told: Vec<(u64, Record)> = outcomes.iter().map(|(at, outcome)| (at, outcome_record(outcome))).collect();
        assert_eq!(told.len(), numbers.len());
        for ((at, record), number) in told.into_iter().zip(numbers) {
            assert_eq!((at, record.frame), (u64::from(number), number));
            assert_eq!(record.sq_err, f64::from(number as u8).powi(2));
        }
    }

    fn outcome_record(outcome: Outcome<u8>) -> Record {
        match outcome {
            Outcome::Scored(scored, _) => recorded(scored.unwrap()),
            Outcome::Ended(_) => panic!("no frame"),
        }
    }

    #[test]
    fn one_job_ends_where_numbers_do() {
        let mut told = Vec::new();
        let ended = alone::<u8>(near_the_end("alone", 2), Metrics::ERROR, |scored| {
            told.push(recorded(scored).frame);
            Ok(())
        });
        assert_eq!(told, [u32::MAX]);
        assert!(ended.unwrap_err().message().contains("at most 4,294,967,296 frames"));
    }

    /// The reader hands on no frame that has no number.
    #[test]
    fn several_jobs_end_where_numbers_do() {
        let (hand, outcomes) = channel();
        let mut crew = Crew::<u8>::new(MONO, Metrics::ERROR, 1, hand);
        let mut sources = near_the_end("several", 2);
        assert!(crew.next(&mut sources, 5, pair(&MONO)).unwrap());
        let (at, outcome) = outcomes.recv().unwrap();
        assert_eq!((at, outcome_record(outcome).frame), (5, u32::MAX));
        let fault = crew.next(&mut sources, 6, pair(&MONO)).unwrap_err();
        assert!(fault.message.contains("at most 4,294,967,296 frames"), "{}", fault.message);
        drop(crew);
        assert!(outcomes.recv().is_err());
    }

    fn none() -> Pair<u8> {
        [Frame { planes: vec![] }, Frame { planes: vec![] }]
    }

    fn scored(planes: usize) -> Outcome<u8> {
        let planes = vec![Default::default(); planes];
        Outcome::Scored(Box::new(Ok(Ok(FrameScores { planes, combined: Default::default() }))), none())
    }

    /// What is told of outcomes that come in this order, each frame known by its count of planes.
    fn told(list: Vec<Numbered<Outcome<u8>>>) -> (Vec<usize>, Result<(), Stop>) {
        let ((hand, outcomes), (lend, _lent)) = (channel(), channel());
        list.into_iter().for_each(|one| hand.send(one).unwrap());
        drop(hand);
        let mut told = Vec::new();
        let ended = gather(&outcomes, &lend, |scored| {
            told.push(scored.unwrap().planes.len());
            Ok(())
        });
        (told, ended)
    }

    #[test]
    fn outcomes_are_told_in_their_frames_order() {
        let ended = Outcome::Ended(Ok(()));
        let (told, ended) = told(vec![(3, ended), (2, scored(2)), (0, scored(0)), (1, scored(1))]);
        assert!(told == [0, 1, 2] && ended.is_ok());
    }

    #[test]
    fn a_fault_waits_for_the_frames_before_it() {
        let fault = Outcome::Ended(Err(Fault::new("cut".to_string())));
        let (told, ended) = told(vec![(1, fault), (0, scored(0))]);
        assert!(told == [0] && ended.unwrap_err().message() == "cut");
    }

    #[test]
    fn threads_that_are_gone_are_a_fault() {
        let (told, ended) = told(vec![(0, scored(0)), (2, scored(2))]);
        assert!(told == [0] && ended.unwrap_err().message().starts_with("frame 1: the threads ended"));
    }

    #[test]
    #[should_panic(expected = "of a job")]
    fn a_panic_of_a_job_is_the_callers() {
        let _ = told(vec![(0, Outcome::Scored(Box::new(Err(Box::new("of a job"))), none()))]);
    }
}
