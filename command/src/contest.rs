//! Which of two candidates has the smaller squared error: of a plane by the library's own call, of a frame and of the run by the
//! totals of their records.

use crate::format::{Format, COMBINED, PLANES};
use crate::frames::Frame;
use crate::input::Stored;
use crate::score::{FrameScores, Metrics, Refused, Scorer, Scores};
use crate::stop::Fault;
use crate::totals::Run;
use fuavelino::{Better, Candidate, Plane, Shape};
use std::cmp::Ordering;

/// Both candidates' figures, and which of them is better: the first on a tie.
#[derive(Debug)]
pub struct Contest {
    /// The first's, then the second's.
    pub scores: [Scores; 2],
    /// Their squared errors.
    pub errors: [f64; 2],
    pub better: Candidate,
    pub tied: bool,
}

impl Contest {
    /// By the errors, which are whole numbers; what does not compare decides nothing.
    fn of(scores: [Scores; 2], plane: &'static str) -> Result<Contest, Refused> {
        let [first, second] = scores.map(|scores| scores.error.map_or(f64::NAN, |error| error.sq_err));
        let order = second.partial_cmp(&first).ok_or_else(Refused::no_number(plane, "squared error"))?;
        let better = if order == Ordering::Less { Candidate::Second } else { Candidate::First };
        Ok(Contest { scores, errors: [first, second], better, tied: order == Ordering::Equal })
    }

    /// Whether the library's choice is that of the records, and its error the winner's.
    fn bears_out(&self, chosen: &Better) -> bool {
        let [first, second] = self.errors;
        (chosen.which, chosen.sq_err) == (self.better, self.better.of(first, second))
    }
}

/// The contests of a frame's planes in order, or of the run's, and that of all planes together.
#[derive(Debug)]
pub struct FrameContest {
    pub planes: Vec<Contest>,
    pub combined: Contest,
}

impl FrameContest {
    fn of([first, second]: [FrameScores; 2]) -> Result<FrameContest, Refused> {
        let both = first.planes.into_iter().zip(second.planes).zip(PLANES);
        let planes =
            both.map(|((first, second), plane)| Contest::of([first, second], plane)).collect::<Result<_, _>>()?;
        Ok(FrameContest { planes, combined: Contest::of([first.combined, second.combined], COMBINED)? })
    }

    /// Each plane with its name, then all together.
    pub fn named(&self) -> impl Iterator<Item = (&'static str, &Contest)> {
        PLANES.into_iter().zip(&self.planes).chain([(COMBINED, &self.combined)])
    }

    /// The library's choice of each plane. That it could be another than the records say is no reason to take one of them.
    fn held_to(self, chosen: &[Better]) -> Result<FrameContest, Refused> {
        let mut held = self.planes.iter().zip(chosen).zip(PLANES);
        match held.find(|((contest, chosen), _)| !contest.bears_out(chosen)) {
            Some((_, plane)) => Err(Refused::disagreed(plane, "smaller error")),
            None => Ok(self),
        }
    }
}

/// One of the candidates, with its totals so far.
struct Entry {
    name: String,
    scorer: Scorer,
    run: Run,
}

impl Entry {
    fn new(name: &str, format: &Format) -> Entry {
        let run = Run::new(format.shapes().len(), format.chroma.get_chroma_weight());
        Entry { name: name.to_string(), scorer: Scorer::new(format, Metrics::ERROR), run }
    }

    /// Its figures of a frame, of which no sample is above its depth.
    fn frame<T: Stored>(&mut self, number: u32, frame: [&Frame<T>; 2]) -> Result<FrameScores, Fault> {
        let place = format!("frame {}, {}", number, self.name);
        let scores = self.scorer.frame(number, frame[0], frame[1]).map_err(|refused| refused.at(&place))?;
        self.run.add(&scores).map_err(|refused| refused.at(&self.whole()))?;
        Ok(scores)
    }

    fn end(&self) -> Result<FrameScores, Fault> {
        self.run.end().map_err(|refused| refused.at(&self.whole()))
    }

    fn whole(&self) -> String {
        format!("the run, {}", self.name)
    }
}

/// Judges the frames of three files of one format, in order.
pub struct Judge {
    format: Format,
    shapes: Vec<Shape>,
    names: Vec<String>,
    entries: [Entry; 2],
}

impl Judge {
    /// The files' names: the original's, the first's, the second's.
    pub fn new(format: Format, names: &[String]) -> Judge {
        let entries = [1, 2].map(|at| Entry::new(&names[at], &format));
        Judge { format, shapes: format.shapes(), names: names.to_vec(), entries }
    }

    pub fn frame<T: Stored>(&mut self, number: u32, frames: &[Frame<T>; 3]) -> Result<FrameContest, Fault> {
        let of_files = |refused: Refused| refused.of_files(u64::from(number), &self.names, &self.format);
        let chosen = chosen(frames, &self.shapes).map_err(of_files)?;
        let [original, first, second] = frames;
        let [one, other] = &mut self.entries;
        let scores = [one.frame(number, [original, first])?, other.frame(number, [original, second])?];
        FrameContest::of(scores).and_then(|contest| contest.held_to(&chosen)).map_err(of_files)
    }

    /// What all frames come to.
    pub fn end(&self) -> Result<FrameContest, Fault> {
        let [first, second] = &self.entries;
        FrameContest::of([first.end()?, second.end()?]).map_err(|refused| refused.at("the run"))
    }
}

/// The library's choice for each plane. All three planes are judged here, so that a sample above its depth is told of its file.
fn chosen<T: Stored>([original, first, second]: &[Frame<T>; 3], shapes: &[Shape]) -> Result<Vec<Better>, Refused> {
    let mut list = Vec::with_capacity(shapes.len());
    for (number, shape) in shapes.iter().enumerate() {
        let planes = [original, first, second].map(|frame| &frame.planes[number][..]);
        let [o, a, b] = planes.map(|data| Plane { data, stride: shape.width });
        let chosen = fuavelino::better(o, a, b, *shape).map_err(Refused::of(PLANES[number], "smaller error"));
        list.push(chosen.map_err(|refused| refused.with_sample(&planes, *shape))?);
    }
    Ok(list)
}

#[cfg(test)]
mod tests {
    use super::*;
    use crate::frames::tests::MONO;
    use fuavelino::{PsnrMetrics, Record, Refusal, MOST_SAMPLES};

    fn scores(sq_err: f64) -> Scores {
        let error = Some(PsnrMetrics { sq_err, n_pixels: 4, sample_max: 255 });
        Scores { error, ..Scores::default() }
    }

    fn contest(first: f64, second: f64) -> FrameContest {
        let side = |sq_err| FrameScores { planes: vec![scores(7.0), scores(sq_err)], combined: scores(7.0 + sq_err) };
        FrameContest::of([side(first), side(second)]).unwrap()
    }

    fn names() -> Vec<String> {
        ["o", "a", "b"].map(String::from).to_vec()
    }

    fn frame(first: u8) -> Frame<u8> {
        Frame { planes: vec![vec![first, 0, 0, 0]] }
    }

    #[test]
    fn the_smaller_error_is_better_and_the_first_on_a_tie() {
        for (first, second, better, tied) in [
            (3.0, 4.0, Candidate::First, false),
            (4.0, 3.0, Candidate::Second, false),
            (4.0, 4.0, Candidate::First, true),
            (0.0, 0.0, Candidate::First, true),
        ] {
            let told: Vec<_> = contest(first, second).named().map(|(name, one)| (name, one.better, one.tied)).collect();
            assert_eq!(told, [("y", Candidate::First, true), ("u", better, tied), ("combined", better, tied)]);
        }
    }

    #[test]
    fn an_error_that_is_no_number_decides_nothing() {
        for wrong in [scores(f64::NAN), Scores::default()] {
            for pair in [[wrong, scores(1.0)], [scores(1.0), wrong], [wrong, wrong]] {
                let fault = Contest::of(pair, "u").unwrap_err().at("frame 5");
                assert_eq!(fault.message, "frame 5, plane u: squared error: not a number");
            }
        }
    }

    /// The library's choice that is not that of its records, or has another error, is a fault.
    #[test]
    fn a_choice_that_the_records_do_not_bear_out_is_a_fault() {
        let chosen = |sq_err, which| [Better { sq_err: 7.0, which: Candidate::First }, Better { sq_err, which }];
        assert!(contest(4.0, 3.0).held_to(&chosen(3.0, Candidate::Second)).is_ok());
        assert!(contest(3.0, 3.0).held_to(&chosen(3.0, Candidate::First)).is_ok());
        for (first, second, choice) in [
            (4.0, 3.0, chosen(3.0, Candidate::First)),
            (4.0, 3.0, chosen(4.0, Candidate::First)),
            (4.0, 3.0, chosen(4.0, Candidate::Second)),
            (3.0, 4.0, chosen(3.0, Candidate::Second)),
            (3.0, 3.0, chosen(3.0, Candidate::Second)),
            (3.0, 3.0, chosen(f64::NAN, Candidate::First)),
        ] {
            let fault = contest(first, second).held_to(&choice).unwrap_err().at("frame 2");
            let said = "frame 2, plane u: smaller error: two calls of the library do not agree";
            assert_eq!((&fault.message[..], fault.refusal), (said, None));
        }
    }

    /// The first is better in all frames but two, of which one is past a series, and not in the run because of that one.
    #[test]
    fn a_run_is_totalled_past_a_series() {
        const COUNT: u32 = 65_537;
        let mut judge = Judge::new(MONO, &names());
        for number in 0..COUNT {
            let bad = number == 9 || number == 65_536;
            let (first, second, better) = if bad { (255, 0, Candidate::Second) } else { (0, 1, Candidate::First) };
            let told = judge.frame(number, &[frame(0), frame(first), frame(second)]).unwrap();
            assert_eq!((told.combined.better, told.planes[0].better, told.combined.tied), (better, better, false));
        }
        let run = judge.end().unwrap();
        assert_eq!((run.combined.better, run.combined.errors), (Candidate::Second, [130_050.0, 65_535.0]));
        assert_eq!((run.planes[0].better, run.planes[0].errors), (Candidate::Second, [130_050.0, 65_535.0]));
    }

    /// It is told whose total it is.
    #[test]
    fn a_total_above_two_to_the_53_is_refused() {
        for (at, name) in ["a", "b"].into_iter().enumerate() {
            let mut judge = Judge::new(MONO, &names());
            for number in 0..3 {
                let add = |entry: &mut Entry, each: f64| {
                    let (sq_err, n_pixels) = (MOST_SAMPLES as f64 * each * each, MOST_SAMPLES);
                    let record = Record { sq_err, n_pixels, sample_max: 4_095, frame: number, plane: 0 };
                    let planes = vec![Scores { record: Some(record), ..Scores::default() }];
                    entry.run.add(&FrameScores { planes, combined: Scores::default() }).unwrap();
                };
                add(&mut judge.entries[at], 4_095.0);
                add(&mut judge.entries[1 - at], 1.0);
            }
            let fault = judge.end().unwrap_err();
            assert_eq!(fault.refusal, Some(Refusal::Total));
            let start = format!("the run, {}, plane y: squared error: refusal 11: ", name);
            assert!(fault.message.starts_with(&start), "{}", fault.message);
        }
    }
}
