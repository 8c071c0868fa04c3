//! `fuavelino better`: reads an original and two candidates frame by frame, and tells which of the two is nearer to it.

use crate::args::{candidate_name, Best};
use crate::contest::{FrameContest, Judge};
use crate::frames::{numbered, Frame, Source};
use crate::input::Stored;
use crate::opened::{names, output, progress, Count, Opened, Subject};
use crate::output::Output;
use crate::progress::{say, Progress};
use crate::stop::{Fault, Stop, FAULT, PASSED, UNEXPECTED};
use crate::verdicts::{told, verdicts, Counts, End, Verdicts};
use fuavelino::Candidate;
use std::io;

/// Tells which is better, and gives the status that the command ends with.
pub fn better(asked: &Best) -> Result<u8, Stop> {
    let mut out = output(&asked.common, || unfinished(asked))?;
    let report = verdicts(asked.common.form);
    let progress = progress(&asked.common);
    let mut walk = Walk { asked, report, out: &mut out, progress, counts: Counts::default() };
    let walked = walk.whole();
    let status = walk.end(walked)?;
    out.close()?;
    Ok(status)
}

/// What stands in the report's file until the run has ended: a whole report of a run that decided nothing.
fn unfinished(asked: &Best) -> io::Result<Vec<u8>> {
    let mut text = Vec::new();
    let mut report = verdicts(asked.common.form);
    report.begin(&mut text, &Subject::unknown(&asked.common), asked.expect)?;
    let (counts, fault) = (&Counts::default(), Fault::unfinished());
    report.end(&mut text, &End { counts, run: None, expect: asked.expect, fault: Some(&fault), status: FAULT })?;
    Ok(text)
}

/// The walk over all frames.
struct Walk<'a> {
    asked: &'a Best,
    report: Box<dyn Verdicts>,
    out: &'a mut Output,
    progress: Progress,
    counts: Counts,
}

impl Walk<'_> {
    /// Begins the report, and walks where there is something to walk over.
    fn whole(&mut self) -> Result<FrameContest, Stop> {
        let (report, common, expect) = (&mut self.report, &self.asked.common, self.asked.expect);
        let opened = Opened::new(common, |_| Ok(()));
        self.out.write(|to| report.begin(to, &opened.subject(common), expect))?;
        let sources = opened.sources(common)?;
        let walked = if sources[0].format.wide() { self.walk::<u16>(sources) } else { self.walk::<u8>(sources) };
        self.progress.clear();
        walked
    }

    /// Closes the report, whatever ended the walk, unless it could not be written.
    fn end(&mut self, walked: Result<FrameContest, Stop>) -> Result<u8, Stop> {
        let (run, fault) = match walked {
            Ok(run) => (Some(run), None),
            Err(Stop::Fault(fault)) => (None, Some(fault)),
            Err(stop) => return Err(stop),
        };
        let expect = self.asked.expect;
        let status = match (&run, expect) {
            (Some(run), Some(wanted)) if run.combined.better != wanted => UNEXPECTED,
            (Some(_), _) => PASSED,
            (None, _) => FAULT,
        };
        if let Some(fault) = &fault {
            say(&fault.message);
        }
        if let (Some(run), Some(wanted), UNEXPECTED, false) = (&run, expect, status, self.asked.common.quiet) {
            say(&unexpected(run, wanted));
        }
        let (counts, run, fault) = (&self.counts, run.as_ref(), fault.as_ref());
        let report = &mut self.report;
        self.out.write(|to| report.end(to, &End { counts, run, expect, fault, status }))?;
        Ok(status)
    }

    fn walk<T: Stored>(&mut self, mut sources: Vec<Source>) -> Result<FrameContest, Stop> {
        let format = sources[0].format;
        let names = names(&sources);
        let count = Count::new(&self.asked.common, &names);
        let mut judge = Judge::new(format, &names);
        let mut frames = [Frame::<T>::new(&format), Frame::new(&format), Frame::new(&format)];
        while let Some(number) = numbered(&mut sources, &mut frames)? {
            count.another(self.counts.frames())?;
            self.tell(u64::from(number), &judge.frame(number, &frames)?)?;
        }
        count.end(self.counts.frames())?;
        Ok(judge.end()?)
    }

    fn tell(&mut self, number: u64, contest: &FrameContest) -> Result<(), Stop> {
        let report = &mut self.report;
        self.out.write(|to| report.frame(to, number, contest))?;
        self.counts.add(&contest.combined);
        self.progress.at(self.counts.frames());
        Ok(())
    }
}

/// That the run does not have the answer that was asked for.
fn unexpected(run: &FrameContest, wanted: Candidate) -> String {
    let [first, second] = run.combined.errors;
    let (better, wanted) = (told(&run.combined), candidate_name(wanted));
    let figures = format!("sq_err is {:?} of first and {:?} of second", first, second);
    format!("the run, plane combined: {}: better is {}, which breaks --expect {}", figures, better, wanted)
}
