//! `fuavelino compare`: reads both files frame by frame, scores, reports, and judges.

use crate::args::{Compare, Form};
use crate::csv::Csv;
use crate::frames::Source;
use crate::input::Stored;
use crate::jobs;
use crate::json::Json;
use crate::messages::Messages;
use crate::opened::{names, output, progress, Count, Opened, Subject};
use crate::output::Output;
use crate::progress::{say, Progress};
use crate::report::{End, Job, Report, Worst};
use crate::score::{kernels, FrameScores};
use crate::stop::{Fault, Stop, BROKEN, FAULT, PASSED};
use crate::summary::Summary;
use crate::table::Table;
use crate::thresholds::{self, Broken};
use crate::totals::Run;
use std::io::{self, Write};

/// How a comparison ended that was reported.
pub struct Ended {
    pub status: u8,
    pub frames: u64,
    /// How many times a threshold was broken.
    pub broken: u64,
    pub fault: Option<Fault>,
    /// The run's figures, where every frame had its scores.
    pub run: Option<FrameScores>,
}

/// Compares, and gives the status that the command ends with.
pub fn compare(asked: &Compare) -> Result<u8, Stop> {
    Ok(one(asked)?.status)
}

/// Compares two files.
pub fn one(asked: &Compare) -> Result<Ended, Stop> {
    let mut out = output(&asked.common, || unfinished(asked))?;
    let mut report = report(asked.common.form);
    let mut walk = Walk {
        asked,
        report: &mut *report,
        out: &mut out,
        progress: progress(&asked.common),
        worst: Worst::default(),
        summary: Summary::default(),
        messages: Messages::new(asked.common.quiet),
        frames: 0,
        broken: 0,
    };
    let walked = walk.whole();
    let ended = walk.end(walked)?;
    out.close()?;
    Ok(ended)
}

fn report(form: Form) -> Box<dyn Report> {
    match form {
        Form::Table => Box::new(Table::default()),
        Form::Json => Box::new(Json::default()),
        Form::Csv => Box::new(Csv),
    }
}

fn begin(report: &mut dyn Report, to: &mut dyn Write, asked: &Compare, subject: Subject<'_>) -> io::Result<()> {
    let kernels = subject.format.filter(|_| asked.metrics.ssim).map(|format| kernels(&format));
    report.begin(to, &Job { subject, metrics: asked.metrics, thresholds: &asked.thresholds, kernels })
}

/// What stands in the report's file until the run has ended: a whole report of a run that did not pass.
pub fn unfinished(asked: &Compare) -> io::Result<Vec<u8>> {
    let mut text = Vec::new();
    let mut report = report(asked.common.form);
    begin(&mut *report, &mut text, asked, Subject::unknown(&asked.common))?;
    let fault = Fault::unfinished();
    let (worst, fault, status) = (&Worst::default(), Some(&fault), FAULT);
    let none = End { frames: 0, run: None, run_broken: &[], summary: None, worst, broken: 0, fault, status };
    report.end(&mut text, &none)?;
    Ok(text)
}

/// A limit for a plane that is not there would never be held.
fn fit(asked: &Compare, sources: &[Source]) -> Result<(), Fault> {
    let planes = sources[0].format.shapes().len();
    match asked.thresholds.iter().find(|held| held.is_never_held(planes)) {
        Some(held) => Err(Fault::new(format!("{}: {} has no such plane", held.show(), sources[0].name()))),
        None => Ok(()),
    }
}

/// The walk over all frames.
struct Walk<'a> {
    asked: &'a Compare,
    report: &'a mut dyn Report,
    out: &'a mut Output,
    progress: Progress,
    worst: Worst,
    summary: Summary,
    messages: Messages,
    frames: u64,
    broken: u64,
}

impl Walk<'_> {
    /// Begins the report, and walks where there is something to walk over.
    fn whole(&mut self) -> Result<FrameScores, Stop> {
        let (report, asked) = (&mut *self.report, self.asked);
        let opened = Opened::new(&asked.common, |sources| fit(asked, sources));
        self.out.write(|to| begin(report, to, asked, opened.subject(&asked.common)))?;
        let sources = opened.sources(&asked.common)?;
        let walked = if sources[0].format.wide() { self.walk::<u16>(sources) } else { self.walk::<u8>(sources) };
        self.progress.clear();
        walked
    }

    /// Closes the report, whatever ended the walk, unless it could not be written.
    fn end(&mut self, walked: Result<FrameScores, Stop>) -> Result<Ended, Stop> {
        let (run, fault) = match walked {
            Ok(run) => (Some(run), None),
            Err(Stop::Fault(fault)) => (None, Some(fault)),
            Err(stop) => return Err(stop),
        };
        let held = |run: &FrameScores| thresholds::broken(&self.asked.thresholds, None, run);
        let run_broken = run.as_ref().map_or(Vec::new(), held);
        self.count(&run_broken);
        self.messages.rest();
        // passed is what is left when nothing else can be said: a run with its figures, and nothing broken
        let status = match (&run, self.broken) {
            (Some(_), 0) => PASSED,
            (Some(_), _) => BROKEN,
            (None, _) => FAULT,
        };
        if let Some(fault) = &fault {
            say(&fault.message);
        }
        let (frames, worst, broken) = (self.frames, &self.worst, self.broken);
        let run_broken = &run_broken[..];
        let summary = run.as_ref().map(|_| &self.summary);
        let (told, failed) = (run.as_ref(), fault.as_ref());
        let end = End { frames, run: told, run_broken, summary, worst, broken, fault: failed, status };
        let report = &mut self.report;
        self.out.write(|to| report.end(to, &end))?;
        Ok(Ended { status, frames, broken, fault, run })
    }

    fn walk<T: Stored>(&mut self, sources: Vec<Source>) -> Result<FrameScores, Stop> {
        let format = sources[0].format;
        let names = names(&sources);
        let count = Count::new(&self.asked.common, &names);
        let mut run = Run::new(format.shapes().len(), format.chroma.get_chroma_weight());
        jobs::each::<T>(sources, self.asked.metrics, self.asked.jobs, |scored| {
            count.another(self.frames)?;
            let scores = scored.map_err(|refused| refused.of_files(self.frames, &names, &format))?;
            run.add(&scores).map_err(|refused| refused.at("the run"))?;
            self.tell(&scores)
        })?;
        count.end(self.frames)?;
        Ok(run.end().map_err(|refused| refused.at("the run"))?)
    }

    /// Reports a frame, and says which thresholds it breaks.
    fn tell(&mut self, scores: &FrameScores) -> Result<(), Stop> {
        let broken = thresholds::broken(&self.asked.thresholds, Some(self.frames), scores);
        self.worst.add(self.frames, scores);
        self.summary.add(scores);
        let (report, frame) = (&mut self.report, self.frames);
        self.out.write(|to| report.frame(to, frame, scores, &broken))?;
        self.count(&broken);
        self.frames += 1;
        self.progress.at(self.frames);
        Ok(())
    }

    /// Says what is broken.
    fn count(&mut self, broken: &[Broken]) {
        for one in broken {
            self.progress.clear();
            self.messages.broken(one.option, || one.show());
        }
        self.broken += broken.len() as u64;
    }
}
