//! The report as one JSON object, written as the frames are scored.

use crate::format::{Format, COMBINED, PLANES};
use crate::opened::Subject;
use crate::report::{metric_of, values, End, Job, Place, Report, FIELDS};
use crate::score::{FrameScores, Metrics, Scores};
use crate::stop::{Fault, PASSED};
use crate::summary::{Statistic, Summary, STATISTICS};
use crate::thresholds::{Broken, Threshold};
use crate::writer::Writer;
use fuavelino::Kernel;
use std::io::{self, Write};

#[derive(Default)]
pub struct Json {
    asked: [bool; 5],
    json: Writer,
}

impl Report for Json {
    fn begin(&mut self, out: &mut dyn Write, job: &Job<'_>) -> io::Result<()> {
        self.asked = job.metrics.asked();
        let json = &mut self.json;
        head(json, &job.subject);
        asked(json, &job.metrics, job.thresholds);
        kernels(json.name("kernels"), job.kernels.as_deref());
        notes(json, &job.subject);
        json.name("frames").list().lines();
        self.out(out)
    }

    fn frame(&mut self, out: &mut dyn Write, number: u64, scores: &FrameScores, broken: &[Broken]) -> io::Result<()> {
        self.json.object().field("frame", number);
        self.scores(scores, broken);
        self.json.close();
        self.out(out)
    }

    fn end(&mut self, out: &mut dyn Write, end: &End<'_>) -> io::Result<()> {
        self.json.close().name("run");
        match end.run {
            Some(run) => {
                self.json.object().field("frames", end.frames);
                self.scores(run, end.run_broken);
                self.json.close();
            }
            None => {
                self.json.null();
            }
        }
        summary(self.json.name("summary"), end.summary);
        let json = &mut self.json;
        json.name("worst").list();
        end.worst.places().flatten().for_each(|place| worst(json, place));
        json.close().field("broken", end.broken);
        error(json, end.fault);
        json.field("status", u64::from(end.status)).field("passed", end.status == PASSED).close();
        self.out(out)?;
        writeln!(out)
    }
}

impl Json {
    /// Lets out what was written.
    fn out(&mut self, out: &mut dyn Write) -> io::Result<()> {
        out.write_all(self.json.take().as_bytes())
    }

    /// The figures of a frame or of the run, and what they break.
    fn scores(&mut self, scores: &FrameScores, broken: &[Broken]) {
        self.json.name("planes").list();
        for (plane, scores) in scores.named().take(scores.planes.len()) {
            self.json.object().field("plane", plane);
            figures(&mut self.json, &self.asked, scores);
            self.json.close();
        }
        self.json.close().name("combined").object();
        figures(&mut self.json, &self.asked, &scores.combined);
        self.json.close().name("broken").list();
        broken.iter().for_each(|one| breach(&mut self.json, one));
        self.json.close();
    }
}

/// Opens the report's object, and tells which files it is about.
pub fn head(json: &mut Writer, subject: &Subject<'_>) {
    json.object().lines();
    json.field("fuavelino", env!("CARGO_PKG_VERSION"));
    for (role, name) in &subject.files {
        json.field(role, &name[..]);
    }
    format(json.name("format"), subject.format);
}

pub fn notes(json: &mut Writer, subject: &Subject<'_>) {
    json.name("notes").list();
    for note in subject.notes {
        json.value(&note[..]);
    }
    json.close();
}

/// What was asked: scores and thresholds.
pub fn asked(json: &mut Writer, metrics: &Metrics, thresholds: &[Threshold]) {
    json.name("metrics").list();
    for (name, _) in Metrics::NAMES.iter().zip(metrics.asked()).filter(|named| named.1) {
        json.value(*name);
    }
    json.close().name("thresholds").list();
    for threshold in thresholds {
        json.object().field("option", threshold.option()).field("plane", threshold.plane);
        json.field("limit", threshold.limit.number).close();
    }
    json.close();
}

/// Of each plane how many taps its kernel has, and whether it is the chart's.
fn kernels(json: &mut Writer, told: Option<&[Kernel]>) {
    match told {
        Some(told) => {
            json.list();
            for (plane, kernel) in PLANES.iter().zip(told) {
                json.object().field("plane", *plane).field("taps", kernel.taps().len() as u64);
                json.field("charted", kernel.is_charted()).close();
            }
            json.close();
        }
        None => {
            json.null();
        }
    }
}

/// Each asked figure.
pub fn figures(json: &mut Writer, asked: &[bool], scores: &Scores) {
    for (number, value) in values(scores).iter().enumerate() {
        if asked[metric_of(number)] {
            json.field(FIELDS[number], value);
        }
    }
}

/// What went wrong, if anything did.
pub fn error(json: &mut Writer, fault: Option<&Fault>) {
    json.name("error");
    match fault {
        Some(fault) => {
            let refusal = fault.refusal.map(|refusal| u64::from(refusal.number()));
            json.object().field("message", &fault.message[..]).field("refusal", refusal).close();
        }
        None => {
            json.null();
        }
    }
}

fn format(json: &mut Writer, told: Option<Format>) {
    match told {
        Some(f) => {
            json.object().field("width", f.width as u64).field("height", f.height as u64);
            json.field("bit_depth", u64::from(f.depth)).field("chroma", f.chroma_name()).close();
        }
        None => {
            json.null();
        }
    }
}

fn breach(json: &mut Writer, broken: &Broken) {
    json.object().field("option", broken.option).field("limit", broken.limit.number);
    json.field("plane", broken.plane).field("field", broken.field).field("value", broken.value).close();
}

/// Each statistic in the form of the run's figures; none of a run that did not end well.
fn summary(json: &mut Writer, told: Option<&Summary>) {
    match told {
        Some(told) => {
            json.object();
            STATISTICS.iter().for_each(|(name, statistic)| spread(json.name(name), told, *statistic));
            json.close();
        }
        None => {
            json.null();
        }
    }
}

fn spread(json: &mut Writer, told: &Summary, statistic: Statistic) {
    json.object().name("planes").list();
    for (plane, figures) in told.told(statistic) {
        if plane == COMBINED {
            json.close().name(plane).object();
        } else {
            json.object().field("plane", plane);
        }
        for (field, value) in figures {
            json.field(FIELDS[field], value);
        }
        json.close();
    }
    json.close();
}

fn worst(json: &mut Writer, place: &Place) {
    json.object().field("field", place.field).field("frame", place.frame);
    json.field("plane", place.plane).field("value", place.value).close();
}
