//! The report of which of two candidates is better: a table for people, one JSON object, or CSV.

use crate::args::{candidate_name, Form};
use crate::contest::{Contest, FrameContest};
use crate::json;
use crate::opened::Subject;
use crate::report::{metric_of, values, FIELDS};
use crate::score::{Metrics, Scores};
use crate::stop::{Fault, PASSED};
use crate::table;
use crate::value::Value;
use crate::writer::Writer;
use fuavelino::Candidate;
use std::io::{self, Write};

/// In how many frames each was better, and how many were ties.
#[derive(Default)]
pub struct Counts {
    first: u64,
    second: u64,
    tied: u64,
}

impl Counts {
    pub fn add(&mut self, frame: &Contest) {
        *(if frame.tied { &mut self.tied } else { frame.better.of(&mut self.first, &mut self.second) }) += 1;
    }

    pub fn frames(&self) -> u64 {
        self.first + self.second + self.tied
    }
}

/// How it ended.
pub struct End<'a> {
    pub counts: &'a Counts,
    /// What all frames come to, and so the verdict, where every frame was scored.
    pub run: Option<&'a FrameContest>,
    pub expect: Option<Candidate>,
    pub fault: Option<&'a Fault>,
    pub status: u8,
}

pub trait Verdicts {
    fn begin(&mut self, out: &mut dyn Write, subject: &Subject<'_>, expect: Option<Candidate>) -> io::Result<()>;
    fn frame(&mut self, out: &mut dyn Write, number: u64, contest: &FrameContest) -> io::Result<()>;
    fn end(&mut self, out: &mut dyn Write, end: &End<'_>) -> io::Result<()>;
}

pub fn verdicts(form: Form) -> Box<dyn Verdicts> {
    match form {
        Form::Table => Box::new(Table),
        Form::Json => Box::new(Json { json: Writer::default() }),
        Form::Csv => Box::new(Csv),
    }
}

/// Which is better, as people are told.
pub fn told(contest: &Contest) -> String {
    format!("{}{}", candidate_name(contest.better), if contest.tied { " (tie)" } else { "" })
}

const FOOT: &str = "
Each plane's errors and which of them is smaller, totals of up to 65,536 records, and PSNR, rounded down to hundredths, come from
proved calls. Not proved: which of two totals is smaller, and totals of more records.
";

struct Table;

impl Verdicts for Table {
    fn begin(&mut self, out: &mut dyn Write, subject: &Subject<'_>, _: Option<Candidate>) -> io::Result<()> {
        table::head(out, subject, None)?;
        writeln!(out, "{:15} {:>22} {:>22}", "", candidate_name(Candidate::First), candidate_name(Candidate::Second))?;
        row(out, ["frame", "plane"], ["sq_err", "PSNR dB", "sq_err", "PSNR dB"].map(String::from), "better")
    }

    fn frame(&mut self, out: &mut dyn Write, number: u64, contest: &FrameContest) -> io::Result<()> {
        rows(out, &number.to_string(), contest)
    }

    fn end(&mut self, out: &mut dyn Write, end: &End<'_>) -> io::Result<()> {
        let frames = match end.counts.frames() {
            1 => "1 frame".to_string(),
            count => format!("{} frames", count),
        };
        let run = match (end.run, end.fault) {
            (Some(run), None) => run,
            (_, fault) => {
                let why = fault.map_or("", |fault| &fault.message);
                return writeln!(out, "\nNOT DECIDED after {}: {}", frames, why);
            }
        };
        rows(out, "run", run)?;
        let Counts { first, second, tied } = end.counts;
        writeln!(out, "{}\n{}: first better in {}, second better in {}, tied {}", FOOT, frames, first, second, tied)?;
        writeln!(out, "better: {}", told(&run.combined))?;
        match end.expect.map(candidate_name) {
            Some(name) if end.status == PASSED => writeln!(out, "passed: {} was expected", name),
            Some(name) => writeln!(out, "NOT PASSED: {} was expected", name),
            None => Ok(()),
        }
    }
}

fn rows(out: &mut dyn Write, frame: &str, contest: &FrameContest) -> io::Result<()> {
    for (plane, contest) in contest.named() {
        let [first, second] = contest.scores.map(|scores| Value::psnr(scores.psnr).said());
        let [one, other] = contest.errors.map(|error| format!("{:.0}", error));
        row(out, [frame, plane], [one, first, other, second], &told(contest))?;
    }
    Ok(())
}

fn row(out: &mut dyn Write, [frame, plane]: [&str; 2], cells: [String; 4], better: &str) -> io::Result<()> {
    let [error, psnr, other, other_psnr] = cells;
    writeln!(out, "{:>6} {:<8} {:>12} {:>9} {:>12} {:>9}  {}", frame, plane, error, psnr, other, other_psnr, better)
}

struct Json {
    json: Writer,
}

impl Verdicts for Json {
    fn begin(&mut self, out: &mut dyn Write, subject: &Subject<'_>, expect: Option<Candidate>) -> io::Result<()> {
        json::head(&mut self.json, subject);
        self.json.field("expect", expect.map(candidate_name));
        json::notes(&mut self.json, subject);
        self.json.name("frames").list().lines();
        self.out(out)
    }

    fn frame(&mut self, out: &mut dyn Write, number: u64, contest: &FrameContest) -> io::Result<()> {
        self.json.object().field("frame", number);
        contests(&mut self.json, contest);
        self.json.close();
        self.out(out)
    }

    fn end(&mut self, out: &mut dyn Write, end: &End<'_>) -> io::Result<()> {
        let json = self.json.close().name("run");
        match end.run {
            Some(run) => {
                json.object().field("frames", end.counts.frames());
                contests(json, run);
                json.name("counts").object().field("first", end.counts.first).field("second", end.counts.second);
                json.field("tied", end.counts.tied).close().close();
            }
            None => {
                json.null();
            }
        }
        json.field("verdict", end.run.map(|run| candidate_name(run.combined.better)));
        json::error(json, end.fault);
        json.field("status", u64::from(end.status)).field("passed", end.status == PASSED).close();
        self.out(out)?;
        writeln!(out)
    }
}

impl Json {
    /// Lets out what was written.
    fn out(&mut self, out: &mut dyn Write) -> io::Result<()> {
        out.write_all(self.json.take().as_bytes())
    }
}

/// Those of a frame or of the run.
fn contests(json: &mut Writer, contests: &FrameContest) {
    json.name("planes").list();
    for (plane, one) in contests.named().take(contests.planes.len()) {
        contest(json.object().field("plane", plane), one);
        json.close();
    }
    json.close().name("combined").object();
    contest(json, &contests.combined);
    json.close();
}

fn contest(json: &mut Writer, contest: &Contest) {
    json.field("better", candidate_name(contest.better)).field("tied", contest.tied);
    for (candidate, scores) in [Candidate::First, Candidate::Second].into_iter().zip(&contest.scores) {
        json.name(candidate_name(candidate)).object();
        json::figures(json, &Metrics::ERROR.asked(), scores);
        json.close();
    }
}

struct Csv;

impl Verdicts for Csv {
    fn begin(&mut self, out: &mut dyn Write, _: &Subject<'_>, _: Option<Candidate>) -> io::Result<()> {
        let named = |candidate| fields().map(move |field| format!("{}_{}", candidate_name(candidate), FIELDS[field]));
        let columns: Vec<String> = named(Candidate::First).chain(named(Candidate::Second)).collect();
        writeln!(out, "scope,frame,plane,better,tied,{}", columns.join(","))
    }

    fn frame(&mut self, out: &mut dyn Write, number: u64, contest: &FrameContest) -> io::Result<()> {
        lines(out, &format!("frame,{}", number), contest)
    }

    fn end(&mut self, out: &mut dyn Write, end: &End<'_>) -> io::Result<()> {
        if let Some(run) = end.run {
            lines(out, "run,", run)?;
        }
        let scope = if end.status == PASSED { "passed" } else { "not passed" };
        writeln!(out, "{},,,,{}", scope, ",".repeat(2 * fields().count()))
    }
}

/// The figures of the squared error.
fn fields() -> impl Iterator<Item = usize> {
    (0..FIELDS.len()).filter(|field| Metrics::ERROR.asked()[metric_of(*field)])
}

fn lines(out: &mut dyn Write, start: &str, contest: &FrameContest) -> io::Result<()> {
    let cells = |scores: &Scores| {
        let values = values(scores);
        fields().map(|field| values[field].cell()).collect::<Vec<String>>().join(",")
    };
    for (plane, contest) in contest.named() {
        let [first, second] = &contest.scores;
        let (better, tied) = (candidate_name(contest.better), contest.tied);
        writeln!(out, "{},{},{},{},{},{}", start, plane, better, tied, cells(first), cells(second))?;
    }
    Ok(())
}
