//! The report for people: a row for each plane of each frame, then the run, then what its frames come to and where it was worst.

use crate::decibels::Decibels;
use crate::format::PLANES;
use crate::opened::Subject;
use crate::report::{metric_of, values, End, Job, Place, Report, FIELDS};
use crate::score::{FrameScores, Scores};
use crate::stop::PASSED;
use crate::summary::{spaced, STATISTICS};
use crate::thresholds::Broken;
use crate::value::Value;
use fuavelino::Kernel;
use std::io::{self, Write};

const FOOT: &str = "
Each plane's scores, each frame's combination and PSNR, rounded down to hundredths, come from proved calls. Not proved: the
other decibels (dB) and the mean of PSNR, MS-SSIM's product of the scales, the squared error per sample (mse), the division by
the weight in a combined SSIM, a run's means over its frames.
";

const BUILT: &str = "\
Kernels that were built, since the library's chart has none for their planes, are not proved either; SSIM under them is.
";

const READING: &str = "\
Of every hundred frames 5 are as bad as p5 or worse, and 1 as bad as p1. Figures are rounded here; --json and --csv give all
digits.
";

/// A column: its field, its head, its width, and how it rounds.
type Column = (&'static str, &'static str, usize, fn(f64) -> String);

const COLUMNS: [Column; 15] = [
    ("sq_err", "sq_err", 12, |value| format!("{:.0}", value)),
    ("mse", "mse", 10, |value| format!("{:.4}", value)),
    ("psnr_hundredths", "PSNR dB", 9, |value| format!("{:.2}", value)),
    ("ssim", "SSIM", 9, share),
    ("cs", "CS", 9, share),
    ("ssim_db", "SSIM dB", 8, decibels),
    ("scale1_ssim", "scale 1", 9, share),
    ("scale2_ssim", "scale 2", 9, share),
    ("scale3_ssim", "scale 3", 9, share),
    ("scale4_ssim", "scale 4", 9, share),
    ("scale5_ssim", "scale 5", 9, share),
    ("msssim", "MS-SSIM", 9, share),
    ("msssim_db", "MS-SSIM dB", 10, decibels),
    ("hvs", "HVS", 10, |value| format!("{:.3e}", value)),
    ("hvs_db", "HVS dB", 8, decibels),
];

fn share(value: f64) -> String {
    format!("{:.6}", value)
}

fn decibels(value: f64) -> String {
    format!("{:.3}", value)
}

#[derive(Default)]
pub struct Table {
    asked: [bool; 5],
    thresholds: usize,
    /// Whether a kernel is none of the chart's.
    built: bool,
}

impl Report for Table {
    fn begin(&mut self, out: &mut dyn Write, job: &Job<'_>) -> io::Result<()> {
        self.asked = job.metrics.asked();
        self.thresholds = job.thresholds.len();
        self.built = job.kernels.iter().flatten().any(|kernel| !kernel.is_charted());
        head(out, &job.subject, job.kernels.as_deref())?;
        writeln!(out, "{}", self.row("frame", "plane", |_, column| column.1.to_string()))
    }

    fn frame(&mut self, out: &mut dyn Write, number: u64, scores: &FrameScores, broken: &[Broken]) -> io::Result<()> {
        self.rows(out, &number.to_string(), scores, broken)
    }

    fn end(&mut self, out: &mut dyn Write, end: &End<'_>) -> io::Result<()> {
        if let Some(run) = end.run {
            self.rows(out, "run", run, end.run_broken)?;
        }
        for (name, statistic) in STATISTICS {
            for (plane, told) in end.summary.iter().flat_map(|summary| summary.told(statistic)) {
                let values = spaced(&told);
                writeln!(out, "{}", self.row(name, plane, |field, column| statistic_of(&values, field, column)))?;
            }
        }
        writeln!(out)?;
        self.summary(out, end)?;
        if end.run.is_some() {
            self.foot(out)?;
        }
        Ok(())
    }
}

/// The files, with the kernels where there are some to be told, and a line before the rows.
pub fn head(out: &mut dyn Write, subject: &Subject<'_>, kernels: Option<&[Kernel]>) -> io::Result<()> {
    let format = subject.format.map_or("not known".to_string(), |format| format.show());
    for (role, name) in &subject.files {
        writeln!(out, "{:<9} {}", format!("{}:", role), name)?;
    }
    writeln!(out, "format:   {}", format)?;
    if let Some(kernels) = kernels {
        let told: Vec<String> = PLANES.iter().zip(kernels).map(|(plane, kernel)| taps(plane, kernel)).collect();
        writeln!(out, "kernels:  {}", told.join(", "))?;
    }
    for note in subject.notes {
        writeln!(out, "note:     {}", note)?;
    }
    writeln!(out)
}

/// How long the kernel of a plane is, and where it comes from.
fn taps(plane: &str, kernel: &Kernel) -> String {
    let (count, from) = (kernel.taps().len(), if kernel.is_charted() { "chart" } else { "built" });
    format!("{} {} {} ({})", plane, count, if count == 1 { "tap" } else { "taps" }, from)
}

impl Table {
    fn rows(&self, out: &mut dyn Write, frame: &str, scores: &FrameScores, broken: &[Broken]) -> io::Result<()> {
        for (plane, scores) in scores.named() {
            let mark = if broken.iter().any(|broken| broken.plane == plane) { "  broken" } else { "" };
            let values = values(scores);
            let cell = |field: usize, column: &Column| match perfect(column.0, scores) {
                Some(word) => word.to_string(),
                None => rounded(&values[field], column),
            };
            writeln!(out, "{}{}", self.row(frame, plane, cell), mark)?;
        }
        Ok(())
    }

    /// A row of the asked columns; a cell is made from the field's number and the column.
    fn row(&self, frame: &str, plane: &str, cell: impl Fn(usize, &Column) -> String) -> String {
        let mut line = format!("{:>6} {:<8}", frame, plane);
        for column in &COLUMNS {
            let field = FIELDS.iter().position(|field| *field == column.0);
            if let Some(field) = field.filter(|field| self.asked[metric_of(*field)]) {
                line += &format!(" {:>width$}", cell(field, column), width = column.2);
            }
        }
        line
    }

    fn summary(&self, out: &mut dyn Write, end: &End<'_>) -> io::Result<()> {
        let same = end.run.and_then(|run| run.combined.error).map_or(false, |total| total.is_identical());
        if same {
            writeln!(out, "every frame is identical (PSNR 100)")?;
        } else {
            for places in end.worst.places() {
                worst(out, places)?;
            }
        }
        let frames = match end.frames {
            1 => "1 frame".to_string(),
            count => format!("{} frames", count),
        };
        match end.fault {
            Some(fault) => writeln!(out, "NOT PASSED after {}: {}", frames, fault.message),
            None if end.status != PASSED => writeln!(out, "NOT PASSED: {}, thresholds broken: {}", frames, end.broken),
            None if self.thresholds == 0 => writeln!(out, "passed: {}, every score given; no threshold asked", frames),
            None => writeln!(out, "passed: {}, every score given and every threshold met", frames),
        }
    }

    fn foot(&self, out: &mut dyn Write) -> io::Result<()> {
        write!(out, "{}{}{}", FOOT, if self.built { BUILT } else { "" }, READING)
    }
}

/// The worst frame, and those that come next.
fn worst(out: &mut dyn Write, places: &[Place]) -> io::Result<()> {
    let round = |place: &Place| {
        let column = COLUMNS.iter().find(|column| column.0 == place.field);
        column.map_or_else(|| place.value.to_string(), |column| column.3(place.value))
    };
    let next = |place: &Place| format!("{} ({}, {})", place.frame, place.plane, round(place));
    if let Some((first, others)) = places.split_first() {
        let Place { field, frame, plane, value } = first;
        writeln!(out, "worst {}: {:?} in frame {}, plane {}", field, value, frame, plane)?;
        let others: Vec<String> = others.iter().filter(|place| harmed(place)).map(next).collect();
        if !others.is_empty() {
            writeln!(out, "    then frames {}", others.join(", "))?;
        }
    }
    Ok(())
}

/// Whether anything could be better.
fn harmed(place: &Place) -> bool {
    match place.field {
        "mse" | "hvs" => place.value > 0.0,
        _ => place.value < 1.0,
    }
}

/// PSNR's mean is that of av-metrics' figure: whole hundredths have none.
fn statistic_of(values: &[Value], field: usize, column: &Column) -> String {
    match (column.0, values[field]) {
        ("psnr_hundredths", Value::None) => {
            let double = FIELDS.iter().position(|field| *field == "psnr_db").map(|field| values[field]);
            double.map_or(String::new(), |double| rounded(&double, column))
        }
        (_, value) => rounded(&value, column),
    }
}

/// PSNR is not rounded here: it has as many digits as it is told with.
fn rounded(value: &Value, column: &Column) -> String {
    match value {
        Value::Double(value) => column.3(*value),
        Value::Psnr(told) => told.to_string(),
        _ => String::new(),
    }
}

/// A word in the place of decibels that nothing can better. PSNR has its own.
fn perfect(field: &str, scores: &Scores) -> Option<&'static str> {
    let (decibels, word) = match field {
        "ssim_db" => (scores.ssim_db, "perfect"),
        "msssim_db" => (scores.msssim_db, "perfect"),
        "hvs_db" => (scores.hvs_db, "no error"),
        _ => (None, ""),
    };
    decibels.filter(|decibels| *decibels == Decibels::Perfect).map(|_| word)
}
