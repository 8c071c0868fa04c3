//! The report as CSV: a row for each plane of each frame and for their combination, then of the worst frames, the summary and
//! the run, then one that says whether it passed. Every column is always there; what was not asked for is empty.

use crate::report::{values, End, Job, Report, FIELDS};
use crate::score::FrameScores;
use crate::stop::PASSED;
use crate::summary::{spaced, STATISTICS};
use crate::thresholds::Broken;
use crate::value::Value;
use std::io::{self, Write};

pub struct Csv;

impl Report for Csv {
    fn begin(&mut self, out: &mut dyn Write, _: &Job<'_>) -> io::Result<()> {
        writeln!(out, "scope,frame,plane,{}", FIELDS.join(","))
    }

    fn frame(&mut self, out: &mut dyn Write, number: u64, scores: &FrameScores, _: &[Broken]) -> io::Result<()> {
        rows(out, &format!("frame,{}", number), scores)
    }

    fn end(&mut self, out: &mut dyn Write, end: &End<'_>) -> io::Result<()> {
        for place in end.worst.places().flatten() {
            let cells = FIELDS.map(|field| if field == place.field { Value::Double(place.value) } else { Value::None });
            row(out, &format!("worst,{}", place.frame), place.plane, &cells)?;
        }
        for (name, statistic) in STATISTICS {
            for (plane, told) in end.summary.iter().flat_map(|summary| summary.told(statistic)) {
                row(out, &format!("{},", name), plane, &spaced(&told))?;
            }
        }
        if let Some(run) = end.run {
            rows(out, "run,", run)?;
        }
        let scope = if end.status == PASSED { "passed" } else { "not passed" };
        writeln!(out, "{},,{}", scope, ",".repeat(FIELDS.len()))
    }
}

fn rows(out: &mut dyn Write, start: &str, scores: &FrameScores) -> io::Result<()> {
    for (plane, scores) in scores.named() {
        row(out, start, plane, &values(scores))?;
    }
    Ok(())
}

fn row(out: &mut dyn Write, start: &str, plane: &str, values: &[Value]) -> io::Result<()> {
    let cells: Vec<String> = values.iter().map(Value::cell).collect();
    writeln!(out, "{},{},{}", start, plane, cells.join(","))
}
