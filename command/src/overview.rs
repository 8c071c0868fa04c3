//! What a list of pairs came to, in each form of report.

use crate::args::{Compare, Form};
use crate::compare::Ended;
use crate::json;
use crate::report::{values, FIELDS};
use crate::score::Scores;
use crate::stop::{Fault, BROKEN, PASSED};
use crate::value::Value;
use crate::writer::Writer;
use std::io::{self, Write};

/// A pair that was compared.
pub struct Row<'a> {
    /// Counted from 1, as in the reports' names.
    pub number: usize,
    pub original: &'a str,
    pub decoded: &'a str,
    /// The file of its own report, if it has one.
    pub report: Option<&'a str>,
    pub ended: &'a Ended,
}

/// How many pairs ended in which way.
#[derive(Default)]
pub struct Counts {
    pub pairs: u64,
    pub passed: u64,
    pub broken: u64,
    pub faults: u64,
}

impl Counts {
    pub fn add(&mut self, status: u8) {
        self.pairs += 1;
        *match status {
            PASSED => &mut self.passed,
            BROKEN => &mut self.broken,
            _ => &mut self.faults,
        } += 1;
    }
}

/// How it ended as a whole.
pub struct Total<'a> {
    pub counts: &'a Counts,
    /// What is wrong with the list or its reports, where something is.
    pub fault: Option<&'a Fault>,
    pub status: u8,
}

pub trait Overview {
    fn begin(&mut self, out: &mut dyn Write, list: &str, asked: &Compare) -> io::Result<()>;
    fn pair(&mut self, out: &mut dyn Write, row: &Row<'_>) -> io::Result<()>;
    fn end(&mut self, out: &mut dyn Write, total: &Total<'_>) -> io::Result<()>;
}

pub fn overview(form: Form) -> Box<dyn Overview> {
    match form {
        Form::Table => Box::new(Table),
        Form::Json => Box::new(Json::default()),
        Form::Csv => Box::new(Csv),
    }
}

#[derive(Default)]
struct Json {
    asked: Vec<bool>,
    json: Writer,
}

impl Overview for Json {
    fn begin(&mut self, out: &mut dyn Write, list: &str, asked: &Compare) -> io::Result<()> {
        self.asked = asked.metrics.asked().to_vec();
        self.json.object().lines().field("fuavelino", env!("CARGO_PKG_VERSION")).field("list", list);
        json::asked(&mut self.json, &asked.metrics, &asked.thresholds);
        self.json.name("pairs").list().lines();
        out.write_all(self.json.take().as_bytes())
    }

    fn pair(&mut self, out: &mut dyn Write, row: &Row<'_>) -> io::Result<()> {
        let Ended { status, frames, broken, fault, run } = row.ended;
        let json = &mut self.json;
        json.object().field("pair", row.number as u64).field("original", row.original).field("decoded", row.decoded);
        json.field("report", row.report).field("frames", *frames).field("broken", *broken).name("combined");
        match run {
            Some(run) => {
                json.object();
                json::figures(json, &self.asked, &run.combined);
                json.close();
            }
            None => {
                json.null();
            }
        }
        json::error(json, fault.as_ref());
        json.field("status", u64::from(*status)).field("passed", *status == PASSED).close();
        out.write_all(json.take().as_bytes())
    }

    fn end(&mut self, out: &mut dyn Write, total: &Total<'_>) -> io::Result<()> {
        let (json, counts) = (&mut self.json, total.counts);
        json.close().name("counts").object().field("pairs", counts.pairs).field("passed", counts.passed);
        json.field("broken", counts.broken).field("faults", counts.faults).close();
        json::error(json, total.fault);
        json.field("status", u64::from(total.status)).field("passed", total.status == PASSED).close();
        writeln!(out, "{}", json.take())
    }
}

struct Csv;

impl Overview for Csv {
    fn begin(&mut self, out: &mut dyn Write, _: &str, _: &Compare) -> io::Result<()> {
        let columns = "scope,pair,status,frames,broken,original,decoded,report,message";
        writeln!(out, "{},{}", columns, FIELDS.join(","))
    }

    fn pair(&mut self, out: &mut dyn Write, row: &Row<'_>) -> io::Result<()> {
        let Ended { status, frames, broken, fault, run } = row.ended;
        let message = fault.as_ref().map_or("", |fault| &fault.message);
        let texts = [row.original, row.decoded, row.report.unwrap_or_default(), message].map(quoted);
        let combined = run.as_ref().map_or(Scores::default(), |run| run.combined);
        let figures: Vec<String> = values(&combined).iter().map(Value::cell).collect();
        write!(out, "pair,{},{},{},{}", row.number, status, frames, broken)?;
        writeln!(out, ",{},{}", texts.join(","), figures.join(","))
    }

    fn end(&mut self, out: &mut dyn Write, total: &Total<'_>) -> io::Result<()> {
        let scope = if total.status == PASSED { "passed" } else { "not passed" };
        writeln!(out, "{}{}", scope, ",".repeat(8 + FIELDS.len()))
    }
}

/// In quotes where it must be; a quote within is doubled.
fn quoted(text: &str) -> String {
    if text.contains(|c| ",\"\r\n".contains(c)) {
        format!("\"{}\"", text.replace('"', "\"\""))
    } else {
        text.to_string()
    }
}

struct Table;

impl Overview for Table {
    fn begin(&mut self, out: &mut dyn Write, list: &str, _: &Compare) -> io::Result<()> {
        writeln!(out, "list: {}\n\n{:>6} {:<10} {:>8} {:>8}  files", list, "pair", "", "frames", "broken")
    }

    fn pair(&mut self, out: &mut dyn Write, row: &Row<'_>) -> io::Result<()> {
        let Ended { status, frames, broken, fault, .. } = row.ended;
        let told = if *status == PASSED { "passed" } else { "NOT PASSED" };
        let (number, original, decoded) = (row.number, row.original, row.decoded);
        writeln!(out, "{:>6} {:<10} {:>8} {:>8}  {}  {}", number, told, frames, broken, original, decoded)?;
        match fault {
            Some(fault) => writeln!(out, "{:>36}{}", "", fault.message),
            None => Ok(()),
        }
    }

    fn end(&mut self, out: &mut dyn Write, total: &Total<'_>) -> io::Result<()> {
        let Counts { pairs, passed, broken, faults } = total.counts;
        let told = if total.status == PASSED { "passed" } else { "NOT PASSED" };
        if let Some(fault) = total.fault {
            writeln!(out, "\n{}", fault.message)?;
        }
        let counts = format!("{} passed, {} with thresholds broken, {} with faults", passed, broken, faults);
        writeln!(out, "\n{}: pairs: {}: {}", told, pairs, counts)
    }
}

#[cfg(test)]
mod tests {
    use super::*;

    #[test]
    fn cells_are_quoted_where_they_must_be() {
        assert_eq!([quoted("a b"), quoted("a,b"), quoted("a\"b")], ["a b", "\"a,b\"", "\"a\"\"b\""]);
    }
}
