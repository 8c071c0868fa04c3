//! Compares a decoded video with its original by proved scores, and passes only what is shown to be good.

mod above;
mod args;
mod better;
mod chart;
mod clip;
mod compare;
mod contest;
mod csv;
mod decibels;
mod descriptor;
mod difference;
mod folder;
mod format;
mod frames;
mod help;
mod input;
mod jobs;
mod json;
mod limit;
mod list;
mod locate;
mod messages;
mod notes;
mod opened;
mod output;
mod overview;
mod pairs;
mod part;
mod picture;
mod places;
mod progress;
mod report;
mod score;
mod stop;
mod summary;
mod table;
mod thresholds;
mod totals;
mod value;
mod verdicts;
mod words;
mod writer;
mod y4m;

use args::Asked;
use output::Output;
use std::process::ExitCode;
use stop::{Stop, PASSED};

fn main() -> ExitCode {
    let ended = done();
    if let Err(stop) = &ended {
        progress::say(stop.message());
    }
    ExitCode::from(ended.unwrap_or_else(|stop| stop.status()))
}

fn done() -> Result<u8, Stop> {
    match args::parse(std::env::args_os().skip(1))? {
        Asked::Help => Output::standard()?.write(|to| to.write_all(help::HELP.as_bytes()))?,
        Asked::Version => Output::standard()?.write(|to| writeln!(to, "fuavelino {}", env!("CARGO_PKG_VERSION")))?,
        Asked::Compare(asked) => return compare::compare(&asked),
        Asked::Pairs(asked) => return pairs::pairs(&asked),
        Asked::Where(asked) => return locate::locate(&asked),
        Asked::Better(asked) => return better::better(&asked),
        Asked::Kernel(height) => chart::write(height)?,
        Asked::Clip(clip) => clip::write(&clip)?,
    }
    Ok(PASSED)
}
