//! `fuavelino compare --pairs`: a list of pairs, each compared by itself, and what they come to as a whole.

use crate::args::{Common, Compare, Form, Pairs, To};
use crate::compare::{one, Ended};
use crate::folder::{clear, name, prepare, summary};
use crate::input::{identity, named, shown};
use crate::list::{self, Pair};
use crate::output::Output;
use crate::overview::{overview, Counts, Overview, Row, Total};
use crate::progress::{label, say};
use crate::stop::{Fault, Stop, FAULT, PASSED};
use std::fs;
use std::io;
use std::path::Path;

/// Compares each pair of the list, and gives the worst of their statuses.
pub fn pairs(asked: &Pairs) -> Result<u8, Stop> {
    let mut out = output(asked)?;
    let mut overview = overview(asked.each.common.form);
    let mut counts = Counts::default();
    let list = named(&asked.list);
    out.write(|to| overview.begin(to, &list, &asked.each))?;
    let walked = walk(asked, &mut *overview, &mut out, &mut counts);
    let (worst, fault) = match walked {
        Ok(worst) => (worst, None),
        Err(Stop::Fault(fault)) => (FAULT, Some(fault)),
        Err(stop) => return Err(stop),
    };
    if let Some(fault) = &fault {
        say(&fault.message);
    }
    let total = Total { counts: &counts, fault: fault.as_ref(), status: worst };
    out.write(|to| overview.end(to, &total))?;
    out.close()?;
    Ok(worst)
}

fn walk(asked: &Pairs, overview: &mut dyn Overview, out: &mut Output, counts: &mut Counts) -> Result<u8, Stop> {
    let jobs = match asked.folder() {
        Some(folder) => {
            clear(folder, &asked.each)?;
            let jobs = jobs(asked, &list::read(&asked.list)?);
            prepare(folder, asked.each.common.form, &jobs)?;
            jobs
        }
        None => jobs(asked, &list::read(&asked.list)?),
    };
    let mut worst = PASSED;
    for (at, job) in jobs.iter().enumerate() {
        let number = at + 1;
        label(&format!("pair {}: ", number));
        let ended = one(job).unwrap_or_else(lost);
        label("");
        let names = [0, 1].map(|file| named(&job.common.files[file]));
        let (original, decoded) = (&names[0][..], &names[1][..]);
        let report = name(asked.each.common.form, number);
        let report = asked.folder().map(|_| &report[..]);
        out.write(|to| overview.pair(to, &Row { number, original, decoded, report, ended: &ended }))?;
        counts.add(ended.status);
        worst = worst.max(ended.status);
    }
    Ok(worst)
}

/// A pair whose own report could not be written: that hides none of the others.
fn lost(stop: Stop) -> Ended {
    say(stop.message());
    Ended { status: FAULT, frames: 0, broken: 0, fault: Some(Fault::new(stop.message().to_string())), run: None }
}

impl Pairs {
    fn folder(&self) -> Option<&Path> {
        match &self.each.common.output {
            To::File(folder) => Some(folder),
            _ => None,
        }
    }
}

/// Each pair as a comparison of its own.
fn jobs(asked: &Pairs, list: &[Pair]) -> Vec<Compare> {
    let job = |(at, pair): (usize, &Pair)| {
        let output = match asked.folder() {
            Some(folder) => To::File(folder.join(name(asked.each.common.form, at + 1))),
            None => To::Nowhere,
        };
        let files = vec![pair.original.clone(), pair.decoded.clone()];
        let common = Common { files, output, ..asked.each.common.clone() };
        Compare { common, ..asked.each.clone() }
    };
    list.iter().enumerate().map(job).collect()
}

/// Where the whole is told: on standard output, or in a folder, which is made where it is not there.
fn output(asked: &Pairs) -> Result<Output, Stop> {
    let folder = match asked.folder() {
        Some(folder) => folder,
        None if asked.each.common.quiet && asked.each.common.form == Form::Table => return Ok(Output::nowhere()),
        None => return Output::standard(),
    };
    let path = folder.join(summary(asked.each.common.form));
    let unwritten = |error| Stop::unwritten(&shown(&path), &error);
    fs::create_dir_all(folder).map_err(unwritten)?;
    if identity(&path).is_some() && identity(&path) == identity(&asked.list) {
        return Err(Stop::Usage(format!("{} would be written over by what the list comes to", named(&asked.list))));
    }
    let first = first(asked).map_err(unwritten)?;
    Output::replace(&path, &first)
}

/// What stands there until all pairs have ended.
fn first(asked: &Pairs) -> io::Result<Vec<u8>> {
    let mut text = Vec::new();
    let mut overview = overview(asked.each.common.form);
    overview.begin(&mut text, &named(&asked.list), &asked.each)?;
    overview.end(&mut text, &Total { counts: &Counts::default(), fault: Some(&Fault::unfinished()), status: FAULT })?;
    Ok(text)
}
