//! The folder of a list's reports: their names, and that none of an earlier run stands for one of this.

use crate::args::{Compare, Form, To};
use crate::compare::unfinished;
use crate::input::{identity, shown};
use crate::output::Output;
use crate::stop::{Fault, Stop};
use std::collections::HashSet;
use std::fs::{self, File};
use std::io::{self, Read};
use std::path::{Path, PathBuf};

fn extension(form: Form) -> &'static str {
    match form {
        Form::Table => "txt",
        Form::Json => "json",
        Form::Csv => "csv",
    }
}

/// The name of a pair's own report.
pub fn name(form: Form, number: usize) -> String {
    format!("fuavelino-{:04}.{}", number, extension(form))
}

/// The name of the summary.
pub fn summary(form: Form) -> String {
    format!("fuavelino-summary.{}", extension(form))
}

/// Takes away the pairs' reports of an earlier run: no list is read yet, and none may stand for a pair of this one. A file
/// that only has such a name, and does not begin as a report does, is left.
pub fn clear(folder: &Path, each: &Compare) -> Result<(), Stop> {
    let unwritten = |path: &Path| {
        let name = shown(path);
        move |error| Stop::unwritten(&name, &error)
    };
    let first = unfinished(each).map_err(unwritten(folder))?;
    // the first word of a report, whatever its files and its version
    let word = first.iter().position(|byte| b":,".contains(byte)).map_or(&first[..], |end| &first[..=end]);
    for path in named_as_reports(folder, each.common.form).map_err(unwritten(folder))? {
        if begins(&path, word).map_err(unwritten(&path))? {
            fs::remove_file(&path).map_err(unwritten(&path))?;
        }
    }
    Ok(())
}

fn begins(path: &Path, word: &[u8]) -> io::Result<bool> {
    if !fs::metadata(path)?.is_file() {
        return Ok(false);
    }
    let mut start = Vec::new();
    File::open(path)?.take(word.len() as u64).read_to_end(&mut start)?;
    Ok(start == word)
}

/// Puts a report that did not pass in each pair's place, until its own is whole, but over no file that is to be compared.
pub fn prepare(folder: &Path, form: Form, jobs: &[Compare]) -> Result<(), Stop> {
    let inputs = jobs.iter().flat_map(|job| &job.common.files).map(|file| identity(file));
    let inputs: HashSet<(u64, u64)> = inputs.flatten().collect();
    let compared = |path: &PathBuf| identity(path).map_or(false, |known| inputs.contains(&known));
    let found = named_as_reports(folder, form).map_err(|error| Stop::unwritten(&shown(folder), &error))?;
    if let Some(path) = found.iter().find(|path| compared(path)) {
        return Err(Fault::new(format!("{} is to be compared, and has the name of a report", shown(path))).into());
    }
    jobs.iter().for_each(put_unfinished);
    Ok(())
}

fn put_unfinished(job: &Compare) {
    if let (To::File(path), Ok(first)) = (&job.common.output, unfinished(job)) {
        // what cannot be written now is told when the pair's turn comes
        drop(Output::replace(path, &first));
    }
}

/// What has the name of a pair's report in a folder.
fn named_as_reports(folder: &Path, form: Form) -> io::Result<Vec<PathBuf>> {
    let mut list = Vec::new();
    for entry in fs::read_dir(folder)? {
        let entry = entry?;
        let found = entry.file_name();
        let digits = |text: &str| text.chars().filter(char::is_ascii_digit).collect::<String>().parse::<usize>().ok();
        let number = found.to_str().and_then(digits);
        if number.map_or(false, |number| found == *name(form, number)) {
            list.push(entry.path());
        }
    }
    Ok(list)
}
