//! Where the report goes: standard output, or a file that says that nothing has passed until the report is whole.

use crate::input::shown;
use crate::part::{synced, Part};
use crate::stop::Stop;
use std::fs::{self, File};
use std::io::{self, BufWriter, Seek, Write};
use std::mem;
use std::path::Path;

/// Standard output, as messages name it.
const STANDARD: &str = "standard output";

pub struct Output {
    name: String,
    /// Where it is written to, unless nobody wants it.
    to: Option<BufWriter<File>>,
    /// The file that takes the report's place when it is closed, where the report is written beside it.
    part: Option<Part>,
    /// A first version stands in the file itself, and what is written now goes over it.
    over: bool,
}

impl Output {
    /// By its descriptor: std's own handle takes one that cannot be written for a sink that swallows everything.
    pub fn standard() -> Result<Output, Stop> {
        let unwritten = |error| Stop::unwritten(STANDARD, &error);
        Ok(Output::of(STANDARD.to_string(), crate::descriptor::standard_output().map_err(unwritten)?))
    }

    /// For a report that was not asked for.
    pub fn nowhere() -> Output {
        Output { name: String::new(), to: None, part: None, over: false }
    }

    pub fn create(path: &Path) -> Result<Output, Stop> {
        let name = shown(path);
        let file = File::create(path).map_err(|error| Stop::unwritten(&name, &error))?;
        Ok(Output::of(name, file))
    }

    /// A report's file. From now on `first` stands there, until the report is closed: it is written beside, and takes that
    /// place in one step. What is no file of a disk, as a pipe, is written as it is.
    pub fn replace(path: &Path, first: &[u8]) -> Result<Output, Stop> {
        if fs::metadata(path).map_or(false, |data| !data.is_file()) {
            return Output::create(path);
        }
        // the names there are the system's, and may lead to an open file that others hold
        if path.starts_with("/dev") || path.starts_with("/proc") {
            return Output::over(path, first);
        }
        let placed = Part::beside(path).and_then(|part| part.write(first)).and_then(|()| Part::beside(path));
        match placed.and_then(|part| Ok((part.file()?, part))) {
            Ok((file, part)) => Ok(Output { part: Some(part), ..Output::of(shown(path), file) }),
            Err(_) => Output::over(path, first),
        }
    }

    /// The same where nothing can be put beside the file, or take its place: in the file itself.
    fn over(path: &Path, first: &[u8]) -> Result<Output, Stop> {
        let mut output = Output::create(path)?;
        output.write(|to| to.write_all(first))?;
        output.synced().map_err(|error| Stop::unwritten(&output.name, &error))?;
        output.over = true;
        Ok(output)
    }

    fn of(name: String, file: File) -> Output {
        Output { to: Some(BufWriter::new(file)), name, ..Output::nowhere() }
    }

    /// Writes something, and lets it out at once.
    pub fn write(&mut self, what: impl FnOnce(&mut dyn Write) -> io::Result<()>) -> Result<(), Stop> {
        let over = mem::take(&mut self.over);
        let written = match &mut self.to {
            Some(to) => cleared(to, over).and_then(|()| what(to)).and_then(|()| to.flush()),
            None => Ok(()),
        };
        written.map_err(|error| Stop::unwritten(&self.name, &error))
    }

    /// A file is only well written once its disk has it, in its place.
    pub fn close(mut self) -> Result<(), Stop> {
        let part = self.part.take();
        let placed = self.synced().and_then(|()| part.map_or(Ok(()), Part::place));
        placed.map_err(|error| Stop::unwritten(&self.name, &error))
    }

    fn synced(&mut self) -> io::Result<()> {
        match &self.to {
            Some(to) => synced(to.get_ref()),
            None => Ok(()),
        }
    }
}

/// Takes the first version out of the file, where it is to be written over.
fn cleared(to: &mut BufWriter<File>, over: bool) -> io::Result<()> {
    if over {
        to.get_mut().set_len(0)?;
        to.get_mut().rewind()?;
    }
    Ok(())
}
