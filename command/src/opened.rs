//! The files of a command: opened and found alike, with what is to be noted of them, the count of their frames, and the
//! place of their report.

use crate::args::{Common, Form, To};
use crate::format::Format;
use crate::frames::Source;
use crate::input::{identity, named, shown};
use crate::notes::notes;
use crate::output::Output;
use crate::progress::{is_terminal, say, Progress, STANDARD_OUTPUT};
use crate::stop::{Fault, Stop};
use std::fs;
use std::io;

/// The files, as far as they could be opened.
pub struct Opened {
    sources: Result<Vec<Source>, Fault>,
    notes: Vec<String>,
}

/// The files as reports tell of them.
pub struct Subject<'a> {
    /// Each under its role.
    pub files: Vec<(&'static str, String)>,
    /// What they are, once all are known to be alike.
    pub format: Option<Format>,
    /// What is to be said of them.
    pub notes: &'a [String],
}

impl<'a> Subject<'a> {
    /// Of files that were not looked at.
    pub fn unknown(common: &Common) -> Subject<'a> {
        let names = common.files.iter().map(|file| named(file));
        Subject { files: common.roles.iter().copied().zip(names).collect(), format: None, notes: &[] }
    }
}

impl Opened {
    /// Opens all files, which must be alike, and fit what is asked.
    pub fn new(common: &Common, fit: impl FnOnce(&[Source]) -> Result<(), Fault>) -> Opened {
        let sources = open(common).and_then(|sources| fit(&sources).map(|()| sources));
        let notes = sources.as_ref().map_or(Vec::new(), |sources| notes(common, sources));
        Opened { sources, notes }
    }

    pub fn subject(&self, common: &Common) -> Subject<'_> {
        let format = self.sources.as_ref().ok().map(|sources| sources[0].format);
        Subject { format, notes: &self.notes, ..Subject::unknown(common) }
    }

    /// Says the notes, and gives the files where there is something to read.
    pub fn sources(self, common: &Common) -> Result<Vec<Source>, Fault> {
        self.notes.iter().filter(|_| !common.quiet).for_each(|note| say(&format!("note: {}", note)));
        let sources = self.sources?;
        match self.notes.first() {
            Some(note) if common.strict => Err(Fault::new(format!("{} (--strict)", note))),
            _ => Ok(sources),
        }
    }
}

fn open(common: &Common) -> Result<Vec<Source>, Fault> {
    if let Some(format) = common.raw {
        format.judge().map_err(|refusal| Fault::refused(&format.show(), refusal))?;
    }
    let opened = common.files.iter().map(|file| Source::open(file, common.raw));
    let sources = opened.collect::<Result<Vec<Source>, Fault>>()?;
    sources.iter().try_for_each(|other| alike(&sources[0], other))?;
    Ok(sources)
}

/// Rate, aspect and the rest of a header have no bearing on the scores: where they differ is noted, and no more.
fn alike(a: &Source, b: &Source) -> Result<(), Fault> {
    if a.format == b.format {
        return Ok(());
    }
    let (this, other) = (a.format, b.format);
    let mut unlike = Vec::new();
    if (this.width, this.height) != (other.width, other.height) {
        unlike.push("size");
    }
    if this.depth != other.depth {
        unlike.push("depth");
    }
    if this.chroma != other.chroma {
        unlike.push("chroma");
    }
    let (first, second) = (this.show(), other.show());
    let what = format!("{} is {}, {} is {}", a.name(), first, b.name(), second);
    Err(Fault::new(format!("the files differ in {}: {}", unlike.join(" and "), what)))
}

/// The files as messages name them.
pub fn names(sources: &[Source]) -> Vec<String> {
    sources.iter().map(|source| source.name().to_string()).collect()
}

/// How many frames there must be in each file: so many as are asked for, and at least one.
pub struct Count {
    files: String,
    wanted: Option<u64>,
}

impl Count {
    pub fn new(common: &Common, names: &[String]) -> Count {
        let (last, others) = names.split_last().map_or(("", names), |(last, others)| (&last[..], others));
        Count { files: format!("{} and {}", others.join(", "), last), wanted: common.frames }
    }

    /// There is a frame after so many.
    pub fn another(&self, frames: u64) -> Result<(), Fault> {
        match self.wanted {
            Some(wanted) if wanted == frames => {
                Err(Fault::new(format!("{} have more than {} frames (--frames)", self.files, frames)))
            }
            _ => Ok(()),
        }
    }

    /// There is none.
    pub fn end(&self, frames: u64) -> Result<(), Fault> {
        match (frames, self.wanted) {
            (0, _) => Err(Fault::new(format!("{} have no frames", self.files))),
            (count, Some(wanted)) if count != wanted => {
                Err(Fault::new(format!("{} have {} frames, not {} (--frames)", self.files, count, wanted)))
            }
            _ => Ok(()),
        }
    }
}

/// Makes the report's file, but never over a file that is to be read. Until the report is whole, `first` stands there.
pub fn output(common: &Common, first: impl FnOnce() -> io::Result<Vec<u8>>) -> Result<Output, Stop> {
    let path = match &common.output {
        To::File(path) => path,
        To::Standard if common.quiet && common.form == Form::Table => return Ok(Output::nowhere()),
        To::Standard => return Output::standard(),
        To::Nowhere => return Ok(Output::nowhere()),
    };
    let target = fs::metadata(path).ok().filter(|target| target.is_file()).and_then(|_| identity(path));
    if target.is_some() && common.files.iter().any(|input| identity(input) == target) {
        return Err(Stop::Usage("--output names a file that is to be compared".to_string()));
    }
    let first = first().map_err(|error| Stop::unwritten(&shown(path), &error))?;
    Output::replace(path, &first)
}

/// How far the walk is, unless the report's rows show it.
pub fn progress(common: &Common) -> Progress {
    let rows_are_seen = matches!(common.output, To::Standard) && is_terminal(STANDARD_OUTPUT);
    Progress::new(!rows_are_seen && !common.quiet)
}
