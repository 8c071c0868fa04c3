//! The command's words sorted: options with their values, and the rest.

use crate::args::{Form, Roles, To};
use crate::format::{decimal, Chroma, CHROMAS};
use crate::jobs;
use crate::stop::Stop;
use crate::thresholds::KINDS;
use std::ffi::{OsStr, OsString};
use std::path::PathBuf;

/// An option's name, and whether a value follows it.
pub type Known = (&'static str, bool);

/// Options with their values, each at most once but for thresholds, and the other words in order.
pub struct Words {
    pub options: Vec<(&'static str, OsString)>,
    pub others: Vec<OsString>,
}

impl Words {
    pub fn of(words: Vec<OsString>, known: &[Known]) -> Result<Words, Stop> {
        let mut sorted = Words { options: Vec::new(), others: Vec::new() };
        let mut words = words.into_iter();
        while let Some(word) = words.next() {
            let text = word.to_str().unwrap_or_default();
            if text == "--" {
                sorted.others.extend(words);
                break;
            }
            if !text.starts_with('-') || text == "-" {
                sorted.others.push(word);
                continue;
            }
            let (name, joined) = match text.split_once('=') {
                Some((name, value)) => (name, Some(OsString::from(value))),
                None => (text, None),
            };
            let found = known.iter().find(|known| known.0 == name);
            let (name, valued) = *found.ok_or_else(|| usage(&format!("no option {:?}", name)))?;
            let value = match (valued, joined) {
                (true, Some(value)) => value,
                (true, None) => words.next().ok_or_else(|| usage(&format!("{} takes a value", name)))?,
                (false, None) => OsString::new(),
                (false, Some(_)) => return Err(usage(&format!("{} takes no value", name))),
            };
            let repeats = KINDS.iter().any(|kind| kind.options.contains(&name));
            if sorted.has(name) && !repeats {
                return Err(usage(&format!("{} is given twice", name)));
            }
            sorted.options.push((name, value));
        }
        Ok(sorted)
    }

    pub fn get(&self, name: &str) -> Option<&OsString> {
        self.options.iter().find(|option| option.0 == name).map(|option| &option.1)
    }

    pub fn has(&self, name: &str) -> bool {
        self.get(name).is_some()
    }

    /// An option's value as `read` takes it.
    pub fn value<V>(&self, name: &str, what: &str, read: impl Fn(&str) -> Option<V>) -> Result<Option<V>, Stop> {
        match self.get(name) {
            Some(given) => match given.to_str().and_then(read) {
                Some(value) => Ok(Some(value)),
                None => Err(usage(&format!("{} takes {}, not {:?}", name, what, given))),
            },
            None => Ok(None),
        }
    }

    /// Whether help is asked for, and nothing else.
    pub fn wants_help(&self) -> Result<bool, Stop> {
        match (["--help", "-h"].iter().find(|name| self.has(name)), self.options.len() + self.others.len()) {
            (None, _) => Ok(false),
            (Some(_), 1) => Ok(true),
            (Some(name), _) => Err(stands_alone(OsStr::new(name))),
        }
    }

    pub fn size(&self) -> Result<Option<(usize, usize)>, Stop> {
        self.value("--size", "WIDTHxHEIGHT", |text| {
            let (width, height) = text.split_once('x')?;
            Some((decimal(width.as_bytes())?, decimal(height.as_bytes())?))
        })
    }

    pub fn depth(&self) -> Result<Option<u32>, Stop> {
        self.value("--depth", "a number from 1 to 12", |text| {
            decimal(text.as_bytes()).filter(|depth| (1..=12).contains(depth)).map(|depth| depth as u32)
        })
    }

    /// The files of a command, one for each role; a list that stands for them leaves them open.
    pub fn files(&self, command: &str, roles: Roles) -> Result<Vec<PathBuf>, Stop> {
        let count = if roles.len() == 2 { "two" } else { "three" };
        let piped = self.others.iter().filter(|file| *file == "-").count();
        match (self.others.len(), self.has("--pairs")) {
            (0, true) => Ok(vec![PathBuf::new(); roles.len()]),
            (_, true) => Err(usage("--pairs takes a list in the place of the two files")),
            (given, false) if given != roles.len() => {
                Err(usage(&format!("{} takes {} files: {}", command, count, roles.join(" ").to_uppercase())))
            }
            _ if piped > 1 => Err(usage(&format!("only one of the {} can be standard input", count))),
            _ => Ok(self.others.iter().map(PathBuf::from).collect()),
        }
    }

    pub fn form(&self) -> Result<Form, Stop> {
        match (self.has("--json"), self.has("--csv")) {
            (false, false) => Ok(Form::Table),
            (true, false) => Ok(Form::Json),
            (false, true) => Ok(Form::Csv),
            (true, true) => Err(usage("--json or --csv, not both")),
        }
    }

    pub fn output(&self) -> To {
        match self.get("--output") {
            Some(path) if path != "-" => To::File(PathBuf::from(path)),
            _ => To::Standard,
        }
    }

    pub fn frames(&self) -> Result<Option<u64>, Stop> {
        let count = |text: &str| decimal(text.as_bytes()).filter(|count| *count > 0).map(|count| count as u64);
        self.value("--frames", "a number of frames, at least 1", count)
    }

    pub fn jobs(&self) -> Result<usize, Stop> {
        let count = |text: &str| decimal(text.as_bytes()).filter(|count| (1..=jobs::MOST).contains(count));
        Ok(self.value("--jobs", "a number from 1 to 1024", count)?.unwrap_or_else(jobs::cores))
    }

    pub fn chroma(&self) -> Result<Option<Chroma>, Stop> {
        self.value("--chroma", "420, 422, 444 or 400", |text| {
            CHROMAS.iter().find(|known| known.1 == text).map(|known| known.0)
        })
    }
}

pub fn usage(message: &str) -> Stop {
    Stop::Usage(message.to_string())
}

/// What asks for a text compares nothing: beside other words it could be taken for a comparison that passed.
pub fn stands_alone(word: &OsStr) -> Stop {
    usage(&format!("{:?} is given beside other words, and nothing was done about those", word))
}
