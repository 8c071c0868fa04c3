//! The command's words, and what they ask.

use crate::clip::{Clip, Picture};
use crate::format::{decimal, Chroma, Format};
use crate::limit::Limit;
use crate::score::Metrics;
use crate::stop::Stop;
use crate::thresholds::{Threshold, KINDS};
use crate::words::{stands_alone, usage, Known, Words};
use fuavelino::Candidate;
use std::ffi::OsString;
use std::path::PathBuf;

/// Where a report goes.
#[derive(Clone)]
pub enum To {
    Standard,
    File(PathBuf),
    /// Nobody wants it.
    Nowhere,
}

#[derive(Clone, Copy, PartialEq, Eq)]
pub enum Form {
    Table,
    Json,
    Csv,
}

/// The files that a command takes, as reports name them.
pub type Roles = &'static [&'static str];

const TWO: Roles = &["original", "decoded"];
const THREE: Roles = &["original", "first", "second"];

/// What is asked about files, whatever they are compared for.
#[derive(Clone)]
pub struct Common {
    pub roles: Roles,
    /// One for each role: the original, and what is compared with it.
    pub files: Vec<PathBuf>,
    /// The told format of raw files.
    pub raw: Option<Format>,
    pub form: Form,
    pub output: To,
    /// How many frames there must be.
    pub frames: Option<u64>,
    /// Whether what is noted of the files is a fault.
    pub strict: bool,
    /// Whether only what went wrong is said.
    pub quiet: bool,
}

#[derive(Clone)]
pub struct Compare {
    pub common: Common,
    pub metrics: Metrics,
    pub jobs: usize,
    pub thresholds: Vec<Threshold>,
}

pub struct Where {
    pub common: Common,
    /// The folder of the pictures, if they are asked for.
    pub map: Option<PathBuf>,
}

pub struct Best {
    pub common: Common,
    /// Which must be the better one, if that is asked.
    pub expect: Option<Candidate>,
}

/// A list of pairs, and how each is compared. What the report's file would be is their folder.
pub struct Pairs {
    pub list: PathBuf,
    pub each: Compare,
}

pub enum Asked {
    Help,
    Version,
    Compare(Box<Compare>),
    Pairs(Box<Pairs>),
    Where(Where),
    Better(Best),
    /// The chart's kernel for planes of so many rows.
    Kernel(usize),
    Clip(Clip),
}

pub fn parse(words: impl Iterator<Item = OsString>) -> Result<Asked, Stop> {
    let mut words: Vec<OsString> = words.collect();
    if words.is_empty() {
        return Err(usage("what is to be done? fuavelino --help tells"));
    }
    let first = words.remove(0);
    match first.to_str() {
        Some("--help" | "-h" | "help" | "--version" | "-V") if !words.is_empty() => Err(stands_alone(&first)),
        Some("--help" | "-h" | "help") => Ok(Asked::Help),
        Some("--version" | "-V") => Ok(Asked::Version),
        Some("compare") => compare(Words::of(words, &known())?),
        Some("where") => locate(Words::of(words, WHERE)?),
        Some("better") => better(Words::of(words, BETTER)?),
        Some("kernel") => kernel(Words::of(words, KERNEL)?),
        Some("clip") => clip(Words::of(words, CLIP)?),
        _ => Err(usage(&format!("no command {:?}; there are compare, where, better, kernel and clip", first))),
    }
}

const COMPARE: &[Known] = &[
    ("--help", false),
    ("--json", false),
    ("--csv", false),
    ("--size", true),
    ("--depth", true),
    ("--chroma", true),
    ("--metrics", true),
    ("--jobs", true),
    ("--output", true),
    ("--pairs", true),
    ("--frames", true),
    ("--require-threshold", false),
    ("--strict", false),
    ("--quiet", false),
    ("-h", false),
];

/// The options of a comparison, the thresholds' among them.
fn known() -> Vec<Known> {
    let thresholds = KINDS.iter().flat_map(|kind| kind.options).map(|option| (option, true));
    COMPARE.iter().copied().chain(thresholds).collect()
}

const WHERE: &[Known] = &[
    ("--help", false),
    ("--json", false),
    ("--size", true),
    ("--depth", true),
    ("--chroma", true),
    ("--output", true),
    ("--frames", true),
    ("--map", true),
    ("--strict", false),
    ("--quiet", false),
    ("-h", false),
];

const BETTER: &[Known] = &[
    ("--help", false),
    ("--json", false),
    ("--csv", false),
    ("--size", true),
    ("--depth", true),
    ("--chroma", true),
    ("--output", true),
    ("--frames", true),
    ("--expect", true),
    ("--strict", false),
    ("--quiet", false),
    ("-h", false),
];

const KERNEL: &[Known] = &[("--help", false), ("-h", false)];

const CLIP: &[Known] =
    &[("--help", false), ("--size", true), ("--depth", true), ("--chroma", true), ("--frames", true), ("-h", false)];

fn compare(words: Words) -> Result<Asked, Stop> {
    if words.wants_help()? {
        return Ok(Asked::Help);
    }
    let common = common(&words, "compare", TWO)?;
    let metrics = words.value("--metrics", "a list of error,ssim,scales,msssim,hvs", metrics)?.unwrap_or(Metrics::ALL);
    let each = Compare { common, metrics, jobs: words.jobs()?, thresholds: thresholds(&words, &metrics)? };
    if each.thresholds.is_empty() && words.has("--require-threshold") {
        return Err(usage("--require-threshold: no threshold is given, and all that can be scored would pass"));
    }
    Ok(match words.get("--pairs") {
        Some(list) => Asked::Pairs(Box::new(Pairs { list: PathBuf::from(list), each })),
        None => Asked::Compare(Box::new(each)),
    })
}

fn locate(words: Words) -> Result<Asked, Stop> {
    if words.wants_help()? {
        return Ok(Asked::Help);
    }
    let common = common(&words, "where", TWO)?;
    match words.get("--map") {
        // a variable that is not set would fill the folder in which the command runs
        Some(folder) if folder.is_empty() => Err(usage("--map takes a folder's name, not \"\"")),
        folder => Ok(Asked::Where(Where { common, map: folder.map(PathBuf::from) })),
    }
}

fn better(words: Words) -> Result<Asked, Stop> {
    if words.wants_help()? {
        return Ok(Asked::Help);
    }
    let expect = words.value("--expect", "first or second", candidate)?;
    Ok(Asked::Better(Best { common: common(&words, "better", THREE)?, expect }))
}

fn candidate(name: &str) -> Option<Candidate> {
    [Candidate::First, Candidate::Second].into_iter().find(|candidate| candidate_name(*candidate) == name)
}

/// A candidate, as options and reports name it.
pub fn candidate_name(candidate: Candidate) -> &'static str {
    candidate.of(THREE[1], THREE[2])
}

fn common(words: &Words, command: &str, roles: Roles) -> Result<Common, Stop> {
    Ok(Common {
        roles,
        files: words.files(command, roles)?,
        raw: raw(words)?,
        form: words.form()?,
        output: words.output(),
        frames: words.frames()?,
        strict: words.has("--strict"),
        quiet: words.has("--quiet"),
    })
}

/// All three make the files raw; one without the others is no format.
fn raw(words: &Words) -> Result<Option<Format>, Stop> {
    match (words.size()?, words.depth()?, words.chroma()?) {
        (Some((width, height)), Some(depth), Some(chroma)) => Ok(Some(Format { width, height, depth, chroma })),
        (None, None, None) => Ok(None),
        _ => Err(usage("raw files need all of --size, --depth and --chroma; Y4M files take none of them")),
    }
}

fn metrics(list: &str) -> Option<Metrics> {
    let mut asked = [false; 5];
    for name in list.split(',') {
        let number = Metrics::NAMES.iter().position(|known| *known == name)?;
        if asked[number] {
            return None;
        }
        asked[number] = true;
    }
    let [error, ssim, scales, msssim, hvs] = asked;
    Some(Metrics { error, ssim, scales, msssim, hvs })
}

/// Each option may be given once for each plane and once without one. The scores that it is held against must be asked for:
/// a limit that is never judged would pass everything.
fn thresholds(words: &Words, metrics: &Metrics) -> Result<Vec<Threshold>, Stop> {
    let mut list: Vec<Threshold> = Vec::new();
    for (option, given) in &words.options {
        let (kind, run) = match KINDS.iter().find(|kind| kind.options.contains(option)) {
            Some(kind) => (kind, kind.options[1] == *option),
            None => continue,
        };
        let what = "a finite number, or one for a plane as in y=0.9";
        let read = given.to_str().and_then(Limit::read);
        let (plane, limit) = read.ok_or_else(|| usage(&format!("{} takes {}, not {:?}", option, what, given)))?;
        if list.iter().any(|other| (other.option(), other.plane) == (*option, plane)) {
            let plane = plane.map_or(String::new(), |plane| format!(" for {}", plane));
            return Err(usage(&format!("{} is given twice{}", option, plane)));
        }
        let (asked, name) = kind.needs(metrics);
        if !asked {
            return Err(usage(&format!("{} needs {} among --metrics", option, name)));
        }
        list.push(Threshold { kind, run, plane, limit });
    }
    Ok(list)
}

fn kernel(words: Words) -> Result<Asked, Stop> {
    if words.wants_help()? {
        return Ok(Asked::Help);
    }
    let height = match &words.others[..] {
        [height] => height.to_str().and_then(|text| decimal(text.as_bytes())),
        _ => None,
    };
    height.map(Asked::Kernel).ok_or_else(|| usage("kernel takes one HEIGHT, a whole number of rows"))
}

fn clip(words: Words) -> Result<Asked, Stop> {
    if words.wants_help()? {
        return Ok(Asked::Help);
    }
    let (picture, path) = match &words.others[..] {
        [picture, path] => (picture.to_str().unwrap_or_default(), PathBuf::from(path)),
        _ => return Err(usage("clip takes pattern or damaged, and a FILE")),
    };
    let picture = match picture {
        "pattern" => Picture::Pattern,
        "damaged" => Picture::Damaged,
        _ => return Err(usage("a clip is a pattern, or damaged")),
    };
    let (width, height) = words.size()?.unwrap_or((192, 144));
    let depth = words.depth()?.unwrap_or(8);
    let chroma = words.chroma()?.unwrap_or(Chroma::Cs420);
    let count = |text: &str| decimal(text.as_bytes()).filter(|count| (1..=1_000_000).contains(count));
    let frames = words.value("--frames", "a number from 1 to 1000000", count)?.unwrap_or(6);
    Ok(Asked::Clip(Clip { picture, path, format: Format { width, height, depth, chroma }, frames }))
}
