//! Y4M: the header's line, and the line before each frame.

use crate::format::{decimal, Chroma, Format};
use crate::input::{Input, Line, LINE};
use crate::stop::Fault;

/// What every file begins with.
pub const MAGIC: &[u8] = b"YUV4MPEG2";
const FRAME: &[u8] = b"FRAME";

/// The colour spaces that are read; without a C it is the first.
const SPACES: [(&str, Chroma, u32); 19] = [
    ("420", Chroma::Cs420, 8),
    ("420jpeg", Chroma::Cs420, 8),
    ("420mpeg2", Chroma::Cs420, 8),
    ("420paldv", Chroma::Cs420, 8),
    ("420p9", Chroma::Cs420, 9),
    ("420p10", Chroma::Cs420, 10),
    ("420p12", Chroma::Cs420, 12),
    ("422", Chroma::Cs422, 8),
    ("422p9", Chroma::Cs422, 9),
    ("422p10", Chroma::Cs422, 10),
    ("422p12", Chroma::Cs422, 12),
    ("444", Chroma::Cs444, 8),
    ("444p9", Chroma::Cs444, 9),
    ("444p10", Chroma::Cs444, 10),
    ("444p12", Chroma::Cs444, 12),
    ("mono", Chroma::Cs400, 8),
    ("mono9", Chroma::Cs400, 9),
    ("mono10", Chroma::Cs400, 10),
    ("mono12", Chroma::Cs400, 12),
];

/// The name of a colour space of this chroma and depth, if Y4M has one.
pub fn space(chroma: Chroma, depth: u32) -> Option<&'static str> {
    SPACES.iter().find(|space| space.1 == chroma && space.2 == depth).map(|space| space.0)
}

/// What a header tells beside the format. It has no bearing on the scores. What is told to be unknown is not told.
#[derive(Clone, Debug, Default, PartialEq)]
pub struct Asides {
    rate: Option<String>,
    interlacing: Option<String>,
    range: Option<String>,
}

impl Asides {
    pub fn named(&self) -> [(&'static str, &Option<String>); 3] {
        [("frame rate", &self.rate), ("interlacing", &self.interlacing), ("colour range", &self.range)]
    }
}

/// Reads the header. Aspect and other extensions than the colour range (A, X) are passed over.
pub fn header(input: &mut Input) -> Result<(Format, Asides), Fault> {
    let line = match input.line()? {
        Line::Whole(line) => line,
        Line::Long => return Err(long(input, 0)),
        Line::Cut(line) if line.is_empty() => return Err(input.fault_at(0, "the file is empty")),
        Line::Cut(line) if begins(&line, MAGIC) => return Err(input.fault("the header's line does not end")),
        Line::Cut(_) => return Err(not_y4m(input)),
    };
    if !begins(&line, MAGIC) {
        return Err(not_y4m(input));
    }
    let (format, asides) = parameters(&line).map_err(|(at, what)| input.fault_at(at as u64, &what))?;
    match format.judge() {
        Ok(()) => Ok((format, asides)),
        Err(refusal) => Err(Fault::refused(&format!("{}: header: {}", input.name, format.show()), refusal)),
    }
}

/// Reads the line before a frame; none is there at the file's end. Where it is wrong the hint is given too.
pub fn frame(input: &mut Input, number: u64, hint: &str) -> Result<bool, Fault> {
    let at = input.at;
    match input.line()? {
        Line::Whole(line) if begins(&line, FRAME) => Ok(true),
        Line::Cut(line) if line.is_empty() => Ok(false),
        Line::Long => Err(long(input, at)),
        Line::Whole(_) | Line::Cut(_) => {
            let what = format!("no whole line FRAME before frame {}; bytes that are no frame follow{}", number, hint);
            Err(input.fault_at(at, &what))
        }
    }
}

fn not_y4m(input: &Input) -> Fault {
    input.fault_at(0, "not a Y4M file: it does not begin with YUV4MPEG2 (raw files need --size, --depth and --chroma)")
}

fn long(input: &Input, at: u64) -> Fault {
    input.fault_at(at, &format!("a header's line of more than {} bytes", LINE))
}

/// Whether the line's first word is this one.
fn begins(line: &[u8], word: &[u8]) -> bool {
    line.split(|byte| *byte == b' ').next() == Some(word)
}

/// What is wrong, and where in the line.
type Wrong = (usize, String);

/// The extension that tells the range of the samples.
const RANGE: &[u8] = b"XCOLORRANGE=";

/// What the header's words give.
fn parameters(line: &[u8]) -> Result<(Format, Asides), Wrong> {
    let (mut width, mut height, mut space) = (None, None, (Chroma::Cs420, 8));
    let mut asides = Asides::default();
    for (at, word) in words(line)? {
        let wrong = |why: &str| (at, format!("{}: {}", told(word), why));
        let value = &word[1..];
        match word[0] {
            b'W' => width = Some(side(value).map_err(wrong)?),
            b'H' => height = Some(side(value).map_err(wrong)?),
            b'C' => space = known(value).map_err(wrong)?,
            b'F' => asides.rate = rate(value),
            b'I' => asides.interlacing = Some(told(value)).filter(|told| told != "?"),
            b'X' => asides.range = word.strip_prefix(RANGE).map(told).or(asides.range),
            b'A' => {}
            _ => return Err((at, format!("{} is no parameter of Y4M", told(word)))),
        }
    }
    let (chroma, depth) = space;
    match (width, height) {
        (Some(width), Some(height)) => Ok((Format { width, height, depth, chroma }, asides)),
        (None, _) => Err((line.len(), "the header has no width (W)".to_string())),
        (_, None) => Err((line.len(), "the header has no height (H)".to_string())),
    }
}

/// The words after the first, each with its place, and each parameter once. An extension's name ends at its sign of
/// equality, so that there may be several.
fn words(line: &[u8]) -> Result<Vec<(usize, &[u8])>, Wrong> {
    let mut list: Vec<(usize, &[u8])> = Vec::new();
    let mut at = 0;
    for word in line.split(|byte| *byte == b' ') {
        if list.iter().any(|(_, earlier)| at > 0 && name(earlier) == name(word)) {
            return Err((at, format!("{}: given twice", told(word))));
        }
        if at > 0 && !word.is_empty() {
            list.push((at, word));
        }
        at += word.len() + 1;
    }
    Ok(list)
}

/// The name of a parameter: a letter, and for an extension all that stands before its value.
fn name(word: &[u8]) -> &[u8] {
    match word.first() {
        Some(b'X') => word.split(|byte| *byte == b'=').next().unwrap_or_default(),
        _ => &word[..word.len().min(1)],
    }
}

/// A rate in lowest terms, where it is a ratio of two numbers. 0 stands for unknown.
fn rate(value: &[u8]) -> Option<String> {
    let mut halves = value.splitn(2, |byte| *byte == b':').map(decimal);
    match (halves.next().flatten(), halves.next().flatten()) {
        (Some(0), Some(_)) | (Some(_), Some(0)) => None,
        (Some(over), Some(under)) => {
            let common = divisor(over, under);
            Some(format!("{}:{}", over / common, under / common))
        }
        _ => Some(told(value)),
    }
}

/// The greatest common divisor, of which neither is 0.
fn divisor(mut a: usize, mut b: usize) -> usize {
    while b > 0 {
        (a, b) = (b, a % b);
    }
    a
}

fn side(value: &[u8]) -> Result<usize, &'static str> {
    decimal(value).ok_or("not a number of decimal digits")
}

fn known(value: &[u8]) -> Result<(Chroma, u32), &'static str> {
    let found = SPACES.iter().find(|space| space.0.as_bytes() == value);
    found.map(|space| (space.1, space.2)).ok_or("a colour space that is not read here")
}

/// A word of the file as messages show it: printable, and not too long.
fn told(word: &[u8]) -> String {
    let most = 40;
    let start = word[..word.len().min(most)].escape_ascii();
    format!("{}{}", start, if word.len() > most { ".." } else { "" })
}

#[cfg(test)]
mod tests {
    use super::*;

    #[test]
    fn reads_sides_depth_and_chroma() {
        let format = parameters(b"YUV4MPEG2 W17 H9 F25:1 Ip A1:1 C422p10 XYSCSS=422P10");
        let format = format.map(|told| told.0);
        assert_eq!(format, Ok(Format { width: 17, height: 9, depth: 10, chroma: Chroma::Cs422 }));
        let plain = parameters(b"YUV4MPEG2  H9 W17 ");
        let format = Format { width: 17, height: 9, depth: 8, chroma: Chroma::Cs420 };
        assert_eq!(plain, Ok((format, Asides::default())));
    }

    #[test]
    fn reads_what_is_told_beside() {
        let told = |words: &str| {
            let asides = parameters(format!("YUV4MPEG2 W1 H1 {}", words).as_bytes()).unwrap().1;
            asides.named().map(|named| named.1.clone().unwrap_or_default())
        };
        assert_eq!(told("F60:2 Ip XCOLORRANGE=FULL XYSCSS=420"), ["30:1", "p", "FULL"]);
        assert_eq!(told("XA=1 F30000:1001 Ib XCOLORRANGE= XB"), ["30000:1001", "b", ""]);
        assert_eq!(told("F0:0 I? A0:0"), ["", "", ""]);
        assert_eq!(told("F30 I XCOLORRANGE"), ["30", "", ""]);
    }

    #[test]
    fn every_parameter_is_given_once() {
        let twice = |words: &str| parameters(format!("YUV4MPEG2 W1 H1 {}", words).as_bytes()).map_err(|wrong| wrong.1);
        for words in ["W1", "H1", "C420 C420", "F1:1 F1:1", "Ip I?", "A1:1 A1:1", "XA=1 XA=2", "XA XA=1", "X X"] {
            let last = words.rsplit(' ').next().unwrap();
            assert_eq!(twice(words), Err(format!("{}: given twice", last)));
        }
        assert!(twice("XA=1 XB=1 XAB X").is_ok());
    }

    #[test]
    fn says_what_is_wrong_and_where() {
        let wrong = |line: &[u8]| parameters(line).unwrap_err();
        assert_eq!(wrong(b"YUV4MPEG2 W17 C444alpha H9").0, 14);
        assert!(wrong(b"YUV4MPEG2 W17 C444alpha H9").1.starts_with("C444alpha: "));
        assert_eq!(wrong(b"YUV4MPEG2 W-1 H9").0, 10);
        assert_eq!(wrong(b"YUV4MPEG2 W1 W1 H9"), (13, "W1: given twice".to_string()));
        assert!(wrong(b"YUV4MPEG2 W1").1.contains("height"));
        assert!(wrong(b"YUV4MPEG2 H1").1.contains("width"));
        assert!(wrong(b"YUV4MPEG2 W1 H1 Q").1.contains("no parameter"));
    }

    #[test]
    fn a_side_too_large_for_the_machine_is_the_largest() {
        let (format, _) = parameters(b"YUV4MPEG2 W99999999999999999999999999 H1").unwrap();
        assert_eq!(format.width, usize::MAX);
        assert_eq!(format.judge(), Err(fuavelino::Refusal::Size));
    }
}
