//! A list of pairs: on each line two names with a TAB between them.

use crate::input::named;
use crate::stop::Fault;
use std::ffi::OsStr;
use std::fs::File;
use std::io::{self, Read};
use std::os::unix::ffi::OsStrExt;
use std::path::{Path, PathBuf};

/// Longer lists, in bytes, are refused.
const MOST: usize = 16 << 20;

#[derive(Debug, PartialEq)]
pub struct Pair {
    pub original: PathBuf,
    pub decoded: PathBuf,
}

/// Reads a whole list, or says what is wrong with it: no pair of a list that is not understood is compared.
pub fn read(path: &Path) -> Result<Vec<Pair>, Fault> {
    let name = named(path);
    let bytes = bytes(path).map_err(|error| Fault::new(format!("{}: cannot read: {}", name, error)))?;
    if bytes.len() > MOST {
        return Err(Fault::new(format!("{}: a list of more than {} bytes", name, MOST)));
    }
    let pairs = pairs(&bytes).map_err(|(line, what)| Fault::new(format!("{}: line {}: {}", name, line, what)))?;
    if pairs.is_empty() {
        return Err(Fault::new(format!("{}: the list has no pairs", name)));
    }
    Ok(pairs)
}

/// A little more than is taken, where there is as much.
fn bytes(path: &Path) -> io::Result<Vec<u8>> {
    let mut bytes = Vec::new();
    let from: Box<dyn Read> = match path.as_os_str() == "-" {
        true => Box::new(io::stdin()),
        false => Box::new(File::open(path)?),
    };
    from.take(MOST as u64 + 1).read_to_end(&mut bytes)?;
    Ok(bytes)
}

/// The pairs, or the line, counted from 1, at which something is wrong.
fn pairs(list: &[u8]) -> Result<Vec<Pair>, (usize, &'static str)> {
    let mut pairs = Vec::new();
    for (number, line) in list.split(|byte| *byte == b'\n').enumerate() {
        let line = line.strip_suffix(b"\r").unwrap_or(line);
        if line.starts_with(b"#") || line.iter().all(|byte| b" \t".contains(byte)) {
            continue;
        }
        pairs.push(pair(line).map_err(|what| (number + 1, what))?);
    }
    Ok(pairs)
}

fn pair(line: &[u8]) -> Result<Pair, &'static str> {
    let names: Vec<&[u8]> = line.split(|byte| *byte == b'\t').collect();
    match names[..] {
        [original, decoded] if original.is_empty() || decoded.is_empty() => Err("a name is missing beside the TAB"),
        [b"-", _] | [_, b"-"] => Err("a pair of a list cannot be standard input (./- is a file of that name)"),
        [original, decoded] => {
            let path = |name: &[u8]| PathBuf::from(OsStr::from_bytes(name));
            Ok(Pair { original: path(original), decoded: path(decoded) })
        }
        _ => Err("not two names with one TAB between them"),
    }
}

#[cfg(test)]
mod tests {
    use super::*;

    fn pair(original: &str, decoded: &str) -> Pair {
        Pair { original: original.into(), decoded: decoded.into() }
    }

    #[test]
    fn names_may_have_spaces_and_lines_may_end_as_they_like() {
        let list = b"# of a night\n a b\tc d \r\n\n  \t \n#x\ty\n./#x\ty\nlast\t-x";
        assert_eq!(pairs(list), Ok(vec![pair(" a b", "c d "), pair("./#x", "y"), pair("last", "-x")]));
        assert_eq!(pairs(b""), Ok(vec![]));
        assert_eq!(pairs(b"a\xff\tb").unwrap()[0].original.as_os_str().as_bytes(), b"a\xff");
    }

    #[test]
    fn what_is_not_a_pair_is_told_with_its_line() {
        for wrong in ["a", "a b", "a\tb\tc", "a\t\tb", "\tb", "a\t", "-\tb", "a\t-", "a\t\r"] {
            let told = pairs(format!("x\ty\n#\n{}\nx\ty\n", wrong).as_bytes());
            assert_eq!(told.map_err(|wrong| wrong.0), Err(3), "{:?}", wrong);
        }
    }
}
