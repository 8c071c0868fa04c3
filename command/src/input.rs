//! A file or standard input, read with its place known and with memory that grows only as data come.

use crate::stop::Fault;
use std::fs::{self, File};
use std::io::{self, BufRead, BufReader, ErrorKind, Read};
use std::os::unix::fs::MetadataExt;
use std::path::Path;

/// Longer header lines are refused.
pub const LINE: usize = 4_096;
/// Samples are taken over in parts of this many bytes.
const PART: usize = 65_536;

pub struct Input {
    pub name: String,
    /// How many bytes have been read.
    pub at: u64,
    from: BufReader<Box<dyn Read + Send>>,
    part: Vec<u8>,
}

/// A line, without its newline.
pub enum Line {
    Whole(Vec<u8>),
    /// The file ends before a newline; nothing at all is the file's end.
    Cut(Vec<u8>),
    Long,
}

/// A sample as files hold it.
pub trait Stored: fuavelino::Sample + Into<u32> + Send + 'static {
    const BYTES: usize;
    /// Appends the samples of whole bytes; words have their low byte first.
    fn take(bytes: &[u8], out: &mut Vec<Self>);
}

impl Stored for u8 {
    const BYTES: usize = 1;

    fn take(bytes: &[u8], out: &mut Vec<u8>) {
        out.extend_from_slice(bytes)
    }
}

impl Stored for u16 {
    const BYTES: usize = 2;

    fn take(bytes: &[u8], out: &mut Vec<u16>) {
        out.extend(bytes.chunks_exact(2).map(|pair| u16::from_le_bytes([pair[0], pair[1]])))
    }
}

/// A path as messages show it: what is not printable is replaced.
pub fn shown(path: &Path) -> String {
    path.to_string_lossy().chars().map(|c| if c.is_control() { '?' } else { c }).collect()
}

/// A file that is compared, as messages and reports name it.
pub fn named(path: &Path) -> String {
    if path.as_os_str() == "-" {
        "standard input".to_string()
    } else {
        shown(path)
    }
}

/// A file's device and number, by which it is known under any name.
pub fn identity(path: &Path) -> Option<(u64, u64)> {
    let path = if path.as_os_str() == "-" { Path::new("/dev/stdin") } else { path };
    fs::metadata(path).ok().map(|data| (data.dev(), data.ino()))
}

impl Input {
    /// `-` is standard input.
    pub fn open(path: &Path) -> Result<Input, Fault> {
        let name = named(path);
        if path.as_os_str() == "-" {
            return Ok(Input::of(name, Box::new(io::stdin())));
        }
        match File::open(path) {
            Ok(file) => Ok(Input::of(name, Box::new(file))),
            Err(error) => Err(Fault::new(format!("{}: cannot open: {}", name, error))),
        }
    }

    fn of(name: String, from: Box<dyn Read + Send>) -> Input {
        Input { name, at: 0, from: BufReader::with_capacity(PART, from), part: vec![0; PART] }
    }

    /// What is wrong at the place reached.
    pub fn fault(&self, what: &str) -> Fault {
        self.fault_at(self.at, what)
    }

    pub fn fault_at(&self, at: u64, what: &str) -> Fault {
        Fault::new(format!("{}: byte {}: {}", self.name, at, what))
    }

    fn unread(&self, error: &io::Error) -> Fault {
        self.fault(&format!("cannot read: {}", error))
    }

    pub fn line(&mut self) -> Result<Line, Fault> {
        let mut line = Vec::new();
        let read = (&mut self.from).take(LINE as u64 + 1).read_until(b'\n', &mut line);
        let count = read.map_err(|error| self.unread(&error))?;
        self.at += count as u64;
        if line.last() == Some(&b'\n') {
            line.pop();
            Ok(Line::Whole(line))
        } else if count > LINE {
            Ok(Line::Long)
        } else {
            Ok(Line::Cut(line))
        }
    }

    /// What comes next, without taking it: at least a byte, unless nothing is left to read.
    pub fn ahead(&mut self) -> Result<&[u8], Fault> {
        while let Err(error) = self.from.fill_buf() {
            if error.kind() != ErrorKind::Interrupted {
                return Err(self.unread(&error));
            }
        }
        Ok(self.from.buffer())
    }

    /// Fills `out` with so many samples, or with as many as there are.
    pub fn samples<T: Stored>(&mut self, count: usize, out: &mut Vec<T>) -> Result<(), Fault> {
        out.clear();
        while out.len() < count {
            let wanted = PART.min((count - out.len()) * T::BYTES);
            let got = self.fill(wanted)?;
            if out.try_reserve(got / T::BYTES).is_err() {
                return Err(self.fault("no memory for a frame"));
            }
            T::take(&self.part[..got], out);
            if got < wanted {
                return Ok(());
            }
        }
        Ok(())
    }

    /// Reads so many bytes into the part, or as many as there are, and says how many.
    fn fill(&mut self, wanted: usize) -> Result<usize, Fault> {
        let mut got = 0;
        while got < wanted {
            match self.from.read(&mut self.part[got..wanted]) {
                Ok(0) => break,
                Ok(count) => got += count,
                Err(error) if error.kind() == ErrorKind::Interrupted => {}
                Err(error) => return Err(self.unread(&error)),
            }
        }
        self.at += got as u64;
        Ok(got)
    }
}
