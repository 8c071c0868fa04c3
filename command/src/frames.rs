//! A source of frames: a Y4M file, or a raw one whose format the caller tells.

use crate::format::{Format, PLANES};
use crate::input::{Input, Stored};
use crate::stop::Fault;
use crate::y4m;
use std::path::Path;

/// The samples of each plane, row by row with no padding.
pub struct Frame<T> {
    pub planes: Vec<Vec<T>>,
}

impl<T> Frame<T> {
    pub fn new(format: &Format) -> Frame<T> {
        Frame { planes: format.shapes().iter().map(|_| Vec::new()).collect() }
    }
}

pub struct Source {
    pub format: Format,
    /// What its header tells beside.
    pub asides: y4m::Asides,
    /// How many whole frames were read.
    pub read: u64,
    input: Input,
    /// Raw frames follow each other with no line before them.
    raw: bool,
}

impl Source {
    /// Without a told format, the file's header gives it.
    pub fn open(path: &Path, told: Option<Format>) -> Result<Source, Fault> {
        let mut input = Input::open(path)?;
        let (format, asides) = match told {
            Some(_) if input.ahead()?.starts_with(y4m::MAGIC) => {
                return Err(input.fault("this is a Y4M file: it takes no --size, --depth and --chroma"));
            }
            Some(format) => (format, y4m::Asides::default()),
            None => y4m::header(&mut input)?,
        };
        Ok(Source { format, asides, read: 0, input, raw: told.is_some() })
    }

    pub fn name(&self) -> &str {
        &self.input.name
    }

    /// Reads the next frame over the last one. There is none only where the file ends after a whole frame.
    pub fn next<T: Stored>(&mut self, frame: &mut Frame<T>) -> Result<bool, Fault> {
        if !self.another()? {
            return Ok(false);
        }
        for (number, (shape, plane)) in self.format.shapes().iter().zip(&mut frame.planes).enumerate() {
            let count = shape.width * shape.height;
            self.input.samples(count, plane)?;
            if plane.len() < count {
                let (name, have) = (PLANES[number], plane.len());
                let what =
                    format!("frame {} is cut short: plane {} has {} of {} samples", self.read, name, have, count);
                return Err(self.input.fault(&(what + self.odd_words())));
            }
        }
        self.read += 1;
        Ok(true)
    }

    fn another(&mut self) -> Result<bool, Fault> {
        if self.raw {
            Ok(!self.input.ahead()?.is_empty())
        } else {
            let hint = if self.read > 0 { self.odd_words() } else { "" };
            y4m::frame(&mut self.input, self.read, hint)
        }
    }

    /// Only the headers of Y4M files are taken to tell less than they say.
    fn odd_words(&self) -> &'static str {
        if self.raw {
            ""
        } else {
            self.format.odd_words()
        }
    }
}

/// Reads the next frame of each. All must end together.
pub fn together<T: Stored>(sources: &mut [Source], frames: &mut [Frame<T>]) -> Result<bool, Fault> {
    let number = sources[0].read;
    let read = sources.iter_mut().zip(frames).map(|(source, frame)| source.next(frame));
    let more = read.collect::<Result<Vec<bool>, Fault>>()?;
    let first = |found: bool| more.iter().position(|more| *more == found).map(|at| sources[at].name());
    match (first(false), first(true)) {
        (Some(short), Some(long)) => {
            Err(Fault::new(format!("{} ends after {} frames, {} has more", short, number, long)))
        }
        (short, _) => Ok(short.is_none()),
    }
}

/// The same, with the number that records of this frame are to have; there may be no such frame.
pub fn numbered<T: Stored>(sources: &mut [Source], frames: &mut [Frame<T>]) -> Result<Option<u32>, Fault> {
    let index = sources[0].read;
    together(sources, frames)?.then(|| recorded(index)).transpose()
}

/// A record has 32 bits for its frame's number. That is the index, and what has no room there is never cut.
fn recorded(index: u64) -> Result<u32, Fault> {
    let past = |_| Fault::new(format!("frame {}: a run has at most 4,294,967,296 frames", index));
    u32::try_from(index).map_err(past)
}

#[cfg(test)]
pub mod tests {
    use super::*;
    use crate::format::Chroma;
    use std::{env, fs, process};

    pub const MONO: Format = Format { width: 2, height: 2, depth: 8, chroma: Chroma::Cs400 };

    /// Two raw files of so many such frames; frame i of the second is off by i in its first sample.
    pub fn sources(name: &str, frames: u8) -> Vec<Source> {
        let room = env::temp_dir().join(format!("fuavelino-{}-{}", name, process::id()));
        fs::create_dir_all(&room).unwrap();
        let made = [0, 1].map(|which| {
            let frame = |number: u8| [number * which, 0, 0, 0];
            let path = room.join(which.to_string());
            fs::write(&path, (0..frames).flat_map(frame).collect::<Vec<u8>>()).unwrap();
            Source::open(&path, Some(MONO)).unwrap()
        });
        // what is open stays readable
        fs::remove_dir_all(&room).unwrap();
        made.into()
    }

    #[test]
    fn a_frame_has_its_index_for_a_number() {
        for index in [0, 1, 65_535, 65_536, u32::MAX - 1, u32::MAX] {
            assert_eq!(recorded(u64::from(index)).ok(), Some(index));
        }
    }

    #[test]
    fn an_index_past_32_bits_is_never_cut() {
        for index in [1 << 32, (1 << 32) + 1, 1 << 33, u64::MAX] {
            let fault = recorded(index).unwrap_err();
            assert_eq!(fault.message, format!("frame {}: a run has at most 4,294,967,296 frames", index));
            assert_eq!(fault.refusal, None);
        }
    }

    /// Two files of which so many frames are left, after all but one of those that have a number.
    pub fn near_the_end(name: &str, left: u8) -> Vec<Source> {
        let mut made = sources(name, left);
        made.iter_mut().for_each(|source| source.read = u64::from(u32::MAX));
        made
    }

    /// After the last frame that has a number the files may end, and have no other frame.
    #[test]
    fn a_run_may_end_after_the_last_number() {
        let mut frames = [Frame::<u8>::new(&MONO), Frame::new(&MONO)];
        let mut one = near_the_end("last", 1);
        assert_eq!(numbered(&mut one, &mut frames).unwrap(), Some(u32::MAX));
        assert_eq!(numbered(&mut one, &mut frames).unwrap(), None);
        let mut two = near_the_end("past", 2);
        assert_eq!(numbered(&mut two, &mut frames).unwrap(), Some(u32::MAX));
        assert!(numbered(&mut two, &mut frames).unwrap_err().message.starts_with("frame 4294967296: "));
    }
}
