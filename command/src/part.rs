//! A file beside another one, which takes that one's place in one step once it is whole.

use std::ffi::OsString;
use std::fs::{self, File, OpenOptions};
use std::io::{self, ErrorKind, Write};
use std::path::{Path, PathBuf};
use std::process;

/// So many names are tried: what a killed run left may bear the first.
const NAMES: u32 = 100;

pub struct Part {
    file: File,
    /// Where it is now; nowhere once it has taken its place.
    at: Option<PathBuf>,
    /// The place that it is to take.
    place: PathBuf,
}

impl Part {
    /// Makes a new file in the folder of `path`. Where that is a link, what it leads to is meant.
    pub fn beside(path: &Path) -> io::Result<Part> {
        let place = fs::canonicalize(path).unwrap_or_else(|_| path.to_path_buf());
        let mut last = io::Error::from(ErrorKind::InvalidInput);
        for number in 0..NAMES {
            let at = named(&place, number);
            match OpenOptions::new().write(true).create_new(true).open(&at) {
                Ok(file) => return Ok(Part { file, at: Some(at), place }),
                Err(error) if error.kind() == ErrorKind::AlreadyExists => last = error,
                Err(error) => return Err(error),
            }
        }
        Err(last)
    }

    /// A handle to write to it.
    pub fn file(&self) -> io::Result<File> {
        self.file.try_clone()
    }

    /// Writes all of it, and puts it in its place.
    pub fn write(mut self, bytes: &[u8]) -> io::Result<()> {
        self.file.write_all(bytes)?;
        self.place()
    }

    /// Puts it in its place, with the rights of what it replaces. From then on the disk has it there.
    pub fn place(mut self) -> io::Result<()> {
        if let Ok(old) = fs::metadata(&self.place) {
            self.file.set_permissions(old.permissions())?;
        }
        synced(&self.file)?;
        if let Some(at) = &self.at {
            fs::rename(at, &self.place)?;
        }
        self.at = None;
        let folder = self.place.parent().filter(|folder| !folder.as_os_str().is_empty());
        match File::open(folder.unwrap_or_else(|| Path::new("."))) {
            Ok(folder) => synced(&folder),
            // one may write in a folder that one may not read
            Err(_) => Ok(()),
        }
    }
}

impl Drop for Part {
    fn drop(&mut self) {
        if let Some(at) = &self.at {
            // what is left beside is only litter: the place itself says that nothing passed
            let _ = fs::remove_file(at);
        }
    }
}

fn named(place: &Path, number: u32) -> PathBuf {
    let mut name = OsString::from(place.file_name().unwrap_or_default());
    name.push(format!(".{}.{}.part", process::id(), number));
    place.with_file_name(name)
}

/// Sees to it that the disk has a file, or a folder's names. Pipes, terminals and the like have no disk, nor have some file
/// systems.
pub fn synced(file: &File) -> io::Result<()> {
    let data = file.metadata()?;
    match file.sync_all() {
        Err(error) if error.kind() == ErrorKind::InvalidInput || !(data.is_file() || data.is_dir()) => Ok(()),
        synced => synced,
    }
}

#[cfg(test)]
mod tests {
    use super::*;

    /// A folder of a test's own.
    fn room(name: &str) -> PathBuf {
        let room = std::env::temp_dir().join(format!("fuavelino-{}-{}", name, process::id()));
        fs::create_dir_all(&room).unwrap();
        room
    }

    #[test]
    fn what_a_killed_run_left_is_not_touched() {
        let room = room("left");
        let place = room.join("report");
        fs::write(&place, "old").unwrap();
        fs::write(named(&place, 0), "left").unwrap();
        let part = Part::beside(&place).unwrap();
        assert_eq!(part.at, Some(named(&place, 1)));
        drop(part);
        assert!(!named(&place, 1).exists());
        assert_eq!(fs::read_to_string(&place).unwrap(), "old");
        Part::beside(&place).unwrap().write(b"new").unwrap();
        assert_eq!(fs::read_to_string(&place).unwrap(), "new");
        assert_eq!(fs::read_to_string(named(&place, 0)).unwrap(), "left");
        fs::remove_dir_all(&room).unwrap();
    }

    #[test]
    fn a_place_that_cannot_be_taken_is_an_error() {
        let room = room("taken");
        assert!(Part::beside(&room.join("no/such/folder")).is_err());
        let place = room.join("folder");
        fs::create_dir_all(&place).unwrap();
        assert!(Part::beside(&place).unwrap().write(b"new").is_err());
        // and nothing is left beside it
        assert_eq!(fs::read_dir(&room).unwrap().count(), 1);
        fs::remove_dir_all(&room).unwrap();
    }
}
