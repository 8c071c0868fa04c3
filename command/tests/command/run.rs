//! Runs the command, and a place for its files.

use std::ffi::{OsStr, OsString};
use std::fs;
use std::io::{self, Read, Write};
use std::path::PathBuf;
use std::process::{ChildStdin, Command, Stdio};
use std::thread;
use std::time::{Duration, Instant};

/// No run may take longer.
const PATIENCE: Duration = Duration::from_secs(240);

pub struct Ended {
    pub status: i32,
    pub out: String,
    pub err: String,
}

impl Ended {
    /// A run that was turned away: with this status, a message that has these words, and no sign of a panic.
    pub fn says(&self, status: i32, words: &[&str]) {
        assert_eq!(self.status, status, "{}", self.err);
        assert!(self.err.starts_with("fuavelino: ") && !self.err.contains("panicked"), "{}", self.err);
        for word in words {
            assert!(self.err.contains(word), "no {:?} in {:?}", word, self.err);
        }
    }

    /// A run that passed, of which nothing is said but, where a test compares a file with itself, that.
    pub fn passes(&self) -> &str {
        let said: Vec<&str> = self.err.lines().filter(|line| !line.ends_with(" are one file")).collect();
        assert_eq!((self.status, &said[..]), (0, &[][..]));
        &self.out
    }
}

/// Runs the command with these words.
pub fn run<S: AsRef<OsStr>>(words: &[S]) -> Ended {
    run_fed(words, &[])
}

/// The same, with bytes on standard input.
pub fn run_fed<S: AsRef<OsStr>>(words: &[S], fed: &[u8]) -> Ended {
    let fed = fed.to_vec();
    run_poured(words, move |input| input.write_all(&fed))
}

/// The same, with standard input written by a function, so that no one has to hold it.
pub fn run_poured<S: AsRef<OsStr>>(words: &[S], pour: impl Pour) -> Ended {
    ended(command(words), pour, false)
}

/// The same, with standard input left open: after the bytes nothing comes, and no end either.
pub fn run_stalled<S: AsRef<OsStr>>(words: &[S], fed: &[u8]) -> Ended {
    let fed = fed.to_vec();
    ended(command(words), move |input: &mut ChildStdin| input.write_all(&fed), true)
}

/// Runs it under a shell's script, in which `"$0"` is the command and `"$1"` on are the words.
pub fn run_in<S: AsRef<OsStr>>(script: &str, words: &[S]) -> Ended {
    let mut command = Command::new("bash");
    command.arg("-c").arg(script).arg(env!("CARGO_BIN_EXE_fuavelino")).args(words);
    ended(command, |_: &mut ChildStdin| Ok(()), false)
}

/// Writes the command's standard input.
pub trait Pour: FnOnce(&mut ChildStdin) -> io::Result<()> + Send + 'static {}

impl<P: FnOnce(&mut ChildStdin) -> io::Result<()> + Send + 'static> Pour for P {}

fn command<S: AsRef<OsStr>>(words: &[S]) -> Command {
    let mut command = Command::new(env!("CARGO_BIN_EXE_fuavelino"));
    command.args(words);
    command
}

fn ended(mut command: Command, pour: impl Pour, stalled: bool) -> Ended {
    command.stdin(Stdio::piped()).stdout(Stdio::piped()).stderr(Stdio::piped());
    let mut child = command.spawn().expect("the command starts");
    let mut input = child.stdin.take().unwrap();
    // the command may end before it has read everything
    let feeding = thread::spawn(move || pour(&mut input).ok().filter(|()| stalled).map(|()| input));
    let out = gather(child.stdout.take().unwrap());
    let err = gather(child.stderr.take().unwrap());
    let began = Instant::now();
    let status = loop {
        match child.try_wait().expect("the command is waited for") {
            Some(status) => break status,
            None if began.elapsed() > PATIENCE => {
                child.kill().expect("the command is ended");
                panic!("the command did not end within {:?}", PATIENCE);
            }
            None => thread::sleep(Duration::from_millis(1)),
        }
    };
    drop(feeding.join().unwrap());
    Ended { status: status.code().unwrap_or(-1), out: out.join().unwrap(), err: err.join().unwrap() }
}

fn gather(mut from: impl Read + Send + 'static) -> thread::JoinHandle<String> {
    thread::spawn(move || {
        let mut bytes = Vec::new();
        from.read_to_end(&mut bytes).expect("what the command writes is read");
        String::from_utf8(bytes).expect("the command writes UTF-8")
    })
}

/// A folder of a test's own.
pub struct Room(PathBuf);

impl Room {
    pub fn new(name: &str) -> Room {
        let path = PathBuf::from(env!("CARGO_TARGET_TMPDIR")).join(name);
        let _ = fs::remove_dir_all(&path);
        fs::create_dir_all(&path).expect("a folder is made");
        Room(path)
    }

    pub fn path(&self, name: impl AsRef<OsStr>) -> PathBuf {
        self.0.join(name.as_ref())
    }

    /// Writes a file, and gives its path as a word for the command.
    pub fn file(&self, name: impl AsRef<OsStr>, bytes: &[u8]) -> OsString {
        let path = self.path(name);
        fs::write(&path, bytes).expect("a file is written");
        path.into_os_string()
    }
}

/// Words of different kinds in one list.
#[macro_export]
macro_rules! words {
    ($($word:expr),* $(,)?) => { [$(std::ffi::OsString::from($word)),*] };
}
