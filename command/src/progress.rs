//! A line on standard error for long runs, where a person looks at it.

use std::io::{self, Write};
use std::os::raw::c_int;
use std::sync::Mutex;
use std::time::{Duration, Instant};

/// Shorter runs show nothing.
const PATIENCE: Duration = Duration::from_secs(2);
const BETWEEN: Duration = Duration::from_millis(500);

pub use crate::descriptor::STANDARD_OUTPUT;
pub const STANDARD_ERROR: c_int = 2;

extern "C" {
    fn isatty(descriptor: c_int) -> c_int;
}

pub fn is_terminal(descriptor: c_int) -> bool {
    // takes any number and touches no memory of ours
    unsafe { isatty(descriptor) == 1 }
}

pub struct Progress {
    wanted: bool,
    next: Instant,
    shown: bool,
}

impl Progress {
    pub fn new(wanted: bool) -> Progress {
        let wanted = wanted && is_terminal(STANDARD_ERROR);
        Progress { wanted, next: Instant::now() + PATIENCE, shown: false }
    }

    pub fn at(&mut self, frames: u64) {
        if self.wanted && Instant::now() >= self.next {
            self.next = Instant::now() + BETWEEN;
            self.shown = true;
            say_raw(&format!("\r{}{} frames compared", labelled(), frames));
        }
    }

    /// Takes the line away, so that other messages stand alone.
    pub fn clear(&mut self) {
        if self.shown {
            self.shown = false;
            say_raw("\r\x1b[K");
        }
    }
}

/// What messages are about, where several comparisons are made.
static LABEL: Mutex<String> = Mutex::new(String::new());

/// Begins each message from now on with this.
pub fn label(text: &str) {
    if let Ok(mut label) = LABEL.lock() {
        *label = text.to_string();
    }
}

/// A message on standard error. Where that cannot be written the status still tells.
pub fn say(message: &str) {
    say_raw(&format!("fuavelino: {}{}\n", labelled(), message));
}

fn labelled() -> String {
    LABEL.lock().map_or(String::new(), |label| label.clone())
}

fn say_raw(text: &str) {
    let _ = io::stderr().write_all(text.as_bytes());
}
