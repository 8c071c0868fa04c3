//! Messages about broken thresholds: the first of each option, and how many more there were.

use crate::progress::say;

/// How many are told for each option.
const MOST: u64 = 10;

pub struct Messages {
    quiet: bool,
    /// Each option that was broken, and how often.
    broken: Vec<(&'static str, u64)>,
}

impl Messages {
    pub fn new(quiet: bool) -> Messages {
        Messages { quiet, broken: Vec::new() }
    }

    /// Counts a threshold that is broken, and says so where that was not said too often.
    pub fn broken(&mut self, option: &'static str, message: impl FnOnce() -> String) {
        let at = self.broken.iter().position(|one| one.0 == option).unwrap_or_else(|| {
            self.broken.push((option, 0));
            self.broken.len() - 1
        });
        let count = &mut self.broken[at].1;
        *count += 1;
        if *count <= MOST && !self.quiet {
            say(&message());
        }
    }

    /// How many were not told.
    pub fn rest(&self) {
        let more = |(option, count): &(&str, u64)| format!("{} is broken {} times more", option, count - MOST);
        let rest = self.broken.iter().filter(|one| one.1 > MOST && !self.quiet);
        rest.map(more).for_each(|message| say(&message));
    }
}
