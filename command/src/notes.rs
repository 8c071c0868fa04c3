//! What has no bearing on the scores, but on whether they are of the right files.

use crate::args::Common;
use crate::frames::Source;
use crate::input::identity;

/// Notes on files that can be compared: that two of them are one, and where another's header tells unlike things from the
/// original's.
pub fn notes(common: &Common, sources: &[Source]) -> Vec<String> {
    let known: Vec<Option<(u64, u64)>> = common.files.iter().map(|file| identity(file)).collect();
    let mut list = Vec::new();
    for (at, a) in sources.iter().enumerate() {
        for (other, b) in sources.iter().enumerate().skip(at + 1) {
            if known[at].is_some() && known[at] == known[other] {
                list.push(format!("{} and {} are one file", a.name(), b.name()));
            }
        }
    }
    sources.iter().skip(1).for_each(|other| list.extend(unlike(&sources[0], other)));
    list
}

fn unlike(a: &Source, b: &Source) -> Vec<String> {
    let mut list = Vec::new();
    for ((what, this), (_, other)) in a.asides.named().into_iter().zip(b.asides.named()) {
        if this != other {
            let told = |told: &Option<String>| told.clone().unwrap_or_else(|| "none".to_string());
            let what = format!("the headers differ in {}: ", what);
            list.push(format!("{}{} tells {}, {} tells {}", what, a.name(), told(this), b.name(), told(other)));
        }
    }
    list
}
