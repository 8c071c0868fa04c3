//! Why the command ends otherwise than well, and the status with which it then ends.

use fuavelino::Refusal;
use std::io;

/// Every asked score was given and every threshold met. Of `where`: no sample differs. Of `better`: it is known which is better,
/// and what was expected, if anything was.
pub const PASSED: u8 = 0;
/// A threshold was broken; all scores were given.
pub const BROKEN: u8 = 1;
/// Of `where`: a sample differs; all were compared.
pub const DIFFERS: u8 = BROKEN;
/// Of `better`: the other is better than was expected; all was scored.
pub const UNEXPECTED: u8 = BROKEN;
/// The command was called wrongly, and nothing was compared.
pub const USAGE: u8 = 2;
/// Something was refused, unreadable, unlike, cut short or could not be written.
pub const FAULT: u8 = 3;

/// What stopped a comparison: what and where, and the library's refusal where it was one.
#[derive(Debug)]
pub struct Fault {
    pub message: String,
    pub refusal: Option<Refusal>,
}

impl Fault {
    pub fn new(message: String) -> Fault {
        Fault { message, refusal: None }
    }

    /// What is told of a comparison until it has ended.
    pub fn unfinished() -> Fault {
        Fault::new("the comparison has not ended, or was ended from outside".to_string())
    }

    /// The library refuses with 8 where it is lent too little room.
    pub fn out_of_memory(place: &str) -> Fault {
        let message = format!("{}: out of memory: no room for this score's working numbers (refusal 8)", place);
        Fault { message, refusal: Some(Refusal::Scratch) }
    }

    /// The refusal of something at a place.
    pub fn refused(place: &str, refusal: Refusal) -> Fault {
        Fault { message: format!("{}: {}", place, refusal), refusal: Some(refusal) }
    }
}

#[derive(Debug)]
pub enum Stop {
    Usage(String),
    /// The report can still be closed, and says so.
    Fault(Fault),
    /// The report itself could not be written.
    Unwritten(String),
}

impl Stop {
    pub fn unwritten(place: &str, error: &io::Error) -> Stop {
        Stop::Unwritten(format!("{}: cannot write: {}", place, error))
    }

    pub fn status(&self) -> u8 {
        match self {
            Stop::Usage(_) => USAGE,
            Stop::Fault(_) | Stop::Unwritten(_) => FAULT,
        }
    }

    pub fn message(&self) -> &str {
        match self {
            Stop::Usage(message) | Stop::Unwritten(message) => message,
            Stop::Fault(fault) => &fault.message,
        }
    }
}

impl From<Fault> for Stop {
    fn from(fault: Fault) -> Stop {
        Stop::Fault(fault)
    }
}
