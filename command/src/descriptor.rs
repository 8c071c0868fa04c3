//! The truth about standard output. Rust's runtime puts a sink in the place of a descriptor that was closed when the command
//! began, so that a report that nobody gets would seem to be written. It is looked at before the runtime starts.

use std::fs::File;
use std::io;
use std::os::raw::c_int;
use std::os::unix::io::BorrowedFd;
use std::sync::atomic::{AtomicBool, Ordering};

pub const STANDARD_OUTPUT: c_int = 1;

/// Whether it was closed when the command began.
static CLOSED: AtomicBool = AtomicBool::new(false);

/// Asks for a descriptor's flags, which only an open one has.
const F_GETFD: c_int = 1;

extern "C" {
    fn fcntl(descriptor: c_int, command: c_int, ...) -> c_int;
}

extern "C" fn look() {
    // asks and alters nothing
    let flags = unsafe { fcntl(STANDARD_OUTPUT, F_GETFD) };
    CLOSED.store(flags == -1, Ordering::Relaxed);
}

/// One of the functions that are run before `main`: systems with ELF files find them in this section, Apple's in another.
#[used]
#[cfg_attr(not(any(target_os = "macos", target_os = "ios")), link_section = ".init_array")]
#[cfg_attr(any(target_os = "macos", target_os = "ios"), link_section = "__DATA,__mod_init_func")]
static LOOK: extern "C" fn() = look;

/// A handle of its own, whose every error is told.
pub fn standard_output() -> io::Result<File> {
    if CLOSED.load(Ordering::Relaxed) {
        return Err(io::Error::new(io::ErrorKind::NotConnected, "it is closed"));
    }
    // it is open now, since nothing here closes it
    let borrowed = unsafe { BorrowedFd::borrow_raw(STANDARD_OUTPUT) };
    Ok(File::from(borrowed.try_clone_to_owned()?))
}
