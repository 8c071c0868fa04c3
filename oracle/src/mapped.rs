//! Planes that are far larger than the memory they take: one piece of rows, mapped again and again.

use fuavelino::Sample;
use std::fs::File;
use std::io::{Error, Result, Write};
use std::mem::{size_of, size_of_val};
use std::ops::Deref;
use std::os::raw::{c_char, c_int, c_uint, c_void};
use std::os::unix::io::{AsRawFd, FromRawFd};
use std::ptr::null_mut;
use std::slice;

// of the system's library, which std links; the numbers below are those of Linux on 64 bits
extern "C" {
    fn memfd_create(name: *const c_char, flags: c_uint) -> c_int;
    pub fn mmap(start: *mut c_void, len: usize, access: c_int, how: c_int, file: c_int, offset: i64) -> *mut c_void;
    pub fn munmap(start: *mut c_void, len: usize) -> c_int;
}

pub const NO_ACCESS: c_int = 0;
pub const READ: c_int = 1;
const SHARED: c_int = 1;
pub const PRIVATE: c_int = 2;
pub const FIXED: c_int = 0x10;
pub const ANONYMOUS: c_int = 0x20;
pub const UNRESERVED: c_int = 0x4000;

/// The bytes of a piece: many rows, and whole pages whatever a machine's pages are.
const PIECE: usize = 1 << 20;

/// Rows one after the other, to be read only.
pub struct Mapped<T> {
    start: *mut T,
    len: usize,
}

impl<T: Sample> Mapped<T> {
    /// So many rows that are all the same, but for the last one. A piece has to be made of whole rows, and the plane of
    /// whole pieces.
    pub fn new(row: &[T], last: &[T], rows: usize) -> Result<Mapped<T>> {
        let (in_row, in_all) = (size_of_val(row), rows * size_of_val(row));
        assert!(row.len() == last.len() && PIECE % in_row == 0 && in_all > 0 && in_all % PIECE == 0);
        let piece = row.repeat(PIECE / in_row);
        let end = [&piece[row.len()..], last].concat();
        let mut file = unnamed()?;
        file.write_all(bytes(&piece))?;
        file.write_all(bytes(&end))?;
        // SAFETY: no memory that is in use is named, so that the system takes some that is not.
        let start = unsafe { mmap(null_mut(), in_all, NO_ACCESS, PRIVATE | ANONYMOUS | UNRESERVED, -1, 0) };
        taken(start)?;
        let mapped = Mapped { start: start.cast(), len: rows * row.len() };
        for at in (0..in_all).step_by(PIECE) {
            let offset = if at + PIECE == in_all { PIECE } else { 0 };
            // SAFETY: the piece replaces a part of what was taken above and nobody has read; the file holds two pieces.
            taken(unsafe {
                mmap(start.cast::<u8>().add(at).cast(), PIECE, READ, SHARED | FIXED, file.as_raw_fd(), offset as i64)
            })?;
        }
        Ok(mapped)
    }
}

/// A file that has no name and is only in memory.
fn unnamed() -> Result<File> {
    // SAFETY: the name ends in a zero.
    let file = unsafe { memfd_create(b"plane\0".as_ptr().cast(), 0) };
    if file < 0 {
        return Err(Error::last_os_error());
    }
    // SAFETY: it was just opened, and nobody else has it.
    Ok(unsafe { File::from_raw_fd(file) })
}

fn bytes<T: Sample>(list: &[T]) -> &[u8] {
    // SAFETY: samples are bytes or words, of which every byte may be read.
    unsafe { slice::from_raw_parts(list.as_ptr().cast(), size_of_val(list)) }
}

/// What `mmap` answers where it fails is no place.
pub fn taken(start: *mut c_void) -> Result<()> {
    if start as usize == usize::MAX {
        return Err(Error::last_os_error());
    }
    Ok(())
}

impl<T> Deref for Mapped<T> {
    type Target = [T];

    fn deref(&self) -> &[T] {
        // SAFETY: so many samples are mapped there as long as this lives, and nobody writes to them.
        unsafe { slice::from_raw_parts(self.start, self.len) }
    }
}

impl<T> Drop for Mapped<T> {
    fn drop(&mut self) {
        // SAFETY: all of it was mapped when this was made, and nobody has a part of it any more.
        unsafe { munmap(self.start.cast(), self.len * size_of::<T>()) };
    }
}
