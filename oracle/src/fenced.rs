//! Places that are lent between two stretches of memory that nobody may touch: a call that reads or writes past the end that lies there ends the run.

use crate::mapped::{mmap, munmap, taken, ANONYMOUS, FIXED, NO_ACCESS, PRIVATE, READ, UNRESERVED};
use std::mem::size_of_val;
use std::ops::Range;
use std::os::raw::{c_int, c_void};
use std::ptr::null_mut;
use std::slice;
use std::sync::atomic::{AtomicBool, AtomicU64, Ordering};

// of the system's library, which std links; the numbers below are those of Linux
extern "C" {
    fn signal(number: c_int, then: *const c_void) -> *const c_void;
    fn write(file: c_int, bytes: *const c_void, count: usize) -> isize;
    fn _exit(status: c_int) -> !;
}

pub const WRITE: c_int = 2;
const FAULT: c_int = 11;
const ERRORS: c_int = 2;

/// The bytes of a fence: whole pages whatever a machine's pages are.
const FENCE: usize = 1 << 16;
/// So many bytes beside what is lent hold noise, which must stay.
const BESIDE: usize = 64;

/// Where what is lent lies: at the fence before it, at the one behind it, or apart from both.
#[derive(Clone, Copy, Debug, PartialEq)]
pub enum Side {
    Start,
    End,
    Apart,
}

pub const SIDES: [Side; 3] = [Side::Start, Side::End, Side::Apart];

/// Memory of so many bytes between its fences, of which a part is lent at a time.
pub struct Fenced {
    start: *mut u8,
    bytes: usize,
    lent: Range<usize>,
}

impl Fenced {
    pub fn new() -> Fenced {
        let mut fenced = Fenced::of(FENCE);
        fenced.lend::<u8>(&[], Side::Apart);
        fenced
    }

    fn of(bytes: usize) -> Fenced {
        let (all, nobody) = (bytes + 2 * FENCE, PRIVATE | ANONYMOUS | UNRESERVED);
        // SAFETY: no memory that is in use is named, so that the system takes some that is not.
        let fence = unsafe { mmap(null_mut(), all, NO_ACCESS, nobody, -1, 0) };
        taken(fence).expect("memory with fences");
        // SAFETY: the second fence lies behind so many bytes of what was taken.
        let start = unsafe { fence.cast::<u8>().add(FENCE) };
        // SAFETY: what lies between the fences replaces a part of what was taken above.
        taken(unsafe { mmap(start.cast(), bytes, READ | WRITE, PRIVATE | ANONYMOUS | FIXED, -1, 0) })
            .expect("memory between fences");
        Fenced { start, bytes, lent: 0..0 }
    }

    /// Lends a copy of a list of numbers, with noise beside it.
    pub fn lend<T: Copy>(&mut self, list: &[T], side: Side) -> &mut [T] {
        let len = size_of_val(list);
        let room = len + 2 * BESIDE;
        if room > self.bytes {
            *self = Fenced::of((room + FENCE - 1) / FENCE * FENCE);
        }
        let at = match side {
            Side::Start => 0,
            Side::End => self.bytes - len,
            Side::Apart => BESIDE,
        };
        self.lent = at..at + len;
        let [before, behind] = self.beside();
        for i in before.chain(behind) {
            self.all()[i] = noise(i);
        }
        // SAFETY: so many bytes lie between the fences, at a place that suits numbers of any kind, and are lent by this alone; they hold what the
        // list does.
        unsafe {
            let place = self.start.add(at).cast::<T>();
            place.copy_from_nonoverlapping(list.as_ptr(), list.len());
            slice::from_raw_parts_mut(place, list.len())
        }
    }

    /// Whether the noise beside what was lent last is as it was.
    pub fn kept(&mut self) -> bool {
        let [before, behind] = self.beside();
        let all = self.all();
        before.chain(behind).all(|i| all[i] == noise(i))
    }

    fn beside(&self) -> [Range<usize>; 2] {
        let Range { start, end } = self.lent;
        [start.saturating_sub(BESIDE)..start, end..(end + BESIDE).min(self.bytes)]
    }

    fn all(&mut self) -> &mut [u8] {
        // SAFETY: so many bytes lie between the fences as long as this lives, and nothing of them is lent.
        unsafe { slice::from_raw_parts_mut(self.start, self.bytes) }
    }
}

fn noise(at: usize) -> u8 {
    (at as u8).wrapping_mul(37) ^ 0xA5
}

impl Drop for Fenced {
    fn drop(&mut self) {
        // SAFETY: all of it was mapped when this was made, and nobody has a part of it any more.
        unsafe { munmap(self.start.sub(FENCE).cast(), self.bytes + 2 * FENCE) };
    }
}

/// The number of the case that is judged, and whether it is one of a family's far calls instead.
static CASE: AtomicU64 = AtomicU64::new(0);
static FAR: AtomicBool = AtomicBool::new(false);

/// Says which case is judged next.
pub fn judging(case: u64) {
    CASE.store(case, Ordering::Relaxed);
    FAR.store(false, Ordering::Relaxed);
}

/// Says which far call is judged next.
pub fn judging_far(call: u64) {
    CASE.store(call, Ordering::Relaxed);
    FAR.store(true, Ordering::Relaxed);
}

/// As long as this lives, a fence that is touched ends the run with a word on the case, where the system would end it with none.
pub struct Watch(*const c_void);

pub fn watch() -> Watch {
    // SAFETY: what is done then is sound at any time: it reads a number, writes a line and ends the run.
    Watch(unsafe { signal(FAULT, touched as *const c_void) })
}

impl Drop for Watch {
    fn drop(&mut self) {
        // SAFETY: this is what was to be done before.
        unsafe { signal(FAULT, self.0) };
    }
}

extern "C" fn touched(_: c_int) {
    let mut digits = *b"0000000000000000000\n";
    let mut rest = CASE.load(Ordering::Relaxed);
    let mut at = digits.len() - 2;
    while rest > 9 && at > 0 {
        digits[at] += (rest % 10) as u8;
        rest /= 10;
        at -= 1;
    }
    digits[at] += (rest % 10) as u8;
    let what = if FAR.load(Ordering::Relaxed) { &b"far call "[..] } else { &b"case "[..] };
    for text in [&b"FAILED: a place was touched that was not lent, in "[..], what, &digits[at..]] {
        // SAFETY: so many bytes are read from there.
        unsafe { write(ERRORS, text.as_ptr().cast(), text.len()) };
    }
    // SAFETY: the run ends here, with nothing else done.
    unsafe { _exit(1) }
}
