//! Planes that are lent with far more samples than a machine has room for: the pages of what is seen, and of the places that are asked for, are there, and
//! all else is out of reach. So a winner of such a length, with the samples that stand there, can only be the candidate as it was lent: nothing that was
//! copied, cut or looked through. Nor can padding, tail or anything beside the planes have been read.

use crate::better_calls::{fuavelino_better16, fuavelino_better8, probe_winner16, probe_winner8, Won, NO_SAMPLE};
use crate::better_rule::{Told, BEFORE};
use crate::fenced::{judging_far, WRITE};
use crate::mapped::{mmap, munmap, taken, ANONYMOUS, FIXED, NO_ACCESS, PRIVATE, READ, UNRESERVED};
use fuavelino::Sample;
use std::mem::size_of;
use std::os::raw::c_int;
use std::ptr::null_mut;

// of the system's library, which std links
extern "C" {
    fn getpagesize() -> c_int;
}

/// The samples that planes are lent with: the original, the first candidate, the second.
const LENS: [usize; 3] = [(1 << 40) - 7, 1 << 40, (1 << 40) + 5];
/// Whole pages, so that the padding of a row has pages of its own.
const STRIDES: [usize; 3] = [32_768, 16_384, 8_192];
/// What is seen.
const WIDTH: usize = 3;
const HEIGHT: usize = 3;
/// Places of the winner that are asked for, but for its last and the one behind it: in the first row, past what 32 bits tell apart, and far off.
const PLACES: [usize; 3] = [1, (1 << 32) + 1, (1 << 39) + 12_345];

/// What is seen of each plane, in the middle of its last row and everywhere else; and what is then answered, with the error.
type Scene = (&'static str, [(u16, u16); 3], Told);

const SCENES: [Scene; 5] = [
    ("the first wins", [(9, 9), (9, 8), (9, 7)], told(1, 1)),
    ("the second wins", [(9, 9), (9, 7), (9, 8)], told(1, 2)),
    ("a tie", [(9, 9), (9, 8), (9, 10)], told(1, 1)),
    ("both are the original", [(9, 9), (9, 9), (9, 9)], told(0, 1)),
    ("a sample of the original too large", [(9, 0xFF), (9, 9), (9, 9)], Told { answer: 6, ..BEFORE }),
];

/// Of an error of 0 or 1, which has all its bits in one place.
const fn told(error: u64, which: u8) -> Told {
    Told { answer: 0, error: error * ONE, which }
}

/// The bits of 1.0.
const ONE: u64 = 0x3FF0_0000_0000_0000;

pub fn compare() -> Result<(), String> {
    for (number, (name, seen, told)) in SCENES.iter().enumerate() {
        for at_end in [false, true] {
            judging_far(number as u64);
            // 7 bits, and of words 9, where 0xFF is lawful and 0x2FF is not
            judged(7, at_end, seen, told, |s| s as u8).map_err(|why| format!("bytes, {}: {}", name, why))?;
            let wide = seen.map(|(all, one)| (all, if one == 0xFF { 0x2FF } else { one }));
            judged(9, at_end, &wide, told, |s| s).map_err(|why| format!("words, {}: {}", name, why))?;
        }
    }
    Ok(())
}

/// Lends such planes, and sees to the answer, to the winner's length, and to its samples, before and after they are changed.
fn judged<T: Sample + Into<u16>>(
    depth: u32,
    at_end: bool,
    seen: &[(u16, u16); 3],
    wanted: &Told,
    narrow: fn(u16) -> T,
) -> Result<(), String> {
    let far = |i: usize| -> Result<Far<T>, String> {
        let mut plane = Far::new(LENS[i], at_end).map_err(|e| format!("nothing reserved: {}", e))?;
        for (y, x) in (0..HEIGHT).flat_map(|y| (0..WIDTH).map(move |x| (y, x))) {
            let sample = if (y, x) == (HEIGHT - 1, WIDTH / 2) { seen[i].1 } else { seen[i].0 };
            plane.put(y * STRIDES[i] + x, narrow(sample)).map_err(|e| format!("no page: {}", e))?;
        }
        Ok(plane)
    };
    let mut planes = [far(0)?, far(1)?, far(2)?];
    let said = better(depth, &planes);
    if said != *wanted {
        return Err(format!("answered {:?}, not {:?}", said, wanted));
    }
    let winner = usize::from(wanted.which);
    if wanted.answer != 0 {
        return holds(won(depth, &planes, 0, narrow), (0, narrow(NO_SAMPLE).into()));
    }
    for at in PLACES.into_iter().chain([LENS[winner] - 1]) {
        // in the first row the sample must stay as it is; elsewhere each candidate has its own, which then becomes another
        let tags = if at < WIDTH { [seen[winner].0; 2] } else { [0x11 * winner as u16, 0x60 + winner as u16] };
        for tag in tags {
            planes[winner].put(at, narrow(tag)).map_err(|e| format!("no page: {}", e))?;
            holds(won(depth, &planes, at, narrow), (LENS[winner], tag))?;
        }
    }
    holds(won(depth, &planes, LENS[winner], narrow), (LENS[winner], narrow(NO_SAMPLE).into()))
}

fn holds(said: Won, wanted: Won) -> Result<(), String> {
    if said == wanted {
        return Ok(());
    }
    Err(format!("the winner has {} at a place, and {} samples, not {} and {}", said.1, said.0, wanted.1, wanted.0))
}

fn better<T>(depth: u32, [o, a, b]: &[Far<T>; 3]) -> Told {
    let call = if size_of::<T>() == 1 { fuavelino_better8 } else { fuavelino_better16 };
    let ([i, j, k], [x, y, z]) = (LENS, STRIDES);
    let (mut error, mut which) = (f64::from_bits(BEFORE.error), BEFORE.which);
    let (o, a, b) = (o.lent.cast(), a.lent.cast(), b.lent.cast());
    // SAFETY: so many samples lie there, most of them out of reach, which no right call reads; both results are lent to be written.
    let answer = unsafe { call(o, i, a, j, b, k, WIDTH, HEIGHT, x, y, z, depth, &mut error, &mut which) };
    Told { answer, error: error.to_bits(), which }
}

fn won<T: Sample + Into<u16>>(depth: u32, [o, a, b]: &[Far<T>; 3], at: usize, narrow: fn(u16) -> T) -> Won {
    let call = if size_of::<T>() == 1 { probe_winner8 } else { probe_winner16 };
    let ([i, j, k], [x, y, z]) = (LENS, STRIDES);
    let mut sample = narrow(NO_SAMPLE);
    let (o, a, b, place) = (o.lent.cast(), a.lent.cast(), b.lent.cast(), (&mut sample as *mut T).cast());
    // SAFETY: as above; the sample is lent to be written.
    let len = unsafe { call(o, i, a, j, b, k, WIDTH, HEIGHT, x, y, z, depth, at, place) };
    (len, sample.into())
}

/// A plane of which only the pages that were put to are there.
struct Far<T> {
    all: *mut u8,
    bytes: usize,
    page: usize,
    /// The pages that are there, by number.
    there: Vec<usize>,
    lent: *mut T,
}

impl<T: Copy> Far<T> {
    /// Of so many samples. The first row begins at a page, or ends at one's end, and so does every other, where strides are whole pages.
    fn new(len: usize, at_end: bool) -> std::io::Result<Far<T>> {
        // SAFETY: it takes nothing.
        let page = unsafe { getpagesize() } as usize;
        let bytes = len * size_of::<T>() + 4 * page;
        // SAFETY: no memory that is in use is named, so that the system takes some that is not.
        let all = unsafe { mmap(null_mut(), bytes, NO_ACCESS, PRIVATE | ANONYMOUS | UNRESERVED, -1, 0) };
        taken(all)?;
        let start = if at_end { 2 * page - WIDTH * size_of::<T>() } else { page };
        let all = all.cast::<u8>();
        // SAFETY: the place is in what was taken, and suits a sample, since pages do.
        let lent = unsafe { all.add(start) }.cast();
        Ok(Far { all, bytes, page, there: Vec::new(), lent })
    }

    /// Puts a sample to its place, whose page is made if it is not there.
    fn put(&mut self, at: usize, sample: T) -> std::io::Result<()> {
        // SAFETY: the place is in what was taken.
        let place = unsafe { self.lent.add(at) };
        let number = (place as usize - self.all as usize) / self.page;
        if !self.there.contains(&number) {
            // SAFETY: the page replaces a part of what was taken and nobody can have read.
            taken(unsafe {
                let start = self.all.add(number * self.page).cast();
                mmap(start, self.page, READ | WRITE, PRIVATE | ANONYMOUS | FIXED, -1, 0)
            })?;
            self.there.push(number);
        }
        // SAFETY: the page of the place is there, and no call has it now.
        unsafe { place.write(sample) };
        Ok(())
    }
}

impl<T> Drop for Far<T> {
    fn drop(&mut self) {
        // SAFETY: all of it was mapped when this was made, and nobody has a part of it any more.
        unsafe { munmap(self.all.cast(), self.bytes) };
    }
}
