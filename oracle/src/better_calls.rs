//! The calls of the choice between two candidates: through the bindings, or the exports below them; and the winner, which a C caller is not handed, through
//! the crate `probe`. All that is lent lies between fences, with noise beside it.

use crate::better_rule::{Contest, Told, BEFORE};
use crate::family::number;
use crate::fenced::{Fenced, Side, SIDES};
use crate::random::Random;
use fuavelino::{no_alloc, Sample};
use std::os::raw::c_void;

/// Declares the exports and the probes of both sample widths, whose last place is that of which it was, or of the sample.
macro_rules! exports {
    ($($better:ident $winner:ident)*) => {
        extern "C" {
            $(pub fn $better(
                o: *const c_void,
                o_len: usize,
                a: *const c_void,
                a_len: usize,
                b: *const c_void,
                b_len: usize,
                width: usize,
                height: usize,
                stride_o: usize,
                stride_a: usize,
                stride_b: usize,
                depth: u32,
                sq_err: *mut f64,
                which: *mut u8,
            ) -> u8;
            pub fn $winner(
                o: *const c_void,
                o_len: usize,
                a: *const c_void,
                a_len: usize,
                b: *const c_void,
                b_len: usize,
                width: usize,
                height: usize,
                stride_o: usize,
                stride_a: usize,
                stride_b: usize,
                depth: u32,
                at: usize,
                sample: *mut c_void,
            ) -> usize;)*
        }
    };
}

exports!(fuavelino_better8 probe_winner8 fuavelino_better16 probe_winner16);

/// What the place of a sample holds before a call, and must hold where nothing stands at the place that was asked for.
pub const NO_SAMPLE: u16 = 0xD6D6;

/// Where what is lent lies: the planes, the error, which it was, a sample. And whether it is lent to the exports.
#[derive(Clone, Copy, Debug)]
pub struct How {
    pub sides: [Side; 6],
    pub exports: bool,
}

impl How {
    pub fn any(r: &mut Random) -> How {
        How { sides: [(); 6].map(|()| r.pick(&SIDES)), exports: r.once_in(2) }
    }
}

/// A sample that the caller changes between two calls: its plane, its place, what it becomes.
pub type Change = (usize, usize, u16);

/// What the winner's call says of a place: how many samples are handed back, and the one there.
pub type Won = (usize, u16);

/// What was found: what the first call said, and what the second said of each place, and of one after a change there.
pub struct Found {
    pub told: Told,
    pub won: Vec<Won>,
    pub after: Option<Won>,
}

/// What is asked: at these places of the winner, and again after a change.
pub struct Asked<'a> {
    pub contest: &'a Contest,
    pub how: How,
    pub places: &'a [usize],
    pub change: Option<Change>,
}

/// A place for each thing that is lent.
pub struct Desk {
    planes: [Fenced; 3],
    error: Fenced,
    which: Fenced,
    sample: Fenced,
}

impl Desk {
    pub fn new() -> Desk {
        let one = Fenced::new;
        Desk { planes: [one(), one(), one()], error: one(), which: one(), sample: one() }
    }

    pub fn ask(&mut self, asked: &Asked) -> Result<Found, String> {
        if asked.contest.wide {
            self.ask_of(asked, |s| s, |s| s)
        } else {
            self.ask_of(asked, |s| s as u8, u16::from)
        }
    }

    fn ask_of<T: Sample + PartialEq>(
        &mut self,
        asked: &Asked,
        narrow: fn(u16) -> T,
        widen: fn(T) -> u16,
    ) -> Result<Found, String> {
        let (c, How { sides, exports }) = (asked.contest, asked.how);
        let samples = [0, 1, 2].map(|i| c.samples[i].iter().map(|s| narrow(*s)).collect::<Vec<T>>());
        let [o, a, b] = &mut self.planes;
        let mut lent = [o.lend(&samples[0], sides[0]), a.lend(&samples[1], sides[1]), b.lend(&samples[2], sides[2])];
        let error = &mut self.error.lend(&[f64::from_bits(BEFORE.error)], sides[3])[0];
        let which = &mut self.which.lend(&[BEFORE.which], sides[4])[0];
        let answer = if exports {
            exported(c, [&*lent[0], &*lent[1], &*lent[2]], error, which)
        } else {
            let [o, a, b] = [0, 1, 2].map(|i| c.plane(i, &*lent[i]));
            number(no_alloc::better(o, a, b, c.shape(), error, which))
        };
        let told = Told { answer, error: error.to_bits(), which: *which };
        let sample = &mut self.sample.lend(&[narrow(NO_SAMPLE)], sides[5])[0];
        let mut won = |lent: &[&mut [T]; 3], at: usize| {
            *sample = narrow(NO_SAMPLE);
            let len = handed(c, [&*lent[0], &*lent[1], &*lent[2]], at, sample);
            (len, widen(*sample))
        };
        let all = asked.places.iter().map(|at| won(&lent, *at)).collect();
        if (0..3).any(|i| *lent[i] != samples[i][..]) {
            return Err("a plane was altered".to_string());
        }
        let after = asked.change.map(|(plane, at, value)| {
            lent[plane][at] = narrow(value);
            won(&lent, at)
        });
        self.kept()?;
        Ok(Found { told, won: all, after })
    }

    /// That nothing was written beside what was lent.
    fn kept(&mut self) -> Result<(), String> {
        let [o, a, b] = &mut self.planes;
        let all = [
            ("the original", o),
            ("the first candidate", a),
            ("the second candidate", b),
            ("the error", &mut self.error),
            ("which it was", &mut self.which),
            ("the sample", &mut self.sample),
        ];
        for (what, place) in all {
            if !place.kept() {
                return Err(format!("wrote beside {}", what));
            }
        }
        Ok(())
    }
}

/// Lends to the export.
fn exported<T>(c: &Contest, planes: [&[T]; 3], error: &mut f64, which: &mut u8) -> u8 {
    let call = if c.wide { fuavelino_better16 } else { fuavelino_better8 };
    let ([o, a, b], [i, j, k]) = (planes.map(|list| list.as_ptr().cast()), planes.map(<[T]>::len));
    let ([x, y, z], (width, height)) = (c.strides, (c.width, c.height));
    // SAFETY: each pointer goes with the count of its own slice, any numbers are taken beside them, and both results are lent to be written.
    unsafe { call(o, i, a, j, b, k, width, height, x, y, z, c.depth, error, which) }
}

/// How many samples the winner's call hands back, and the one at this place.
fn handed<T>(c: &Contest, planes: [&[T]; 3], at: usize, sample: &mut T) -> usize {
    let call = if c.wide { probe_winner16 } else { probe_winner8 };
    let ([o, a, b], [i, j, k]) = (planes.map(|list| list.as_ptr().cast()), planes.map(<[T]>::len));
    let ([x, y, z], (width, height), sample) = (c.strides, (c.width, c.height), sample as *mut T);
    // SAFETY: as above; the sample is lent to be written.
    unsafe { call(o, i, a, j, b, k, width, height, x, y, z, c.depth, at, sample.cast()) }
}
