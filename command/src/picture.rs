//! A grey picture of a plane's error: one pixel for each tile, as a binary PGM.

use crate::difference::Difference;
use crate::input::shown;
use crate::part::synced;
use crate::stop::Fault;
use fuavelino::{ErrorMap, TILE_SIDE};
use std::fs::{self, File, OpenOptions};
use std::io::{self, BufWriter, ErrorKind, Write};
use std::path::Path;

/// The worst tile's.
const WHITE: u8 = 255;

/// So many digits that names sort as the frames do, for weeks of video.
pub fn name(frame: u64, plane: &str) -> String {
    format!("frame-{:08}-{}.pgm", frame, plane)
}

/// Makes the folder, where it is not there.
pub fn prepare(folder: &Path) -> Result<(), Fault> {
    fs::create_dir_all(folder)
        .map_err(|error| Fault::new(format!("{}: cannot make the folder: {}", shown(folder), error)))
}

/// Writes the picture of a plane that differs: a new file, or none.
pub fn write(folder: &Path, frame: u64, difference: &Difference) -> Result<(), Fault> {
    let path = folder.join(name(frame, difference.plane));
    let unwritten = |why: &str| Fault::new(format!("{}: cannot write: {}", shown(&path), why));
    let made = OpenOptions::new().write(true).create_new(true).open(&path);
    let file = made.map_err(|error| match error.kind() {
        ErrorKind::AlreadyExists => unwritten("it is there already, and is left as it is"),
        _ => unwritten(&error.to_string()),
    })?;
    filled(file, difference).map_err(|error| {
        // a part of a picture is of no use; what this run made, it may take away
        let _ = fs::remove_file(&path);
        unwritten(&error.to_string())
    })
}

fn filled(file: File, difference: &Difference) -> io::Result<()> {
    let mut to = BufWriter::new(file);
    draw(&mut to, &difference.map, difference.worst.error)?;
    to.flush()?;
    synced(to.get_ref())
}

/// A binary PGM, whose comment tells the scale.
fn draw(to: &mut dyn Write, map: &ErrorMap, worst: u64) -> io::Result<()> {
    let scale = format!("squared error of {0}x{0} tiles: {1} is {2}, linear, rounded up", TILE_SIDE, WHITE, worst);
    write!(to, "P5\n# {}\n{} {}\n{}\n", scale, map.across(), map.down(), WHITE)?;
    map.errors().iter().try_for_each(|error| to.write_all(&[shade(*error, worst)]))
}

/// 255 × error / worst, rounded up: no error is black, the worst is white, and the least error is not black.
fn shade(error: u64, worst: u64) -> u8 {
    let (whole, worst) = (u128::from(error) * u128::from(WHITE), u128::from(worst.max(1)));
    u8::try_from((whole + worst - 1) / worst).unwrap_or(WHITE)
}

#[cfg(test)]
mod tests {
    use super::*;

    #[test]
    fn shades_are_linear_and_rounded_up() {
        for worst in [1, 2, 254, 255, 256, 1_000, 1_073_217_600, u64::MAX] {
            assert_eq!((shade(0, worst), shade(worst, worst)), (0, 255));
            assert!(worst == 1 || shade(1, worst) == (255 / worst + u64::from(255 % worst > 0)) as u8);
        }
        // 255 / 1000 × 500 is 127.5, and × 4 is 1.02
        assert_eq!([500, 4, 3, 1, 999].map(|error| shade(error, 1_000)), [128, 2, 1, 1, 255]);
        // nothing overflows, and what cannot be is white or black
        assert_eq!((shade(u64::MAX - 1, u64::MAX), shade(9, 3), shade(0, 0), shade(1, 0)), (255, 255, 0, 255));
    }

    #[test]
    fn names_sort_as_frames_do() {
        assert_eq!(name(12, "u"), "frame-00000012-u.pgm");
        let names = [0, 9, 10, 999_999, 1_000_000, 99_999_999].map(|frame| name(frame, "y"));
        assert!(names.windows(2).all(|pair| pair[0] < pair[1]), "{:?}", names);
    }
}
