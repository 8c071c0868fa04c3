//! `fuavelino clip`: small Y4M clips to try the command with.

use crate::format::Format;
use crate::output::Output;
use crate::stop::Stop;
use crate::y4m;
use fuavelino::Shape;
use std::io::{self, Write};
use std::path::PathBuf;

#[derive(Clone, Copy, PartialEq, Eq)]
pub enum Picture {
    /// A pattern that moves.
    Pattern,
    /// The same, with a patch turned to its negative in the middle frame, in plane u (in y where there is no chroma).
    Damaged,
}

pub struct Clip {
    pub picture: Picture,
    pub path: PathBuf,
    pub format: Format,
    pub frames: usize,
}

pub fn write(clip: &Clip) -> Result<(), Stop> {
    let format = &clip.format;
    let space = y4m::space(format.chroma, format.depth)
        .ok_or_else(|| Stop::Usage(format!("Y4M has no name for depth {}; it has 8, 9, 10 and 12", format.depth)))?;
    format.judge().map_err(|refusal| Stop::Usage(format!("--size: {}", refusal)))?;
    let mut out = match clip.path.as_os_str() == "-" {
        true => Output::standard()?,
        false => Output::create(&clip.path)?,
    };
    out.write(|to| writeln!(to, "YUV4MPEG2 W{} H{} F25:1 Ip A1:1 C{}", format.width, format.height, space))?;
    for frame in 0..clip.frames {
        out.write(|to| one(to, clip, frame))?;
    }
    out.close()
}

fn one(to: &mut dyn Write, clip: &Clip, frame: usize) -> io::Result<()> {
    to.write_all(b"FRAME\n")?;
    let shapes = clip.format.shapes();
    let harmed = if shapes.len() > 1 { 1 } else { 0 };
    for (plane, shape) in shapes.iter().enumerate() {
        let harmed = clip.picture == Picture::Damaged && frame == clip.frames / 2 && plane == harmed;
        for y in 0..shape.height {
            for x in 0..shape.width {
                let max = (1u32 << shape.bit_depth) - 1;
                let good = sample(shape, plane, frame, x, y, max);
                let sample = if harmed && in_patch(shape, x, y) { max - good } else { good };
                let width = if clip.format.wide() { 2 } else { 1 };
                to.write_all(&sample.to_le_bytes()[..width])?;
            }
        }
    }
    Ok(())
}

/// A quarter of each side, a quarter in from the corner.
fn in_patch(shape: &Shape, x: usize, y: usize) -> bool {
    let within = |at: usize, side: usize| (side / 4..side / 4 + (side / 4).max(1)).contains(&at);
    within(x, shape.width) && within(y, shape.height)
}

/// A slope that moves to the left, a square of stripes that moves down to the right, and a little grain.
fn sample(shape: &Shape, plane: usize, frame: usize, x: usize, y: usize, max: u32) -> u32 {
    let wave = (x * 3 + y * 2 + frame * 5 + plane * 60) % 400;
    let slope = if wave < 200 { wave } else { 400 - wave };
    let inside = |at: usize, side: usize| (at + side - frame * 2 % side) % side < side / 4;
    let striped = inside(x, shape.width) && inside(y, shape.height);
    let stripes = if striped && (x + y) / 2 % 2 == 0 { 40 } else { 0 };
    let grain = (x * 7_919 + y * 104_729 + frame * 1_299_709 + plane * 31) % 13;
    // at most 252 of 255
    (slope + stripes + grain) as u32 * max / 255
}
