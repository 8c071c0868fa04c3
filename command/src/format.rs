//! What the frames of a video are: sides, depth and chroma, and the planes that follow from them.

pub use fuavelino::video::ChromaSampling as Chroma;
use fuavelino::{Plane, Refusal, Sample, Shape};

/// The planes' names, in the order in which a file holds them.
pub const PLANES: [&str; 3] = ["y", "u", "v"];
/// The name under which the planes' joint figures stand.
pub const COMBINED: &str = "combined";

/// How chroma is sampled, and the name that options and reports give it.
pub const CHROMAS: [(Chroma, &str); 4] =
    [(Chroma::Cs420, "420"), (Chroma::Cs422, "422"), (Chroma::Cs444, "444"), (Chroma::Cs400, "400")];

#[derive(Clone, Copy, Debug, PartialEq, Eq)]
pub struct Format {
    pub width: usize,
    pub height: usize,
    pub depth: u32,
    pub chroma: Chroma,
}

impl Format {
    /// The shape of each plane, luma first. Halved sides are rounded up.
    pub fn shapes(&self) -> Vec<Shape> {
        let half = |side: usize| side / 2 + side % 2;
        let (w, h) = (self.width, self.height);
        let shape = |width, height| Shape { width, height, bit_depth: self.depth };
        let luma = shape(w, h);
        match self.chroma {
            Chroma::Cs420 => vec![luma, shape(half(w), half(h)), shape(half(w), half(h))],
            Chroma::Cs422 => vec![luma, shape(half(w), h), shape(half(w), h)],
            Chroma::Cs444 => vec![luma; 3],
            Chroma::Cs400 => vec![luma],
        }
    }

    pub fn chroma_name(&self) -> &'static str {
        CHROMAS.iter().find(|known| known.0 == self.chroma).map_or("", |known| known.1)
    }

    /// Whether samples take two bytes.
    pub fn wide(&self) -> bool {
        self.depth > 8
    }

    /// What the library says of depth and sides, before a sample is read. It is asked with planes of no samples, so that
    /// its limits stand in one place; that such planes are too short says nothing of the format.
    pub fn judge(&self) -> Result<(), Refusal> {
        for shape in self.shapes() {
            let judged = if self.wide() { of_none::<u16>(shape) } else { of_none::<u8>(shape) };
            match judged {
                Err(Refusal::Short) | Ok(()) => {}
                Err(refusal) => return Err(refusal),
            }
        }
        Ok(())
    }

    /// A word on files that a well-known tool writes otherwise than their headers say, where this may be one of them.
    pub fn odd_words(&self) -> &'static str {
        let halved = matches!(self.chroma, Chroma::Cs420 | Chroma::Cs422);
        if self.wide() && halved && self.width % 2 == 1 {
            " (ffmpeg writes the chroma of Y4M files of odd width and more than 8 bits with each row a byte short; see docs/COMMAND.md)"
        } else {
            ""
        }
    }

    pub fn show(&self) -> String {
        format!("{}x{}, depth {}, chroma {}", self.width, self.height, self.depth, self.chroma_name())
    }
}

fn of_none<T: Sample>(shape: Shape) -> Result<(), Refusal> {
    let none = Plane::<T> { data: &[], stride: shape.width };
    fuavelino::check(none, none, shape, 0)
}

/// A number of decimal digits and nothing else. One too large for the machine becomes the largest, which every limit
/// refuses.
pub fn decimal(text: &[u8]) -> Option<usize> {
    let digits = !text.is_empty() && text.iter().all(|byte| byte.is_ascii_digit());
    let next = |sum: usize, byte: &u8| sum.saturating_mul(10).saturating_add(usize::from(byte - b'0'));
    if digits {
        Some(text.iter().fold(0, next))
    } else {
        None
    }
}
