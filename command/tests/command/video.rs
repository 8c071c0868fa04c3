//! Videos made for the tests, as Y4M and as raw files.

use fuavelino::MOST_SIDE;

/// A size, as the option tells it, that is too wide by one sample.
pub fn too_wide() -> String {
    format!("{}x8", MOST_SIDE + 1)
}

/// A generator with a seed; the same numbers on every machine.
pub struct Random(pub u64);

impl Random {
    pub fn next(&mut self) -> u64 {
        self.0 = self.0.wrapping_add(0x9E37_79B9_7F4A_7C15);
        let mut z = self.0;
        z = (z ^ (z >> 30)).wrapping_mul(0xBF58_476D_1CE4_E5B9);
        z = (z ^ (z >> 27)).wrapping_mul(0x94D0_49BB_1331_11EB);
        z ^ (z >> 31)
    }

    pub fn below(&mut self, limit: usize) -> usize {
        (self.next() % limit as u64) as usize
    }
}

#[derive(Clone)]
pub struct Plane {
    pub width: usize,
    pub height: usize,
    pub samples: Vec<u16>,
}

#[derive(Clone)]
pub struct Video {
    pub width: usize,
    pub height: usize,
    pub depth: u32,
    pub chroma: &'static str,
    pub frames: Vec<Vec<Plane>>,
}

/// The sides of each plane, written down apart from the command's own.
pub fn sides(width: usize, height: usize, chroma: &str) -> Vec<(usize, usize)> {
    let (w, h) = ((width + 1) / 2, (height + 1) / 2);
    match chroma {
        "420" => vec![(width, height), (w, h), (w, h)],
        "422" => vec![(width, height), (w, height), (w, height)],
        "444" => vec![(width, height); 3],
        _ => vec![(width, height)],
    }
}

impl Video {
    /// Slopes up and down, with noise.
    pub fn new(width: usize, height: usize, depth: u32, chroma: &'static str, frames: usize, seed: u64) -> Video {
        let mut r = Random(seed);
        let max = (1usize << depth) - 1;
        let slope = |at: usize| (at % (2 * max)).min(2 * max - at % (2 * max));
        let mut plane = |(w, h): (usize, usize)| {
            let samples = (0..w * h).map(|i| (slope(i % w * 3 + i / w * 5) + r.below(max / 8 + 1)).min(max) as u16);
            Plane { width: w, height: h, samples: samples.collect() }
        };
        let frames = (0..frames).map(|_| sides(width, height, chroma).into_iter().map(&mut plane).collect()).collect();
        Video { width, height, depth, chroma, frames }
    }

    /// The same with noise on some samples.
    pub fn noisy(&self, seed: u64) -> Video {
        let mut r = Random(seed);
        let max = (1u16 << self.depth) - 1;
        let mut other = self.clone();
        for sample in other.frames.iter_mut().flatten().flat_map(|plane| &mut plane.samples) {
            if r.below(3) == 0 {
                *sample = (*sample + r.below(1 << (self.depth - 3)) as u16).min(max);
            }
        }
        other
    }

    pub fn header(&self) -> String {
        let name = match (self.chroma, self.depth) {
            ("400", 8) => "mono".to_string(),
            ("400", depth) => format!("mono{}", depth),
            (chroma, 8) => chroma.to_string(),
            (chroma, depth) => format!("{}p{}", chroma, depth),
        };
        format!("YUV4MPEG2 W{} H{} F30:1 Ip A1:1 C{}\n", self.width, self.height, name)
    }

    pub fn frame_bytes(&self, frame: usize) -> Vec<u8> {
        let wide = self.depth > 8;
        let samples = self.frames[frame].iter().flat_map(|plane| &plane.samples);
        samples.flat_map(|s| if wide { s.to_le_bytes().to_vec() } else { vec![*s as u8] }).collect()
    }

    pub fn y4m(&self) -> Vec<u8> {
        self.y4m_under(&self.header())
    }

    /// With another header, and the same frames.
    pub fn y4m_under(&self, header: &str) -> Vec<u8> {
        let frames = (0..self.frames.len()).map(|frame| [&b"FRAME\n"[..], &self.frame_bytes(frame)].concat());
        [header.as_bytes().to_vec(), frames.collect::<Vec<_>>().concat()].concat()
    }

    pub fn raw(&self) -> Vec<u8> {
        (0..self.frames.len()).flat_map(|frame| self.frame_bytes(frame)).collect()
    }
}
