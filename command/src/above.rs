//! Where a sample is above its depth's largest. The library tells that there is one; the command looks it up, to say where.

use crate::input::Stored;
use fuavelino::Shape;

#[derive(Debug, PartialEq)]
pub struct Above {
    /// 0 in the original, 1 and on in what is compared with it.
    pub file: usize,
    row: usize,
    column: usize,
    value: u32,
    depth: u32,
}

impl Above {
    /// The first in the original's plane, row by row, else in that of the next file.
    pub fn find<T: Stored>(planes: &[&[T]], shape: Shape) -> Option<Above> {
        let largest = (1u32 << shape.bit_depth) - 1;
        planes.iter().enumerate().find_map(|(file, samples)| {
            let at = samples.iter().position(|sample| (*sample).into() > largest)?;
            let (row, column) = (at / shape.width, at % shape.width);
            Some(Above { file, row, column, value: samples[at].into(), depth: shape.bit_depth })
        })
    }

    pub fn show(&self, file: &str) -> String {
        let largest = (1u32 << self.depth) - 1;
        let place = format!("row {}, column {}, both counted from 0", self.row, self.column);
        format!("{} has {} at {}; the largest of {} bits is {}", file, self.value, place, self.depth, largest)
    }
}

#[cfg(test)]
mod tests {
    use super::*;

    #[test]
    fn the_first_is_found() {
        let shape = Shape { width: 3, height: 2, bit_depth: 10 };
        let (good, mut bad) = ([1_023u16; 6], [1_023u16; 6]);
        assert_eq!(Above::find(&[&good[..], &good], shape), None);
        (bad[4], bad[5]) = (1_024, 65_535);
        let found = Above::find(&[&good[..], &bad], shape).unwrap();
        let told = "b has 1024 at row 1, column 1, both counted from 0; the largest of 10 bits is 1023";
        assert_eq!((found.file, found.show("b")), (1, told.to_string()));
        assert_eq!(Above::find(&[&bad[..], &good], shape).map(|found| found.file), Some(0));
    }
}
