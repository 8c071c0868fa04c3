//! Where two frames differ, plane by plane, by the library's calls.

use crate::format::PLANES;
use crate::frames::Frame;
use crate::input::Stored;
use crate::score::Refused;
use fuavelino::{error_map, first_difference, ErrorMap, Place, Plane, Shape, Tile};

/// A plane that differs.
#[derive(Debug)]
pub struct Difference {
    pub plane: &'static str,
    /// The first sample that differs, row by row.
    pub first: Place,
    /// The samples there, the original's before the decoded one's.
    pub samples: [u32; 2],
    pub map: ErrorMap,
    pub worst: Tile,
}

impl Difference {
    /// How many of the tiles differ.
    pub fn tiles(&self) -> usize {
        self.map.errors().iter().filter(|error| **error > 0).count()
    }
}

/// What differs in a frame, in the order of its planes.
pub fn differences<T: Stored>(frames: &[Frame<T>; 2], shapes: &[Shape]) -> Result<Vec<Difference>, Refused> {
    let mut list = Vec::new();
    for (number, shape) in shapes.iter().enumerate() {
        let planes = [&frames[0].planes[number][..], &frames[1].planes[number][..]];
        let found = find(PLANES[number], planes, *shape);
        list.extend(found.map_err(|refused| refused.with_sample(&planes, *shape))?);
    }
    Ok(list)
}

fn find<T: Stored>(plane: &'static str, planes: [&[T]; 2], shape: Shape) -> Result<Option<Difference>, Refused> {
    let [a, b] = planes.map(|data| Plane { data, stride: shape.width });
    let first = match first_difference(a, b, shape).map_err(Refused::of(plane, "first difference"))? {
        Some(first) => first,
        None => return Ok(None),
    };
    let at = first.row * shape.width + first.column;
    let map = error_map(a, b, shape).map_err(Refused::of(plane, "error map"))?;
    // where a sample differs its tile has an error; two calls that said otherwise would be no reason to pass
    let worst = map.worst().ok_or_else(Refused::no_number(plane, "worst tile"))?;
    Ok(Some(Difference { plane, first, samples: planes.map(|samples| samples[at].into()), map, worst }))
}

#[cfg(test)]
mod tests {
    use super::*;

    fn frame(samples: &[[u16; 20]; 2]) -> Frame<u16> {
        Frame { planes: samples.iter().map(|plane| plane.to_vec()).collect() }
    }

    #[test]
    fn planes_that_agree_are_left_out() {
        let shapes = [Shape { width: 10, height: 2, bit_depth: 10 }; 2];
        let (good, mut bad) = ([[500; 20]; 2], [[500; 20]; 2]);
        assert!(differences(&[frame(&good), frame(&good)], &shapes).unwrap().is_empty());
        (bad[1][9], bad[1][10], bad[1][19]) = (503, 499, 1_023);
        let found = differences(&[frame(&good), frame(&bad)], &shapes).unwrap();
        assert_eq!(found.len(), 1);
        let told = &found[0];
        assert_eq!((told.plane, told.first, told.samples), ("u", Place { row: 0, column: 9 }, [500, 503]));
        assert_eq!((told.tiles(), told.map.errors()), (2, &[1, 9 + 523 * 523][..]));
        assert_eq!(told.worst, Tile { row: 0, column: 1, error: 9 + 523 * 523 });
    }

    #[test]
    fn a_refusal_names_the_plane_and_the_sample() {
        let shapes = [Shape { width: 10, height: 2, bit_depth: 10 }; 2];
        let (good, mut bad) = ([[500; 20]; 2], [[500; 20]; 2]);
        // above the depth, and after a difference
        (bad[1][3], bad[1][13]) = (7, 1_024);
        let format = crate::format::Format { width: 10, height: 2, depth: 10, chroma: crate::format::Chroma::Cs444 };
        let refused = differences(&[frame(&good), frame(&bad)], &shapes).unwrap_err();
        let fault = refused.of_files(5, &["a".to_string(), "b".to_string()], &format);
        assert!(fault.message.starts_with("frame 5, plane u: first difference: refusal 6: "), "{}", fault.message);
        assert!(fault.message.contains("b has 1024 at row 1, column 3"), "{}", fault.message);
    }
}
