//! Where two planes differ: the first sample that does, and the error of each tile.

use crate::no_alloc::{self, check, error_map_places};
use crate::plane::{Plane, Sample, Shape};
use crate::refusal::Refusal;
use crate::scratch::lengthen;

/// The side of a tile in samples. At the right and at the bottom of a plane tiles may be smaller.
pub const TILE_SIDE: usize = 8;

/// Where a sample stands in its plane.
#[derive(Clone, Copy, Debug, Default, PartialEq, Eq, Hash)]
pub struct Place {
    /// Its row, from 0.
    pub row: usize,
    /// Its column, from 0.
    pub column: usize,
}

/// How many tiles a plane has.
#[derive(Clone, Copy, Debug, Default, PartialEq, Eq, Hash)]
pub struct Tiles {
    /// Tiles in a row.
    pub across: usize,
    /// Rows of tiles.
    pub down: usize,
}

/// One tile of an [`ErrorMap`]. Its first sample stands [`TILE_SIDE`] times as far from the plane's.
#[derive(Clone, Copy, Debug, PartialEq, Eq, Hash)]
pub struct Tile {
    /// Its row among the tiles, from 0.
    pub row: usize,
    /// Its column among the tiles, from 0.
    pub column: usize,
    /// Its squared error.
    pub error: u64,
}

/// The squared error of each tile of two planes.
#[derive(Clone, Debug, PartialEq, Eq)]
pub struct ErrorMap {
    tiles: Tiles,
    errors: Vec<u64>,
}

impl ErrorMap {
    /// Tiles in a row.
    pub fn across(&self) -> usize {
        self.tiles.across
    }

    /// Rows of tiles.
    pub fn down(&self) -> usize {
        self.tiles.down
    }

    /// The error of each tile, row by row.
    pub fn errors(&self) -> &[u64] {
        &self.errors
    }

    /// The errors of each row of tiles, from the top.
    pub fn rows(&self) -> impl Iterator<Item = &[u64]> {
        self.errors.chunks(self.tiles.across)
    }

    /// Each tile with its place, row by row.
    pub fn tiles(&self) -> impl Iterator<Item = Tile> + '_ {
        let across = self.tiles.across;
        let tile = move |(at, error): (usize, &u64)| Tile { row: at / across, column: at % across, error: *error };
        self.errors.iter().enumerate().map(tile)
    }

    /// The tile of the largest error, the first of equals. None where the planes are the same.
    pub fn worst(&self) -> Option<Tile> {
        let wrong = self.tiles().filter(|tile| tile.error > 0);
        wrong.reduce(|worst, tile| if tile.error > worst.error { tile } else { worst })
    }

    /// The error of both planes: the whole number that [`squared_error`](crate::squared_error) gives.
    pub fn total(&self) -> u64 {
        self.errors.iter().sum()
    }
}

/// The first sample, row by row, at which two planes differ, if there is one. Padding does not count. Refuses 1 2 4 5 6.
///
/// ```
/// use fuavelino::{first_difference, Place, Plane, Shape};
///
/// let a = Plane { data: &[1u8, 2, 3, 4, 5, 6], stride: 3 };
/// let b = Plane { data: &[1u8, 2, 3, 0, 5, 0], stride: 3 };
/// let shape = Shape { width: 3, height: 2, bit_depth: 8 };
/// assert_eq!(first_difference(a, b, shape)?, Some(Place { row: 1, column: 0 }));
/// assert_eq!(first_difference(a, a, shape)?, None);
/// # Ok::<(), fuavelino::Refusal>(())
/// ```
pub fn first_difference<T: Sample>(a: Plane<'_, T>, b: Plane<'_, T>, shape: Shape) -> Result<Option<Place>, Refusal> {
    let (mut differs, mut place) = (0, Place::default());
    no_alloc::first_difference(a, b, shape, &mut differs, &mut place)?;
    Ok((differs != 0).then_some(place))
}

/// The squared error of each tile of 8 by 8 samples, smaller at the right and at the bottom edge. Refuses 1 2 4 5 6, and 8 only where there
/// is no memory for the map.
///
/// ```
/// use fuavelino::{error_map, squared_error, Plane, Shape, Tile};
///
/// // 10 by 9 samples are 2 tiles across and 2 down; the last of them is 2 by 1
/// let (a, mut b) = ([7u8; 90], [7u8; 90]);
/// b[8] = 9;
/// b[89] = 4;
/// let (a, b) = (Plane { data: &a, stride: 10 }, Plane { data: &b, stride: 10 });
/// let shape = Shape { width: 10, height: 9, bit_depth: 8 };
/// let map = error_map(a, b, shape)?;
/// assert_eq!((map.across(), map.down(), map.errors()), (2, 2, &[0, 4, 0, 9][..]));
/// assert_eq!(map.worst(), Some(Tile { row: 1, column: 1, error: 9 }));
/// assert_eq!(map.total() as f64, squared_error(a, b, shape, 0, 0)?.sq_err);
/// # Ok::<(), fuavelino::Refusal>(())
/// ```
pub fn error_map<T: Sample>(a: Plane<'_, T>, b: Plane<'_, T>, shape: Shape) -> Result<ErrorMap, Refusal> {
    // memory is asked for where planes are taken only
    check(a, b, shape, 0)?;
    let mut map = ErrorMap { tiles: Tiles::default(), errors: Vec::new() };
    lengthen(&mut map.errors, error_map_places(shape.width, shape.height));
    no_alloc::error_map(a, b, shape, &mut map.errors, &mut map.tiles)?;
    Ok(map)
}
