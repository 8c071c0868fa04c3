//! Where planes differ: the first sample, and the error of each tile, through the safe functions and with every place lent.

use fuavelino::*;

/// 19 by 11 samples, so that tiles are cut short at both edges; each plane has padding of its own.
const SHAPE: Shape = Shape { width: 19, height: 11, bit_depth: 8 };
const WIDE: Shape = Shape { bit_depth: 10, ..SHAPE };
const STRIDES: [usize; 2] = [22, 27];

/// What the lent places hold before a call.
const DIFFERS: u8 = 77;
const PLACE: Place = Place { row: 1_001, column: 1_002 };
const TILES: Tiles = Tiles { across: 1_003, down: 1_004 };

fn plane<T>(data: &[T], stride: usize) -> Plane<'_, T> {
    Plane { data, stride }
}

fn place(row: usize, column: usize) -> Place {
    Place { row, column }
}

/// Two planes of the shape, the same in all that is seen, with padding and a tail that are not.
fn alike<T: Copy>(value: T, noise: [T; 2]) -> [Vec<T>; 2] {
    [0, 1].map(|i| {
        let mut list = vec![noise[i]; STRIDES[i] * SHAPE.height + 5];
        (0..SHAPE.height).for_each(|y| list[y * STRIDES[i]..][..SHAPE.width].fill(value));
        list
    })
}

/// Both answers, for the second plane with these samples put at these places.
fn both<T: Sample>(value: T, noise: [T; 2], odd: &[(usize, usize, T)], shape: Shape) -> (Option<Place>, ErrorMap) {
    let [a, mut b] = alike(value, noise);
    for (row, column, value) in odd {
        b[row * STRIDES[1] + column] = *value;
    }
    let (a, b) = (plane(&a, STRIDES[0]), plane(&b, STRIDES[1]));
    let map = error_map(a, b, shape).unwrap();
    assert_eq!(map.total() as f64, squared_error(a, b, shape, 0, 0).unwrap().sq_err);
    (first_difference(a, b, shape).unwrap(), map)
}

#[test]
fn only_what_is_seen_counts() {
    let (first, map) = both(200u8, [255, 0], &[], SHAPE);
    assert_eq!((first, map.worst(), map.errors()), (None, None, &[0; 6][..]));
    let (first, map) = both(1_000u16, [u16::MAX, 0], &[], WIDE);
    assert_eq!((first, map.worst(), map.errors()), (None, None, &[0; 6][..]));
}

#[test]
fn the_last_sample() {
    let last = Tile { row: 1, column: 2, error: 55 * 55 };
    let (first, map) = both(200u8, [255, 0], &[(10, 18, 255)], SHAPE);
    assert_eq!((first, map.worst()), (Some(place(10, 18)), Some(last)));
    let (first, map) = both(1_000u16, [0, u16::MAX], &[(10, 18, 0)], WIDE);
    assert_eq!((first, map.errors()), (Some(place(10, 18)), &[0, 0, 0, 0, 0, 1_000_000][..]));
}

/// Rows come before columns: a later column of an earlier row is first.
#[test]
fn row_by_row() {
    for (earlier, later) in [((0, 18), (1, 0)), ((0, 0), (0, 1)), ((7, 18), (8, 0)), ((2, 5), (3, 4))] {
        let odd = [(later.0, later.1, 3), (earlier.0, earlier.1, 4)];
        assert_eq!(both(9u8, [0, 0], &odd, SHAPE).0, Some(place(earlier.0, earlier.1)));
        let odd = odd.map(|(y, x, value)| (y, x, u16::from(value)));
        assert_eq!(both(9u16, [0, 0], &odd, WIDE).0, Some(place(earlier.0, earlier.1)));
    }
}

/// Each of the six tiles has its own error, of samples on both sides of each border.
#[test]
fn tiles_and_their_edges() {
    let odd = [
        (0, 0, 1),
        (7, 7, 2),
        (0, 8, 3),
        (7, 15, 4),
        (0, 16, 5),
        (7, 18, 6),
        (8, 0, 7),
        (10, 7, 8),
        (8, 8, 9),
        (10, 15, 10),
        (8, 16, 11),
        (10, 18, 12),
    ];
    let wanted = [1 + 4, 9 + 16, 25 + 36, 49 + 64, 81 + 100, 121 + 144];
    let (first, map) = both(0u8, [255, 0], &odd, SHAPE);
    assert_eq!((first, map.across(), map.down()), (Some(place(0, 0)), 3, 2));
    assert_eq!(map.errors(), wanted);
    assert!(map.rows().eq([&wanted[..3], &wanted[3..]]));
    let tiles: Vec<Tile> = map.tiles().collect();
    let at = |i: usize| Tile { row: i / 3, column: i % 3, error: wanted[i] };
    assert_eq!(tiles, (0..6).map(at).collect::<Vec<Tile>>());
    assert_eq!(map.worst(), Some(at(5)));
    let odd = odd.map(|(y, x, value)| (y, x, u16::from(value)));
    assert_eq!(both(0u16, [0, u16::MAX], &odd, WIDE).1, map);
}

/// Of several worst tiles the first is named, and it matters that it is the first of those.
#[test]
fn the_first_of_the_worst() {
    let odd = [(0, 0, 1), (0, 8, 7), (8, 0, 7), (8, 16, 6)];
    assert_eq!(both(0u8, [0, 0], &odd, SHAPE).1.worst(), Some(Tile { row: 0, column: 1, error: 49 }));
}

#[test]
fn no_error_is_too_large() {
    let (a, b) = ([4_095u16; 64], [0u16; 64]);
    let shape = Shape { width: 8, height: 8, bit_depth: 12 };
    let map = error_map(plane(&a, 8), plane(&b, 8), shape).unwrap();
    assert_eq!((map.across(), map.down(), map.errors()), (1, 1, &[64 * 4_095 * 4_095][..]));
    assert_eq!(error_map(plane(&b, 8), plane(&a, 8), shape), Ok(map));
}

/// Both calls with every place lent: what they say, and what the places hold afterwards.
type Left = (Result<(), Refusal>, u8, Place);
type Mapped = (Result<(), Refusal>, Vec<u64>, Tiles);

fn lent<T: Sample>(a: Plane<'_, T>, b: Plane<'_, T>, shape: Shape, places: usize) -> (Left, Mapped) {
    let (mut differs, mut at, mut map, mut tiles) = (DIFFERS, PLACE, vec![5; places], TILES);
    let said = no_alloc::first_difference(a, b, shape, &mut differs, &mut at);
    let mapped = no_alloc::error_map(a, b, shape, &mut map, &mut tiles);
    ((said, differs, at), (mapped, map, tiles))
}

#[test]
fn places_past_the_map_stay() {
    let (a, b) = ([7u8; 9 * 17], [9u8; 9 * 17]);
    let shape = Shape { width: 9, height: 17, bit_depth: 8 };
    let errors = [256, 32, 256, 32, 32, 4];
    for more in [0, 1, 9] {
        let (first, (said, map, tiles)) = lent(plane(&a, 9), plane(&b, 9), shape, 6 + more);
        assert_eq!(first, (Ok(()), 1, place(0, 0)));
        assert_eq!((said, tiles), (Ok(()), Tiles { across: 2, down: 3 }));
        assert_eq!((&map[..6], &map[6..]), (&errors[..], &vec![5; more][..]));
    }
    let (first, mapped) = lent(plane(&a, 9), plane(&b, 9), shape, 5);
    assert_eq!(first, (Ok(()), 1, place(0, 0)));
    assert_eq!(mapped, (Err(Refusal::Scratch), vec![5; 5], TILES));
}

#[test]
fn where_nothing_differs_the_place_stays() {
    let words = [511u16; 30];
    let shape = Shape { width: 6, height: 5, bit_depth: 9 };
    let (first, mapped) = lent(plane(&words, 6), plane(&words, 6), shape, 2);
    assert_eq!(first, (Ok(()), 0, PLACE));
    assert_eq!(mapped, (Ok(()), vec![0, 5], Tiles { across: 1, down: 1 }));
}

/// Refused calls leave everything, also where the map is too short as well, and where the planes differ before the sample that is too large.
#[test]
fn refused_calls_leave_everything() {
    let (mut a, b) = (vec![15u8; 12 * 12], vec![14u8; 12 * 12]);
    a[143] = 16;
    let shape = Shape { width: 12, height: 12, bit_depth: 4 };
    let (x, y) = (plane(&a[..], 12), plane(&b[..], 12));
    for (x, y, shape, refusal) in [
        (x, y, Shape { bit_depth: 9, ..shape }, Refusal::Depth),
        (x, y, Shape { height: 0, ..shape }, Refusal::Size),
        (x, plane(&b, 11), shape, Refusal::Stride),
        (plane(&a[..143], 12), y, shape, Refusal::Short),
        (x, y, shape, Refusal::Sample),
        (y, x, shape, Refusal::Sample),
    ] {
        for places in [0, 3, 4, 9] {
            let (first, mapped) = lent(x, y, shape, places);
            assert_eq!(first, (Err(refusal), DIFFERS, PLACE));
            assert_eq!(mapped, (Err(refusal), vec![5; places], TILES));
        }
    }
}
