//! The first difference and the error map in the plain Rust that a user would write, for planes with no padding that are known to be sound.

/// The side of a tile.
const SIDE: usize = 8;

pub fn first_difference<T: PartialEq>(a: &[T], b: &[T], width: usize) -> Option<(usize, usize)> {
    let mut rows = a.chunks(width).zip(b.chunks(width)).enumerate();
    rows.find_map(|(row, (x, y))| x.iter().zip(y).position(|(p, q)| p != q).map(|column| (row, column)))
}

pub fn error_map<T: Copy + Into<i32>>(a: &[T], b: &[T], width: usize, map: &mut [u64]) {
    let bands = a.chunks(SIDE * width).zip(b.chunks(SIDE * width));
    for ((x, y), errors) in bands.zip(map.chunks_mut((width + SIDE - 1) / SIDE)) {
        errors.fill(0);
        for (x, y) in x.chunks(width).zip(y.chunks(width)) {
            for ((x, y), error) in x.chunks(SIDE).zip(y.chunks(SIDE)).zip(errors.iter_mut()) {
                *error += x.iter().zip(y).map(|(p, q)| squared(*p, *q)).sum::<u64>();
            }
        }
    }
}

fn squared<T: Into<i32>>(p: T, q: T) -> u64 {
    let off: i32 = p.into() - q.into();
    (off * off) as u64
}
