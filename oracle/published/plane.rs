//! A plane whose stride is its width, with no padding.

#[derive(Debug, Clone, PartialEq)]
pub struct PlaneConfig {
    pub width: usize,
    pub height: usize,
    pub stride: usize,
}

#[derive(Debug, Clone)]
pub struct Plane<T> {
    pub data: Vec<T>,
    pub cfg: PlaneConfig,
}

impl<T: Copy> Plane<T> {
    pub fn new(data: Vec<T>, width: usize, height: usize) -> Plane<T> {
        assert_eq!(data.len(), width * height);
        Plane { data, cfg: PlaneConfig { width, height, stride: width } }
    }
}
