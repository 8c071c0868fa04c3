use crate::plane::Plane;

#[derive(Debug, Clone)]
pub struct Frame<T> {
    pub planes: [Plane<T>; 3],
}
