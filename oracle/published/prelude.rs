#[derive(Debug, Clone, Copy, PartialEq)]
pub enum ChromaSampling {
    Cs420,
    Cs422,
    Cs444,
    Cs400,
}
