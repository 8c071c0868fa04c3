//! PSNR-HVS of three planes in one figure: the rule. It is the one figure of the product that is not the published one, and by intent: the Rust
//! multiplies the weighted sum by 1 + 2c, where an average must divide. So it is compared with what stands here, and not with the Rust.

/// (y + c × (u + v)) / (1 + 2c), rounded in that order.
pub fn averaged(c: f64, [y, u, v]: [f64; 3]) -> f64 {
    (y + c * (u + v)) / (1.0 + 2.0 * c)
}
