// Probes: the private functions above, made public.

/// The pair of one plane whose stride is its width.
pub fn probe_pair(a: &[u32], b: &[u32], width: usize, height: usize, sample_max: u64, kernel: &[i64]) -> (f64, f64) {
    calculate_plane_ssim_internal(a, b, width, height, sample_max, kernel, kernel)
}

/// The next scale of a plane.
pub fn probe_downscale(plane: &[u32], width: usize, height: usize) -> Vec<u32> {
    msssim_downscale(plane, width, height)
}

/// The kernel that the Rust builds.
pub fn probe_kernel(sigma: f64, max_len: usize, weight: usize) -> Vec<i64> {
    build_gaussian_kernel(sigma, max_len, weight)
}

/// The power product over five scales.
pub fn probe_product<T: Pixel>(a: &Plane<T>, b: &Plane<T>, depth: usize) -> f64 {
    calculate_plane_msssim(a, b, depth)
}

/// The sum and the weight that the frame function hands to `log10_convert`. Nothing gives them bare, so they are written again.
pub fn probe_combined(c: f64, [y, u, v]: [f64; 3]) -> (f64, f64) {
    (y + c * (u + v), 1.0 + 2.0 * c)
}

/// The decibels of a sum and its weight.
pub fn probe_decibels(sum: f64, weight: f64) -> f64 {
    log10_convert(sum, weight)
}

/// The decibels of a video of one frame with these scores, under any weight.
pub fn probe_aggregate(c: f64, [y, u, v]: [f64; 3]) -> f64 {
    let frame = PlanarMetrics { y, u, v, avg: 0.0 };
    Ssim { cweight: Some(c) }.aggregate_frame_results(&[frame]).unwrap().avg
}

/// The scores of a frame's planes, before they are combined.
pub fn probe_scores<T: Pixel>(a: &Frame<T>, b: &Frame<T>, depth: usize) -> [f64; 3] {
    let m = Ssim::default().process_frame(a, b, depth, ChromaSampling::Cs444).unwrap();
    [m.y, m.u, m.v]
}
