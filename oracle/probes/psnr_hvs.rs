// Probes: the private functions and tables above, made public.

/// The score of one plane; kind 0 is y, 1 is u, 2 is v.
pub fn probe_plane<T: Pixel>(a: &Plane<T>, b: &Plane<T>, kind: usize, depth: usize) -> f64 {
    calculate_plane_psnr_hvs(a, b, kind, depth)
}

/// The forward transform of a block of 64, in place.
pub fn probe_forward(block: &mut [i32]) {
    od_bin_fdct8x8(block)
}

/// One pass over eight places, eight apart.
pub fn probe_pass(out: &mut [i32], x: &[i32]) {
    od_bin_fdct8(out, x)
}

/// The contrast tables of y, u and v.
pub fn probe_tables() -> [[[f64; 8]; 8]; 3] {
    [CSF_Y, CSF_CB420, CSF_CR420]
}

/// The decibels of a score. Of a combined one the product's is another than the published, weight × sum, which nothing gives bare.
pub fn probe_decibels(score: f64) -> f64 {
    log10_convert(score, 1.0)
}

/// The decibels of a video of one frame with these scores, under any weight.
pub fn probe_aggregate(c: f64, [y, u, v]: [f64; 3]) -> f64 {
    let frame = PlanarMetrics { y, u, v, avg: 0.0 };
    PsnrHvs { cweight: Some(c) }.aggregate_frame_results(&[frame]).unwrap().avg
}

/// The scores of a frame's planes, before they are combined.
pub fn probe_scores<T: Pixel>(a: &Frame<T>, b: &Frame<T>, depth: usize) -> [f64; 3] {
    let m = PsnrHvs::default().process_frame(a, b, depth, ChromaSampling::Cs444).unwrap();
    [m.y, m.u, m.v]
}
