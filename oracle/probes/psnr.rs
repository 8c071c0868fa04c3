// Probes: the private functions above, made public.

/// The sum of the squared differences.
pub fn probe_squared_error<T: Pixel>(a: &Plane<T>, b: &Plane<T>) -> f64 {
    calculate_plane_total_squared_error(a, b)
}

/// The record of a plane: squared error, count of samples, largest sample.
pub fn probe_record<T: Pixel>(a: &Plane<T>, b: &Plane<T>, depth: usize) -> (f64, usize, usize) {
    let m = calculate_plane_psnr_metrics(a, b, depth);
    (m.sq_err, m.n_pixels, m.sample_max)
}

/// PSNR in decibels of one record.
pub fn probe_decibels((sq_err, n_pixels, sample_max): (f64, usize, usize)) -> f64 {
    calculate_psnr(PsnrMetrics { sq_err, n_pixels, sample_max })
}

/// PSNR in decibels of records taken together.
pub fn probe_summed(records: &[(f64, usize, usize)]) -> f64 {
    let of = |r: &(f64, usize, usize)| PsnrMetrics { sq_err: r.0, n_pixels: r.1, sample_max: r.2 };
    calculate_summed_psnr(&records.iter().map(of).collect::<Vec<_>>())
}
