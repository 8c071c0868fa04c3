//! Decibels, worked out by the host's logarithm as av-metrics does. Not proved; the scores under them are. Those of PSNR are told for whoever compares
//! with av-metrics, and held against nothing: the library has its own.

use fuavelino::video::{self, PERFECT};
use fuavelino::PsnrMetrics;

/// The decibels of a score.
#[derive(Clone, Copy, Debug, PartialEq)]
pub enum Decibels {
    /// Nothing can better the score; the formula gives infinity, or no number.
    Perfect,
    Of(f64),
}

impl Decibels {
    /// As reports tell them: perfect is 100.
    pub fn told(self) -> f64 {
        match self {
            Decibels::Perfect => PERFECT,
            Decibels::Of(told) => told,
        }
    }

    /// As limits are held against them: perfect meets every one, above 100 too.
    pub fn held(self) -> f64 {
        match self {
            Decibels::Perfect => f64::INFINITY,
            Decibels::Of(told) => told,
        }
    }

    fn new(told: Option<f64>, perfect: bool) -> Option<Decibels> {
        told.map(|told| if perfect { Decibels::Perfect } else { Decibels::Of(told) })
    }
}

/// Of a record or a total; none where they are no number, and so below.
pub fn psnr(record: PsnrMetrics) -> Option<Decibels> {
    Decibels::new(video::psnr::decibels(record), record.is_identical())
}

/// Of a sum of SSIM or MS-SSIM that could at best come to `best`.
pub fn ssim(sum: f64, best: f64) -> Option<Decibels> {
    Decibels::new(video::ssim::decibels(sum, best), sum >= best)
}

/// Of PSNR-HVS.
pub fn hvs(score: f64) -> Option<Decibels> {
    Decibels::new(video::psnr_hvs::decibels(score), score == 0.0)
}

/// The squared error per sample.
pub fn mean_error(record: &PsnrMetrics) -> f64 {
    record.sq_err / record.n_pixels as f64
}

#[cfg(test)]
mod tests {
    use super::*;
    use fuavelino::MOST_SAMPLES;

    #[test]
    fn what_nothing_can_better_is_told_as_100_and_meets_any_limit() {
        let same = PsnrMetrics { sq_err: 0.0, n_pixels: 9, sample_max: 255 };
        // rounding takes SSIM past 1 too
        for perfect in [psnr(same), ssim(1.0, 1.0), ssim(1.0 + 1e-12, 1.0), ssim(3.0, 3.0), hvs(0.0)] {
            assert_eq!(perfect, Some(Decibels::Perfect));
            assert_eq!(perfect.map(Decibels::told), Some(100.0));
            assert_eq!(perfect.map(Decibels::held), Some(f64::INFINITY));
        }
    }

    #[test]
    fn what_is_short_of_it_is_the_formulas() {
        // the closest that planes come and still differ: one byte of the largest is off by 1
        let close = PsnrMetrics { sq_err: 1.0, n_pixels: MOST_SAMPLES, sample_max: 255 };
        for (decibels, about) in [
            (psnr(close), 132.42),
            (ssim(0.99, 1.0), 20.0),
            (ssim(-1.0, 1.0), -3.01),
            (hvs(1e-12), 120.0),
            (hvs(10.0), -10.0),
        ] {
            let told = decibels.map(Decibels::told).unwrap();
            assert!((told - about).abs() < 0.01 && decibels == Some(Decibels::Of(told)), "{:?}", decibels);
            assert_eq!(decibels.map(Decibels::held), Some(told));
        }
        // one and a half of 1.5: what is far above the best is no score
        assert_eq!(ssim(2.25, 1.5), None);
        assert_eq!((ssim(f64::NAN, 1.0), hvs(f64::NAN), hvs(-1.0)), (None, None, None));
    }
}
