//! What the published files take from their parent module.

pub mod decode;
pub mod pixel;
pub mod psnr;
pub mod psnr_hvs;
pub mod ssim;

use crate::frame::Frame;
use crate::prelude::ChromaSampling;
use crate::MetricsError;
use decode::Decoder;
use pixel::Pixel;
use std::error::Error;

trait FrameCompare {
    fn can_compare(&self, other: &Self) -> Result<(), MetricsError>;
}

impl<T: Pixel> FrameCompare for Frame<T> {
    fn can_compare(&self, other: &Self) -> Result<(), MetricsError> {
        let same = |i: usize| self.planes[i].cfg == other.planes[i].cfg;
        if (0..3).all(same) {
            Ok(())
        } else {
            Err(MetricsError::InputMismatch { reason: "unlike planes" })
        }
    }
}

pub(crate) trait ChromaWeight {
    fn get_chroma_weight(self) -> f64;
}

impl ChromaWeight for ChromaSampling {
    fn get_chroma_weight(self) -> f64 {
        match self {
            ChromaSampling::Cs400 => 0.0,
            ChromaSampling::Cs420 => 0.25,
            ChromaSampling::Cs422 => 0.5,
            ChromaSampling::Cs444 => 1.0,
        }
    }
}

#[derive(Debug, Default, Clone, Copy, PartialEq)]
pub struct PlanarMetrics {
    pub y: f64,
    pub u: f64,
    pub v: f64,
    pub avg: f64,
}

trait VideoMetric {
    type FrameResult;
    type VideoResult;

    fn process_frame<T: Pixel>(
        &self,
        frame1: &Frame<T>,
        frame2: &Frame<T>,
        bit_depth: usize,
        chroma_sampling: ChromaSampling,
    ) -> Result<Self::FrameResult, Box<dyn Error>>;

    fn aggregate_frame_results(&self, metrics: &[Self::FrameResult]) -> Result<Self::VideoResult, Box<dyn Error>>;

    /// Frame loops are no part of what is compared.
    fn process_video<D: Decoder, F: Fn(usize) + Send>(
        &mut self,
        _decoder1: &mut D,
        _decoder2: &mut D,
        _frame_limit: Option<usize>,
        _progress_callback: F,
    ) -> Result<Self::VideoResult, Box<dyn Error>> {
        Err(Box::new(MetricsError::NoVideo))
    }
}
