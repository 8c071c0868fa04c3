//! Decoders are no part of what is compared: this much is named.

use crate::prelude::ChromaSampling;

pub struct VideoDetails {
    pub chroma_sampling: ChromaSampling,
}

pub trait Decoder {
    fn get_video_details(&self) -> VideoDetails;
}
