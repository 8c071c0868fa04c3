//! The published files, and thin stand-ins for what they name and do not hold.
//!
//! `tools/published` lays this folder out anew below target/ and puts each published file, with its probe
//! appended, beside `video/mod.rs`.
#![allow(dead_code)]

use std::error::Error;
use std::fmt;

// The published files name two crates. Both names lead here, to the stand-ins below.
extern crate self as rayon;
extern crate self as v_frame;

pub mod frame;
pub mod plane;
pub mod prelude;
pub mod video;

/// Stands for rayon's scope: what is spawned runs at once, in sequence.
pub struct Scope;

impl Scope {
    pub fn spawn<F: FnOnce(&Scope)>(&self, body: F) {
        body(self)
    }
}

/// Stands for `rayon::scope`.
pub fn scope<R, F: FnOnce(&Scope) -> R>(body: F) -> R {
    body(&Scope)
}

/// The one error that the published files make, and the one of the stand-ins.
#[derive(Debug)]
pub enum MetricsError {
    InputMismatch { reason: &'static str },
    NoVideo,
}

impl fmt::Display for MetricsError {
    fn fmt(&self, f: &mut fmt::Formatter) -> fmt::Result {
        write!(f, "{:?}", self)
    }
}

impl Error for MetricsError {}

/// A file that was compiled: its path below the folder of the published source, its whole text, and the
/// probe that the text must end with.
pub struct Copied {
    pub path: &'static str,
    pub text: &'static [u8],
    pub probe: &'static [u8],
}

/// The three files, as they were compiled.
pub const COPIES: [Copied; 3] = [
    Copied {
        path: "src/video/psnr.rs",
        text: include_bytes!("video/psnr.rs"),
        probe: include_bytes!("probes/psnr.rs"),
    },
    Copied {
        path: "src/video/psnr_hvs.rs",
        text: include_bytes!("video/psnr_hvs.rs"),
        probe: include_bytes!("probes/psnr_hvs.rs"),
    },
    Copied {
        path: "src/video/ssim.rs",
        text: include_bytes!("video/ssim.rs"),
        probe: include_bytes!("probes/ssim.rs"),
    },
];
