//! The command from end to end: files in, reports, messages and statuses out.

mod better;
mod closed;
mod documented;
mod faults;
mod files;
mod guards;
mod hostile;
mod jobs;
mod json;
mod kernels;
mod limits;
mod locate;
mod messages;
mod pairs;
mod pictures;
mod psnr;
mod published;
mod reports;
mod run;
mod scores;
mod summary;
mod undecided;
mod usage;
mod video;
mod walls;
