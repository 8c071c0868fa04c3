//! The judge of the differential runs: the product's calls, linked in, against the published Rust and the models.
//!
//! judge [--full] [--seed N] [FAMILY..]

mod averaged;
mod better;
mod better_calls;
mod better_cases;
mod better_far;
mod better_rule;
mod better_ways;
mod big;
mod charted;
mod combine;
mod combine_laws;
mod combine_ways;
mod decibels;
mod decibels_cases;
mod decibels_rule;
mod decibels_ways;
mod downscale;
mod edges;
mod family;
mod fenced;
mod five;
mod heights;
mod hvs;
mod hvs_ways;
mod lifting;
mod limits;
mod located;
mod mapped;
mod model;
mod plain_ssim;
mod plain_ssim_ways;
mod plane;
mod published_numbers;
mod random;
mod records;
mod root;
mod rows;
mod rows_above;
mod rows_calls;
mod rows_cases;
mod rows_listed;
mod rows_model;
mod rows_rule;
mod rows_smaller;
mod rows_ways;
mod samples;
mod scales;
mod series;
mod series_cases;
mod series_laws;
mod series_rule;
mod series_ways;
mod squared;
mod squared_ways;
mod ssim;
mod ssim_ways;
mod start;
mod together;
mod transform;
mod transform_cases;
mod transform_ways;

use family::Run;
use std::process::exit;

/// A family's name, and what runs it.
type Named = (&'static str, fn(Run) -> bool);

const FAMILIES: [Named; 17] = [
    ("published", published_numbers::compare),
    ("root", root::compare),
    ("plane", plane::compare),
    ("transform", transform::compare),
    ("squared", squared::compare),
    ("better", better::compare),
    ("located", located::compare),
    ("series", series::compare),
    ("decibels", decibels::compare),
    ("ssim", ssim::compare),
    ("rows", rows::compare),
    ("charted", charted::compare),
    ("hvs", hvs::compare),
    ("downscale", downscale::compare),
    ("scales", scales::compare),
    ("combine", combine::compare),
    ("together", together::compare),
];

fn main() {
    family::hush_panics();
    if let Err(why) = start::check() {
        stop(&why);
    }
    let (ask, names) = words().unwrap_or_else(|why| stop(&why));
    let chosen = |named: &&Named| names.is_empty() || names.iter().any(|n| n == named.0);
    let failed = FAMILIES.iter().filter(chosen).filter(|named| !named.1(ask)).count();
    if failed > 0 {
        println!("{} families FAILED", failed);
        exit(1);
    }
}

fn words() -> Result<(Run, Vec<String>), String> {
    let mut ask = Run { seed: 1, full: false };
    let mut names = Vec::new();
    let mut args = std::env::args().skip(1);
    while let Some(word) = args.next() {
        if word == "--full" {
            ask.full = true;
        } else if word == "--seed" {
            let number = args.next().and_then(|n| n.parse().ok());
            ask.seed = number.ok_or("--seed takes a number")?;
        } else if FAMILIES.iter().any(|named| named.0 == word) {
            names.push(word);
        } else {
            let known = FAMILIES.map(|named| named.0).join(", ");
            return Err(format!("no family {}; there are {}", word, known));
        }
    }
    Ok((ask, names))
}

fn stop(why: &str) -> ! {
    eprintln!("judge: {}", why);
    exit(2)
}
