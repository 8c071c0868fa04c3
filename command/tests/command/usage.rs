//! Wrong use: status 2, a message, and nothing compared.

use crate::limits;
use crate::run::{run, Room};
use crate::video::{too_wide, Video};
use crate::words;

/// Words about a file, and what is said of them.
fn wrong(a: &str) -> Vec<(Vec<&str>, &'static str)> {
    vec![
        (vec![], "--help"),
        (vec!["judge"], "no command \"judge\"; there are compare, where, better, kernel and clip"),
        (vec!["--help", a], "beside other words"),
        (vec!["help", "compare"], "beside other words"),
        (vec!["-h", "--version"], "beside other words"),
        (vec!["--version", "compare", a, a], "beside other words"),
        (vec!["compare", a, a, "--help"], "beside other words"),
        (vec!["compare", a, a, "-h", "--min-ssim", "1"], "beside other words"),
        (vec!["compare", "--help", "--json"], "beside other words"),
        (vec!["compare", "--help", "-h"], "beside other words"),
        (vec!["clip", "pattern", "x", "--help"], "beside other words"),
        (vec!["compare"], "two files"),
        (vec!["compare", a], "two files"),
        (vec!["compare", a, a, a], "two files"),
        (vec!["compare", "-", "-"], "standard input"),
        (vec!["compare", a, a, "--speed"], "no option"),
        (vec!["compare", a, a, "--json", "--csv"], "not both"),
        (vec!["compare", a, a, "--json=1"], "takes no value"),
        (vec!["compare", a, a, "--output"], "takes a value"),
        (vec!["compare", a, a, "--metrics", ""], "--metrics"),
        (vec!["compare", a, a, "--metrics", "error,"], "--metrics"),
        (vec!["compare", a, a, "--metrics", "psnr"], "--metrics"),
        (vec!["compare", a, a, "--metrics", "ssim,ssim"], "--metrics"),
        (vec!["compare", a, a, "--min-ssim", "0.5", "--min-ssim", "0.6"], "given twice"),
        (vec!["compare", a, a, "--metrics", "error", "--min-ssim", "0.5"], "needs ssim"),
        (vec!["compare", a, a, "--metrics", "ssim", "--min-scale", "0.5"], "needs scales"),
        (vec!["compare", a, a, "--metrics", "ssim", "--max-error", "0.5"], "needs error"),
        (vec!["compare", a, a, "--metrics", "ssim", "--min-psnr", "0.5"], "needs error"),
        (vec!["compare", a, a, "--metrics", "ssim", "--max-hvs", "0.5"], "needs hvs"),
        (vec!["compare", a, a, "--metrics", "ssim", "--run-min-hvs-db", "0.5"], "needs hvs"),
        (vec!["compare", a, a, "--metrics", "scales", "--min-msssim", "0.5"], "needs msssim"),
        (vec!["compare", a, a, "--metrics", "scales", "--min-ssim-db", "y=0.5"], "needs ssim"),
        (vec!["compare", a, a, "--jobs", "0"], "--jobs takes a number from 1"),
        (vec!["compare", a, a, "--jobs", "1025"], "--jobs takes a number from 1"),
        (vec!["compare", a, a, "--jobs", "-2"], "--jobs takes a number from 1"),
        (vec!["compare", a, a, "--size", "8x8"], "need all of"),
        (vec!["compare", a, a, "--depth", "8"], "need all of"),
        (vec!["compare", a, a, "--size", "8", "--depth", "8", "--chroma", "420"], "--size takes"),
        (vec!["compare", a, a, "--size", "8x-8", "--depth", "8", "--chroma", "420"], "--size takes"),
        (vec!["compare", a, a, "--size", "8x8", "--depth", "13", "--chroma", "420"], "--depth takes"),
        (vec!["compare", a, a, "--size", "8x8", "--depth", "0", "--chroma", "420"], "--depth takes"),
        (vec!["compare", a, a, "--size", "8x8", "--depth", "8", "--chroma", "411"], "--chroma takes"),
        (vec!["compare", a, a, "--output", a], "--output names a file that is to be compared"),
        (vec!["compare", a, a, "--require-threshold"], "no threshold is given"),
        (vec!["compare", a, a, "--pairs", a], "in the place of the two files"),
        (vec!["compare", "--pairs"], "--pairs takes a value"),
        (vec!["compare", "--pairs", a, "--pairs", a], "given twice"),
        (vec!["compare", a, a, "--frames", "0"], "--frames takes"),
        (vec!["compare", a, a, "--frames", "-1"], "--frames takes"),
        (vec!["compare", a, a, "--frames", ""], "--frames takes"),
        (vec!["compare", a, a, "--strict=no"], "takes no value"),
        (vec!["kernel"], "kernel takes one HEIGHT"),
        (vec!["kernel", "144", "180"], "kernel takes one HEIGHT"),
        (vec!["kernel", ""], "kernel takes one HEIGHT"),
        (vec!["kernel", "x"], "kernel takes one HEIGHT"),
        (vec!["kernel", "1,080"], "kernel takes one HEIGHT"),
        (vec!["kernel", "192x144"], "kernel takes one HEIGHT"),
        (vec!["kernel", "144 "], "kernel takes one HEIGHT"),
        (vec!["kernel", "--", "-144"], "kernel takes one HEIGHT"),
        (vec!["kernel", "-144"], "no option \"-144\""),
        (vec!["kernel", "144", "--json"], "no option \"--json\""),
        (vec!["kernel", "144", "--help"], "beside other words"),
        (vec!["clip", "pattern"], "clip takes"),
        (vec!["clip", "noise", "x"], "a clip is"),
        (vec!["clip", "pattern", "x", "--depth", "11"], "no name for depth 11"),
        (vec!["clip", "pattern", "x", "--frames", "0"], "--frames takes"),
        (vec!["clip", "pattern", "x", "--size", "0x5"], "refusal 2"),
    ]
}

fn wrong_of_where(a: &str) -> Vec<(Vec<&str>, &'static str)> {
    vec![
        (vec!["where"], "where takes two files"),
        (vec!["where", a], "where takes two files"),
        (vec!["where", a, a, a], "where takes two files"),
        (vec!["where", "-", "-"], "standard input"),
        (vec!["where", a, a, "--help"], "beside other words"),
        (vec!["where", a, a, "--csv"], "no option \"--csv\""),
        (vec!["where", a, a, "--min-ssim", "1"], "no option \"--min-ssim\""),
        (vec!["where", a, a, "--pairs", a], "no option \"--pairs\""),
        (vec!["where", a, a, "--map"], "--map takes a value"),
        (vec!["where", a, a, "--map="], "--map takes a folder's name"),
        (vec!["where", a, a, "--map", "x", "--map", "y"], "--map is given twice"),
        (vec!["where", a, a, "--json=1"], "takes no value"),
        (vec!["where", a, a, "--frames", "0"], "--frames takes"),
        (vec!["where", a, a, "--size", "8x8"], "need all of"),
        (vec!["where", a, a, "--output", a], "--output names a file that is to be compared"),
    ]
}

fn wrong_of_better(a: &str) -> Vec<(Vec<&str>, &'static str)> {
    vec![
        (vec!["better"], "better takes three files: ORIGINAL FIRST SECOND"),
        (vec!["better", a], "better takes three files"),
        (vec!["better", a, a], "better takes three files"),
        (vec!["better", a, a, a, a], "better takes three files"),
        (vec!["better", "-", a, "-"], "only one of the three can be standard input"),
        (vec!["better", a, "-", "-"], "only one of the three can be standard input"),
        (vec!["better", "-", "-", "-"], "only one of the three can be standard input"),
        (vec!["better", a, a, a, "--help"], "beside other words"),
        (vec!["better", a, a, a, "--json", "--csv"], "not both"),
        (vec!["better", a, a, a, "--min-psnr", "1"], "no option \"--min-psnr\""),
        (vec!["better", a, a, a, "--jobs", "2"], "no option \"--jobs\""),
        (vec!["better", "--pairs", a], "no option \"--pairs\""),
        (vec!["better", a, a, a, "--expect"], "--expect takes a value"),
        (vec!["better", a, a, a, "--expect="], "--expect takes first or second"),
        (vec!["better", a, a, a, "--expect", "third"], "--expect takes first or second"),
        (vec!["better", a, a, a, "--expect", "First"], "--expect takes first or second"),
        (vec!["better", a, a, a, "--expect", "first", "--expect", "second"], "--expect is given twice"),
        (vec!["better", a, a, a, "--frames", "0"], "--frames takes"),
        (vec!["better", a, a, a, "--depth", "8"], "need all of"),
        (vec!["better", "o", "a", a, "--output", a], "--output names a file that is to be compared"),
        (vec!["better", "o", a, "b", "--output", a], "--output names a file that is to be compared"),
        (vec!["better", a, "a", "b", "--output", a], "--output names a file that is to be compared"),
        (vec!["compare", a, a, "--expect", "first"], "no option \"--expect\""),
    ]
}

#[test]
fn wrong_words_are_told() {
    let room = Room::new("words");
    let bytes = Video::new(32, 32, 8, "420", 1, 31).y4m();
    let a = room.file("a.y4m", &bytes);
    let a = a.to_str().unwrap();
    for (words, message) in wrong(a).into_iter().chain(wrong_of_where(a)).chain(wrong_of_better(a)) {
        let ended = run(&words);
        ended.says(2, &[message]);
        assert_eq!(ended.out, "");
    }
    assert_eq!(std::fs::read(a).unwrap(), bytes);
    // raw files of a size that no score takes: the library's refusal
    let size = too_wide();
    let wide = ["compare", a, a, "--size", &size, "--depth", "8", "--chroma", "420"];
    run(&wide).says(3, &[&size, "refusal 2"]);
}

#[test]
fn a_threshold_must_be_a_finite_number() {
    let room = Room::new("numbers");
    let a = room.file("a.y4m", &Video::new(32, 32, 8, "420", 1, 32).y4m());
    for option in limits::options() {
        for number in
            ["nan", "-nan", "inf", "infinity", "1e999", "-1e999", "", "x", "0,9", "1 ", "y=nan", "y=", "=1", "w=1"]
        {
            let ended = run(&words!["compare", &a, &a, &option, number]);
            ended.says(2, &[&option, "takes a finite number"]);
            assert_eq!(ended.out, "");
        }
        let twice = [&words!["compare", &a, &a][..], &["y=0", "0", "y=1"].map(|x| format!("{}={}", option, x).into())];
        run(&twice.concat()).says(2, &[&format!("{} is given twice for y", option)]);
    }
}

#[test]
fn help_and_version() {
    for word in ["--help", "-h", "help"] {
        assert!(run(&[word]).passes().contains("fuavelino compare ORIGINAL DECODED"));
    }
    assert!(run(&["compare", "--help"]).passes().contains("--min-ssim"));
    assert!(run(&["where", "--help"]).passes().contains("--map FOLDER"));
    assert!(run(&["better", "--help"]).passes().contains("--expect first|second"));
    assert!(run(&["kernel", "--help"]).passes().contains("kernel HEIGHT"));
    assert!(run(&["clip", "--help"]).passes().contains("damaged"));
    assert!(run(&["--version"]).passes().starts_with("fuavelino 0."));
}

#[test]
fn words_after_two_dashes_are_files() {
    let room = Room::new("dashes");
    let a = room.file("a.y4m", &Video::new(32, 32, 8, "420", 1, 33).y4m());
    run(&words!["compare", "--metrics=error", "--", &a, &a]).passes();
    run(&words!["compare", "--", &a, "--json"]).says(3, &["--json: cannot open"]);
}
