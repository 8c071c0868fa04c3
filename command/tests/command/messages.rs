//! What is said on standard error: little enough to be read, and under `--quiet` only what went wrong.

use crate::json::Json;
use crate::run::{run, run_in, Room};
use crate::video::Video;
use crate::words;
use std::ffi::OsString;
use std::fs;

/// 23 frames that differ in each plane.
fn files(room: &Room) -> [OsString; 3] {
    let original = Video::new(16, 16, 8, "444", 23, 111);
    let (a, b) = (original.y4m(), original.noisy(112).y4m());
    [OsString::from("compare"), room.file("a.y4m", &a), room.file("b.y4m", &b)]
}

#[test]
fn repeated_messages_are_capped_with_a_count_of_the_rest() {
    let room = Room::new("capped");
    let compare = files(&room);
    let asked = words!["--metrics=error,hvs", "--max-error=0", "--max-hvs=0", "--run-max-error=y=0", "--json"];
    let ended = run(&[&compare[..], &asked].concat());
    let count = |words: &str| ended.err.lines().filter(|line| line.contains(words)).count();
    assert_eq!((ended.status, count("which breaks --max-error")), (1, 10));
    assert_eq!((count("which breaks --max-hvs"), count("which breaks --run-max-error")), (10, 1));
    // three planes and the combination of 23 frames
    ended.says(
        1,
        &["fuavelino: --max-error is broken 82 times more\n", "fuavelino: --max-hvs is broken 82 times more\n"],
    );
    assert_eq!(ended.err.lines().count(), 10 + 10 + 1 + 2);
    // the report has them all
    let report = Json::read(&ended.out);
    assert_eq!(report.at("broken").number(), 92.0 + 92.0 + 1.0);
    let lists = report.at("frames").list().iter().map(|frame| frame.at("broken").list().len());
    assert_eq!(lists.sum::<usize>(), 92 + 92);
    // ten are no more than can be said
    let ended = run(&[&compare[..], &words!["--metrics=error", "--max-error=combined=0", "--frames=23"]].concat());
    assert!(ended.err.contains("--max-error is broken 13 times more"));
    let ended =
        run(&[&compare[..], &words!["--metrics=scales", "--run-min-scale=y=2", "--run-min-scale=u=2"]].concat());
    assert_eq!((ended.status, ended.err.lines().count()), (1, 10), "{}", ended.err);
}

#[test]
fn quiet_leaves_the_status() {
    let room = Room::new("quiet");
    let compare = files(&room);
    let with = |words: &[OsString]| run(&[&compare[..], &words!["--quiet"], words].concat());
    let silent = |words: &[OsString], status: i32| {
        let ended = with(words);
        assert_eq!((ended.status, &ended.out[..], &ended.err[..]), (status, "", ""));
    };
    silent(&[], 0);
    silent(&words!["--max-error=0", "--run-max-error=0"], 1);
    // a report that is asked for is written
    let json = with(&words!["--json", "--max-error=0"]);
    assert_eq!((json.status, &json.err[..]), (1, ""));
    assert_eq!(Json::read(&json.out).at("broken").number(), 92.0);
    assert_eq!(with(&words!["--csv"]).out, run(&[&compare[..], &words!["--csv"]].concat()).out);
    let to = room.path("table");
    silent(&words!["--output", &to, "--max-error=0"], 1);
    assert!(fs::read_to_string(&to).unwrap().contains("NOT PASSED: 23 frames, thresholds broken: 92"));
}

#[test]
fn quiet_still_says_what_went_wrong() {
    let room = Room::new("quiet-faults");
    let original = Video::new(16, 16, 8, "444", 3, 113);
    let (a, bytes) = (room.file("a.y4m", &original.y4m()), original.noisy(114).y4m());
    let b = room.file("b.y4m", &bytes[..bytes.len() - 1]);
    let ended = run(&words!["compare", &a, &b, "--quiet", "--max-error=0"]);
    ended.says(3, &["frame 2 is cut short"]);
    assert_eq!((&ended.out[..], ended.err.lines().count()), ("", 1));
    run(&words!["compare", &a, &b, "--quiet=1"]).says(2, &["--quiet takes no value"]);
    run(&words!["compare", &a, "--quiet"]).says(2, &["two files"]);
    // both names are one file, which is noted otherwise
    assert!(run(&words!["compare", &a, &a]).err.contains("note"));
    assert_eq!(run(&words!["compare", &a, &a, "--quiet"]).err, "");
    run(&words!["compare", &a, &a, "--quiet", "--strict"]).says(3, &["(--strict)"]);
    // where no report is asked for, none can be lost
    let ended = run_in("\"$0\" compare \"$1\" \"$1\" --quiet >&-", &[&a]);
    assert_eq!((ended.status, &ended.err[..]), (0, ""));
}
