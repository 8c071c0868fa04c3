//! What a gate can ask for beyond scores: a count of frames, a threshold at all, and files that are meant to be compared.

use crate::json::Json;
use crate::run::{run, run_in, Ended, Room};
use crate::video::Video;
use crate::words;
use std::ffi::OsString;
use std::fs;

fn video() -> Video {
    Video::new(32, 32, 8, "420", 3, 71)
}

#[test]
fn a_count_of_frames_is_held_exactly() {
    let room = Room::new("frames");
    let (a, b) = (room.file("a.y4m", &video().y4m()), room.file("b.y4m", &video().y4m()));
    let with = |count: &str, jobs: &str| run(&words!["compare", &a, &b, "--json", "--frames", count, "--jobs", jobs]);
    for jobs in ["1", "3"] {
        with("3", jobs).passes();
        for (count, message, told) in [
            ("1", "b.y4m have more than 1 frames (--frames)", 1),
            ("2", "b.y4m have more than 2 frames (--frames)", 2),
            ("4", "b.y4m have 3 frames, not 4 (--frames)", 3),
            ("99999999999999999999999", "b.y4m have 3 frames, not ", 3),
        ] {
            let ended = with(count, jobs);
            ended.says(3, &[message]);
            let report = Json::read(&ended.out);
            assert_eq!((report.at("passed"), report.at("run")), (&Json::Truth(false), &Json::Null));
            assert!(report.at("error").at("message").text().contains(message));
            assert_eq!(report.at("frames").list().len(), told);
        }
    }
}

#[test]
fn a_threshold_can_be_required() {
    let room = Room::new("required");
    let (a, b) = (room.file("a.y4m", &video().y4m()), room.file("b.y4m", &video().y4m()));
    run(&words!["compare", &a, &b, "--require-threshold"]).says(2, &["--require-threshold: no threshold is given"]);
    run(&words!["compare", &a, &b, "--require-threshold", "--max-error=0"]).passes();
}

/// The notes of a report, which are also what was said.
fn notes(ended: &Ended) -> Vec<String> {
    let report = Json::read(&ended.out);
    let notes: Vec<String> = report.at("notes").list().iter().map(|note| note.text().to_string()).collect();
    for note in &notes {
        assert!(ended.err.contains(&format!("fuavelino: note: {}\n", note)), "{}", ended.err);
    }
    notes
}

/// Compares with and without --strict, and gives the notes.
fn noted(words: &[OsString], script: &str) -> Vec<String> {
    let free = run_in(script, &[words, &words!["--json"]].concat());
    assert_eq!(free.status, 0, "{}", free.err);
    let list = notes(&free);
    let strict = run_in(script, &[words, &words!["--json", "--strict"]].concat());
    assert_eq!(notes(&strict), list);
    match list.first() {
        Some(first) => {
            strict.says(3, &[&format!("fuavelino: {} (--strict)", first)]);
            let report = Json::read(&strict.out);
            assert_eq!((report.at("passed"), report.at("run")), (&Json::Truth(false), &Json::Null));
            assert_eq!(report.at("error").at("message").text(), format!("{} (--strict)", first));
        }
        None => assert_eq!((strict.status, &strict.err[..]), (0, "")),
    }
    let table = run_in(script, words);
    assert!(list.iter().all(|note| table.out.contains(&format!("\nnote:     {}\n", note))));
    list
}

#[test]
fn one_file_under_two_names_is_noted() {
    let room = Room::new("one");
    let (a, copy) = (room.file("a.y4m", &video().y4m()), room.file("copy.y4m", &video().y4m()));
    let link = room.path("link.y4m");
    fs::hard_link(&a, &link).unwrap();
    let plain = "exec \"$0\" \"$@\"";
    assert!(noted(&words!["compare", &a, &copy, "--max-error=0"], plain).is_empty());
    for other in [&a, link.as_os_str()] {
        let list = noted(&words!["compare", &a, other, "--max-error=0"], plain);
        assert!(list.len() == 1 && list[0].ends_with(" are one file"), "{:?}", list);
    }
    let fed = "exec \"$0\" \"$@\" <\"$2\"";
    assert_eq!(noted(&words!["compare", &a, "-", "--max-error=0"], fed).len(), 1);
    assert!(noted(&words!["compare", &copy, "-"], "exec \"$0\" \"$@\" <\"${2%copy.y4m}a.y4m\"").is_empty());
}

#[test]
fn headers_that_tell_unlike_things_are_noted() {
    let room = Room::new("headers");
    let under =
        |name: &str, words: &str| room.file(name, &video().y4m_under(&format!("YUV4MPEG2 W32 H32 C420 {}\n", words)));
    let a = under("a.y4m", "F30:1 Ip XCOLORRANGE=LIMITED A1:1");
    for (words, found) in [
        ("F30:1 Ip XCOLORRANGE=LIMITED A4:3", &[][..]),
        ("F60:2 Ip A1:1 XCOLORRANGE=LIMITED XOTHER=1", &[]),
        ("F25:1 Ip XCOLORRANGE=LIMITED", &["frame rate: a.y4m tells 30:1, b.y4m tells 25:1"]),
        ("F0:0 Ip XCOLORRANGE=LIMITED", &["frame rate: a.y4m tells 30:1, b.y4m tells none"]),
        ("F30:1 It XCOLORRANGE=LIMITED", &["interlacing: a.y4m tells p, b.y4m tells t"]),
        ("F30:1 Ip XCOLORRANGE=FULL", &["colour range: a.y4m tells LIMITED, b.y4m tells FULL"]),
        ("F30:1 Ip", &["colour range: a.y4m tells LIMITED, b.y4m tells none"]),
        ("", &["frame rate: ", "interlacing: ", "colour range: "]),
    ] {
        let b = under("b.y4m", words);
        let list = noted(&words!["compare", &a, &b, "--max-error=0"], "exec \"$0\" \"$@\"");
        let folder = room.path("").into_os_string().into_string().unwrap();
        let list: Vec<String> = list.iter().map(|note| note.replace(&folder, "")).collect();
        assert_eq!(list.len(), found.len(), "{:?}", list);
        for (note, found) in list.iter().zip(found) {
            assert!(note.starts_with(&format!("the headers differ in {}", found)), "{}", note);
        }
    }
}
