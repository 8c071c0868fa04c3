//! `fuavelino better` where anything is wrong: status 3, a message, and no verdict, in any form of report.

use crate::better::{files, grey, with, Three};
use crate::json::Json;
use crate::run::{run, run_in, Ended, Room};
use crate::video::{too_wide, Video};
use crate::words;
use std::ffi::OsString;
use std::fs;

/// A table, without a word for it, and the others.
const FORMS: [&str; 3] = ["", "--json", "--csv"];

fn three() -> Three {
    let video = Video::new(32, 32, 8, "420", 3, 201);
    [video.clone(), video.noisy(202), video.noisy(203)]
}

/// A report, in its form, that tells of so many frames and decides nothing.
fn decides_nothing(form: &str, report: &str, frames: usize) {
    match form {
        "--json" => {
            let report = Json::read(report);
            assert_eq!((report.at("verdict"), report.at("run")), (&Json::Null, &Json::Null));
            assert_eq!((report.at("passed"), report.at("status").number()), (&Json::Truth(false), 3.0));
            assert_eq!(report.at("frames").list().len(), frames);
            assert!(!report.at("error").at("message").text().is_empty());
        }
        "--csv" => {
            let last = report.lines().last().unwrap();
            assert_eq!(last, format!("not passed{}", ",".repeat(18)));
            assert!(!report.contains("\nrun,") && !report.contains("\npassed"), "{}", report);
            assert_eq!(report.lines().filter(|line| line.contains(",combined,")).count(), frames);
        }
        _ => {
            assert!(!report.contains("\nbetter: ") && !report.contains("   run ") && !report.contains("assed"));
            let end = if frames == 1 { "1 frame: ".to_string() } else { format!("{} frames: ", frames) };
            assert!(report.contains(&format!("\nNOT DECIDED after {}", end)), "{}", report);
            assert_eq!(report.lines().filter(|line| line.contains(" combined ")).count(), frames);
        }
    }
}

/// The words in each form, on standard output and in a file, under an expectation and without.
fn undecided(room: &Room, words: &[OsString], message: &str, frames: usize) {
    for form in FORMS {
        let direct = with(words, &[form]);
        direct.says(3, &[message]);
        decides_nothing(form, &direct.out, frames);
        assert!(form == "--csv" || direct.out.contains(&said(&direct)), "{}", direct.out);
        for expect in ["first", "second"] {
            let report = room.file("report", b"better: first\npassed,,\n");
            let filed = with(words, &[form, "--expect", expect, "--output", report.to_str().unwrap()]);
            assert_eq!((filed.status, &filed.err, &filed.out[..]), (3, &direct.err, ""));
            decides_nothing(form, &fs::read_to_string(&report).unwrap(), frames);
        }
    }
}

/// The message without what stands before it.
fn said(ended: &Ended) -> String {
    ended.err.lines().last().unwrap().strip_prefix("fuavelino: ").unwrap().to_string()
}

/// The words with another file in one of the three places.
fn at(asked: &[OsString; 4], place: usize, file: &OsString) -> [OsString; 4] {
    let mut words = asked.clone();
    words[1 + place] = file.clone();
    words
}

#[test]
fn a_file_that_cannot_be_read_is_a_fault_in_each_place() {
    let room = Room::new("undecided-files");
    let asked = files(&room, &three());
    for (place, video) in three().iter().enumerate() {
        let (bytes, frame) = (video.y4m(), 6 + 32 * 32 * 3 / 2);
        let cut = |name: &str, less: usize| room.file(name, &bytes[..bytes.len() - less]);
        for (file, message, frames) in [
            (room.path("missing").into_os_string(), "missing: cannot open", 0),
            (room.file("bad.y4m", b"YUV4MPEG2 W32\n"), "bad.y4m: byte ", 0),
            (room.file("empty.y4m", b""), "empty.y4m: byte 0: the file is empty", 0),
            (cut("cut.y4m", 1), "cut.y4m: byte ", 2),
            (cut("line.y4m", frame - 3), "line.y4m: byte ", 2),
            (cut("short.y4m", frame), "short.y4m ends after 2 frames, ", 2),
            (cut("none.y4m", 3 * frame), "none.y4m ends after 0 frames, ", 0),
            (room.file("more.y4m", &[&bytes[..], b"x"].concat()), "more.y4m: byte ", 3),
            (room.file("long.y4m", &[&bytes[..], &bytes[bytes.len() - frame..]].concat()), "has more", 3),
        ] {
            undecided(&room, &at(&asked, place, &file), message, frames);
        }
    }
}

#[test]
fn a_long_file_is_named_with_the_first_that_ends() {
    let room = Room::new("undecided-long");
    let asked = files(&room, &three());
    let name = |at: usize| asked[1 + at].to_str().unwrap().to_string();
    let mut longer = three()[2].clone();
    longer.frames.push(longer.frames[0].clone());
    let long = room.file("long.y4m", &longer.y4m());
    for (place, short) in [(0, 1), (1, 0), (2, 0)] {
        let ended = run(&at(&asked, place, &long));
        let message = format!("{} ends after 3 frames, {} has more", name(short), long.to_str().unwrap());
        assert_eq!((ended.status, said(&ended)), (3, message));
    }
}

#[test]
fn unlike_formats_are_a_fault_in_each_place() {
    let room = Room::new("undecided-unlike");
    let asked = files(&room, &three());
    for (video, message) in [
        (Video::new(34, 32, 8, "420", 3, 1), "the files differ in size: "),
        (Video::new(32, 32, 10, "420", 3, 1), "the files differ in depth: "),
        (Video::new(32, 32, 8, "444", 3, 1), "the files differ in chroma: "),
    ] {
        let file = room.file("unlike.y4m", &video.y4m());
        (0..3).for_each(|place| undecided(&room, &at(&asked, place, &file), message, 0));
    }
    let json =
        Json::read(&run(&[&at(&asked, 2, &room.file("c", b"YUV4MPEG2 W8 H8\n"))[..], &words!["--json"]].concat()).out);
    assert_eq!(json.at("format"), &Json::Null);
}

/// A sample above its depth is told with its file, whichever of the three it is, after the frame before it.
#[test]
fn refusals_say_frame_plane_file_and_sample() {
    let room = Room::new("undecided-refused");
    let original = Video::new(16, 16, 10, "444", 3, 204);
    let good = [original.clone(), original.noisy(205), original.noisy(206)];
    for place in 0..3 {
        let mut bad = good.clone();
        bad[place].frames[1][2].samples[200] = 1_024;
        let asked = files(&room, &bad);
        let message = "frame 1, plane v: smaller error: refusal 6: a visible sample is above";
        undecided(&room, &asked, message, 1);
        let ended = run(&[&asked[..], &words!["--json"]].concat());
        let sample = "has 1024 at row 12, column 8, both counted from 0; the largest of 10 bits is 1023\n";
        ended.says(3, &[&format!("{} {}", asked[1 + place].to_str().unwrap(), sample)]);
        assert_eq!(Json::read(&ended.out).at("error").at("refusal").number(), 6.0);
    }
    // sides are judged by the header
    let asked = files(&room, &good);
    let raw = words!["--size", too_wide(), "--depth=10", "--chroma=444"];
    undecided(&room, &[&asked[..], &raw].concat(), "refusal 2: ", 0);
}

#[test]
fn a_count_of_frames_is_held_exactly() {
    let room = Room::new("undecided-frames");
    let asked = files(&room, &three());
    let with = |count: &str| [&asked[..], &words!["--frames", count]].concat();
    run(&with("3")).passes();
    undecided(&room, &with("2"), "a.y4m and ", 2);
    run(&with("2")).says(3, &["o.y4m, ", "b.y4m have more than 2 frames (--frames)\n"]);
    undecided(&room, &with("4"), "b.y4m have 3 frames, not 4 (--frames)", 3);
    let none = three().map(|video| room.file("none.y4m", video.header().as_bytes()));
    run(&words!["better", &none[0], &none[1], &none[2]]).says(3, &["have no frames"]);
}

/// What is noted of each two of the files, and is a fault where that is asked.
#[test]
fn what_is_noted_is_a_fault_where_it_is_asked() {
    let room = Room::new("undecided-noted");
    let videos = three();
    let asked = files(&room, &videos);
    let notes = |words: &[OsString]| {
        let ended = run(&[words, &words!["--json"]].concat());
        assert_eq!(ended.status, 0, "{}", ended.err);
        let report = Json::read(&ended.out);
        let notes: Vec<String> = report.at("notes").list().iter().map(|note| note.text().to_string()).collect();
        assert!(notes.iter().all(|note| ended.err.contains(&format!("fuavelino: note: {}\n", note))));
        assert_eq!(ended.err.lines().count(), notes.len());
        notes
    };
    assert!(notes(&asked).is_empty());
    for (a, b) in [(0, 1), (0, 2), (1, 2)] {
        let words = at(&asked, b, &asked[1 + a]);
        let name = asked[1 + a].to_str().unwrap();
        assert_eq!(notes(&words), [format!("{} and {} are one file", name, name)]);
        run(&[&words[..], &words!["--strict"]].concat()).says(3, &["are one file (--strict)"]);
    }
    assert_eq!(notes(&at(&at(&asked, 1, &asked[1]), 2, &asked[1])).len(), 3);
    let other = room.file("rate.y4m", &videos[2].y4m_under("YUV4MPEG2 W32 H32 F25:1 Ip C420\n"));
    for (place, count) in [(0, 2), (1, 1), (2, 1)] {
        let words = at(&asked, place, &other);
        let told = notes(&words);
        assert_eq!(told.len(), count, "{:?}", told);
        assert!(told.iter().all(|note| note.starts_with("the headers differ in frame rate: ")));
        undecided(&room, &[&words[..], &words!["--strict"]].concat(), " (--strict)", 0);
    }
}

#[test]
fn a_report_that_is_lost_is_a_fault() {
    let room = Room::new("undecided-lost");
    let asked = files(&room, &three());
    for form in FORMS {
        let ended = with(&asked, &[form, "--output", "/dev/full"]);
        ended.says(3, &["/dev/full: cannot write", "No space left"]);
        let script = |to: &str| format!("exec \"$0\" \"$@\" {} >{}", form, to);
        let ended = run_in(&script("/dev/full"), &asked);
        ended.says(3, &["standard output: cannot write", "No space left"]);
        let ended = run_in(&script("&-"), &asked);
        ended.says(3, &["standard output: cannot write"]);
    }
    // a report that grows too large for its file, of which the first version has its place
    let long = Video::new(16, 16, 8, "444", 60, 207);
    let asked = files(&room, &[long.clone(), long.noisy(208), long.noisy(209)]);
    let report = room.file("report", b"{\"verdict\":\"first\",\"passed\":true}");
    let script = "trap '' XFSZ; ulimit -f 8; exec \"$0\" \"$@\"";
    run_in(script, &[&asked[..], &words!["--json", "--output", &report]].concat()).says(3, &["report: cannot write: "]);
    decides_nothing("--json", &fs::read_to_string(&report).unwrap(), 0);
}

/// The third file is a pipe from which nothing comes: the report is seen while the run waits, and after it was killed.
#[test]
fn a_killed_run_leaves_a_report_that_decides_nothing() {
    let room = Room::new("undecided-killed");
    let asked = files(&room, &grey(&[], &[]));
    let script = "mkfifo \"$3\" && { \"$0\" better \"$1\" \"$2\" \"$3\" $5 --output \"$4\" & } && exec 3>\"$3\" && cat \"$4\" && \
                  echo ======== && kill -9 $! && ! wait $! 2>/dev/null && cat \"$4\"";
    for form in FORMS {
        let (pipe, report) = (room.path(format!("pipe{}", form)), room.file("report", b"better: first\n"));
        let ended = run_in(script, &words![&asked[1], &asked[2], pipe, report, form]);
        assert_eq!(ended.status, 0, "{}", ended.err);
        let (during, after) = ended.out.split_once("========\n").expect("both reports");
        decides_nothing(form, during, 0);
        assert_eq!(during, after);
        assert!(form == "--csv" || during.contains("has not ended"));
    }
}
