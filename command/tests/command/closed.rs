//! Every outcome is told: a report from an earlier run never stands for this one, and a lost report is no success.

use crate::json::Json;
use crate::run::{run, run_in, Ended, Room};
use crate::video::{too_wide, Video};
use crate::words;
use std::ffi::OsString;
use std::fs;
use std::os::unix::fs::{symlink, PermissionsExt};
use std::path::Path;

/// Of an earlier night.
const OLD: &str = "{\"passed\":true}\npassed: 9 frames\npassed,,,,\n";

fn video() -> Video {
    Video::new(32, 32, 8, "420", 3, 61)
}

/// Whether a report says, in its own form, that nothing passed.
fn says_not_passed(form: &str, report: &str) {
    match form {
        "--json" => {
            let report = Json::read(report);
            assert_eq!(report.at("passed"), &Json::Truth(false));
            assert_eq!(report.at("status").number(), 3.0);
            assert_eq!(report.at("run"), &Json::Null);
            assert!(!report.at("error").at("message").text().is_empty());
        }
        "--csv" => {
            let columns = report.lines().next().unwrap().matches(',').count();
            let last = report.lines().last().unwrap();
            assert_eq!(last, format!("not passed{}", ",".repeat(columns)));
        }
        _ => assert!(report.contains("\nNOT PASSED after 0 frames: ") && !report.contains("\npassed"), "{}", report),
    }
}

/// What stands in the room.
fn names(room: &Room) -> Vec<OsString> {
    let entries = fs::read_dir(room.path("")).unwrap();
    let mut names: Vec<OsString> = entries.map(|entry| entry.unwrap().file_name()).collect();
    names.sort();
    names
}

fn form_words(form: &str) -> Vec<OsString> {
    if form.is_empty() {
        Vec::new()
    } else {
        vec![form.into()]
    }
}

#[test]
fn a_fault_before_the_first_frame_is_reported_in_every_form() {
    let room = Room::new("early");
    let (good, missing) = (room.file("a.y4m", &video().y4m()), room.path("missing.y4m"));
    let bad = room.file("bad.y4m", b"YUV4MPEG2 W32\n");
    let unlike = room.file("unlike.y4m", &Video::new(34, 32, 8, "420", 3, 61).y4m());
    let wide = words!["compare", &good, &good, "--size", too_wide(), "--depth=8", "--chroma=420"];
    let cases = [
        (words!["compare", &missing, &good].to_vec(), "missing.y4m: cannot open"),
        (words!["compare", &good, &missing].to_vec(), "missing.y4m: cannot open"),
        (words!["compare", &good, &bad].to_vec(), "no height"),
        (words!["compare", &good, &unlike].to_vec(), "differ in size"),
        (wide.to_vec(), "refusal 2"),
    ];
    for form in ["", "--json", "--csv"] {
        for (case, message) in &cases {
            let case = [&case[..], &form_words(form)].concat();
            let direct = run(&case);
            direct.says(3, &[message]);
            says_not_passed(form, &direct.out);
            assert!(form == "--csv" || direct.out.contains(message), "{}", direct.out);
            let report = room.file("report", OLD.as_bytes());
            let filed = run(&[&case[..], &words!["--output", &report]].concat());
            filed.says(3, &[message]);
            assert_eq!(fs::read_to_string(&report).unwrap(), direct.out);
        }
    }
    let json = Json::read(&run(&words!["compare", &missing, &good, "--json"]).out);
    assert_eq!(json.at("format"), &Json::Null);
    assert!(json.at("frames").list().is_empty() && json.at("original").text().ends_with("missing.y4m"));
}

/// The report while a run goes on, and after it was killed. The second file is a pipe, so that the run waits for it: `exec 3>`
/// returns once the command has opened it.
fn killed(room: &Room, form: &str, report: &Path, output: &str) -> Ended {
    let a = room.file("a.y4m", &video().y4m());
    let part = room.file("part.y4m", &video().y4m()[..3_500]);
    let pipe = room.path("pipe");
    let _ = fs::remove_file(&pipe);
    let script = format!(
        "mkfifo \"$3\" && {{ \"$0\" compare \"$1\" \"$3\" {} --output {} & }} && pid=$! && exec 3>\"$3\" && cat \"$2\" >&3 && \
         cat \"$4\" && echo ======== && sleep 0.3 && kill -9 $pid && ! wait $pid 2>/dev/null && cat \"$4\"",
        form, output
    );
    run_in(&script, &words![a, part, pipe, report])
}

#[test]
fn a_killed_run_leaves_a_report_that_did_not_pass() {
    let room = Room::new("killed");
    for form in ["", "--json", "--csv"] {
        let report = room.path("report");
        fs::write(&report, OLD).unwrap();
        let ended = killed(&room, form, &report, "\"$4\"");
        assert_eq!(ended.status, 0, "{}", ended.err);
        let (during, after) = ended.out.split_once("========\n").expect("both reports");
        says_not_passed(form, during);
        assert_eq!(during, after);
        assert!(form == "--csv" || during.contains("the comparison has not ended"));
    }
}

#[test]
fn a_whole_report_takes_the_place_with_its_rights_and_leaves_nothing_beside() {
    let room = Room::new("place");
    let (a, missing) = (room.file("a.y4m", &video().y4m()), room.path("missing.y4m"));
    let report = room.file("report", OLD.as_bytes());
    fs::set_permissions(&report, fs::Permissions::from_mode(0o640)).unwrap();
    let link = room.path("link");
    symlink("report", &link).unwrap();
    let before = names(&room);
    for (other, status) in [(a.clone(), 0), (missing.into_os_string(), 3), (a.clone(), 0)] {
        let ended = run(&words!["compare", &a, &other, "--json", "--output", &link]);
        assert_eq!(ended.status, status, "{}", ended.err);
        let told = Json::read(&fs::read_to_string(&report).unwrap());
        assert_eq!(told.at("passed"), &Json::Truth(status == 0));
        assert_eq!(names(&room), before);
    }
    assert_eq!(fs::metadata(&report).unwrap().permissions().mode() & 0o777, 0o640);
    assert!(fs::symlink_metadata(&link).unwrap().file_type().is_symlink());
    // the prover's gate takes no link anywhere in the checkout
    fs::remove_file(&link).unwrap();
}

#[test]
fn a_report_that_grows_too_large_is_not_passed_and_leaves_nothing_beside() {
    let room = Room::new("large");
    let a = room.file("a.y4m", &Video::new(32, 32, 8, "420", 60, 62).y4m());
    let report = room.file("report", OLD.as_bytes());
    let before = names(&room);
    // files of this run may have 8 KiB, which the first version has not
    let script = "trap '' XFSZ; ulimit -f 8; exec \"$0\" compare \"$1\" \"$1\" --json --output \"$2\"";
    run_in(script, &[&a, &report]).says(3, &["report: cannot write: "]);
    says_not_passed("--json", &fs::read_to_string(&report).unwrap());
    assert_eq!(names(&room), before);
}

/// A name of the system that leads to a file: nothing can be put beside it, so that the file itself is written over.
#[test]
fn a_report_is_written_over_where_nothing_can_take_its_place() {
    let room = Room::new("over");
    let a = room.file("a.y4m", &video().y4m());
    let report = room.file("report", OLD.repeat(1_000).as_bytes());
    let script = "exec 5<>\"$2\"; exec \"$0\" compare \"$1\" \"$1\" --json --max-error=0 --output /dev/fd/5";
    run_in(script, &[&a, &report]).passes();
    let direct = run(&words!["compare", &a, &a, "--json", "--max-error=0"]);
    assert_eq!(fs::read_to_string(&report).unwrap(), direct.passes());
    // a report that is shorter than what stood there until then
    room.file("x", b"");
    let script = "cd \"$1\"; exec 5<>report; exec \"$0\" compare x x --csv --output /dev/fd/5";
    run_in(script, &[room.path("")]).says(3, &["x: byte 0: the file is empty"]);
    says_not_passed("--csv", &fs::read_to_string(&report).unwrap());
    let script = "cd \"$1\"; exec 5<>report; exec \"$0\" compare x x --json --output /dev/fd/5";
    run_in(script, &[room.path("")]).says(3, &["x: byte 0: the file is empty"]);
    says_not_passed("--json", &fs::read_to_string(&report).unwrap());
    fs::write(&report, OLD).unwrap();
    let ended = killed(&room, "--csv", &room.path("report"), "/dev/fd/5 5<>\"$4\"");
    // what was reported of the first frame may stand there already, but nothing that says that it passed
    assert!(ended.status == 0 && !ended.out.contains("\npassed"), "{}{}", ended.err, ended.out);
}

#[test]
fn a_report_that_is_lost_is_an_error() {
    let room = Room::new("lost");
    let a = room.file("a.y4m", &video().y4m());
    for form in ["", "--json", "--csv"] {
        for lost in [">&-", "1<\"$1\"", "1</dev/null"] {
            let script = format!("exec \"$0\" compare \"$1\" \"$1\" {} {}", form, lost);
            run_in(&script, &[&a]).says(3, &["standard output: cannot write: "]);
        }
    }
    for words in ["--version", "--help", "compare --help", "kernel 144", "clip pattern -"] {
        for lost in [">&-", "1</dev/null"] {
            let ended = run_in(&format!("exec \"$0\" {} {}", words, lost), &[""; 0]);
            ended.says(3, &["standard output: cannot write: "]);
        }
    }
    run_in("exec \"$0\" --version >&-", &[""; 0]).says(3, &["it is closed"]);
    // a sink that was asked for is none
    run_in("exec \"$0\" compare \"$1\" \"$1\" >/dev/null", &[&a]).passes();
    // the report goes elsewhere
    let report = room.path("report");
    run_in("exec \"$0\" compare \"$1\" \"$1\" --output \"$2\" >&-", &words![&a, &report]).passes();
}
