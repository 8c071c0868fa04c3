//! The forms of report, and where they go.

use crate::json::Json;
use crate::run::{run, run_in, Room};
use crate::video::Video;
use crate::words;
use std::ffi::OsString;
use std::fs;

const COLUMNS: &str =
    "scope,frame,plane,sq_err,n_pixels,sample_max,identical,mse,psnr_hundredths,psnr_db,ssim,cs,ssim_db,\
scale1_ssim,scale1_cs,scale2_ssim,scale2_cs,scale3_ssim,scale3_cs,scale4_ssim,scale4_cs,scale5_ssim,scale5_cs,\
msssim,msssim_db,hvs,hvs_db";

fn files(room: &Room) -> [OsString; 3] {
    let original = Video::new(33, 33, 8, "420", 2, 41);
    let (a, b) = (original.y4m(), original.noisy(42).y4m());
    [OsString::from("compare"), room.file("a.y4m", &a), room.file("b.y4m", &b)]
}

#[test]
fn json_and_csv_say_the_same() {
    let room = Room::new("forms");
    let compare = files(&room);
    let csv = run(&[&compare[..], &words!["--csv"]].concat());
    let json = Json::read(run(&[&compare[..], &words!["--json"]].concat()).passes());
    let told = |line: &&str| !["worst,", "mean,", "p5,", "p1,"].iter().any(|scope| line.starts_with(scope));
    let mut lines = csv.passes().lines().filter(told);
    assert_eq!(lines.next(), Some(COLUMNS));
    let names: Vec<&str> = COLUMNS.split(',').collect();
    let mut scopes: Vec<(String, &Json)> = Vec::new();
    for frame in json.at("frames").list() {
        scopes.push((format!("frame,{}", frame.at("frame").number()), frame));
    }
    scopes.push(("run,".to_string(), json.at("run")));
    for (start, scope) in scopes {
        for (number, plane) in ["y", "u", "v", "combined"].into_iter().enumerate() {
            let cells: Vec<&str> = lines.next().expect("a row").split(',').collect();
            assert_eq!(cells.len(), names.len());
            assert_eq!(cells[..3].join(","), format!("{},{}", start, plane));
            let told = scope.at("planes").list().get(number).unwrap_or_else(|| scope.at("combined"));
            for (name, cell) in names.iter().zip(&cells).skip(3) {
                match told.at(name) {
                    Json::Number(value) => assert_eq!(cell.parse::<f64>().unwrap().to_bits(), value.to_bits()),
                    Json::Truth(value) => assert_eq!(*cell, value.to_string()),
                    other => panic!("{} is {:?}", name, other),
                }
            }
        }
    }
    assert_eq!(lines.next(), Some(&format!("passed{}", ",".repeat(names.len() - 1))[..]));
    assert_eq!(lines.next(), None);
}

#[test]
fn scores_that_are_not_asked_are_empty_or_absent() {
    let room = Room::new("absent");
    let compare = files(&room);
    let csv = run(&[&compare[..], &words!["--csv", "--metrics=hvs"]].concat());
    let row: Vec<&str> = csv.passes().lines().nth(1).unwrap().split(',').collect();
    assert!(row[3..25].iter().all(|cell| cell.is_empty()));
    assert!(row[25].parse::<f64>().unwrap() > 0.0 && row[26].parse::<f64>().unwrap() > 0.0);
    let json = Json::read(run(&[&compare[..], &words!["--json", "--metrics=hvs,ssim"]].concat()).passes());
    assert_eq!(json.at("metrics").list().len(), 2);
    assert_eq!(json.at("run").at("combined").names(), ["ssim", "cs", "ssim_db", "hvs", "hvs_db"]);
    let table = run(&[&compare[..], &words!["--metrics=scales"]].concat());
    assert!(table.passes().contains("scale 5") && !table.out.contains("HVS dB") && !table.out.contains("sq_err"));
}

#[test]
fn json_has_its_documented_names() {
    let room = Room::new("documented");
    let json = Json::read(run(&[&files(&room)[..], &words!["--json", "--min-cs=-1"]].concat()).passes());
    let names = [
        "fuavelino",
        "original",
        "decoded",
        "format",
        "metrics",
        "thresholds",
        "kernels",
        "notes",
        "frames",
        "run",
        "summary",
        "worst",
        "broken",
    ];
    assert_eq!(json.names(), [&names[..], &["error", "status", "passed"]].concat());
    assert_eq!(json.at("frames").list()[0].names(), ["frame", "planes", "combined", "broken"]);
    assert_eq!(json.at("run").names(), ["frames", "planes", "combined", "broken"]);
    assert_eq!(json.at("thresholds").list()[0].names(), ["option", "plane", "limit"]);
    assert_eq!(json.at("worst").list()[0].names(), ["field", "frame", "plane", "value"]);
    assert_eq!(json.at("error"), &Json::Null);
}

#[test]
fn a_report_goes_to_a_file() {
    let room = Room::new("output");
    let compare = files(&room);
    let to = room.path("report.csv");
    let ended = run(&[&compare[..], &words!["--csv", "--output", &to]].concat());
    assert_eq!(ended.passes(), "");
    let direct = run(&[&compare[..], &words!["--csv"]].concat());
    assert_eq!(fs::read_to_string(&to).unwrap(), direct.out);
    assert_eq!(run(&[&compare[..], &words!["--csv", "--output", "-"]].concat()).passes(), direct.out);
    let lost = room.path("no/such/folder");
    run(&[&compare[..], &words!["--output", &lost]].concat()).says(3, &["no/such/folder: cannot write"]);
}

#[test]
fn a_full_disk_is_an_error() {
    let room = Room::new("full");
    let compare = files(&room);
    for form in [&[][..], &words!["--json"], &words!["--csv"]] {
        let ended = run(&[&compare[..], form, &words!["--output", "/dev/full"]].concat());
        ended.says(3, &["/dev/full: cannot write", "No space left"]);
        let ended = run_in("exec \"$0\" \"$@\" >/dev/full", &[&compare[..], form].concat());
        ended.says(3, &["standard output: cannot write", "No space left"]);
    }
    run_in("exec \"$0\" --help >/dev/full", &[""; 0]).says(3, &["standard output: cannot write"]);
    run_in("exec \"$0\" --version >/dev/full", &[""; 0]).says(3, &["standard output: cannot write"]);
    run_in("exec \"$0\" kernel 144 >/dev/full", &[""; 0]).says(3, &["standard output: cannot write"]);
    run(&["clip", "pattern", "/dev/full"]).says(3, &["/dev/full: cannot write"]);
}

#[test]
fn a_reader_that_goes_away_is_an_error_and_no_panic() {
    let room = Room::new("pipe");
    let script = "\"$0\" \"$@\" | true; echo status ${PIPESTATUS[0]}";
    let video = Video::new(32, 32, 8, "420", 200, 43);
    let a = room.file("a.y4m", &video.y4m());
    let ended = run_in(script, &words!["compare", &a, &a, "--json"]);
    assert_eq!(ended.out, "status 3\n");
    // a note that both names are one file may come first
    assert!(ended.err.contains("fuavelino: standard output: cannot write: ") && !ended.err.contains("panicked"));
    // nobody to tell: the status still does
    let ended = run_in("\"$0\" \"$@\" >/dev/full 2>/dev/full; echo status $?", &words!["compare", &a, &a]);
    assert_eq!(ended.out, "status 3\n");
}

#[test]
fn clips_are_what_they_are_said_to_be() {
    let room = Room::new("clips");
    for (size, depth, chroma, plane) in [
        ("64x48", "8", "420", "u"),
        ("33x35", "10", "422", "u"),
        ("32x16", "12", "444", "u"),
        ("17x16", "9", "400", "y"),
    ] {
        let (good, bad) = (room.path("good.y4m"), room.path("bad.y4m"));
        let format = words!["--size", size, "--depth", depth, "--chroma", chroma, "--frames", "5"];
        run(&[&words!["clip", "pattern", &good][..], &format].concat()).passes();
        run(&[&words!["clip", "damaged", &bad][..], &format].concat()).passes();
        run(&words!["compare", &good, &good, "--max-error=0"]).passes();
        let ended = run(&words!["compare", &good, &bad, "--json", "--max-error=0"]);
        assert_eq!(ended.status, 1);
        for frame in Json::read(&ended.out).at("frames").list() {
            for told in frame.at("planes").list() {
                let harmed = frame.at("frame").number() == 2.0 && told.at("plane").text() == plane;
                assert_eq!(told.at("identical"), &Json::Truth(!harmed));
            }
        }
    }
    let direct =
        run_in("\"$0\" clip damaged - | \"$0\" compare \"$1\" - --metrics=error --max-error=0", &["/dev/stdin"]);
    assert_eq!(direct.status, 3);
}
