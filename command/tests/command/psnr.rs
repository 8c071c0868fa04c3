//! PSNR in hundredths of a decibel: what reports tell, and what limits ask.

use crate::json::Json;
use crate::run::{run, Ended, Room};
use crate::video::Video;
use crate::words;
use std::ffi::OsString;

/// Two raw files of a frame of 3 by 1 bytes, whose squared error is 25: 38.92 dB, and a little.
fn three(room: &Room) -> Vec<OsString> {
    let (a, b) = (room.file("a.yuv", &[10, 20, 30]), room.file("b.yuv", &[13, 20, 26]));
    words!["compare", a, b, "--size=3x1", "--depth=8", "--chroma=400", "--metrics=error"].to_vec()
}

fn with(compare: &[OsString], words: &[&str]) -> Ended {
    let words: Vec<OsString> = words.iter().map(OsString::from).collect();
    run(&[compare, &words].concat())
}

#[test]
fn each_form_tells_it() {
    let room = Room::new("psnr-forms");
    let compare = three(&room);
    let json = Json::read(with(&compare, &["--json"]).passes());
    for scope in
        [&json.at("frames").list()[0], json.at("run"), json.at("summary").at("p5"), json.at("summary").at("p1")]
    {
        for told in [&scope.at("planes").list()[0], scope.at("combined")] {
            assert_eq!(told.at("psnr_hundredths").number(), 3_892.0);
            assert!((told.at("psnr_db").number() - 38.9226).abs() < 1e-4);
        }
    }
    // whole, as it is written
    assert_eq!(with(&compare, &["--json"]).out.matches("\"psnr_hundredths\":3892,").count(), 8);
    let csv = with(&compare, &["--csv"]);
    assert_eq!(csv.passes().matches(",false,8.333333333333334,3892,38.92").count(), 4);
    let table = with(&compare, &[]);
    let cells: Vec<&str> = table.passes().lines().filter(|line| line.get(7..15) == Some("combined")).collect();
    // frame, run, mean, p5, p1; the mean is that of the doubles
    assert_eq!(cells.len(), 5, "{}", table.out);
    assert!(cells.iter().all(|line| line.ends_with("     38.92")), "{}", table.out);
}

/// The table's mean is of `psnr_db`, in which identical frames count as 100; what is told of a frame and of its percentiles is no rounded double.
#[test]
fn identical_frames_are_told_apart() {
    let room = Room::new("psnr-identical");
    let (a, b) = (room.file("a.yuv", &[10, 20, 30, 40, 50, 60]), room.file("b.yuv", &[10, 20, 30, 43, 50, 56]));
    let compare = words!["compare", a, b, "--size=3x1", "--depth=8", "--chroma=400", "--metrics=error"];
    let json = Json::read(with(&compare, &["--json"]).passes());
    let told = |scope: &Json| {
        (scope.at("combined").at("psnr_hundredths").number(), scope.at("combined").at("identical").clone())
    };
    let frames = json.at("frames").list();
    assert_eq!([told(&frames[0]), told(&frames[1])], [(10_000.0, Json::Truth(true)), (3_892.0, Json::Truth(false))]);
    assert_eq!(told(json.at("run")), (4_193.0, Json::Truth(false)));
    let table = with(&compare, &[]);
    let cell = |start: &str| {
        let line = table.out.lines().find(|line| line.trim_start().starts_with(start)).unwrap();
        line.split_whitespace().last().unwrap().to_string()
    };
    assert_eq!(
        ["0 y", "1 y", "run y", "mean y", "p5 y", "p1 y"].map(cell),
        ["identical", "38.92", "41.93", "69.46", "38.92", "38.92"]
    );
    // every frame: the percentiles too
    let same = with(
        &words!["compare", room.path("a.yuv"), room.path("a.yuv"), "--size=3x1", "--depth=8", "--chroma=400"],
        &["--metrics=error"],
    );
    assert_eq!(same.passes().matches("identical\n").count(), 2 * (2 + 1 + 2), "{}", same.out);
    assert_eq!(same.out.matches("   100.00\n").count(), 2);
}

/// Ways to write what 38.92 dB meet.
const MET: &str = "38.92 +38.92 38.920 3892e-2 0.3892E2 38. 0 -0 -5 -1e300 y=38.92 combined=38.92";

/// What they do not meet, and how it is told.
const BROKEN: [(&str, &str); 6] = [
    ("38.93", "38.93"),
    ("39", "39.0"),
    ("1e300", "1e300"),
    ("38.921", "38.921 (taken up to 38.93)"),
    ("38.92000000000000000000000001", "38.92 (taken up to 38.93)"),
    ("38920000000000000000001e-21", "38.92 (taken up to 38.93)"),
];

#[test]
fn limits_are_read_from_their_digits() {
    let room = Room::new("psnr-limits");
    let compare = three(&room);
    for limit in MET.split(' ') {
        with(&compare, &["--min-psnr", limit, "--run-min-psnr", limit]).passes();
    }
    for (limit, told) in BROKEN {
        let ended = with(&compare, &["--min-psnr", limit, "--run-min-psnr", limit, "--json"]);
        let message = |place: &str, plane: &str, option: &str| {
            format!("fuavelino: {}, plane {}: psnr is 38.92, which breaks {} {}\n", place, plane, option, told)
        };
        let of_frame = ["y", "combined"].map(|plane| message("frame 0", plane, "--min-psnr"));
        let of_run = ["y", "combined"].map(|plane| message("the run", plane, "--run-min-psnr"));
        assert_eq!((ended.status, ended.err), (1, of_frame.concat() + &of_run.concat()));
        let report = Json::read(&ended.out);
        let broken = &report.at("run").at("broken").list()[0];
        assert_eq!((broken.at("field").text(), broken.at("value").number()), ("psnr_hundredths", 3_892.0));
        assert_eq!(broken.at("limit").number(), limit.parse().unwrap());
    }
}

/// 10 dB are met by one in ten, where a logarithm may come to a little less, and are missed by more.
#[test]
fn ten_decibels_are_met_by_one_in_ten() {
    let room = Room::new("psnr-ten");
    // ten samples of one bit, of which one or two differ
    let a = room.file("a.yuv", &[0; 10]);
    for (wrong, hundredths) in [(1, 1_000), (2, 698)] {
        let samples: Vec<u8> = (0..10).map(|at| u8::from(at < wrong)).collect();
        let b = room.file("b.yuv", &samples);
        let compare = words!["compare", &a, &b, "--size=10x1", "--depth=1", "--chroma=400", "--metrics=error"];
        let told = Json::read(with(&compare, &["--json"]).passes());
        assert_eq!(told.at("run").at("combined").at("psnr_hundredths").number(), f64::from(hundredths));
        let text = |told: i32| format!("{}.{:02}", told / 100, told % 100);
        with(&compare, &["--min-psnr", &text(hundredths)]).passes();
        with(&compare, &["--min-psnr", &text(hundredths + 1)]).says(1, &["psnr is"]);
    }
}

#[test]
fn pairs_have_it_too() {
    let room = Room::new("psnr-pairs");
    let original = Video::new(32, 32, 8, "420", 2, 181);
    let (a, b) = (room.file("a.y4m", &original.y4m()), room.file("b.y4m", &original.noisy(182).y4m()));
    let list = room.file("list", format!("{}\t{}\n", a.to_str().unwrap(), b.to_str().unwrap()).as_bytes());
    let alone = Json::read(run(&words!["compare", &a, &b, "--json", "--metrics=error"]).passes());
    let alone = alone.at("run").at("combined").at("psnr_hundredths").number();
    let summary = Json::read(run(&words!["compare", "--pairs", &list, "--json", "--metrics=error"]).passes());
    assert_eq!(summary.at("pairs").list()[0].at("combined").at("psnr_hundredths").number(), alone);
    let csv = run(&words!["compare", "--pairs", &list, "--csv", "--metrics=error"]);
    assert!(csv.passes().contains(&format!(",{},", alone)), "{}", csv.out);
}
