//! Clips at the library's limits: the longest sides, and a frame whose error is more than a series gives.

use crate::json::Json;
use crate::run::{run, run_poured, Ended, Room};
use crate::video::{Random, Video};
use crate::words;
use fuavelino::MOST_SIDE;
use std::ffi::OsString;
use std::fs::File;
use std::io::{self, Write};
use std::process::ChildStdin;

const ALL: &str = "error,ssim,scales,msssim,hvs";

/// Sides, depth, chroma, and the scores that such planes have.
const CLIPS: [(usize, usize, u32, &str, &str); 4] = [
    (MOST_SIDE, 1, 8, "400", "error,ssim"),
    (1, MOST_SIDE, 12, "400", "error,ssim"),
    (MOST_SIDE, 16, 12, "444", ALL),
    (16, MOST_SIDE, 8, "422", "error,ssim,hvs"),
];

/// Noise up to the last row and column, and the same with its lowest bits changed.
fn noise(width: usize, height: usize, depth: u32, chroma: &'static str) -> [Video; 2] {
    let (mut original, mut r) = (Video::new(width, height, depth, chroma, 1, 161), Random(162));
    original.frames[0].iter_mut().flat_map(|plane| &mut plane.samples).for_each(|s| *s = r.below(1 << depth) as u16);
    let mut decoded = original.clone();
    decoded.frames[0].iter_mut().flat_map(|plane| &mut plane.samples).for_each(|s| *s ^= 1 + r.below(7) as u16);
    [original, decoded]
}

#[test]
fn the_longest_sides_are_scored() {
    let room = Room::new("walls");
    for (width, height, depth, chroma, metrics) in CLIPS {
        let [original, decoded] = noise(width, height, depth, chroma);
        let (a, b) = (room.file("a.y4m", &original.y4m()), room.file("b.y4m", &decoded.y4m()));
        let report = Json::read(run(&words!["compare", &a, &b, "--json", "--metrics", metrics]).passes());
        let planes = report.at("frames").list()[0].at("planes").list();
        assert_eq!(planes.len(), original.frames[0].len());
        for (told, (x, y)) in planes.iter().zip(original.frames[0].iter().zip(&decoded.frames[0])) {
            let pairs = x.samples.iter().zip(&y.samples);
            let error: u64 = pairs.map(|(x, y)| u64::from(x.abs_diff(*y)).pow(2)).sum();
            assert_eq!(told.at("sq_err").number(), error as f64);
            assert_eq!(told.at("n_pixels").number(), x.samples.len() as f64);
            for (metric, field) in [("ssim", "ssim"), ("scales", "scale5_cs"), ("msssim", "msssim")] {
                if metrics.split(',').any(|asked| asked == metric) {
                    let score = told.at(field).number();
                    assert!(score > 0.5 && score < 1.0, "{} by {}: {} is {}", width, height, field, score);
                }
            }
            assert!(!metrics.contains("hvs") || told.at("hvs").number() > 0.0);
        }
    }
}

/// Of the last plane.
#[test]
fn the_last_sample_of_the_longest_sides_is_found() {
    let room = Room::new("walls-where");
    for (width, height, depth, chroma, _) in CLIPS {
        let [original, _] = noise(width, height, depth, chroma);
        let mut decoded = original.clone();
        let plane = decoded.frames[0].last_mut().unwrap();
        let last = [plane.height - 1, plane.width - 1];
        *plane.samples.last_mut().unwrap() ^= 1;
        let (a, b) = (room.file("a.y4m", &original.y4m()), room.file("b.y4m", &decoded.y4m()));
        let ended = run(&words!["where", &a, &b, "--json"]);
        assert_eq!((ended.status, &ended.err[..]), (1, ""));
        let report = Json::read(&ended.out);
        let planes = report.at("frames").list()[0].at("planes").list();
        let first = planes[0].at("first");
        assert_eq!((planes.len(), ["row", "column"].map(|name| first.at(name).number() as usize)), (1, last));
        assert_eq!(planes[0].at("worst").at("sq_err").number(), 1.0);
    }
}

/// One sample more is refused by the header, in files of both kinds.
#[test]
fn sides_past_the_longest_are_refused() {
    let room = Room::new("walls-past");
    for (width, height) in [(MOST_SIDE + 1, 1), (1, MOST_SIDE + 1), (MOST_SIDE + 1, 16), (16, MOST_SIDE + 1)] {
        let video = Video::new(width, height, 8, "400", 1, 163);
        let (a, b) = (room.file("a.y4m", &video.y4m()), room.file("b.yuv", &video.raw()));
        let size = format!("{}x{}", width, height);
        let raw = words![&b, &b, "--size", &size, "--depth=8", "--chroma=400"];
        for files in [&words![&a, &a][..], &raw] {
            for command in ["compare", "where"] {
                let ended = run(&[&words![command, "--json"], files].concat());
                ended.says(3, &[&format!("{}, depth 8, chroma 400: refusal 2: ", size)]);
                assert_eq!(Json::read(&ended.out).at("error").at("refusal").number(), 2.0);
            }
            let ended = run(&[&words!["better", "--json", &files[0]], files].concat());
            ended.says(3, &[&format!("{}, depth 8, chroma 400: refusal 2: ", size)]);
            assert_eq!(Json::read(&ended.out).at("verdict"), &Json::Null);
        }
    }
}

/// The largest squared error of a sample of 12 bits.
const WORST: u64 = 4_095 * 4_095;

/// The most rows of the widest frames of 444 whose error is not above 2^53 where every sample is as wrong as can be.
const ROWS: u64 = (1 << 53) / (3 * MOST_SIDE as u64 * WORST);

/// What a run with three such frames needs, in KiB, and room for the rest of the machine.
const NEEDED: u64 = 4_000_000;

/// Two clips of one frame of so many rows: a file with a hole in the place of its samples, which are 0, and on standard
/// input one of samples of 4,095. Neither is ever held in full but by the command.
fn apart(room: &Room, rows: u64, words: &[OsString]) -> Ended {
    let start = format!("YUV4MPEG2 W{} H{} F25:1 Ip C444p12\nFRAME\n", MOST_SIDE, rows);
    let zeros = room.file("zeros.y4m", start.as_bytes());
    let row = 4_095u16.to_le_bytes().repeat(MOST_SIDE);
    let len = start.len() as u64 + 3 * rows * row.len() as u64;
    File::options().write(true).open(&zeros).unwrap().set_len(len).unwrap();
    run_poured(&[words, &words![zeros, "-"]].concat(), move |input: &mut ChildStdin| {
        input.write_all(start.as_bytes())?;
        (0..3 * rows).try_for_each(|_| input.write_all(&row))
    })
}

/// The memory that a program can have here, in KiB, where that is told.
fn available() -> Option<u64> {
    let told = std::fs::read_to_string("/proc/meminfo").ok()?;
    told.lines().find_map(|line| line.strip_prefix("MemAvailable:"))?.split_whitespace().next()?.parse().ok()
}

/// The candidate of which a frame has no total is told, and nothing decided, although its planes were.
fn no_verdict_of_such_a_frame(room: &Room) {
    let ended = apart(room, ROWS + 1, &words!["better", "--json", room.path("zeros.y4m")]);
    ended.says(3, &["fuavelino: frame 0, standard input, plane combined: squared error: refusal 11: "]);
    let report = Json::read(&ended.out);
    assert_eq!((report.at("verdict"), report.at("run")), (&Json::Null, &Json::Null));
    assert!(report.at("frames").list().is_empty() && report.at("error").at("refusal").number() == 11.0);
}

/// Five runs over a thousand million samples: without optimisation these take minutes.
#[test]
#[ignore = "needs an optimised build and 4 GB: tools/wide-clip test"]
fn one_frame_can_meet_the_largest_total() {
    if available().map_or(true, |most| most < NEEDED) {
        // past what holds back the words of tests that pass
        let told = format!("\n!! NOT TESTED: refusal 11 of one frame, which needs {} KiB of memory\n", NEEDED);
        io::stderr().write_all(told.as_bytes()).unwrap();
        return;
    }
    assert!(ROWS < MOST_SIDE as u64);
    let room = Room::new("walls-total");
    let compare = |rows: u64, more: &[&str]| {
        let more: Vec<OsString> = more.iter().map(OsString::from).collect();
        apart(&room, rows, &[&words!["compare", "--metrics=error"], &more[..]].concat())
    };
    // the most rows: every figure is exact, of planes, of the frame and of the run
    let report = Json::read(compare(ROWS, &["--json", "--jobs=1"]).passes());
    let plane = (MOST_SIDE as u64 * ROWS * WORST) as f64;
    for scope in [&report.at("frames").list()[0], report.at("run")] {
        assert!(scope.at("planes").list().iter().all(|told| told.at("sq_err").number() == plane));
        assert_eq!(scope.at("combined").at("sq_err").number(), 3.0 * plane);
        assert_eq!(scope.at("combined").at("mse").number(), WORST as f64);
    }
    // a row more: each plane has its error, and the frame has none
    let message = "frame 0, plane combined: squared error: refusal 11: ";
    let ended = compare(ROWS + 1, &["--json", "--jobs=1", "--max-error=1"]);
    ended.says(3, &[&format!("fuavelino: {}", message)]);
    assert_eq!(ended.err.lines().count(), 1, "{}", ended.err);
    let report = Json::read(&ended.out);
    assert!(report.at("error").at("message").text().starts_with(message));
    assert_eq!([report.at("error").at("refusal").number(), report.at("status").number()], [11.0, 3.0]);
    assert_eq!((report.at("passed"), report.at("run")), (&Json::Truth(false), &Json::Null));
    assert!(report.at("frames").list().is_empty() && report.at("broken").number() == 0.0);
    let table = compare(ROWS + 1, &["--jobs=2"]);
    table.says(3, &[message]);
    assert!(table.out.contains(&format!("NOT PASSED after 0 frames: {}", message)), "{}", table.out);
    // where they differ is told all the same, since it adds up no planes
    let places = apart(&room, ROWS + 1, &words!["where", "--json"]);
    assert_eq!((places.status, &places.err[..]), (1, ""));
    let planes = Json::read(&places.out);
    let planes = planes.at("frames").list()[0].at("planes").list();
    assert!(
        planes.len() == 3 && planes.iter().all(|plane| plane.at("worst").at("sq_err").number() == (64 * WORST) as f64)
    );
    no_verdict_of_such_a_frame(&room);
}
