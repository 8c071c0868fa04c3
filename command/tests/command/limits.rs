//! Thresholds, met and broken.

use crate::json::Json;
use crate::run::{run, Room};
use crate::video::Video;
use crate::words;
use std::ffi::OsString;

/// Its limits are written in decibels, and it is told in hundredths of one.
const PSNR: &str = "psnr_hundredths";

/// Each option, its figures, and whether they are at least it.
const OPTIONS: [(&str, &[&str], bool); 10] = [
    ("max-error", &["mse"], false),
    ("min-psnr", &[PSNR], true),
    ("min-ssim", &["ssim"], true),
    ("min-cs", &["cs"], true),
    ("min-ssim-db", &["ssim_db"], true),
    ("min-scale", &["scale1_ssim", "scale2_ssim", "scale3_ssim", "scale4_ssim", "scale5_ssim"], true),
    ("min-msssim", &["msssim"], true),
    ("min-msssim-db", &["msssim_db"], true),
    ("max-hvs", &["hvs"], false),
    ("min-hvs-db", &["hvs_db"], true),
];

/// The options for frames, and those for the run.
pub fn options() -> impl Iterator<Item = String> {
    OPTIONS.iter().flat_map(|option| [format!("--{}", option.0), format!("--run-{}", option.0)])
}

fn files(room: &Room) -> [OsString; 3] {
    // high enough for kernels of more than one tap
    let original = Video::new(30, 80, 8, "444", 2, 21);
    let (a, b) = (original.y4m(), original.noisy(22).y4m());
    [OsString::from("compare"), room.file("a.y4m", &a), room.file("b.y4m", &b)]
}

/// The worst figure in these frames or in the run, of one plane where it is named, else of all.
fn worst(scopes: &[&Json], (names, least): (&[&str], bool), plane: &str) -> f64 {
    let mut worst = if least { f64::INFINITY } else { f64::NEG_INFINITY };
    for scope in scopes {
        let mut rows: Vec<(&str, &Json)> =
            scope.at("planes").list().iter().map(|row| (row.at("plane").text(), row)).collect();
        rows.push(("combined", scope.at("combined")));
        for (_, row) in rows.iter().filter(|row| plane.is_empty() || row.0 == plane) {
            let figures = names.iter().map(|name| row.at(name).number());
            worst = figures.fold(worst, if least { f64::min } else { f64::max });
        }
    }
    worst
}

/// One step in the direction that asks for more.
fn harder(names: &[&str], limit: f64, least: bool) -> f64 {
    assert!(limit.is_finite() && limit > 0.0);
    match least {
        _ if names == [PSNR] => limit + 1.0,
        true => f64::from_bits(limit.to_bits() + 1),
        false => f64::from_bits(limit.to_bits() - 1),
    }
}

/// A figure as its limit is written.
fn written(names: &[&str], limit: f64) -> String {
    if names == [PSNR] {
        format!("{}.{:02}", limit as u32 / 100, limit as u32 % 100)
    } else {
        format!("{:?}", limit)
    }
}

/// The limit is met, and one step harder it is broken, once.
fn is_the_limit(compare: &[OsString], option: &str, (names, least): (&[&str], bool), plane: &str, limit: f64) {
    let [text, harder] = [limit, harder(names, limit, least)].map(|limit| written(names, limit));
    let prefix = if plane.is_empty() { String::new() } else { format!("{}=", plane) };
    let with = |limit: &str| run(&[compare, &words![option, format!("{}{}", prefix, limit), "--json"]].concat());
    let met = with(&text);
    assert_eq!((met.status, &met.err[..]), (0, ""), "{}", option);
    let broken = with(&harder);
    let place = if option.starts_with("--run") { "the run, plane " } else { "frame " };
    broken.says(1, &[place, &format!(", plane {}", plane), option, &format!(" is {}, which", text)]);
    assert_eq!(broken.err.lines().count(), 1, "{}", broken.err);
    let report = Json::read(&broken.out);
    assert_eq!(report.at("passed"), &Json::Truth(false));
    assert_eq!((report.at("status").number(), report.at("broken").number()), (1.0, 1.0));
    let scopes = report.at("frames").list().iter().chain([report.at("run")]);
    let lists: Vec<&Json> = scopes.flat_map(|scope| scope.at("broken").list()).collect();
    assert_eq!(lists.len(), 1);
    assert_eq!(lists[0].at("option").text(), option);
    assert_eq!(lists[0].at("value").number().to_bits(), limit.to_bits());
    assert!(names.contains(&lists[0].at("field").text()));
    assert_eq!(report.at("run").at("broken").list().len(), usize::from(option.starts_with("--run")));
    let told = &report.at("thresholds").list()[0];
    assert_eq!(told.at("limit").number(), harder.parse().unwrap());
    assert_eq!(lists[0].at("limit"), told.at("limit"));
    assert!(if plane.is_empty() { told.at("plane") == &Json::Null } else { told.at("plane").text() == plane });
}

#[test]
fn the_worst_figure_itself_is_met_and_the_next_number_is_not() {
    let room = Room::new("equal");
    let compare = files(&room);
    let ended = run(&[&compare[..], &words!["--json"]].concat());
    let report = Json::read(ended.passes());
    let frames: Vec<&Json> = report.at("frames").list().iter().collect();
    for (option, names, least) in OPTIONS {
        for plane in ["", "y", "v", "combined"] {
            let limit = worst(&frames, (names, least), plane);
            is_the_limit(&compare, &format!("--{}", option), (names, least), plane, limit);
            let limit = worst(&[report.at("run")], (names, least), plane);
            is_the_limit(&compare, &format!("--run-{}", option), (names, least), plane, limit);
        }
    }
}

/// Without a plane's name a limit is about the combination too, whatever the score.
#[test]
fn every_limit_holds_for_the_combination() {
    let room = Room::new("every");
    let compare = files(&room);
    let report = Json::read(run(&[&compare[..], &words!["--json"]].concat()).passes());
    let second = |report: &Json| report.at("frames").list()[1].clone();
    for (option, names, least) in OPTIONS {
        for (start, scope) in [("--", second(&report)), ("--run-", report.at("run").clone())] {
            let limit = harder(names, worst(&[&scope], (names, least), "combined"), least);
            let words = words![format!("{}{}", start, option), written(names, limit), "--json"];
            let told = Json::read(&run(&[&compare[..], &words].concat()).out);
            let told = if start == "--" { second(&told) } else { told.at("run").clone() };
            let planes = told.at("broken").list().iter().map(|broken| broken.at("plane").text());
            assert_eq!(planes.filter(|plane| *plane == "combined").count(), 1, "{}{}", start, option);
        }
    }
}

/// A mean can be good where a frame is not, and each is held to its own limit.
#[test]
fn the_run_and_its_frames_are_judged_apart() {
    let room = Room::new("apart");
    let original = Video::new(32, 32, 8, "420", 4, 27);
    let mut decoded = original.clone();
    decoded.frames[2] = original.noisy(28).frames[2].clone();
    let (a, b) = (room.file("a.y4m", &original.y4m()), room.file("b.y4m", &decoded.y4m()));
    let report = Json::read(run(&words!["compare", &a, &b, "--json"]).passes());
    let mean = report.at("run").at("combined").at("ssim").number();
    let limit = format!("combined={:?}", mean);
    run(&words!["compare", &a, &b, "--run-min-ssim", &limit]).passes();
    run(&words!["compare", &a, &b, "--min-ssim", &limit]).says(1, &["frame 2, plane combined: ssim is"]);
    let both = run(&words!["compare", &a, &b, "--run-min-ssim", "1.5", "--min-ssim", &limit]);
    both.says(1, &["frame 2, plane combined", "the run, plane y: ssim", "the run, plane combined: ssim"]);
    assert!(both.out.lines().filter(|line| line.starts_with("   run ")).all(|line| line.ends_with("broken")));
}

/// Every limit that is given holds: one of a plane does not soften the one of all.
#[test]
fn a_limit_of_a_plane_stands_beside_that_of_all() {
    let room = Room::new("beside");
    let original = Video::new(32, 32, 8, "444", 1, 29);
    let mut decoded = original.clone();
    decoded.frames[0][1].samples[7] ^= 128;
    let (a, b) = (room.file("a.y4m", &original.y4m()), room.file("b.y4m", &decoded.y4m()));
    let compare = |limits: &[&str]| {
        run(&[&words!["compare", &a, &b][..], &limits.iter().map(OsString::from).collect::<Vec<_>>()].concat())
    };
    compare(&["--max-error=20", "--max-error=y=0", "--max-error", "v=0"]).passes();
    compare(&["--max-error=y=0", "--max-error=u=16", "--max-error=combined=5.4"]).passes();
    compare(&["--max-error=1", "--max-error=u=16"]).says(1, &["plane u: mse is 16.0, which breaks --max-error 1.0"]);
    compare(&["--max-error=20", "--max-error=u=15.9"])
        .says(1, &["plane u: mse is 16.0, which breaks --max-error 15.9"]);
    compare(&["--max-error=combined=5.3"]).says(1, &["plane combined: mse is 5.33"]);
}

#[test]
fn a_limit_of_a_plane_that_is_not_there_is_a_fault() {
    let room = Room::new("nowhere");
    let a = room.file("a.y4m", &Video::new(32, 32, 8, "400", 1, 30).y4m());
    for option in options() {
        let ended = run(&words!["compare", &a, &a, &option, "u=0", "--json"]);
        ended.says(3, &[&format!("{} u=0.0: ", option), "a.y4m has no such plane"]);
        assert_eq!(Json::read(&ended.out).at("passed"), &Json::Truth(false));
    }
    run(&words!["compare", &a, &a, "--max-error", "y=0", "--max-error", "combined=0"]).passes();
}

/// Decibels of what nothing can better are told as 100, and meet limits above that.
#[test]
fn what_is_perfect_meets_any_decibels() {
    let room = Room::new("perfect");
    // so small that SSIM of equal planes is 1 after rounding
    let a = room.file("a.y4m", &Video::new(32, 32, 8, "420", 2, 31).y4m());
    let report = Json::read(run(&words!["compare", &a, &a, "--json"]).passes());
    let rows = report.at("frames").list().iter().flat_map(|frame| frame.at("planes").list());
    for (value, name) in [("ssim", "ssim_db"), ("msssim", "msssim_db")] {
        for row in rows.clone() {
            assert_eq!(row.at(value).number() >= 1.0, row.at(name).number() == 100.0, "{}", row.at(value).number());
        }
    }
    for option in ["--min-psnr", "--run-min-psnr", "--min-hvs-db", "--run-min-hvs-db"] {
        run(&words!["compare", &a, &a, option, "1000"]).passes();
        run(&words!["compare", &a, &a, option, "combined=1000"]).passes();
    }
}

/// A picture turned to its negative has contrasts below 0, whose power is no number: a fault, and no pass.
#[test]
fn msssim_that_is_not_a_number_is_a_fault() {
    let room = Room::new("negative");
    let original = Video::new(32, 32, 8, "420", 3, 33);
    let mut decoded = original.clone();
    decoded.frames[1][0].samples.iter_mut().for_each(|sample| *sample = 255 - *sample);
    let (a, b) = (room.file("a.y4m", &original.y4m()), room.file("b.y4m", &decoded.y4m()));
    for metrics in ["msssim", "error,scales,msssim"] {
        let ended = run(&words!["compare", &a, &b, "--json", "--metrics", metrics]);
        ended.says(3, &["frame 1, plane y: MS-SSIM (a negative contrast): not a number"]);
        let report = Json::read(&ended.out);
        assert_eq!((report.at("passed"), report.at("run")), (&Json::Truth(false), &Json::Null));
        assert_eq!(report.at("error").at("refusal"), &Json::Null);
    }
    run(&words!["compare", &a, &b, "--min-msssim=-1000"]).says(3, &["not a number"]);
    // the scales themselves are numbers
    let report = Json::read(run(&words!["compare", &a, &b, "--json", "--metrics=error,ssim,scales,hvs"]).passes());
    assert!(report.at("frames").list()[1].at("planes").list()[0].at("scale1_cs").number() < 0.0);
}

#[test]
fn a_broken_threshold_is_told_with_frame_and_plane() {
    let room = Room::new("where");
    let original = Video::new(32, 32, 8, "420", 3, 23);
    let mut decoded = original.clone();
    decoded.frames[1][2].samples[5] ^= 128;
    let (a, b) = (room.file("a.y4m", &original.y4m()), room.file("b.y4m", &decoded.y4m()));
    let ended = run(&words!["compare", &a, &b, "--max-error=1"]);
    ended.says(1, &["frame 1, plane v: mse is 64.0, which breaks --max-error 1.0"]);
    assert!(ended.err.contains("frame 1, plane combined: mse is"));
    assert_eq!(ended.err.lines().count(), 2);
    assert!(ended.out.contains("worst mse: 64.0 in frame 1, plane v"));
    assert!(ended.out.contains("NOT PASSED: 3 frames, thresholds broken: 2"));
    let rows: Vec<&str> = ended.out.lines().filter(|line| line.ends_with("broken")).collect();
    assert_eq!(rows.len(), 2);
    assert!(rows[0].starts_with("     1 v ") && rows[1].starts_with("     1 combined"));
}

#[test]
fn a_chroma_plane_cannot_hide_behind_the_combination() {
    let room = Room::new("hide");
    let original = Video::new(64, 64, 8, "420", 1, 24);
    let mut decoded = original.clone();
    decoded.frames[0][1].samples.iter_mut().for_each(|sample| *sample ^= 64);
    let (a, b) = (room.file("a.y4m", &original.y4m()), room.file("b.y4m", &decoded.y4m()));
    let report = Json::read(run(&words!["compare", &a, &b, "--json"]).passes());
    let frame = &report.at("frames").list()[0];
    let (combined, u) = (frame.at("combined").at("ssim").number(), frame.at("planes").list()[1].at("ssim").number());
    assert!(u < combined);
    let limit = format!("{:?}", combined);
    run(&words!["compare", &a, &b, "--min-ssim", limit]).says(1, &["plane u: ssim"]);
}

#[test]
fn a_fault_outweighs_a_broken_threshold() {
    let room = Room::new("outweighs");
    let original = Video::new(32, 32, 8, "420", 3, 25);
    let (a, bytes) = (room.file("a.y4m", &original.y4m()), original.noisy(26).y4m());
    let b = room.file("b.y4m", &bytes[..bytes.len() - 1]);
    let ended = run(&words!["compare", &a, &b, "--max-error=0"]);
    ended.says(3, &["which breaks --max-error", "frame 2 is cut short"]);
    assert!(ended.out.contains("NOT PASSED after 2 frames"));
}
