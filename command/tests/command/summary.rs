//! What the frames of a run come to, in each form of report.

use crate::json::Json;
use crate::run::{run, Room};
use crate::video::Video;
use crate::words;
use std::ffi::OsString;

const FRAMES: usize = 120;

/// It has percentiles, and no mean.
const PSNR: &str = "psnr_hundredths";

/// Each figure, and whether the least is the worst.
const FIELDS: [(&str, bool); 20] = [
    ("mse", false),
    (PSNR, true),
    ("psnr_db", true),
    ("ssim", true),
    ("cs", true),
    ("ssim_db", true),
    ("scale1_ssim", true),
    ("scale1_cs", true),
    ("scale2_ssim", true),
    ("scale2_cs", true),
    ("scale3_ssim", true),
    ("scale3_cs", true),
    ("scale4_ssim", true),
    ("scale4_cs", true),
    ("scale5_ssim", true),
    ("scale5_cs", true),
    ("msssim", true),
    ("msssim_db", true),
    ("hvs", false),
    ("hvs_db", true),
];

/// Two clips, each frame of which differs by noise of its own, but for every seventh.
fn files(room: &Room) -> [OsString; 3] {
    let original = Video::new(17, 16, 8, "444", FRAMES, 101);
    let mut decoded = original.noisy(102);
    for frame in (0..FRAMES).step_by(7) {
        decoded.frames[frame] = original.frames[frame].clone();
    }
    [OsString::from("compare"), room.file("a.y4m", &original.y4m()), room.file("b.y4m", &decoded.y4m())]
}

fn report(compare: &[OsString], words: &[OsString]) -> Json {
    Json::read(run(&[compare, words, &words!["--json"]].concat()).passes())
}

/// A plane of a frame, of the run or of a statistic, or the combination.
fn row<'a>(scope: &'a Json, plane: &str) -> &'a Json {
    let found = scope.at("planes").list().iter().find(|row| row.at("plane").text() == plane);
    found.unwrap_or_else(|| scope.at("combined"))
}

/// Of each frame, the worst first.
fn sorted(report: &Json, plane: &str, field: &str, least: bool) -> Vec<f64> {
    let frames = report.at("frames").list().iter();
    let mut all: Vec<f64> = frames.map(|frame| row(frame, plane).at(field).number()).collect();
    all.sort_by(|a, b| if least { a.total_cmp(b) } else { b.total_cmp(a) });
    all
}

#[test]
fn mean_and_percentiles_are_those_of_the_frames() {
    let room = Room::new("percentiles");
    let report = report(&files(&room), &[]);
    let summary = report.at("summary");
    assert_eq!(summary.names(), ["mean", "p5", "p1"]);
    for plane in ["y", "u", "v", "combined"] {
        for (field, least) in FIELDS {
            let all = sorted(&report, plane, field, least);
            let told = |name: &str| row(summary.at(name), plane).at(field).number();
            // of 120 frames 6 and, rounded up, 2
            assert_eq!((told("p5"), told("p1")), (all[5], all[1]), "{} {}", plane, field);
            if field == PSNR {
                assert!(!row(summary.at("mean"), plane).names().contains(&field));
                continue;
            }
            let mean = all.iter().sum::<f64>() / FRAMES as f64;
            assert!((told("mean") - mean).abs() < 1e-9 * mean.abs(), "{} {}", plane, field);
        }
        let mut names: Vec<&str> = FIELDS.iter().map(|field| field.0).collect();
        if plane != "combined" {
            names.insert(0, "plane");
        }
        assert_eq!(row(summary.at("p1"), plane).names(), names);
    }
}

#[test]
fn the_worst_ten_frames_are_told_by_their_worst_plane() {
    let room = Room::new("ten");
    let report = report(&files(&room), &[]);
    let places = report.at("worst").list();
    assert_eq!(places.len(), 5 * 10);
    for (number, (fields, least)) in [
        (&["mse"][..], false),
        (&["ssim"], true),
        (&["scale1_ssim", "scale2_ssim", "scale3_ssim", "scale4_ssim", "scale5_ssim"], true),
        (&["msssim"], true),
        (&["hvs"], false),
    ]
    .into_iter()
    .enumerate()
    {
        // each frame once, by the worst of its planes; of frames that are alike the first comes first
        let mut frames = Vec::new();
        for (frame, told) in report.at("frames").list().iter().enumerate() {
            let planes = told.at("planes").list().iter();
            let values = planes.flat_map(|row| fields.iter().map(move |field| row.at(field).number()));
            let worst = values.fold(if least { f64::MAX } else { f64::MIN }, if least { f64::min } else { f64::max });
            frames.push((if least { worst } else { -worst }, frame));
        }
        frames.sort_by(|a, b| a.partial_cmp(b).unwrap());
        for (place, (value, frame)) in places[number * 10..].iter().zip(&frames[..10]) {
            assert_eq!((place.at("value").number().abs(), place.at("frame").number()), (value.abs(), *frame as f64));
            assert!(fields.contains(&place.at("field").text()));
            let told = row(&report.at("frames").list()[*frame], place.at("plane").text());
            assert_eq!(told.at(place.at("field").text()).number().abs(), value.abs());
        }
    }
}

#[test]
fn frames_that_are_alike_are_told_in_their_order() {
    let room = Room::new("ties");
    let mut original = Video::new(16, 16, 8, "400", 1, 103);
    original.frames = vec![original.frames[0].clone(); 14];
    let mut decoded = original.clone();
    decoded.frames.iter_mut().for_each(|frame| frame[0].samples[3] ^= 64);
    decoded.frames[9][0].samples[4] ^= 64;
    let (a, b) = (room.file("a.y4m", &original.y4m()), room.file("b.y4m", &decoded.y4m()));
    let report = report(&words!["compare", &a, &b], &words!["--metrics=error"]);
    let frames: Vec<f64> = report.at("worst").list().iter().map(|place| place.at("frame").number()).collect();
    assert_eq!(frames, [9.0, 0.0, 1.0, 2.0, 3.0, 4.0, 5.0, 6.0, 7.0, 8.0]);
}

#[test]
fn csv_and_the_table_have_the_same_summary() {
    let room = Room::new("summaries");
    let compare = files(&room);
    let json = report(&compare, &[]);
    let csv = run(&[&compare[..], &words!["--csv"]].concat());
    let heads: Vec<&str> = csv.passes().lines().next().unwrap().split(',').collect();
    let rows: Vec<Vec<&str>> = csv.out.lines().map(|line| line.split(',').collect()).collect();
    for scope in ["mean", "p5", "p1"] {
        let rows: Vec<&Vec<&str>> = rows.iter().filter(|row| row[0] == scope).collect();
        assert_eq!(rows.iter().map(|row| row[2]).collect::<Vec<&str>>(), ["y", "u", "v", "combined"]);
        for cells in rows {
            assert_eq!((cells.len(), cells[1]), (heads.len(), ""));
            for (field, _) in FIELDS {
                let cell = cells[heads.iter().position(|head| *head == field).unwrap()];
                if (scope, field) == ("mean", PSNR) {
                    assert_eq!(cell, "");
                    continue;
                }
                assert_eq!(cell.parse::<f64>(), Ok(row(json.at("summary").at(scope), cells[2]).at(field).number()));
            }
            assert!(cells[3..7].iter().all(|cell| cell.is_empty()));
        }
    }
    let worst: Vec<&Vec<&str>> = rows.iter().filter(|row| row[0] == "worst").collect();
    assert_eq!(worst.len(), 50);
    for (cells, place) in worst.iter().zip(json.at("worst").list()) {
        let filled: Vec<usize> = (3..cells.len()).filter(|at| !cells[*at].is_empty()).collect();
        assert_eq!(filled.len(), 1);
        assert_eq!((heads[filled[0]], cells[2]), (place.at("field").text(), place.at("plane").text()));
        assert_eq!(cells[1].parse::<f64>(), Ok(place.at("frame").number()));
        assert_eq!(cells[filled[0]].parse::<f64>(), Ok(place.at("value").number()));
    }
    let table = run(&compare);
    for start in ["  mean y ", "    p5 combined ", "    p1 v ", "worst msssim: ", "    then frames "] {
        assert!(table.passes().lines().any(|line| line.starts_with(start)), "{}", start);
    }
}

#[test]
fn a_run_that_did_not_end_well_has_no_summary() {
    let room = Room::new("unsummed");
    let original = Video::new(16, 16, 8, "400", 3, 104);
    let (a, bytes) = (room.file("a.y4m", &original.y4m()), original.noisy(105).y4m());
    let b = room.file("b.y4m", &bytes[..bytes.len() - 1]);
    let json = Json::read(&run(&words!["compare", &a, &b, "--json"]).out);
    assert_eq!((json.at("run"), json.at("summary")), (&Json::Null, &Json::Null));
    // where it was worst, as far as it came
    assert_eq!(json.at("worst").list().len(), 5 * 2);
    let csv = run(&words!["compare", &a, &b, "--csv"]);
    assert!(!["\nmean,", "\np5,", "\np1,", "\nrun,"].iter().any(|scope| csv.out.contains(scope)));
}
