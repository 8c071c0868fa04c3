//! `fuavelino better`: what it tells is held to errors that the tests work out from the samples themselves, and each candidate's
//! figures to those that `compare` tells of it.

use crate::json::Json;
use crate::run::{run, run_fed, Ended, Room};
use crate::video::{Plane, Video};
use crate::words;
use std::cmp::Ordering;
use std::ffi::OsString;
use std::fs;

/// The original, the first and the second.
pub type Three = [Video; 3];

fn error(a: &Plane, b: &Plane) -> u64 {
    a.samples.iter().zip(&b.samples).map(|(x, y)| u64::from(x.abs_diff(*y)).pow(2)).sum()
}

/// The errors of both candidates in each plane of a frame, and in all planes.
fn errors(videos: &Three, frame: usize) -> Vec<[u64; 2]> {
    let [o, a, b] = [0, 1, 2].map(|file: usize| &videos[file].frames[frame]);
    let planes: Vec<[u64; 2]> = (0..o.len()).map(|at| [error(&o[at], &a[at]), error(&o[at], &b[at])]).collect();
    let all = planes.iter().fold([0, 0], added);
    [&planes[..], &[all]].concat()
}

fn added(sum: [u64; 2], each: &[u64; 2]) -> [u64; 2] {
    [sum[0] + each[0], sum[1] + each[1]]
}

/// Which has the smaller error, and whether it is a tie.
fn owed([first, second]: [u64; 2]) -> (&'static str, bool) {
    match first.cmp(&second) {
        Ordering::Less => ("first", false),
        Ordering::Equal => ("first", true),
        Ordering::Greater => ("second", false),
    }
}

/// What a frame or the run tells of each plane, and of all.
fn contests(scope: &Json) -> Vec<&Json> {
    scope.at("planes").list().iter().chain([scope.at("combined")]).collect()
}

/// A frame or the run tells these errors and, of each candidate, what `compare` tells of it.
fn tells_of(scope: &Json, errors: &[[u64; 2]], compared: [&Json; 2]) {
    let compared = compared.map(contests);
    assert_eq!(contests(scope).len(), errors.len());
    for (at, (told, errors)) in contests(scope).into_iter().zip(errors).enumerate() {
        let (better, tied) = owed(*errors);
        assert_eq!((told.at("better").text(), told.at("tied")), (better, &Json::Truth(tied)));
        for (candidate, name) in ["first", "second"].into_iter().enumerate() {
            let (figures, owed) = (told.at(name), compared[candidate][at]);
            assert_eq!(figures.at("sq_err").number(), errors[candidate] as f64);
            let names: Vec<&str> = owed.names().into_iter().filter(|name| *name != "plane").collect();
            assert_eq!(figures.names(), names);
            names.into_iter().for_each(|name| assert_eq!(figures.at(name), owed.at(name)));
        }
    }
}

/// A raw format as options tell it.
fn raw(video: &Video) -> [OsString; 6] {
    let (size, depth) = (format!("{}x{}", video.width, video.height), video.depth.to_string());
    words!["--size", size, "--depth", depth, "--chroma", video.chroma]
}

/// A run that told a verdict tells all of this, with nothing on standard error, and gives the verdict.
fn tells(room: &Room, ended: &Ended, videos: &Three) -> String {
    let report = Json::read(ended.passes());
    let files = [0, 1, 2].map(|at: usize| room.file(format!("{}.raw", at), &videos[at].raw()));
    let compared = [1, 2].map(|at: usize| {
        let pair = words!["compare", &files[0], &files[at], "--metrics=error", "--json"];
        Json::read(&run(&[&pair[..], &raw(&videos[0])].concat()).out)
    });
    let (mut totals, mut counts) = (vec![[0, 0]; videos[0].frames[0].len() + 1], [0, 0, 0]);
    assert_eq!(report.at("frames").list().len(), videos[0].frames.len());
    for (number, frame) in report.at("frames").list().iter().enumerate() {
        let errors = errors(videos, number);
        assert_eq!(frame.at("frame").number(), number as f64);
        tells_of(frame, &errors, [0, 1].map(|at: usize| &compared[at].at("frames").list()[number]));
        totals = totals.into_iter().zip(&errors).map(|(sum, each)| added(sum, each)).collect();
        let (better, tied) = owed(errors[errors.len() - 1]);
        counts[if tied { 2 } else { usize::from(better == "second") }] += 1;
    }
    let run = report.at("run");
    tells_of(run, &totals, [compared[0].at("run"), compared[1].at("run")]);
    assert_eq!(run.at("frames").number(), videos[0].frames.len() as f64);
    assert_eq!(["first", "second", "tied"].map(|name| run.at("counts").at(name).number() as i32), counts);
    assert_eq!(report.at("verdict").text(), owed(totals[totals.len() - 1]).0);
    assert_eq!((report.at("error"), report.at("status").number()), (&Json::Null, 0.0));
    assert_eq!(report.at("passed"), &Json::Truth(true));
    report.at("verdict").text().to_string()
}

/// The files under their names, after the command's.
pub fn files(room: &Room, videos: &Three) -> [OsString; 4] {
    let [o, a, b] = [0, 1, 2].map(|at: usize| room.file(["o.y4m", "a.y4m", "b.y4m"][at], &videos[at].y4m()));
    words!["better", o, a, b]
}

/// With more words, of which the empty ones stand for none.
pub fn with(words: &[OsString], more: &[&str]) -> Ended {
    let more = more.iter().filter(|word| !word.is_empty()).map(OsString::from);
    run(&[words, &more.collect::<Vec<_>>()].concat())
}

/// The same video with so much added to a sample of a plane.
fn changed(video: &Video, changes: &[(usize, usize, usize, u16)]) -> Video {
    let mut other = video.clone();
    changes.iter().for_each(|(frame, plane, at, by)| other.frames[*frame][*plane].samples[*at] += by);
    other
}

/// Four frames of no samples above 100, with which two candidates agree but for what is added.
pub fn grey(first: &[(usize, usize, usize, u16)], second: &[(usize, usize, usize, u16)]) -> Three {
    let mut original = Video::new(18, 10, 8, "420", 4, 171);
    original.frames.iter_mut().flatten().flat_map(|plane| &mut plane.samples).for_each(|sample| *sample %= 101);
    [original.clone(), changed(&original, first), changed(&original, second)]
}

/// In bytes and in words, in Y4M files and raw ones, each of the three from a pipe, and with the candidates exchanged.
#[test]
fn every_format_is_told_as_worked_out() {
    let room = Room::new("better-formats");
    let formats = [(40, 24, 8, "420"), (33, 19, 10, "422"), (23, 9, 12, "444"), (65, 31, 9, "400"), (18, 18, 4, "420")];
    for (seed, (width, height, depth, chroma)) in (0..).zip(formats) {
        let original = Video::new(width, height, depth, chroma, 3, 172);
        let (first, second) = (original.noisy(173 + seed), original.noisy(183 + seed));
        let there = [original.clone(), first.clone(), second.clone()];
        let back = [original, second, first];
        let verdicts = [&there, &back].map(|videos| {
            let names = [0, 1, 2].map(|at: usize| room.file(at.to_string(), &videos[at].raw()));
            let told = [&raw(&videos[0])[..], &words!["--json"]].concat();
            let verdict = tells(&room, &run(&[&words!["better"], &names[..], &told].concat()), videos);
            for piped in 0..3 {
                let mut names = names.clone();
                names[piped] = OsString::from("-");
                let fed = run_fed(&[&words!["better"], &names[..], &told].concat(), &videos[piped].raw());
                assert_eq!(tells(&room, &fed, videos), verdict);
            }
            // Y4M has no name for the other depths
            if [8, 9, 10, 12].contains(&depth) {
                let asked = files(&room, videos);
                assert_eq!(tells(&room, &with(&asked, &["--json", "--frames=3"]), videos), verdict);
                let fed = run_fed(&words!["better", &asked[1], "-", &asked[3], "--json"], &videos[1].y4m());
                assert_eq!(tells(&room, &fed, videos), verdict);
            }
            verdict
        });
        // no two sums of noise are the same, so that the exchange is seen
        assert_ne!(verdicts[0], verdicts[1]);
    }
}

/// Errors of the same size, at other places and in other planes: each frame is a tie, and so is the run.
#[test]
fn a_tie_is_the_firsts_and_told_as_one() {
    let room = Room::new("better-tie");
    let (one, other) = ([(0, 0, 3, 5), (2, 1, 4, 7), (3, 2, 1, 3)], [(0, 0, 9, 5), (2, 2, 4, 7), (3, 0, 1, 3)]);
    for (first, second) in [(&one[..], &other[..]), (&other[..], &one[..]), (&[][..], &[][..])] {
        let videos = grey(first, second);
        let asked = files(&room, &videos);
        let ended = with(&asked, &["--json"]);
        assert_eq!(tells(&room, &ended, &videos), "first");
        let report = Json::read(&ended.out);
        let run = report.at("run");
        assert_eq!(run.at("combined").at("tied"), &Json::Truth(true));
        assert_eq!(run.at("counts").at("tied").number(), 4.0);
        let table = with(&asked, &[]);
        assert!(table
            .passes()
            .ends_with("\n4 frames: first better in 0, second better in 0, tied 4\nbetter: first (tie)\n"));
        // and it is no reason to pass the second
        with(&asked, &["--expect", "first"]).passes();
        assert_eq!(with(&asked, &["--expect", "second", "--quiet"]).status, 1);
    }
}

/// One candidate is better in three frames by a little, the other in one by more: the errors decide, not the frames.
#[test]
fn the_run_is_decided_by_its_errors_and_not_by_frames_or_planes() {
    let room = Room::new("better-run");
    let (many, one) = ([(0, 0, 3, 1), (1, 1, 4, 1), (2, 2, 5, 1)], [(3, 0, 7, 2)]);
    for (first, second, verdict, won) in [(&many[..], &one[..], "first", [1, 3]), (&one, &many, "second", [3, 1])] {
        let videos = grey(first, second);
        let asked = files(&room, &videos);
        let ended = with(&asked, &["--json"]);
        assert_eq!(tells(&room, &ended, &videos), verdict);
        let report = Json::read(&ended.out);
        let counts = report.at("run").at("counts");
        assert_eq!(["first", "second"].map(|name| counts.at(name).number() as i32), won);
        // of the run's planes one is the other's
        assert!(contests(report.at("run")).iter().any(|told| told.at("better").text() != verdict));
        let table = with(&asked, &[]);
        let end = format!(
            "\n4 frames: first better in {}, second better in {}, tied 0\nbetter: {}\n",
            won[0], won[1], verdict
        );
        assert!(table.passes().ends_with(&end), "{}", table.out);
    }
}

/// The status is 0 only where the run's answer is the one that was asked for.
#[test]
fn what_is_expected_is_held() {
    let room = Room::new("better-expect");
    let (bad, worse) = ([(1, 1, 2, 3)], [(1, 1, 2, 4)]);
    for (first, second, verdict, other) in [(&bad, &worse, "first", "second"), (&worse, &bad, "second", "first")] {
        let asked = files(&room, &grey(first, second));
        for form in ["", "--json", "--csv"] {
            let met = with(&asked, &[form, "--expect", verdict]);
            assert_eq!((met.status, &met.err[..]), (0, ""));
            let unmet = with(&asked, &[form, "--expect", other]);
            let figures = if verdict == "first" { "9.0 of first and 16.0" } else { "16.0 of first and 9.0" };
            let said = format!(
                "plane combined: sq_err is {} of second: better is {}, which breaks --expect {}",
                figures, verdict, other
            );
            unmet.says(1, &[&format!("fuavelino: the run, {}\n", said)]);
            let quiet = with(&asked, &[form, "--expect", other, "--quiet"]);
            assert_eq!((quiet.status, &quiet.err[..]), (1, ""));
            let ends = |name: &str, passed: bool| match form {
                "--json" => format!(
                    "\n\"verdict\":\"{}\",\n\"error\":null,\n\"status\":{},\n\"passed\":{}}}\n",
                    verdict,
                    i32::from(!passed),
                    passed
                ),
                "--csv" => format!("\n{}passed{}\n", if passed { "" } else { "not " }, ",".repeat(18)),
                _ => format!(
                    "\nbetter: {}\n{}: {} was expected\n",
                    verdict,
                    if passed { "passed" } else { "NOT PASSED" },
                    name
                ),
            };
            assert!(met.out.ends_with(&ends(verdict, true)), "{}", met.out);
            assert!(unmet.out.ends_with(&ends(other, false)), "{}", unmet.out);
        }
        let json = Json::read(&with(&asked, &["--json", "--expect", other]).out);
        assert_eq!((json.at("expect").text(), json.at("verdict").text()), (other, verdict));
    }
}

#[test]
fn json_has_its_documented_names() {
    let room = Room::new("better-names");
    let json = Json::read(with(&files(&room, &grey(&[(0, 0, 0, 1)], &[])), &["--json"]).passes());
    let names = ["fuavelino", "original", "first", "second", "format", "expect", "notes", "frames", "run", "verdict"];
    assert_eq!(json.names(), [&names[..], &["error", "status", "passed"]].concat());
    assert_eq!(json.at("frames").list()[0].names(), ["frame", "planes", "combined"]);
    assert_eq!(json.at("run").names(), ["frames", "planes", "combined", "counts"]);
    assert_eq!(json.at("run").at("combined").names(), ["better", "tied", "first", "second"]);
    let planes = json.at("run").at("planes").list();
    assert_eq!(planes[2].names(), ["plane", "better", "tied", "first", "second"]);
    assert_eq!(json.at("expect"), &Json::Null);
    for (role, name) in [("original", "o.y4m"), ("first", "a.y4m"), ("second", "b.y4m")] {
        assert!(json.at(role).text().ends_with(name));
    }
}

/// PSNR as people are told it.
fn decibels(figures: &Json) -> String {
    match figures.at("identical") {
        Json::Truth(true) => "identical".to_string(),
        _ => format!("{:.2}", figures.at("psnr_hundredths").number() / 100.0),
    }
}

/// Each frame and the run with the names under which the table and CSV tell them.
fn scopes(report: &Json) -> Vec<(String, &Json)> {
    let frames = report.at("frames").list().iter();
    let frames = frames.map(|frame| (frame.at("frame").number().to_string(), frame));
    frames.chain([("run".to_string(), report.at("run"))]).collect()
}

#[test]
fn the_table_has_the_numbers_of_json() {
    let room = Room::new("better-table");
    let original = Video::new(17, 11, 10, "420", 3, 191);
    let videos = [original.clone(), original.noisy(192), changed(&original, &[(1, 2, 5, 9)])];
    let asked = files(&room, &videos);
    let (table, report) = (with(&asked, &[]), Json::read(with(&asked, &["--json"]).passes()));
    let plane = |line: &&str| ["y", "u", "v", "combined"].contains(&line.split_whitespace().nth(1).unwrap_or_default());
    let mut rows = table.passes().lines().filter(plane);
    for (name, scope) in scopes(&report) {
        for (plane, told) in ["y", "u", "v", "combined"].into_iter().zip(contests(scope)) {
            let tie = if told.at("tied") == &Json::Truth(true) { " (tie)" } else { "" };
            let [a, b] = ["first", "second"].map(|name| {
                let figures = told.at(name);
                format!("{} {}", figures.at("sq_err").number(), decibels(figures))
            });
            let owed = format!("{} {} {} {} {}{}", name, plane, a, b, told.at("better").text(), tie);
            let row = rows.next().expect("a row").split_whitespace().collect::<Vec<_>>().join(" ");
            assert_eq!(row, owed);
        }
    }
    assert_eq!(rows.next(), None);
    let files = &table.out[..table.out.find("\n\n").unwrap()];
    let told: Vec<&str> = files.lines().map(|line| line.split(' ').next().unwrap()).collect();
    assert_eq!(told, ["original:", "first:", "second:", "format:"]);
}

#[test]
fn csv_has_the_numbers_of_json() {
    let room = Room::new("better-csv");
    let original = Video::new(17, 11, 8, "422", 3, 194);
    let videos = [original.clone(), original.noisy(195), changed(&original, &[(1, 2, 5, 0)])];
    let asked = files(&room, &videos);
    let (csv, report) = (with(&asked, &["--csv"]), Json::read(with(&asked, &["--json"]).passes()));
    let mut lines = csv.passes().lines();
    let columns: Vec<&str> = lines.next().unwrap().split(',').collect();
    assert_eq!(columns[..5], ["scope", "frame", "plane", "better", "tied"]);
    assert_eq!(columns.len(), 5 + 2 * 7);
    for (name, scope) in scopes(&report) {
        let start = if name == "run" { "run,".to_string() } else { format!("frame,{}", name) };
        for (plane, told) in ["y", "u", "v", "combined"].into_iter().zip(contests(scope)) {
            let cells: Vec<&str> = lines.next().expect("a row").split(',').collect();
            assert_eq!(cells[..4].join(","), format!("{},{},{}", start, plane, told.at("better").text()));
            for (column, cell) in columns.iter().zip(&cells).skip(4) {
                let told = match column.split_once('_') {
                    Some((candidate, field)) => told.at(candidate).at(field),
                    None => told.at(column),
                };
                match told {
                    Json::Number(value) => assert_eq!(cell.parse::<f64>().unwrap().to_bits(), value.to_bits()),
                    Json::Truth(value) => assert_eq!(*cell, value.to_string()),
                    other => panic!("{} is {:?}", column, other),
                }
            }
        }
    }
    assert_eq!(lines.next(), Some(&format!("passed{}", ",".repeat(columns.len() - 1))[..]));
    assert_eq!(lines.next(), None);
}

#[test]
fn quiet_leaves_the_status_and_the_reports_that_are_asked_for() {
    let room = Room::new("better-quiet");
    let videos = grey(&[(0, 0, 0, 1)], &[]);
    let asked = files(&room, &videos);
    let ended = with(&asked, &["--quiet"]);
    assert_eq!((ended.status, &ended.out[..], &ended.err[..]), (0, "", ""));
    assert_eq!(tells(&room, &with(&asked, &["--quiet", "--json"]), &videos), "second");
    assert_eq!(with(&asked, &["--quiet", "--csv"]).out, with(&asked, &["--csv"]).out);
    let to = room.path("table");
    let ended = run(&[&asked[..], &words!["--quiet", "--output", &to]].concat());
    assert_eq!((ended.status, &ended.out[..]), (0, ""));
    assert_eq!(fs::read_to_string(&to).unwrap(), with(&asked, &[]).out);
}
