//! `fuavelino where`: what it tells is held to places and errors that the tests work out from the samples themselves.

use crate::json::Json;
use crate::run::{run, run_fed, run_in, Ended, Room};
use crate::video::{Plane, Video};
use crate::words;
use std::ffi::OsString;
use std::fs;

const PLANES: [&str; 3] = ["y", "u", "v"];

/// The error of each tile of two planes, row by row, and how many tiles there are in a row.
pub fn errors(a: &Plane, b: &Plane) -> (usize, Vec<u64>) {
    let (across, down) = ((a.width + 7) / 8, (a.height + 7) / 8);
    let mut errors = vec![0; across * down];
    for (at, (x, y)) in a.samples.iter().zip(&b.samples).enumerate() {
        let (row, column) = (at / a.width, at % a.width);
        errors[row / 8 * across + column / 8] += u64::from(x.abs_diff(*y)).pow(2);
    }
    (across, errors)
}

fn object(fields: &[(&str, Json)]) -> Json {
    Json::Object(fields.iter().map(|(name, value)| (name.to_string(), value.clone())).collect())
}

fn numbers(fields: &[(&str, usize)]) -> Json {
    object(&fields.iter().map(|(name, value)| (*name, Json::Number(*value as f64))).collect::<Vec<_>>())
}

/// What is to be told of a plane, where it differs.
fn plane_told(name: &str, a: &Plane, b: &Plane, picture: Json) -> Option<Json> {
    let at = a.samples.iter().zip(&b.samples).position(|(x, y)| x != y)?;
    let (across, errors) = errors(a, b);
    let most = *errors.iter().max().unwrap();
    let worst = errors.iter().position(|error| *error == most).unwrap();
    let samples = [a.samples[at], b.samples[at]].map(usize::from);
    Some(object(&[
        ("plane", Json::Text(name.to_string())),
        (
            "first",
            numbers(&[
                ("row", at / a.width),
                ("column", at % a.width),
                ("original", samples[0]),
                ("decoded", samples[1]),
            ]),
        ),
        ("tiles", numbers(&[("differ", errors.iter().filter(|error| **error > 0).count()), ("of", errors.len())])),
        (
            "worst",
            numbers(&[
                ("tile_row", worst / across),
                ("tile_column", worst % across),
                ("row", worst / across * 8),
                ("column", worst % across * 8),
                ("sq_err", most as usize),
            ]),
        ),
        ("picture", picture),
    ]))
}

/// What is to be told of the frames that differ.
fn frames_told(a: &Video, b: &Video, pictures: bool) -> Json {
    let mut list = Vec::new();
    for (number, (first, second)) in a.frames.iter().zip(&b.frames).enumerate() {
        let plane = |at: usize| {
            let picture = format!("frame-{:08}-{}.pgm", number, PLANES[at]);
            let picture = if pictures { Json::Text(picture) } else { Json::Null };
            plane_told(PLANES[at], &first[at], &second[at], picture)
        };
        let planes: Vec<Json> = (0..first.len()).filter_map(plane).collect();
        if !planes.is_empty() {
            list.push(object(&[("frame", Json::Number(number as f64)), ("planes", Json::List(planes))]));
        }
    }
    Json::List(list)
}

/// A run that compared all frames tells this, and nothing on standard error.
fn tells(ended: &Ended, a: &Video, b: &Video, pictures: bool) {
    let (report, frames) = (Json::read(&ended.out), frames_told(a, b, pictures));
    let differing = frames.list().len();
    assert_eq!((ended.status, &ended.err[..]), (i32::from(differing > 0), ""));
    assert_eq!(report.at("frames"), &frames);
    assert_eq!(report.at("compared").number(), a.frames.len() as f64);
    assert_eq!(report.at("differing").number(), differing as f64);
    assert_eq!((report.at("error"), report.at("status").number()), (&Json::Null, f64::from(ended.status)));
    assert_eq!(report.at("identical"), &Json::Truth(differing == 0));
}

/// Five frames, of which one is changed in one sample of plane u: at row 9, column 16 of 18 rows and 17 columns.
fn changed() -> (Video, Video) {
    let original = Video::new(33, 35, 8, "420", 5, 121);
    let mut decoded = original.clone();
    decoded.frames[3][1].samples[9 * 17 + 16] ^= 12;
    (original, decoded)
}

fn files(room: &Room, (a, b): &(Video, Video)) -> [OsString; 3] {
    [OsString::from("where"), room.file("a.y4m", &a.y4m()), room.file("b.y4m", &b.y4m())]
}

#[test]
fn identical_videos_have_no_places() {
    let room = Room::new("same-places");
    let (video, _) = changed();
    let (map, pair) = (room.path("map"), (video.clone(), video));
    let asked = files(&room, &pair);
    let ended = run(&[&asked[..], &words!["--json", "--map", &map]].concat());
    tells(&ended, &pair.0, &pair.1, true);
    assert!(Json::read(&ended.out).at("frames").list().is_empty());
    assert_eq!(fs::read_dir(&map).unwrap().count(), 0);
    let table = run(&asked);
    assert!(table.passes().ends_with("\n\nidentical: 5 frames compared, none differs\n"), "{}", table.out);
}

#[test]
fn one_sample_is_found() {
    let room = Room::new("one-place");
    let pair = changed();
    let asked = files(&room, &pair);
    let ended = run(&[&asked[..], &words!["--json"]].concat());
    tells(&ended, &pair.0, &pair.1, false);
    let report = Json::read(&ended.out);
    let names = ["fuavelino", "original", "decoded", "format", "notes", "frames", "compared", "differing", "error"];
    assert_eq!(report.names(), [&names[..], &["status", "identical"]].concat());
    // the same by hand
    let frame = &report.at("frames").list()[0];
    let plane = &frame.at("planes").list()[0];
    assert_eq!((frame.at("frame").number(), plane.at("plane").text()), (3.0, "u"));
    let (good, bad) = (pair.0.frames[3][1].samples[169], pair.1.frames[3][1].samples[169]);
    let first = [("row", 9), ("column", 16), ("original", usize::from(good)), ("decoded", usize::from(bad))];
    assert_eq!(plane.at("first"), &numbers(&first));
    let error = usize::from(good.abs_diff(bad)).pow(2);
    let worst = [("tile_row", 1), ("tile_column", 2), ("row", 8), ("column", 16), ("sq_err", error)];
    assert_eq!((plane.at("worst"), plane.at("tiles")), (&numbers(&worst), &numbers(&[("differ", 1), ("of", 9)])));
    // and in the table
    let table = run(&asked);
    assert_eq!((table.status, &table.err[..]), (1, ""));
    let row = format!("3 u 9 16 {} {} 1 9 1 2 8 16 {}", good, bad, error);
    let rows: Vec<String> =
        table.out.lines().map(|line| line.split_whitespace().collect::<Vec<_>>().join(" ")).collect();
    assert_eq!(rows.iter().filter(|line| line.starts_with(|c: char| c.is_ascii_digit())).collect::<Vec<_>>(), [&row]);
    assert!(table.out.ends_with("\nDIFFERENT: 5 frames compared, 1 differs\n"), "{}", table.out);
}

/// In planes of odd sides the last tile is smaller, down to one sample.
#[test]
fn the_last_sample_of_an_odd_plane_is_found() {
    let room = Room::new("last-place");
    for (width, height, depth, chroma) in [(17, 25, 8, "400"), (33, 17, 8, "420"), (9, 1, 10, "444"), (1, 1, 12, "420")]
    {
        let original = Video::new(width, height, depth, chroma, 2, 122);
        for plane in 0..original.frames[1].len() {
            let mut decoded = original.clone();
            *decoded.frames[1][plane].samples.last_mut().unwrap() ^= 1;
            let pair = (original.clone(), decoded);
            let ended = run(&[&files(&room, &pair)[..], &words!["--json"]].concat());
            tells(&ended, &pair.0, &pair.1, false);
            let report = Json::read(&ended.out);
            let told = &report.at("frames").list()[0].at("planes").list()[0];
            let Plane { width, height, .. } = pair.0.frames[1][plane];
            assert_eq!(told.at("first").at("row").number(), (height - 1) as f64);
            assert_eq!(told.at("first").at("column").number(), (width - 1) as f64);
            assert_eq!(told.at("worst").at("sq_err").number(), 1.0);
        }
    }
}

/// Noise in some frames and planes, in bytes and in words, in Y4M files and raw ones, one of them from a pipe.
#[test]
fn every_format_is_told_as_worked_out() {
    let room = Room::new("formats");
    let formats = [(40, 24, 8, "420"), (33, 19, 10, "422"), (23, 9, 12, "444"), (65, 31, 9, "400"), (18, 18, 3, "420")];
    for (width, height, depth, chroma) in formats {
        let original = Video::new(width, height, depth, chroma, 4, 123);
        let mut decoded = original.noisy(124);
        decoded.frames[2] = original.frames[2].clone();
        decoded.frames[0][0] = original.frames[0][0].clone();
        let pair = (original, decoded);
        let (size, depth) = (format!("{}x{}", width, height), depth.to_string());
        let told = words!["--size", size, "--depth", &depth, "--chroma", chroma, "--json"];
        let raw = [room.file("a.yuv", &pair.0.raw()), room.file("b.yuv", &pair.1.raw())];
        tells(&run(&[&words!["where", &raw[0], &raw[1]][..], &told].concat()), &pair.0, &pair.1, false);
        let fed = run_fed(&[&words!["where", &raw[0], "-"][..], &told].concat(), &pair.1.raw());
        tells(&fed, &pair.0, &pair.1, false);
        // Y4M has no name for the other depths
        if ["8", "9", "10", "12"].contains(&&depth[..]) {
            tells(&run(&[&files(&room, &pair)[..], &words!["--json"]].concat()), &pair.0, &pair.1, false);
            let fed = run_fed(&words!["where", "-", room.path("b.y4m"), "--json", "--frames=4"], &pair.0.y4m());
            tells(&fed, &pair.0, &pair.1, false);
        }
    }
}

/// Errors of the same size in three tiles, and a smaller one before them.
#[test]
fn of_tiles_that_are_alike_the_first_is_the_worst() {
    let room = Room::new("alike");
    let mut original = Video::new(24, 24, 8, "400", 1, 125);
    original.frames[0][0].samples.fill(100);
    let mut decoded = original.clone();
    for (row, column, sample) in [(0, 0, 101), (3, 17, 103), (9, 2, 97), (23, 23, 103)] {
        decoded.frames[0][0].samples[row * 24 + column] = sample;
    }
    let pair = (original, decoded);
    let ended = run(&[&files(&room, &pair)[..], &words!["--json"]].concat());
    tells(&ended, &pair.0, &pair.1, false);
    let report = Json::read(&ended.out);
    let told = &report.at("frames").list()[0].at("planes").list()[0];
    let worst = [("tile_row", 0), ("tile_column", 2), ("row", 0), ("column", 16), ("sq_err", 9)];
    assert_eq!((told.at("worst"), told.at("tiles")), (&numbers(&worst), &numbers(&[("differ", 4), ("of", 9)])));
}

#[test]
fn quiet_leaves_the_status() {
    let room = Room::new("quiet-places");
    let pair = changed();
    let asked = files(&room, &pair);
    let ended = run(&[&asked[..], &words!["--quiet"]].concat());
    assert_eq!((ended.status, &ended.out[..], &ended.err[..]), (1, "", ""));
    tells(&run(&[&asked[..], &words!["--quiet", "--json"]].concat()), &pair.0, &pair.1, false);
    let ended = run(&words!["where", &asked[1], &asked[1], "--quiet"]);
    assert_eq!((ended.status, &ended.out[..], &ended.err[..]), (0, "", ""));
}

#[test]
fn a_report_goes_to_a_file_that_says_not_identical_until_it_is_whole() {
    let room = Room::new("places-output");
    let pair = changed();
    let asked = files(&room, &pair);
    let report = room.file("report", b"{\"identical\":true}");
    let ended = run(&[&asked[..], &words!["--json", "--output", &report]].concat());
    assert_eq!((ended.status, &ended.out[..], &ended.err[..]), (1, "", ""));
    let direct = run(&[&asked[..], &words!["--json", "--output=-"]].concat());
    assert_eq!(fs::read_to_string(&report).unwrap(), direct.out);
    // the second file is a pipe from which nothing comes: the report is seen while the run waits, and after it was killed
    let script =
        "mkfifo \"$2\" && { \"$0\" where \"$1\" \"$2\" $4 --output \"$3\" & } && exec 3>\"$2\" && cat \"$3\" && \
                  kill -9 $! && ! wait $! 2>/dev/null && cat \"$3\"";
    for (form, end) in [("--json", "\n\"identical\":false}\n"), ("--strict", " or was ended from outside\n")] {
        let pipe = room.path(format!("pipe{}", form));
        let ended = run_in(script, &words![&asked[1], pipe, &report, form]);
        assert_eq!(ended.status, 0, "{}", ended.err);
        let (during, after) = ended.out.split_at(ended.out.len() / 2);
        assert!(during == after && during.ends_with(end) && during.contains("has not ended"), "{}", during);
    }
}

#[test]
fn a_report_that_is_lost_is_a_fault() {
    let room = Room::new("places-lost");
    let pair = changed();
    let asked = files(&room, &pair);
    for form in [&[][..], &words!["--json"]] {
        let ended = run(&[&asked[..], form, &words!["--output", "/dev/full"]].concat());
        ended.says(3, &["/dev/full: cannot write", "No space left"]);
        let ended = run_in("exec \"$0\" \"$@\" >/dev/full", &[&asked[..], form].concat());
        ended.says(3, &["standard output: cannot write", "No space left"]);
        let ended = run_in("exec \"$0\" \"$@\" >&-", &[&asked[..], form].concat());
        ended.says(3, &["standard output: cannot write"]);
    }
}
