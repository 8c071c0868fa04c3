//! `fuavelino where --map`: the pictures are read again, and each pixel is held to the error that the test works out.

use crate::json::Json;
use crate::locate::errors;
use crate::run::{run, run_in, Room};
use crate::video::{Plane, Video};
use crate::words;
use std::collections::BTreeMap;
use std::ffi::OsString;
use std::fs;
use std::path::Path;

/// A picture: what its comment says, how many pixels a row has, and the pixels.
#[derive(Debug, PartialEq)]
struct Picture {
    comment: String,
    across: usize,
    pixels: Vec<u8>,
}

/// Takes a binary PGM with a byte for a pixel and one comment after its first word, and nothing else.
fn read(path: &Path) -> Picture {
    let bytes = fs::read(path).unwrap();
    let mut parts = bytes.splitn(5, |byte| *byte == b'\n');
    let mut line = || parts.next().expect("a line");
    let text = |line: &[u8]| String::from_utf8(line.to_vec()).unwrap();
    assert_eq!(line(), b"P5");
    let (comment, sides, most) = (text(line()), text(line()), text(line()));
    let comment = comment.strip_prefix("# ").expect("a comment").to_string();
    let sides: Vec<usize> = sides.split(' ').map(|side| side.parse().unwrap()).collect();
    let pixels = line().to_vec();
    assert_eq!((most.as_str(), sides.len(), sides[0] * sides[1]), ("255", 2, pixels.len()));
    Picture { comment, across: sides[0], pixels }
}

/// The picture of two planes: 255 times the error by the worst, rounded up.
fn drawn(a: &Plane, b: &Plane) -> Option<Picture> {
    let (across, errors) = errors(a, b);
    let worst = *errors.iter().max().filter(|worst| **worst > 0)?;
    let shade = |error: &u64| (0..=255).find(|shade| u64::from(*shade) * worst >= 255 * error).unwrap();
    let comment = format!("squared error of 8x8 tiles: 255 is {}, linear, rounded up", worst);
    Some(Picture { comment, across, pixels: errors.iter().map(shade).collect() })
}

/// The pictures that there should be, by their names.
fn drawn_all(a: &Video, b: &Video) -> BTreeMap<OsString, Picture> {
    let mut all = BTreeMap::new();
    for (number, (first, second)) in a.frames.iter().zip(&b.frames).enumerate() {
        for (plane, (x, y)) in ["y", "u", "v"].iter().zip(first.iter().zip(second)) {
            all.extend(drawn(x, y).map(|picture| (format!("frame-{:08}-{}.pgm", number, plane).into(), picture)));
        }
    }
    all
}

fn found(folder: &Path) -> BTreeMap<OsString, Picture> {
    let entries = fs::read_dir(folder).unwrap().map(|entry| entry.unwrap());
    entries.map(|entry| (entry.file_name(), read(&entry.path()))).collect()
}

/// Three frames with noise in planes y and v of frames 0 and 2.
fn pair() -> (Video, Video) {
    let original = Video::new(50, 21, 8, "420", 3, 131);
    let mut decoded = original.noisy(132);
    decoded.frames[1] = original.frames[1].clone();
    decoded.frames[0][1] = original.frames[0][1].clone();
    decoded.frames[2][1] = original.frames[2][1].clone();
    (original, decoded)
}

fn files(room: &Room, (a, b): &(Video, Video)) -> [OsString; 3] {
    [OsString::from("where"), room.file("a.y4m", &a.y4m()), room.file("b.y4m", &b.y4m())]
}

#[test]
fn each_pixel_is_its_tiles_error() {
    let room = Room::new("pixels");
    for (width, height, depth, chroma) in
        [(64, 48, 8, "420"), (35, 33, 10, "444"), (17, 9, 12, "422"), (7, 70, 8, "400")]
    {
        let original = Video::new(width, height, depth, chroma, 3, 133);
        let mut decoded = original.noisy(134);
        decoded.frames[1] = original.frames[1].clone();
        // the worst that there can be, beside the least
        let plane = &mut decoded.frames[2][0];
        *plane = original.frames[2][0].clone();
        plane.samples[..4].fill((1 << depth) - 1);
        *plane.samples.last_mut().unwrap() ^= 1;
        let map = room.path(format!("deep/{}", chroma));
        let pair = (original, decoded);
        let ended = run(&[&files(&room, &pair)[..], &words!["--map", &map]].concat());
        assert_eq!((ended.status, &ended.err[..]), (1, ""));
        let drawn = drawn_all(&pair.0, &pair.1);
        assert_eq!(found(&map), drawn);
        let last = &drawn[&OsString::from("frame-00000002-y.pgm")];
        assert_eq!((last.pixels.iter().max(), last.pixels.last()), (Some(&255), Some(&1)));
    }
}

#[test]
fn the_report_names_the_pictures() {
    let room = Room::new("named-pictures");
    let (pair, map) = (pair(), room.path("map"));
    let ended = run(&[&files(&room, &pair)[..], &words!["--json", "--map", &map]].concat());
    assert_eq!((ended.status, &ended.err[..]), (1, ""));
    let report = Json::read(&ended.out);
    let planes = report.at("frames").list().iter().flat_map(|frame| frame.at("planes").list());
    let named: Vec<&str> = planes.map(|plane| plane.at("picture").text()).collect();
    let mut sorted = named.clone();
    sorted.sort_unstable();
    assert_eq!(sorted, found(&map).keys().map(|name| name.to_str().unwrap()).collect::<Vec<_>>());
    assert_eq!(named.len(), 4);
    // the pictures are the same whatever the report is
    let other = room.path("other");
    run(&[&files(&room, &pair)[..], &words!["--quiet", "--map", &other]].concat());
    assert_eq!(found(&map), found(&other));
}

#[test]
fn a_picture_that_is_there_is_not_touched() {
    let room = Room::new("kept");
    let (pair, map) = (pair(), room.path("map"));
    fs::create_dir(&map).unwrap();
    let kept = map.join("frame-00000000-v.pgm");
    fs::write(&kept, "of an earlier night").unwrap();
    let asked = [&files(&room, &pair)[..], &words!["--json", "--map", &map]].concat();
    let ended = run(&asked);
    let message = "frame-00000000-v.pgm: cannot write: it is there already, and is left as it is";
    ended.says(3, &[message]);
    assert_eq!((fs::read_to_string(&kept).unwrap(), ended.err.lines().count()), ("of an earlier night".to_string(), 1));
    // the frame is told, and the run ends with it
    let report = Json::read(&ended.out);
    assert_eq!((report.at("status").number(), report.at("identical")), (3.0, &Json::Truth(false)));
    assert!(report.at("error").at("message").text().ends_with(message));
    let frames = report.at("frames").list();
    assert_eq!((frames.len(), frames[0].at("planes").list().len()), (1, 2));
    assert_eq!((report.at("compared").number(), report.at("differing").number()), (1.0, 1.0));
    let names = |folder: &Path| fs::read_dir(folder).unwrap().count();
    assert_eq!(names(&map), 2);
    // nor is what a link leads to, nor a link that leads nowhere
    fs::remove_file(&kept).unwrap();
    fs::remove_file(map.join("frame-00000000-y.pgm")).unwrap();
    std::os::unix::fs::symlink(room.path("nowhere"), &kept).unwrap();
    run(&asked).says(3, &[message]);
    assert!(!room.path("nowhere").exists());
    // the prover's gate takes no link anywhere in the checkout
    fs::remove_file(&kept).unwrap();
}

#[test]
fn a_picture_that_cannot_be_written_in_full_is_a_fault() {
    let room = Room::new("unwritten");
    let original = Video::new(512, 256, 8, "400", 1, 135);
    let pair = (original.clone(), original.noisy(136));
    let asked = files(&room, &pair);
    let map = room.path("map");
    // files of this run may have 1 KiB; the picture has 2,048 pixels
    let script = "trap '' XFSZ; ulimit -f 1; exec \"$0\" \"$@\"";
    let ended = run_in(script, &[&asked[..], &words!["--map", &map]].concat());
    ended.says(3, &["map/frame-00000000-y.pgm: cannot write: "]);
    assert!(ended.out.contains("\nNOT ENDED: 1 frame compared, 1 differs; ") && !ended.err.contains("already"));
    assert_eq!(fs::read_dir(&map).unwrap().count(), 0);
    // a folder that cannot be made
    let ended = run(&[&asked[..], &words!["--map", &asked[1]]].concat());
    ended.says(3, &["a.y4m: cannot make the folder: "]);
    assert!(ended.out.contains("\nNOT ENDED: 0 frames compared, none differs; "));
    assert_eq!(fs::read(&asked[1]).unwrap(), pair.0.y4m());
    // of files that cannot be compared there is none
    let none = room.path("none");
    run(&words!["where", &asked[1], room.path("missing"), "--map", &none]).says(3, &["missing: cannot open"]);
    assert!(!none.exists());
}
