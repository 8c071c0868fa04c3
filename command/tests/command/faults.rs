//! `fuavelino where` on files that cannot be compared whole: status 3, in the words of `compare`, and what was found is told.

use crate::json::Json;
use crate::run::{run, run_in, Ended, Room};
use crate::video::{too_wide, Video};
use crate::words;
use std::ffi::OsString;

fn video() -> Video {
    Video::new(32, 32, 8, "420", 3, 141)
}

/// A run that ended by a fault: its message, how many frames were compared, and how many of them differ.
fn faulty(ended: &Ended, message: &str, compared: f64, differing: f64) {
    ended.says(3, &[message]);
    let report = Json::read(&ended.out);
    assert_eq!((report.at("status").number(), report.at("identical")), (3.0, &Json::Truth(false)));
    let said = ended.err.lines().last().unwrap().strip_prefix("fuavelino: ").unwrap();
    assert_eq!(report.at("error").at("message").text(), said);
    assert_eq!((report.at("compared").number(), report.at("differing").number()), (compared, differing));
    assert_eq!(report.at("frames").list().len() as f64, differing);
}

/// What `compare` says of the same files.
fn as_compare_says(ended: &Ended, words: &[OsString]) {
    let compared = run(&[&words!["compare"], &words[1..], &words!["--metrics=error"]].concat());
    assert_eq!((ended.status, &ended.err), (compared.status, &compared.err));
}

#[test]
fn files_that_cannot_be_compared_are_faults_as_for_compare() {
    let room = Room::new("where-unlike");
    let (bytes, header) = (video().y4m(), video().header().len());
    let a = room.file("a.y4m", &bytes);
    let none = room.file("none.y4m", &bytes[..header]);
    let raw = words!["--size=32x32", "--depth=8", "--chroma=420"];
    let wide = too_wide();
    let refused = format!("{}, depth 8, chroma 420: refusal 2", wide);
    let cases: [(Vec<OsString>, &str); 9] = [
        (words![&a, room.path("missing")].to_vec(), "missing: cannot open"),
        (words![room.path(""), &a].to_vec(), "cannot read"),
        (words![&a, room.file("b.y4m", b"YUV4MPEG2 W32\n")].to_vec(), "no height"),
        (words![&a, room.file("empty", b"")].to_vec(), "empty: byte 0: the file is empty"),
        (words![&a, room.file("c.y4m", &Video::new(34, 32, 8, "420", 3, 1).y4m())].to_vec(), "differ in size:"),
        (
            words![&a, room.file("d.y4m", &Video::new(32, 32, 9, "444", 3, 1).y4m())].to_vec(),
            "differ in depth and chroma:",
        ),
        (words![&none, room.file("also.y4m", &bytes[..header])].to_vec(), "have no frames"),
        ([&words![&a, &a][..], &raw].concat(), "a.y4m: byte 0: this is a Y4M file"),
        (words![&a, &none, "--size", &wide, "--depth=8", "--chroma=420"].to_vec(), &refused),
    ];
    for (files, message) in cases {
        let words = [&words!["where"], &files[..], &words!["--json"]].concat();
        let ended = run(&words);
        faulty(&ended, message, 0.0, 0.0);
        as_compare_says(&ended, &words);
    }
}

/// A file that is cut, or has less, or has more, after frames that differ: the fault outweighs them, and they are told.
#[test]
fn a_fault_outweighs_a_difference() {
    let room = Room::new("where-cut");
    let a = room.file("a.y4m", &video().y4m());
    let noisy = video().noisy(142);
    let (bytes, frame) = (noisy.y4m(), 6 + 32 * 32 * 3 / 2);
    let cut = room.file("b.y4m", &bytes[..bytes.len() - 1]);
    let less = room.file("c.y4m", &bytes[..bytes.len() - frame]);
    let more = room.file("d.y4m", &[&bytes[..], b"x"].concat());
    for (b, message, count) in [
        (&cut, "frame 2 is cut short: plane v has 255 of 256 samples", 2.0),
        (&less, "c.y4m ends after 2 frames, ", 2.0),
        (&more, "no whole line FRAME before frame 3", 3.0),
    ] {
        for files in [[&a, b], [b, &a]] {
            let words = words!["where", files[0], files[1], "--json"];
            let ended = run(&words);
            faulty(&ended, message, count, count);
            as_compare_says(&ended, &words);
        }
    }
    let table = run(&words!["where", &a, &less]);
    let end = format!("\nNOT ENDED: 2 frames compared, 2 differ; {}", table.err.strip_prefix("fuavelino: ").unwrap());
    assert!(table.out.ends_with(&end), "{}", table.out);
}

#[test]
fn a_count_of_frames_is_held_exactly() {
    let room = Room::new("where-frames");
    let words = words!["where", room.file("a.y4m", &video().y4m()), room.file("b.y4m", &video().noisy(143).y4m())];
    let with = |count: &str| run(&[&words[..], &words!["--json", "--frames", count]].concat());
    assert_eq!((with("3").status, &with("3").err[..]), (1, ""));
    faulty(&with("2"), "b.y4m have more than 2 frames (--frames)", 2.0, 2.0);
    faulty(&with("4"), "b.y4m have 3 frames, not 4 (--frames)", 3.0, 3.0);
}

#[test]
fn what_is_noted_is_a_fault_where_it_is_asked() {
    let room = Room::new("where-noted");
    let a = room.file("a.y4m", &video().y4m());
    let ended = run(&words!["where", &a, &a, "--json"]);
    assert_eq!(ended.passes(), ended.out);
    let notes = Json::read(&ended.out).at("notes").clone();
    assert!(notes.list().len() == 1 && notes.list()[0].text().ends_with("a.y4m are one file"));
    assert!(run(&words!["where", &a, &a]).out.contains("\nnote:     "));
    faulty(&run(&words!["where", &a, &a, "--json", "--strict"]), " are one file (--strict)", 0.0, 0.0);
}

/// A sample above its depth, after samples that differ: the plane is refused, and the frames before it are told.
#[test]
fn refusals_say_frame_plane_and_sample() {
    let room = Room::new("where-refused");
    let good = Video::new(16, 16, 10, "444", 3, 144);
    let mut bad = good.noisy(145);
    bad.frames[1][2].samples[200] = 1_024;
    let (a, b) = (room.file("a.y4m", &good.y4m()), room.file("b.y4m", &bad.y4m()));
    let ended = run(&words!["where", &a, &b, "--json"]);
    faulty(&ended, "frame 1, plane v: first difference: refusal 6: a visible sample is above", 1.0, 1.0);
    ended.says(3, &["b.y4m has 1024 at row 12, column 8, both counted from 0; the largest of 10 bits is 1023\n"]);
    assert_eq!(Json::read(&ended.out).at("error").at("refusal").number(), 6.0);
    // the same sample in both files is refused as well
    faulty(&run(&words!["where", &b, &b, "--json"]), "b.y4m has 1024 at row 12, column 8", 1.0, 0.0);
}

/// Room for the frames, and none for the map of such a plane, of 8 × 512 × 512 bytes: somewhat less than is enough.
#[test]
fn out_of_memory_is_said() {
    let room = Room::new("where-memory");
    let zeros = vec![0; 4_096 * 4_096];
    let a = room.file("a.yuv", &zeros);
    let b = room.file("b.yuv", &[&zeros[1..], &[1]].concat());
    let format = "--size=4096x4096 --depth=8 --chroma=400 --json";
    let with =
        |memory: u32| run_in(&format!("ulimit -v {}; exec \"$0\" where \"$1\" \"$2\" {}", memory, format), &[&a, &b]);
    let (mut little, mut enough) = (10_000, 400_000);
    assert_eq!((with(enough).status, &with(enough).err[..]), (1, ""));
    while enough - little > 200 {
        let between = (little + enough) / 2;
        *(if with(between).status == 1 { &mut enough } else { &mut little }) = between;
    }
    let ended = with(enough - 1_000);
    faulty(&ended, "frame 0, plane y: error map: out of memory: no room", 0.0, 0.0);
    assert_eq!(Json::read(&ended.out).at("error").at("refusal").number(), 8.0);
}
