//! The published av-metrics on the same clips. Run by tools/command-test, which builds the program that scores a clip by it. One figure it gives by
//! our own rule, combined `hvs` with its decibels: there av-metrics multiplies, where an average must divide.

use crate::json::Json;
use crate::run::{run, Room};
use crate::video::Video;
use crate::words;
use fuavelino::MOST_SIDE;
use std::process::Command;

const CLIPS: [(usize, usize, u32, &str); 10] = [
    (48, 40, 8, "420"),
    (61, 47, 8, "420"),
    (35, 33, 8, "422"),
    (176, 144, 8, "444"),
    (37, 19, 8, "400"),
    (48, 66, 10, "420"),
    (33, 32, 9, "422"),
    (40, 21, 12, "444"),
    (MOST_SIDE, 31, 10, "420"),
    (16, MOST_SIDE, 12, "444"),
];

/// Lines of `scope plane field bits`, as the program prints them.
fn scored(program: &str, a: &std::ffi::OsStr, b: &std::ffi::OsStr) -> Vec<[String; 4]> {
    let output = Command::new(program).args([a, b]).output().expect("the program starts");
    assert!(output.status.success(), "{}", String::from_utf8_lossy(&output.stderr));
    let text = String::from_utf8(output.stdout).expect("UTF-8");
    let line = |line: &str| -> [String; 4] {
        let words: Vec<String> = line.split(' ').map(str::to_string).collect();
        words.try_into().expect("four words")
    };
    text.lines().map(line).collect()
}

#[test]
#[ignore = "needs the published source: tools/command-test"]
fn every_figure_has_the_published_bits() {
    let program = std::env::var("FUAVELINO_PUBLISHED").expect("FUAVELINO_PUBLISHED names the program");
    let room = Room::new("published");
    for (number, (width, height, depth, chroma)) in CLIPS.into_iter().enumerate() {
        let original = Video::new(width, height, depth, chroma, 3, 61 + number as u64);
        let mut decoded = original.noisy(71 + number as u64);
        // one frame is identical
        decoded.frames[1] = original.frames[1].clone();
        let (a, b) = (room.file("a.y4m", &original.y4m()), room.file("b.y4m", &decoded.y4m()));
        let report = Json::read(run(&words!["compare", &a, &b, "--json"]).passes());
        let wanted = scored(&program, &a, &b);
        let planes = original.frames[0].len();
        // three frames and the run: 14 figures, and decibels of each plane and of the combination
        assert!(wanted.len() > 3 * (planes + 1) * 17, "{} lines", wanted.len());
        let combined_hvs = wanted.iter().filter(|words| words[1] == "combined" && words[2] == "hvs");
        assert_eq!(combined_hvs.count(), 3 + 1);
        for [scope, plane, field, bits] in wanted {
            let told = match &scope[..] {
                "run" => report.at("run"),
                frame => &report.at("frames").list()[frame.parse::<usize>().unwrap()],
            };
            let told = match ["y", "u", "v"].iter().position(|name| *name == plane) {
                Some(number) => &told.at("planes").list()[number],
                None => told.at("combined"),
            };
            let value = told.at(&field).number();
            assert_eq!(format!("{:016x}", value.to_bits()), bits, "{} {} {}: {:?}", scope, plane, field, value);
        }
    }
}
