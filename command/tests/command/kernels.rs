//! Kernels: those of the chart, which `fuavelino kernel` prints, and what reports say of those in use.

use crate::json::Json;
use crate::run::{run, Room};
use crate::video::Video;
use crate::words;
use fuavelino::{build_gaussian_kernel, Kernel, MOST_SIDE};
use std::ffi::OsString;

/// The heights that the chart lists, as messages tell them.
const LISTED: &str = "144, 180, 240, 270, 288, 360, 405, 480, 540, 576, 720, 1080, 1440, 2160";

/// What the table says of a kernel that is none of the chart's.
const NOT_PROVED: &str =
    "\nKernels that were built, since the library's chart has none for their planes, are not proved";

/// A plane's name, its count of taps, and whether they are the chart's.
type Told = (&'static str, usize, bool);

/// Sides, chroma, and the kernels that go with them: listed and not, as wide as high, wider, and narrower.
fn clips() -> Vec<(usize, usize, &'static str, Vec<Told>)> {
    let three = |y, chroma: (usize, bool)| vec![y, ("u", chroma.0, chroma.1), ("v", chroma.0, chroma.1)];
    vec![
        (192, 144, "420", three(("y", 5, true), (3, false))),
        (400, 360, "420", three(("y", 13, true), (7, true))),
        (290, 288, "420", three(("y", 11, true), (5, true))),
        (288, 144, "422", three(("y", 5, true), (5, true))),
        (286, 144, "422", three(("y", 5, true), (5, false))),
        (144, 144, "444", three(("y", 5, true), (5, true))),
        (143, 144, "400", vec![("y", 5, false)]),
        (200, 145, "400", vec![("y", 5, false)]),
        (180, 360, "420", three(("y", 13, false), (7, false))),
        (1, 144, "400", vec![("y", 1, false)]),
    ]
}

fn compare(room: &Room, width: usize, height: usize, chroma: &'static str) -> [OsString; 3] {
    let original = Video::new(width, height, 8, chroma, 1, 151);
    let (a, b) = (original.y4m(), original.noisy(152).y4m());
    [OsString::from("compare"), room.file("a.y4m", &a), room.file("b.y4m", &b)]
}

/// The report's list.
fn told(report: &Json) -> Vec<(&str, usize, bool)> {
    let mut list = Vec::new();
    for kernel in report.at("kernels").list() {
        assert_eq!(kernel.names(), ["plane", "taps", "charted"]);
        let (taps, charted) = (kernel.at("taps").number() as usize, kernel.at("charted") == &Json::Truth(true));
        list.push((kernel.at("plane").text(), taps, charted));
    }
    list
}

/// The table's line.
fn line(kernels: &[Told]) -> String {
    let one = |(plane, count, charted): &Told| {
        let (taps, from) = (if *count == 1 { "tap" } else { "taps" }, if *charted { "chart" } else { "built" });
        format!("{} {} {} ({})", plane, count, taps, from)
    };
    format!("\nkernels:  {}\n", kernels.iter().map(one).collect::<Vec<String>>().join(", "))
}

#[test]
fn reports_tell_which_kernels_are_the_charts() {
    let room = Room::new("kernels");
    for (width, height, chroma, kernels) in clips() {
        let compare = compare(&room, width, height, chroma);
        let json = Json::read(run(&[&compare[..], &words!["--json", "--metrics=ssim"]].concat()).passes());
        assert_eq!(told(&json), kernels, "{} by {}, {}", width, height, chroma);
        let table = run(&[&compare[..], &words!["--metrics=ssim"]].concat());
        assert!(table.passes().contains(&line(&kernels)), "{}", table.out);
        let built = kernels.iter().any(|kernel| !kernel.2);
        assert_eq!(table.out.contains(NOT_PROVED), built, "{}", table.out);
        // CSV has no place for them
        assert!(!run(&[&compare[..], &words!["--csv", "--metrics=ssim"]].concat()).passes().contains("chart"));
    }
}

/// A charted kernel is the one that is built: SSIM under it has the same bits.
#[test]
fn what_is_charted_is_what_scores() {
    let room = Room::new("kernels-scored");
    let compare = compare(&room, 150, 144, "400");
    let json = Json::read(run(&[&compare[..], &words!["--json", "--metrics=ssim"]].concat()).passes());
    let taps = build_gaussian_kernel(144.0 * 1.5 / 256.0, 144, 256).into_iter().map(|tap| tap as u16).collect();
    let original = Video::new(150, 144, 8, "400", 1, 151);
    let [a, b] = [original.frame_bytes(0), original.noisy(152).frame_bytes(0)];
    let [a, b] = [&a, &b].map(|data| fuavelino::Plane { data: &data[..], stride: 150 });
    let shape = fuavelino::Shape { width: 150, height: 144, bit_depth: 8 };
    let pair = fuavelino::ssim(a, b, shape, &Kernel::from_taps(taps), &mut fuavelino::Scratch::new()).unwrap();
    let plane = &json.at("run").at("planes").list()[0];
    assert_eq!((plane.at("ssim").number(), plane.at("cs").number()), (pair.ssim, pair.cs));
}

#[test]
fn without_ssim_there_is_nothing_to_tell() {
    let room = Room::new("kernels-none");
    let compare = compare(&room, 192, 144, "420");
    let others = words!["--metrics=error,scales,msssim,hvs"];
    let json = Json::read(run(&[&compare[..], &others, &words!["--json"]].concat()).passes());
    assert_eq!(json.at("kernels"), &Json::Null);
    let table = run(&[&compare[..], &others].concat());
    assert!(!table.passes().contains("kernels:") && !table.out.contains(NOT_PROVED));
    let places = run(&[&words!["where"], &compare[1..]].concat());
    assert!(places.status == 1 && !places.out.contains("kernels:"));
}

#[test]
fn a_fault_has_the_kernels_of_a_format_that_is_known() {
    let room = Room::new("kernels-fault");
    let [compare, a, b] = compare(&room, 192, 144, "420");
    let unlike = room.file("c.y4m", &Video::new(192, 146, 8, "420", 1, 153).y4m());
    for (other, message) in [(room.path("missing").into_os_string(), "cannot open"), (unlike, "differ in size")] {
        let ended = run(&words![&compare, &a, &other, "--json"]);
        ended.says(3, &[message]);
        let report = Json::read(&ended.out);
        assert_eq!((report.at("format"), report.at("kernels")), (&Json::Null, &Json::Null));
        assert!(!run(&words![&compare, &a, &other]).out.contains("kernels:"));
    }
    let bytes = std::fs::read(&b).unwrap();
    let cut = room.file("d.y4m", &bytes[..bytes.len() - 1]);
    let ended = run(&words![&compare, &a, &cut, "--json"]);
    ended.says(3, &["cut short"]);
    let kernels = vec![("y", 5, true), ("u", 3, false), ("v", 3, false)];
    assert_eq!(told(&Json::read(&ended.out)), kernels);
    assert!(run(&words![&compare, &a, &cut]).out.contains(&line(&kernels)));
}

#[test]
fn the_chart_is_printed() {
    assert_eq!(run(&["kernel", "144"]).passes(), "7 60 122 60 7\n");
    assert_eq!(run(&["kernel", "--", "0180"]).passes(), "2 16 62 96 62 16 2\n");
    for height in LISTED.split(", ") {
        let rows: usize = height.parse().unwrap();
        let taps = build_gaussian_kernel(rows as f64 * 1.5 / 256.0, rows, 256);
        let taps: Vec<String> = taps.iter().map(i64::to_string).collect();
        assert_eq!(run(&["kernel", height]).passes(), taps.join(" ") + "\n");
    }
}

#[test]
fn a_height_that_is_not_listed_is_told_with_those_that_are() {
    let rule = format!(": refusal 14: the chart has no kernel for this height; it has {}\n", LISTED);
    // the last is 144 in 16 bits
    for height in [0, 1, 143, 145, 1_081, MOST_SIDE, MOST_SIDE + 1, 65_680] {
        let ended = run(&words!["kernel", height.to_string()]);
        ended.says(3, &[&format!("fuavelino: height {}{}", height, rule)]);
        assert_eq!((&ended.out[..], ended.err.lines().count()), ("", 1));
    }
    run(&["kernel", "99999999999999999999999"]).says(3, &[&rule]);
}
