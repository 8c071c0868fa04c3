//! Good runs: each figure is the library's own, to the bit, for every format.

use crate::json::Json;
use crate::run::{run, run_fed, run_in, Room};
use crate::video::{Plane, Video};
use crate::words;
use fuavelino::video::{self, ssim::product};
use fuavelino::{Kernel, Pair, PlaneKind, PsnrMetrics, Sample, Scratch, Shape};

/// Sides, depth, chroma: bytes and words, odd sides, and the least that each score takes.
const FORMATS: [(usize, usize, u32, &str); 12] = [
    (48, 40, 8, "420"),
    (49, 41, 8, "420"),
    (33, 35, 8, "422"),
    (32, 17, 8, "444"),
    (16, 16, 8, "444"),
    (31, 31, 8, "420"),
    (37, 19, 8, "400"),
    (40, 48, 10, "420"),
    (33, 33, 9, "422"),
    (17, 21, 12, "444"),
    (19, 16, 10, "400"),
    (31, 32, 12, "420"),
];

/// The figures of two planes by direct calls, under the reports' names.
fn figures<T: Sample>(a: &[T], b: &[T], shape: Shape, kind: PlaneKind) -> Vec<(String, f64)> {
    let [a, b] = [a, b].map(|data| fuavelino::Plane { data, stride: shape.width });
    let mut scratch = Scratch::new();
    let record = fuavelino::squared_error(a, b, shape, 0, kind.number()).unwrap();
    let kernel = Kernel::for_plane(shape.width, shape.height);
    let pair = fuavelino::ssim(a, b, shape, &kernel, &mut scratch).unwrap();
    let five = fuavelino::msssim(a, b, shape, &mut scratch).unwrap();
    let hvs = fuavelino::psnr_hvs(a, b, shape, kind).unwrap();
    let mut list = error(&record.metrics());
    list.extend(pairs(&pair, &five));
    list.push(("msssim".to_string(), product(&five)));
    list.push(("hvs".to_string(), hvs));
    list
}

/// The decibels of a plane or of a combination, from its sums and what SSIM's could at best come to.
fn decibels(told: &Json, [ssim, msssim]: [f64; 2], best: f64) {
    let of = |sum: f64| video::ssim::decibels(sum, best).unwrap();
    let hvs = video::psnr_hvs::decibels(told.at("hvs").number()).unwrap();
    same(
        told,
        &[("ssim_db".to_string(), of(ssim)), ("msssim_db".to_string(), of(msssim)), ("hvs_db".to_string(), hvs)],
    );
}

fn error(record: &PsnrMetrics) -> Vec<(String, f64)> {
    let (n, max) = (record.n_pixels as f64, f64::from(record.sample_max));
    let names = ["sq_err", "n_pixels", "sample_max", "mse"].map(str::to_string);
    names.into_iter().zip([record.sq_err, n, max, record.sq_err / n]).collect()
}

/// PSNR of a plane or of a combination, from the squared error that is told beside it.
fn psnr(told: &Json) {
    let [sq_err, n, max] = ["sq_err", "n_pixels", "sample_max"].map(|name| told.at(name).number());
    let record = PsnrMetrics { sq_err, n_pixels: n as u64, sample_max: max as u32 };
    let hundredths = told.at("psnr_hundredths").number();
    assert_eq!(hundredths, f64::from(record.hundredths().unwrap().hundredths()));
    assert_eq!(Some(told.at("psnr_db").number().to_bits()), video::psnr::decibels(record).map(f64::to_bits));
    if sq_err > 0.0 {
        let exact = 1_000.0 * (n * max * max / sq_err).log10();
        assert!(hundredths - 1e-5 <= exact && exact < hundredths + 1.0 + 1e-5, "{} and {}", hundredths, exact);
    }
}

fn pairs(pair: &Pair, five: &[Pair; 5]) -> Vec<(String, f64)> {
    let mut list = vec![("ssim".to_string(), pair.ssim), ("cs".to_string(), pair.cs)];
    for (scale, pair) in five.iter().enumerate() {
        list.push((format!("scale{}_ssim", scale + 1), pair.ssim));
        list.push((format!("scale{}_cs", scale + 1), pair.cs));
    }
    list
}

fn plane_figures(a: &Plane, b: &Plane, depth: u32, number: usize) -> Vec<(String, f64)> {
    let shape = Shape { width: a.width, height: a.height, bit_depth: depth };
    let kind = [PlaneKind::Y, PlaneKind::U, PlaneKind::V][number];
    if depth > 8 {
        figures(&a.samples, &b.samples, shape, kind)
    } else {
        let bytes = |plane: &Plane| plane.samples.iter().map(|s| *s as u8).collect::<Vec<u8>>();
        figures(&bytes(a), &bytes(b), shape, kind)
    }
}

/// Each figure of the report has the same bits.
fn same(report: &Json, wanted: &[(String, f64)]) {
    for (name, value) in wanted {
        let told = report.at(name).number();
        assert_eq!(told.to_bits(), value.to_bits(), "{} is {:?}, not {:?}", name, told, value);
    }
}

fn named(list: &[(String, f64)], name: &str) -> f64 {
    list.iter().find(|pair| pair.0 == name).unwrap().1
}

/// What chroma weighs.
fn weight(chroma: &str) -> f64 {
    match chroma {
        "420" => 0.25,
        "422" => 0.5,
        "444" => 1.0,
        _ => 0.0,
    }
}

/// The weighted sums of SSIM and MS-SSIM, and their weight.
fn weighed(planes: &[Vec<(String, f64)>], chroma: &str) -> ([f64; 2], f64) {
    let c = weight(chroma);
    let of = |number: usize, name: &str| planes.get(number).map_or(0.0, |plane| named(plane, name));
    let sum = |name: &str| of(0, name) + c * (of(1, name) + of(2, name));
    (["ssim", "msssim"].map(sum), 1.0 + 2.0 * c)
}

/// A frame's combination, from its planes' figures by direct calls.
fn combined(planes: &[Vec<(String, f64)>], chroma: &str) -> Vec<(String, f64)> {
    let weight = weight(chroma);
    let of = |name: &str| {
        let value = |number: usize| planes.get(number).map_or(0.0, |plane| named(plane, name));
        [value(0), value(1), value(2)]
    };
    let mut list = Vec::new();
    for (name, _) in &planes[0][4..] {
        let [y, u, v] = of(name);
        let value = if name == "hvs" {
            fuavelino::combine_hvs(weight, y, u, v).unwrap()
        } else {
            let (sum, over) = fuavelino::combine_ssim(weight, y, u, v).unwrap();
            sum / over
        };
        list.push((name.clone(), value));
    }
    let add = |name: &str| planes.iter().map(|plane| named(plane, name)).sum::<f64>();
    list.extend([("sq_err".to_string(), add("sq_err")), ("n_pixels".to_string(), add("n_pixels"))]);
    list
}

#[test]
fn each_format_gives_the_librarys_figures() {
    let room = Room::new("formats");
    for (number, (width, height, depth, chroma)) in FORMATS.into_iter().enumerate() {
        let original = Video::new(width, height, depth, chroma, 2, number as u64);
        let decoded = original.noisy(100 + number as u64);
        let (a, b) = (room.file("a.y4m", &original.y4m()), room.file("b.y4m", &decoded.y4m()));
        let ended = run(&words!["compare", &a, &b, "--json"]);
        let report = Json::read(ended.passes());
        assert_eq!(report.at("passed"), &Json::Truth(true));
        assert_eq!(report.at("format").at("chroma").text(), chroma);
        assert_eq!(report.at("format").at("bit_depth").number(), f64::from(depth));
        let frames = report.at("frames").list();
        assert_eq!(frames.len(), 2);
        for (frame, told) in frames.iter().enumerate() {
            assert_eq!(told.at("frame").number(), frame as f64);
            let (these, those) = (&original.frames[frame], &decoded.frames[frame]);
            let each: Vec<_> = (0..these.len()).map(|p| plane_figures(&these[p], &those[p], depth, p)).collect();
            let planes = told.at("planes").list();
            assert_eq!(planes.len(), each.len());
            psnr(told.at("combined"));
            for (plane, wanted) in planes.iter().zip(&each) {
                same(plane, wanted);
                psnr(plane);
                decibels(plane, ["ssim", "msssim"].map(|name| named(wanted, name)), 1.0);
            }
            same(told.at("combined"), &combined(&each, chroma));
            let (sums, best) = weighed(&each, chroma);
            decibels(told.at("combined"), sums, best);
        }
    }
}

#[test]
fn the_squared_error_is_the_sum_over_the_samples() {
    let room = Room::new("squared");
    let original = Video::new(17, 16, 10, "422", 1, 5);
    let decoded = original.noisy(6);
    let (a, b) = (room.file("a.y4m", &original.y4m()), room.file("b.y4m", &decoded.y4m()));
    let ended = run(&words!["compare", a, b, "--json", "--metrics=error"]);
    let report = Json::read(ended.passes());
    for (number, plane) in report.at("frames").list()[0].at("planes").list().iter().enumerate() {
        let (these, those) = (&original.frames[0][number].samples, &decoded.frames[0][number].samples);
        let square = |(a, b): (&u16, &u16)| (i64::from(*a) - i64::from(*b)).pow(2);
        let sum: i64 = these.iter().zip(those).map(square).sum();
        assert!(sum > 0);
        assert_eq!(plane.at("sq_err").number(), sum as f64);
        assert_eq!(plane.at("identical"), &Json::Truth(false));
        assert!(!plane.names().contains(&"ssim"));
    }
}

#[test]
fn a_run_totals_errors_and_takes_means_of_the_rest() {
    let room = Room::new("means");
    let original = Video::new(33, 34, 8, "420", 5, 7);
    let decoded = original.noisy(8);
    let (a, b) = (room.file("a.y4m", &original.y4m()), room.file("b.y4m", &decoded.y4m()));
    let ended = run(&words!["compare", a, b, "--json"]);
    let report = Json::read(ended.passes());
    let (frames, run) = (report.at("frames").list(), report.at("run"));
    assert_eq!(run.at("frames").number(), 5.0);
    for plane in 0..3 {
        let told = &run.at("planes").list()[plane];
        let add = |name: &str| frames.iter().map(|f| f.at("planes").list()[plane].at(name).number()).sum::<f64>();
        for name in ["sq_err", "n_pixels"] {
            assert_eq!(told.at(name).number(), add(name));
        }
        psnr(told);
        for name in ["ssim", "cs", "scale1_ssim", "scale5_cs", "msssim", "hvs"] {
            assert_eq!(told.at(name).number().to_bits(), (add(name) / 5.0).to_bits(), "{}", name);
        }
    }
    let whole = |name: &str| frames.iter().map(|f| f.at("combined").at(name).number()).sum::<f64>();
    assert_eq!(run.at("combined").at("sq_err").number(), whole("sq_err"));
    psnr(run.at("combined"));
    let near = |name: &str| (run.at("combined").at(name).number() - whole(name) / 5.0).abs() < 1e-12;
    assert!(near("ssim") && near("scale3_cs") && near("msssim") && near("hvs"));
}

/// Each plane in turn has the largest error.
fn uneven(original: &Video) -> Video {
    let mut other = original.clone();
    for (frame, planes) in other.frames.iter_mut().enumerate() {
        for (number, plane) in planes.iter_mut().enumerate() {
            let flipped = 4 << (2 * ((2 + frame + 2 * number) % 3));
            plane.samples.iter_mut().step_by(3).for_each(|sample| *sample ^= flipped);
        }
    }
    other
}

/// Combined PSNR-HVS, which lies among its planes' up to rounding, and the average of these.
fn average(scope: &Json, chroma: &str) -> [f64; 2] {
    let planes: Vec<f64> = scope.at("planes").list().iter().map(|plane| plane.at("hvs").number()).collect();
    let (least, most) = planes.iter().fold((f64::MAX, 0.0f64), |(l, m), hvs| (l.min(*hvs), m.max(*hvs)));
    let combined = scope.at("combined").at("hvs").number();
    let part = 0.5f64.powi(50);
    assert!(least < most, "{:?}", planes);
    assert!(least * (1.0 - part) <= combined && combined <= most * (1.0 + part), "{} of {:?}", combined, planes);
    let decibels = scope.at("combined").at("hvs_db").number();
    assert_eq!(decibels.to_bits(), (-10.0 * combined.log10()).to_bits());
    let c = weight(chroma);
    [combined, (planes[0] + c * (planes[1] + planes[2])) / (1.0 + 2.0 * c)]
}

/// What av-metrics gives is none, since it multiplies by 1 + 2c.
#[test]
fn hvs_of_a_combination_is_an_average() {
    let room = Room::new("average");
    let formats = [(8, "420"), (10, "420"), (8, "422"), (8, "444"), (12, "444")];
    for (number, (depth, chroma)) in formats.into_iter().enumerate() {
        let original = Video::new(43, 37, depth, chroma, 3, 40 + number as u64);
        let (a, b) = (room.file("a.y4m", &original.y4m()), room.file("b.y4m", &uneven(&original).y4m()));
        let report = Json::read(run(&words!["compare", &a, &b, "--json", "--metrics=hvs"]).passes());
        for frame in report.at("frames").list() {
            let [told, wanted] = average(frame, chroma).map(f64::to_bits);
            assert_eq!(told, wanted, "{}", chroma);
        }
        // of the run the sums over the frames are combined, so that its last bits may be others
        let [told, near] = average(report.at("run"), chroma);
        assert!((told - near).abs() < near * 1e-12);
    }
}

#[test]
fn identical_files_say_identical_and_100() {
    let room = Room::new("identical");
    for chroma in ["420", "400"] {
        let video = Video::new(32, 32, 8, chroma, 2, 9);
        let a = room.file("a.y4m", &video.y4m());
        let words = words!["compare", &a, &a, "--json", "--min-psnr", "1000", "--max-error", "0", "--max-hvs", "0"];
        let ended = run(&words);
        let report = Json::read(ended.passes());
        let combined = report.at("run").at("combined");
        assert_eq!(combined.at("identical"), &Json::Truth(true));
        assert_eq!((combined.at("psnr_hundredths").number(), combined.at("psnr_db").number()), (10_000.0, 100.0));
        assert_eq!(combined.at("hvs_db").number(), 100.0);
        assert!(run(&words!["compare", &a, &a]).passes().contains("every frame is identical (PSNR 100)"));
    }
}

/// More frames than one series has places for, in memory that does not grow with them.
#[test]
fn a_run_may_be_longer_than_a_series() {
    let room = Room::new("series");
    let (count, frame) = (70_000, 64);
    let a = room.file("a.yuv", &vec![7; count * frame]);
    let b = room.file("b.yuv", &vec![9; count * frame]);
    let script =
        "ulimit -v 200000; exec \"$0\" \"$@\" --size=8x8 --depth=8 --chroma=400 --metrics=error --csv | tail -n 3";
    let ended = run_in(script, &words!["compare", a, b]);
    let n = count * frame;
    // 10 × log10(255² / 4)
    let figures = format!("{:?},{},255,false,4.0,4211,", (4 * n) as f64, n);
    let rows: Vec<&str> = ended.passes().lines().collect();
    assert!(rows[0].starts_with(&format!("run,,y,{}", figures)), "{}", rows[0]);
    assert!(rows[1].starts_with(&format!("run,,combined,{}", figures)), "{}", rows[1]);
}

#[test]
fn raw_files_and_a_pipe_give_what_y4m_gives() {
    let room = Room::new("raw");
    for (width, height, depth, chroma) in
        [(33, 33, 8, "420"), (31, 17, 10, "422"), (16, 16, 12, "400"), (18, 18, 5, "444")]
    {
        let original = Video::new(width, height, depth, chroma, 3, 10);
        let decoded = original.noisy(11);
        let (a, b) = (room.file("a.yuv", &original.raw()), room.file("b.yuv", &decoded.raw()));
        let (size, depth_word) = (format!("{}x{}", width, height), depth.to_string());
        let told = words!["--size", &size, "--depth", &depth_word, "--chroma", chroma, "--csv"];
        let raw = run(&[&words!["compare", &a, &b][..], &told].concat());
        let fed = run_fed(&[&words!["compare", "-", &b][..], &told].concat(), &original.raw());
        assert_eq!(raw.passes(), fed.passes());
        let rows = raw.out.lines().filter(|line| line.starts_with("frame,") || line.starts_with("run,"));
        assert_eq!(rows.count(), 4 * (original.frames[0].len() + 1));
        if depth >= 8 {
            let (c, d) = (room.file("a.y4m", &original.y4m()), room.file("b.y4m", &decoded.y4m()));
            assert_eq!(run(&words!["compare", &c, &d, "--csv"]).passes(), raw.out);
            assert_eq!(run_fed(&words!["compare", &c, "-", "--csv"], &decoded.y4m()).passes(), raw.out);
        }
    }
}
