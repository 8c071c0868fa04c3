//! Jobs: whatever their number, the report, the messages and the status are those of one.

use crate::run::{run, run_fed, run_in, run_stalled, Room};
use crate::video::{Random, Video};
use crate::words;
use std::ffi::OsString;

const JOBS: [&str; 3] = ["2", "3", "8"];

/// The status, the report and the messages that every number of jobs gives.
fn alike(words: &[OsString]) -> (i32, String, String) {
    let with = |jobs: &str| {
        let ended = run(&[words, &words!["--jobs", jobs]].concat());
        (ended.status, ended.out, ended.err)
    };
    let one = with("1");
    assert!(!one.2.contains("panicked"), "{}", one.2);
    for jobs in JOBS {
        assert_eq!(with(jobs), one, "{} jobs", jobs);
    }
    one
}

#[test]
fn good_clips_and_broken_thresholds() {
    let room = Room::new("jobs");
    for (width, height, depth, chroma) in [(33, 35, 8, "420"), (17, 33, 10, "444"), (40, 16, 12, "400")] {
        let original = Video::new(width, height, depth, chroma, 19, 91);
        let (a, b) = (room.file("a.y4m", &original.y4m()), room.file("b.y4m", &original.noisy(92).y4m()));
        for form in [&words!["--json"][..], &words!["--csv"], &[]] {
            let (status, out, err) = alike(&[&words!["compare", &a, &b], form].concat());
            assert_eq!((status, &err[..]), (0, ""));
            assert!(out.lines().count() >= 19);
            let harsh = [&words!["compare", &a, &b, "--min-ssim=0.999", "--max-error=1"], form].concat();
            assert_eq!(alike(&harsh).0, 1);
        }
    }
}

#[test]
fn cut_and_unlike_clips() {
    let room = Room::new("jobs-cut");
    let original = Video::new(16, 16, 8, "444", 11, 93);
    let (whole, header) = (original.y4m(), original.header().len());
    let a = room.file("a.y4m", &whole);
    let frame = 6 + 16 * 16 * 3;
    for frames in [0, 1, 2, 7, 10] {
        for extra in [0, 3, 6, 300, frame - 1] {
            let b = room.file("b.y4m", &whole[..header + frames * frame + extra]);
            let (status, out, err) = alike(&words!["compare", &a, &b, "--json", "--metrics=error,hvs"]);
            assert_eq!(status, 3);
            let rows = out.matches("{\"frame\":").count();
            assert_eq!(rows, frames, "{}", err);
            assert_eq!(alike(&words!["compare", &b, &a, "--csv", "--metrics=hvs"]).0, 3);
        }
    }
    let none = room.file("none.y4m", &whole[..header]);
    assert!(alike(&words!["compare", &none, &none]).2.contains("have no frames"));
}

/// A frame that is refused at once, after one that is refused late, before a cut: the first is told.
#[test]
fn the_first_fault_in_frame_order_is_told() {
    let room = Room::new("jobs-first");
    let mut high = Video::new(64, 64, 10, "444", 9, 94);
    high.frames[5][2].samples[4_095] = 1_024;
    high.frames[6][0].samples[0] = 65_535;
    high.frames[7][1].samples[9] = 1_024;
    let bytes = high.y4m();
    let [a, copy] = ["a.y4m", "copy.y4m"].map(|name| room.file(name, &bytes[..bytes.len() - 7]));
    for _ in 0..10 {
        let (status, out, err) = alike(&words!["compare", &a, &copy, "--csv", "--metrics=error"]);
        assert_eq!((status, err.lines().count()), (3, 1), "{}", err);
        assert!(err.contains("frame 5, plane v: squared error: refusal 6"), "{}", err);
        assert_eq!(out.lines().filter(|line| line.starts_with("frame,")).count(), 5 * 4);
    }
    // without refusals the cut is what is wrong
    let b = Video::new(64, 64, 10, "444", 9, 94).y4m();
    let b = room.file("b.y4m", &b[..bytes.len() - 7]);
    assert!(alike(&words!["compare", &b, &b, "--metrics=error"]).2.contains("frame 8 is cut short: plane v"));
}

#[test]
fn mutated_clips() {
    let room = Room::new("jobs-mutated");
    let video = Video::new(16, 17, 9, "444", 7, 95);
    let (good, mut r) = (video.y4m(), Random(96));
    let a = room.file("a.y4m", &good);
    let mut statuses = [0; 4];
    for _ in 0..40 {
        let mut bytes = good.clone();
        for _ in 0..1 + r.below(3) {
            let at = r.below(bytes.len());
            match r.below(4) {
                0 => bytes[at] = r.next() as u8,
                1 => bytes.truncate(at.max(1)),
                2 => drop(bytes.splice(at..at, *b"FRAME\n")),
                _ => drop(bytes.drain(at..(at + 1 + r.below(900)).min(bytes.len()))),
            }
        }
        let b = room.file("b.y4m", &bytes);
        let (status, ..) = alike(&words!["compare", &a, &b, "--json", "--metrics=error,ssim", "--max-error=0"]);
        statuses[status as usize] += 1;
    }
    assert!(statuses[1] > 0 && statuses[3] > 20, "{:?}", statuses);
}

#[test]
fn a_pipe_and_as_many_jobs_as_cores() {
    let room = Room::new("jobs-pipe");
    let original = Video::new(16, 16, 8, "400", 30, 97);
    let (b, bytes) = (room.file("b.y4m", &original.noisy(98).y4m()), original.y4m());
    let one = run_fed(&words!["compare", "-", &b, "--csv", "--jobs=1"], &bytes);
    assert_eq!(run_fed(&words!["compare", "-", &b, "--csv"], &bytes).passes(), one.passes());
    assert_eq!(run_fed(&words!["compare", "-", &b, "--csv", "--jobs=3"], &bytes).passes(), one.passes());
}

/// Records are totalled by series of 65,536, which of three planes end within a frame: they rise there too, whichever job
/// made them.
#[test]
fn a_run_longer_than_a_series() {
    let room = Room::new("jobs-series");
    let count = 22_000;
    let error = |at: usize| (at * at % 251) as u8;
    let a = room.file("a.yuv", &vec![0; 3 * count]);
    let b = room.file("b.yuv", &(0..3 * count).map(error).collect::<Vec<u8>>());
    let told = words!["--size=1x1", "--depth=8", "--chroma=444", "--metrics=error", "--csv"];
    let with = |jobs: &str| run(&[&words!["compare", &a, &b, "--jobs", jobs][..], &told].concat());
    let (one, three) = (with("1"), with("3"));
    assert!(one.passes() == three.passes());
    let total = |first: usize, step: usize| {
        (first..3 * count).step_by(step).map(|at| u64::from(error(at)).pow(2)).sum::<u64>() as f64
    };
    for (plane, sq_err, n) in [
        ("y", total(0, 3), count),
        ("u", total(1, 3), count),
        ("v", total(2, 3), count),
        ("combined", total(0, 1), 3 * count),
    ] {
        let row = format!("\nrun,,{},{:?},{},255,false,", plane, sq_err, n);
        assert!(one.out.contains(&row), "no {:?}", row);
    }
}

/// Scoring is far slower than reading, and memory has no room for the files: what waits to be scored is bounded.
#[test]
fn memory_is_bounded_by_the_jobs() {
    let room = Room::new("jobs-memory");
    let (count, frame) = (400, 256 * 256);
    let a = room.file("a.yuv", &vec![7; count * frame]);
    let b = room.file("b.yuv", &vec![9; count * frame]);
    // one heap for all threads, so that the limit is about what they hold
    let script = "export MALLOC_ARENA_MAX=1; ulimit -v 50000; exec \"$0\" \"$@\"";
    let told = words!["--size=256x256", "--depth=8", "--chroma=400", "--metrics=hvs", "--csv", "--jobs=4"];
    let ended = run_in(script, &[&words!["compare", &a, &b][..], &told].concat());
    assert_eq!(ended.passes().lines().filter(|line| line.starts_with("frame,")).count(), 2 * count);
}

/// Each of 1,024 threads has a stack, for which there is no room.
#[test]
fn a_short_clip_needs_few_threads() {
    let room = Room::new("jobs-few");
    let original = Video::new(16, 16, 8, "444", 3, 106);
    let (a, b) = (room.file("a.y4m", &original.y4m()), room.file("b.y4m", &original.noisy(107).y4m()));
    let script = "export MALLOC_ARENA_MAX=1; ulimit -v 50000; exec \"$0\" compare \"$@\" --csv --jobs=1024";
    let ended = run_in(script, &[&a, &b]);
    assert_eq!(ended.passes(), run(&words!["compare", &a, &b, "--csv", "--jobs=1"]).passes());
}

/// A fault is told at once, though the pipe has no more frames and no end.
#[test]
fn a_fault_does_not_wait_for_a_pipe() {
    let room = Room::new("jobs-stalled");
    let two = Video::new(14, 14, 8, "420", 2, 99);
    let a = room.file("a.y4m", &two.y4m());
    let first = [two.header().as_bytes(), b"FRAME\n", &two.frame_bytes(0)].concat();
    for jobs in ["1", "3"] {
        let ended = run_stalled(&words!["compare", "-", &a, "--metrics=hvs", "--jobs", jobs], &first);
        ended.says(3, &["frame 0, plane u: PSNR-HVS: refusal 3"]);
    }
}
