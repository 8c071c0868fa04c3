//! Files that are short, unlike or unreadable: status 3, with what and where.

use crate::run::{run, run_in, Room};
use crate::video::Video;
use crate::words;
use std::ffi::OsString;
use std::os::unix::ffi::OsStringExt;

fn video() -> Video {
    Video::new(32, 32, 8, "420", 3, 1)
}

#[test]
fn every_cut_of_a_file_is_an_error() {
    let room = Room::new("cut");
    let (whole, header) = (video().y4m(), video().header().len());
    let a = room.file("a.y4m", &whole);
    let frame = 6 + 32 * 32 * 3 / 2;
    for frames in 0..=3 {
        for extra in [0, 1, 3, 5, 6, 7, 1030, 1031, frame - 1] {
            let end = header + frames * frame + extra;
            if end >= whole.len() {
                continue;
            }
            let b = room.file("b.y4m", &whole[..end]);
            let ended = run(&words!["compare", &a, &b, "--metrics", "error", "--json"]);
            match extra {
                0 if frames > 0 => ended.says(3, &[&format!("b.y4m ends after {} frames", frames), "a.y4m has more"]),
                0 => ended.says(3, &["b.y4m ends after 0 frames"]),
                1..=5 => ended.says(3, &["b.y4m: byte", &format!("no whole line FRAME before frame {}", frames)]),
                _ => ended.says(3, &[&format!("b.y4m: byte {}: frame {} is cut short: plane", end, frames)]),
            }
            assert!(ended.out.contains("\"status\":3,\n\"passed\":false}"));
            // the longer one is as wrong on the other side
            assert_eq!(run(&words!["compare", &b, &a, "--metrics", "error"]).status, 3);
        }
    }
}

#[test]
fn a_cut_header_and_an_empty_file_are_errors() {
    let room = Room::new("header");
    let (whole, header) = (video().y4m(), video().header().len());
    let a = room.file("a.y4m", &whole);
    for end in 0..header {
        let b = room.file("b.y4m", &whole[..end]);
        run(&words!["compare", &b, &a]).says(3, &["b.y4m: byte"]);
        run(&words!["compare", &a, &b]).says(3, &["b.y4m: byte"]);
    }
    let none = room.file("none.y4m", &whole[..header]);
    run(&words!["compare", &none, &none]).says(3, &["no frames"]);
    let empty = room.file("empty.yuv", b"");
    run(&words!["compare", &empty, &empty, "--size=8x8", "--depth=8", "--chroma=420"]).says(3, &["no frames"]);
}

#[test]
fn bytes_after_the_last_frame_are_an_error() {
    let room = Room::new("after");
    let a = room.file("a.y4m", &video().y4m());
    for extra in [&b"\n"[..], b"F", b"FRAME", b"FRAMES\n", b"frame\n", b"\0", b"FRAME\0\n"] {
        let b = room.file("b.y4m", &[&video().y4m(), extra].concat());
        run(&words!["compare", &a, &b, "--metrics=error"])
            .says(3, &[&format!("b.y4m: byte {}", video().y4m().len()), "before frame 3"]);
    }
    let raw = room.file("a.yuv", &video().raw());
    let more = room.file("b.yuv", &[&video().raw()[..], &[0]].concat());
    let told = words!["--size=32x32", "--depth=8", "--chroma=420", "--metrics=error"];
    let ended = run(&[&words!["compare", &raw, &more][..], &told].concat());
    ended.says(3, &["b.yuv: byte 4609: frame 3 is cut short: plane y has 1 of 1024 samples"]);
}

#[test]
fn a_y4m_file_is_not_read_as_raw() {
    let room = Room::new("mixed");
    let (a, b) = (room.file("a.yuv", &video().raw()), room.file("b.y4m", &video().y4m()));
    let told = words!["--size=32x32", "--depth=8", "--chroma=420"];
    run(&[&words!["compare", &a, &b][..], &told].concat()).says(3, &["b.y4m: byte 0: this is a Y4M file"]);
    run(&words!["compare", &a, &b]).says(3, &["a.yuv: byte 0: not a Y4M file"]);
}

#[test]
fn frames_may_have_parameters() {
    let room = Room::new("parameters");
    let video = video();
    let a = room.file("a.y4m", &video.y4m());
    let mut bytes = video.header().into_bytes();
    for frame in 0..3 {
        bytes.extend(b"FRAME Ixyz XEXTRA=1\n");
        bytes.extend(video.frame_bytes(frame));
    }
    let b = room.file("b.y4m", &bytes);
    run(&words!["compare", &a, &b, "--max-error=0"]).passes();
}

#[test]
fn unlike_files_are_errors_and_aspect_and_siting_are_not_compared() {
    let room = Room::new("unlike");
    let a = room.file("a.y4m", &video().y4m());
    let cases: [(usize, usize, u32, &'static str, &str); 5] = [
        (34, 32, 8, "420", "size"),
        (32, 34, 8, "420", "size"),
        (32, 32, 10, "420", "depth"),
        (32, 32, 8, "444", "chroma"),
        (32, 30, 9, "400", "size and depth and chroma"),
    ];
    for (width, height, depth, chroma, words) in cases {
        let b = room.file("b.y4m", &Video::new(width, height, depth, chroma, 3, 1).y4m());
        run(&words!["compare", &a, &b]).says(3, &[&format!("differ in {}:", words), "a.y4m", "b.y4m"]);
    }
    let other = video().y4m_under("YUV4MPEG2 H32 W32 F60:2 Ip A4:3 C420paldv XYSCSS=420PALDV XA=1\n");
    let b = room.file("b.y4m", &other);
    run(&words!["compare", &a, &b, "--max-error=0", "--strict"]).passes();
    let bare = room.file("b.y4m", &video().y4m_under("YUV4MPEG2 W32 H32\n"));
    assert_eq!(run(&words!["compare", &a, &bare, "--max-error=0"]).status, 0);
}

#[test]
fn a_parameter_given_twice_is_an_error() {
    let room = Room::new("twice");
    for words in ["W32", "H32", "C420 C420", "F30:1 F30:1", "Ip Ip", "A1:1 A4:3", "XCOLORRANGE=FULL XCOLORRANGE=FULL"] {
        let a = room.file("a.y4m", &video().y4m_under(&format!("YUV4MPEG2 W32 H32 {}\n", words)));
        let last = words.rsplit(' ').next().unwrap();
        run(&words!["compare", &a, &a]).says(3, &["a.y4m: byte ", &format!("{}: given twice", last)]);
    }
}

#[test]
fn each_colour_space_is_read_or_named() {
    let room = Room::new("spaces");
    for (depth, chroma, names) in [
        (8, "420", &["420", "420jpeg", "420mpeg2", "420paldv"][..]),
        (9, "420", &["420p9"]),
        (12, "420", &["420p12"]),
        (9, "422", &["422p9"]),
        (12, "422", &["422p12"]),
        (9, "444", &["444p9"]),
        (10, "444", &["444p10"]),
        (9, "400", &["mono9"]),
        (12, "400", &["mono12"]),
    ] {
        for name in names {
            let video = Video::new(16, 16, depth, chroma, 1, 2);
            let a = room.file("a.y4m", &video.y4m_under(&format!("YUV4MPEG2 W16 H16 C{}\n", name)));
            let ended = run(&words!["compare", &a, &a, "--metrics=error", "--json"]);
            assert!(ended.passes().contains(&format!("\"bit_depth\":{},\"chroma\":\"{}\"", depth, chroma)));
        }
    }
    for name in ["444alpha", "420p14", "420p16", "422p16", "mono16", "411", "", "420P10", "rgb", "\u{1b}[2J"] {
        let a = room.file("a.y4m", format!("YUV4MPEG2 W16 H16 C{}\nFRAME\n", name).as_bytes());
        let shown = name.replace('\u{1b}', "\\x1b");
        run(&words!["compare", &a, &a]).says(3, &["byte 18", &format!("C{}: a colour space", shown)]);
    }
}

#[test]
fn refusals_say_frame_plane_score_and_rule() {
    let room = Room::new("refusals");
    let small = Video::new(30, 30, 8, "420", 1, 3);
    let a = room.file("a.y4m", &small.y4m());
    run(&words!["compare", &a, &a]).says(3, &["frame 0, plane u: five scales: refusal 3: a side is below"]);
    run(&words!["compare", &a, &a, "--metrics=error,ssim,hvs"]).passes();
    let smaller = Video::new(14, 15, 8, "420", 1, 3);
    let a = room.file("a.y4m", &smaller.y4m());
    run(&words!["compare", &a, &a, "--metrics=hvs"]).says(3, &["frame 0, plane u: PSNR-HVS: refusal 3:"]);
    run(&words!["compare", &a, &a, "--metrics=error,ssim"]).passes();
    // a word above the depth's largest, in the second frame's last plane
    let mut high = Video::new(16, 16, 10, "444", 2, 4);
    high.frames[1][2].samples[200] = 1_024;
    let a = room.file("a.y4m", &high.y4m());
    let ended = run(&words!["compare", &a, &a, "--json"]);
    ended.says(3, &["frame 1, plane v: squared error: refusal 6: a visible sample is above the depth's largest"]);
    ended.says(3, &["a.y4m has 1024 at row 12, column 8, both counted from 0; the largest of 10 bits is 1023\n"]);
    assert!(ended.out.contains("\"refusal\":6}") && ended.out.contains("\"run\":null"));
    // in the decoded file only
    let good = room.file("good.y4m", &Video::new(16, 16, 10, "444", 2, 4).y4m());
    for metrics in ["error", "ssim", "scales", "hvs"] {
        let ended = run(&words!["compare", &good, &a, "--metrics", metrics]);
        ended.says(3, &["frame 1, plane v: ", "refusal 6", "a.y4m has 1024 at row 12, column 8"]);
        assert!(!ended.err.contains("good.y4m"));
    }
}

/// Chroma whose rows are a byte short, as ffmpeg writes it where the width is odd and samples are words.
#[test]
fn short_rows_of_odd_widths_are_explained() {
    let room = Room::new("odd");
    let written = |samples: u16| {
        let mut video = Video::new(17, 16, 10, "420", 2, 5);
        video.frames.iter_mut().flatten().for_each(|plane| plane.samples.fill(samples));
        let mut bytes = video.header().into_bytes();
        for frame in &video.frames {
            bytes.extend(b"FRAME\n");
            for plane in frame {
                let short = usize::from(plane.width != 17);
                for row in plane.samples.chunks(plane.width) {
                    let row: Vec<u8> = row.iter().flat_map(|sample| sample.to_le_bytes()).collect();
                    bytes.extend(&row[..row.len() - short]);
                }
            }
        }
        bytes
    };
    let explained = "with each row a byte short; see docs/COMMAND.md)";
    // 0x03FF becomes 0xFF03 where a byte is missing; all zeros stay zeros, until what follows the chroma is not there
    let a = room.file("a.y4m", &written(0x03ff));
    run(&words!["compare", &a, &a, "--metrics=error"]).says(3, &["frame 0, plane u", "refusal 6", explained]);
    let zeros = written(0);
    let frame = zeros.len() / 2;
    let a = room.file("a.y4m", &zeros[..frame]);
    run(&words!["compare", &a, &a, "--metrics=error"]).says(3, &["frame 0 is cut short: plane v", explained]);
    let more = [&zeros[..frame], &[0; 2_000]].concat();
    let a = room.file("a.y4m", &more);
    run(&words!["compare", &a, &a, "--metrics=error"]).says(3, &["no whole line FRAME before frame 1", explained]);
    // of bytes, of even widths and of raw files nothing is said
    let cut = |video: Video| room.file("a.y4m", &video.y4m()[..video.y4m().len() - 9]);
    for video in
        [Video::new(17, 16, 8, "420", 1, 6), Video::new(18, 16, 10, "420", 1, 6), Video::new(17, 16, 10, "444", 1, 6)]
    {
        let a = cut(video);
        let ended = run(&words!["compare", &a, &a, "--metrics=error"]);
        ended.says(3, &["frame 0 is cut short"]);
        assert!(!ended.err.contains("a byte short"));
    }
}

#[test]
fn what_cannot_be_opened_is_said() {
    let room = Room::new("open");
    let a = room.file("a.y4m", &video().y4m());
    run(&words!["compare", &a, room.path("missing.y4m")]).says(3, &["missing.y4m: cannot open"]);
    run(&words!["compare", room.path(""), &a]).says(3, &["cannot read"]);
    run_in("exec \"$0\" compare \"$1\" - <&-", &[&a]).says(3, &["standard input"]);
}

#[test]
fn names_need_not_be_text() {
    let room = Room::new("names");
    let name = OsString::from_vec(b"a\xff\"\n\x1b.y4m".to_vec());
    let a = room.file(&name, &video().y4m());
    let ended = run(&words!["compare", &a, &a, "--json", "--metrics=error"]);
    let report = crate::json::Json::read(ended.passes());
    assert!(report.at("original").text().ends_with("a\u{fffd}\"??.y4m"));
    run(&words!["compare", &a, "missing"]).says(3, &["missing: cannot open"]);
}
