//! Hostile files: every one ends soon, with a message, a status of 1 to 3 and no panic, in little memory.

use crate::json::Json;
use crate::run::{run, run_in, Room};
use crate::video::{Random, Video};
use crate::words;
use fuavelino::{MOST_SAMPLES, MOST_SIDE};

/// What a run may take, in KiB of address space: enough for the command and small frames.
const MEMORY: &str = "200000";

#[test]
fn great_claims_are_refused_at_once() {
    let room = Room::new("great");
    let script = format!("ulimit -v {}; exec \"$0\" compare \"$1\" \"$1\"", MEMORY);
    let [wide, high] = [format!("W{} H16", MOST_SIDE + 1), format!("W16 H{}", MOST_SIDE + 1)];
    for sides in ["W2147483648 H2147483648", &wide, &high, "W0 H16", "W16 H0", "W18446744073709551616 H1"] {
        let a = room.file("a.y4m", format!("YUV4MPEG2 {} C444p12\nFRAME\nxx", sides).as_bytes());
        run_in(&script, &[&a]).says(3, &["a.y4m: header", "refusal 2"]);
    }
    // the largest that is taken: memory grows with what the file holds, not with what it claims
    let claim = format!("YUV4MPEG2 W{} H{} C444p12\nFRAME\nxxxx", MOST_SIDE, MOST_SIDE);
    let cut = format!("byte {}: frame 0 is cut short: plane y has 2 of {} samples", claim.len(), MOST_SAMPLES);
    let a = room.file("a.y4m", claim.as_bytes());
    run_in(&script, &[&a]).says(3, &[&cut]);
}

/// Room for the frames, and none for the five scales of such a plane: 2 times 4 × 4,096 × 4,096 bytes.
#[test]
fn out_of_memory_is_said() {
    let room = Room::new("memory");
    let a = room.file("a.yuv", &vec![0; 4_096 * 4_096]);
    let format = "--size=4096x4096 --depth=8 --chroma=400 --jobs=1";
    let script = format!("ulimit -v 100000; exec \"$0\" compare \"$1\" \"$1\" {} --metrics=scales --json", format);
    let ended = run_in(&script, &[&a]);
    ended.says(3, &["frame 0, plane y: five scales: out of memory: no room", "(refusal 8)"]);
    assert!(!ended.err.contains("lent scratch"));
    assert_eq!(Json::read(&ended.out).at("error").at("refusal").number(), 8.0);
    // with more room it is scored
    run_in(&script.replace("100000", "1000000"), &[&a]).passes();
}

#[test]
fn numbers_must_be_decimal() {
    let room = Room::new("decimal");
    for wrong in ["W-16", "W+16", "W", "W16.0", "W1e3", "W0x10", "W16\0", "W 16", "W16,", "W١٦", "w16", "W16\tH16"] {
        let a = room.file("a.y4m", format!("YUV4MPEG2 {} H16\nFRAME\n", wrong).as_bytes());
        run(&words!["compare", &a, &a]).says(3, &["a.y4m: byte 1"]);
    }
}

#[test]
fn long_lines_are_refused() {
    let room = Room::new("long");
    let video = Video::new(16, 16, 8, "420", 1, 51);
    let line = |count: usize| format!("YUV4MPEG2 W16 H16 X{}\n", "x".repeat(count));
    let most = 4_096 - line(0).len() + 1;
    let a = room.file("a.y4m", &video.y4m_under(&line(most)));
    run(&words!["compare", &a, &a, "--metrics=error"]).passes();
    for count in [most + 1, 10_000, 1_000_000] {
        let a = room.file("a.y4m", &video.y4m_under(&line(count)));
        run(&words!["compare", &a, &a, "--metrics=error"]).says(3, &["byte 0", "more than 4096 bytes"]);
    }
    let frame = [video.header().as_bytes(), b"FRAME ", &[b'x'; 9_000], b"\n"].concat();
    let a = room.file("a.y4m", &frame);
    run(&words!["compare", &a, &a]).says(3, &["more than 4096 bytes"]);
    // an endless line
    run_in("exec \"$0\" compare /dev/zero \"$1\"", &[&a]).says(3, &["/dev/zero: byte 0"]);
}

/// Mutations of a good file, and of its header in particular: each is turned away or found unlike, unless the good file's
/// own frames are still in it.
#[test]
fn mutated_files_pass_only_with_the_same_frames() {
    let room = Room::new("mutated");
    let video = Video::new(16, 18, 8, "444", 2, 52);
    let good = video.y4m();
    let a = room.file("a.y4m", &good);
    let mut r = Random(53);
    let mut statuses = [0; 4];
    for number in 0..300 {
        let bytes = mutated(&mut r, &good, video.header().len());
        let b = room.file("b.y4m", &bytes);
        let order = if number % 2 == 0 { [&a, &b] } else { [&b, &a] };
        let ended = run(&words!["compare", order[0], order[1], "--metrics=error", "--max-error=0", "--json"]);
        // the report is a whole one, and says the same
        let report = Json::read(&ended.out);
        assert_eq!(report.at("status").number(), f64::from(ended.status));
        assert_eq!(report.at("passed"), &Json::Truth(ended.status == 0));
        match ended.status {
            0 => assert!(frames(&bytes) == frames(&good), "mutation {} has other frames", number),
            1 | 3 => ended.says(ended.status, &[]),
            other => panic!("mutation {} has status {}: {}", number, other, ended.err),
        }
        statuses[ended.status as usize] += 1;
    }
    assert!(statuses[0] > 0 && statuses[1] > 0 && statuses[3] > 200, "{:?}", statuses);
}

/// The bytes of each frame of a file of 16 by 18 bytes in three planes, where it is one: read apart from the command.
fn frames(file: &[u8]) -> Option<Vec<Vec<u8>>> {
    let mut lines = file.splitn(2, |byte| *byte == b'\n');
    let (header, mut rest) = (String::from_utf8_lossy(lines.next()?).into_owned(), lines.next()?);
    let side = |tag: char| header.split(' ').skip(1).find_map(|word| word.strip_prefix(tag))?.parse::<usize>().ok();
    if (side('W')?, side('H')?) != (16, 18) || !header.contains(" C444") {
        return None;
    }
    let mut list = Vec::new();
    while !rest.is_empty() {
        let end = rest.iter().position(|byte| *byte == b'\n')?;
        let frame = rest.get(end + 1..end + 1 + 3 * 16 * 18)?;
        list.push(frame.to_vec());
        rest = &rest[end + 1 + frame.len()..];
    }
    Some(list)
}

fn mutated(r: &mut Random, good: &[u8], header: usize) -> Vec<u8> {
    let mut bytes = good.to_vec();
    for _ in 0..1 + r.below(3) {
        let end = if r.below(4) > 0 { header.min(bytes.len()) } else { bytes.len() };
        if end == 0 {
            break;
        }
        let at = r.below(end);
        match r.below(8) {
            0 => bytes[at] ^= 1 << r.below(8),
            1 => bytes[at] = [0, b'\n', b' ', b'-', b'9', 255, b'W', b'C'][r.below(8)],
            2 => drop(bytes.remove(at)),
            3 => bytes.insert(at, r.next() as u8),
            4 => bytes.truncate(at),
            5 => {
                let part = bytes[at..(at + 1 + r.below(20)).min(bytes.len())].to_vec();
                bytes.splice(at..at, part);
            }
            6 => {
                let most = MOST_SIDE.to_string();
                let number = ["99999999999999999999", "-1", "4294967295", &most, "0", ""][r.below(6)];
                bytes.splice(at..(at + 2).min(bytes.len()), number.bytes());
            }
            _ => drop(bytes.drain(at..(at + 1 + r.below(40)).min(bytes.len()))),
        }
    }
    bytes
}
