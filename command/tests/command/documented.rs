//! docs/COMMAND.md names every command, option, column and field, and its example is what the command prints.

use crate::json::Json;
use crate::run::{run, run_in, Room};
use crate::video::Video;
use crate::words;

const DOCUMENT: &str = include_str!("../../../docs/COMMAND.md");

fn named(word: &str) {
    let quoted = |end: &str| DOCUMENT.contains(&format!("`{}{}", word, end));
    assert!(quoted("`") || quoted(" "), "docs/COMMAND.md does not name {}", word);
}

#[test]
fn every_option_is_documented() {
    let help = run(&["--help"]);
    let words = help.passes().split(|c: char| !c.is_ascii_lowercase() && c != '-');
    let options: Vec<&str> = words.filter(|word| word.starts_with("--")).collect();
    assert!(options.len() > 15, "{:?}", options);
    options.into_iter().for_each(|option| {
        let shown =
            DOCUMENT.contains(&format!("fuavelino {}", option)) || DOCUMENT.contains(&format!("[{} N]", option));
        if !shown {
            named(option);
        }
    });
}

#[test]
fn every_field_is_documented() {
    let room = Room::new("documents");
    let original = Video::new(32, 32, 8, "420", 1, 81);
    let (a, b) = (room.file("a.y4m", &original.y4m()), room.file("b.y4m", &original.noisy(82).y4m()));
    let csv = run(&words!["compare", &a, &b, "--csv"]);
    for column in csv.passes().lines().next().unwrap().split(',') {
        // the scales between the first and the last are told by those
        if !["scale2", "scale3", "scale4"].contains(&&column[..column.len().min(6)]) {
            named(column);
        }
    }
    let json = run(&words!["compare", &a, &b, "--json", "--max-error=0"]);
    names(&Json::read(&json.out));
    let list = [&a, &b, &a, &a].map(|name| name.to_str().unwrap());
    let list = room.file("list", format!("{}\t{}\n{}\t{}x\n", list[0], list[1], list[2], list[3]).as_bytes());
    names(&Json::read(&run(&words!["compare", "--pairs", &list, "--json", "--max-error=0"]).out));
    let csv = run(&words!["compare", "--pairs", &list, "--csv"]);
    csv.out.lines().next().unwrap().split(',').take(9).for_each(named);
    // with a fault, so that its fields are there too
    let map = room.path("map");
    std::fs::write(&map, "a file in the place of the folder").unwrap();
    names(&Json::read(&run(&words!["where", &a, &b, "--json"]).out));
    names(&Json::read(&run(&words!["where", &a, &b, "--json", "--map", &map]).out));
    names(&Json::read(&run(&words!["better", &a, &b, &b, "--json"]).out));
    let csv = run(&words!["better", &a, &a, &b, "--csv"]);
    let columns = csv.out.lines().next().unwrap().split(',');
    // each figure of a candidate has its name before it
    columns.map(|column| column.split_once('_').map_or(column, |(_, field)| field)).for_each(named);
}

/// In the table of memory.
#[test]
fn the_size_of_a_record_is_documented() {
    let told = format!("| {} for a record, ", std::mem::size_of::<fuavelino::Record>());
    assert!(DOCUMENT.contains(&told), "docs/COMMAND.md has no {:?}", told);
}

#[test]
fn every_command_is_documented() {
    let help = run(&["--help"]);
    let commands = help.passes().lines().filter_map(|line| line.strip_prefix("  fuavelino "));
    let commands: Vec<&str> = commands.filter_map(|line| line.split(|c| " ,".contains(c)).next()).collect();
    assert_eq!(commands, ["compare", "where", "better", "kernel", "clip", "--help"]);
    for command in commands {
        assert!(
            DOCUMENT.contains(&format!("\n    fuavelino {}", command)),
            "docs/COMMAND.md does not show {}",
            command
        );
    }
}

/// A kernel, and the message that tells which heights there are.
#[test]
fn the_examples_of_kernel_are_what_it_prints() {
    for height in ["144", "145"] {
        let ended = run(&["kernel", height]);
        let shown = format!("    fuavelino kernel {}\n    {}{}\n", height, ended.out, ended.err);
        assert!(DOCUMENT.contains(&shown), "docs/COMMAND.md does not show\n{}", shown);
    }
}

/// The clips are those of tools/demo.
#[test]
fn the_example_of_where_is_what_it_prints() {
    let room = Room::new("example");
    let script = "cd \"$1\" && \"$0\" clip pattern original.y4m && \"$0\" clip damaged decoded.y4m && \
                  \"$0\" where original.y4m decoded.y4m --map errors";
    let ended = run_in(script, &[room.path("")]);
    assert_eq!((ended.status, &ended.err[..]), (1, ""));
    let indented = |line: &str| if line.is_empty() { "\n".to_string() } else { format!("    {}\n", line) };
    let shown: String = ended.out.lines().map(indented).collect();
    assert!(DOCUMENT.contains(&shown), "docs/COMMAND.md does not show\n{}", shown);
    let pictures = std::fs::read_dir(room.path("errors")).unwrap().map(|entry| entry.unwrap());
    let pictures: Vec<_> = pictures.map(|entry| (entry.file_name(), std::fs::read(entry.path()).unwrap())).collect();
    assert_eq!(pictures.len(), 1);
    named(pictures[0].0.to_str().unwrap());
    let scale = String::from_utf8(pictures[0].1.split(|byte| *byte == b'\n').nth(1).unwrap().to_vec()).unwrap();
    assert!(DOCUMENT.contains(&indented(&scale)), "docs/COMMAND.md does not show {}", scale);
}

#[test]
fn the_example_of_better_is_what_it_prints() {
    let room = Room::new("example-better");
    let script =
        "cd \"$1\" && \"$0\" clip pattern original.y4m --frames 2 && \"$0\" clip damaged old.y4m --frames 2 && \
                  \"$0\" clip pattern new.y4m --frames 2 && \"$0\" better original.y4m new.y4m old.y4m --expect first";
    let ended = run_in(script, &[room.path("")]);
    let indented = |line: &str| if line.is_empty() { "\n".to_string() } else { format!("    {}\n", line) };
    let shown: String = ended.passes().lines().map(indented).collect();
    assert!(DOCUMENT.contains(&shown), "docs/COMMAND.md does not show\n{}", shown);
}

fn names(json: &Json) {
    match json {
        Json::List(list) => list.iter().for_each(names),
        Json::Object(pairs) => pairs.iter().for_each(|(name, value)| {
            if !["scale2", "scale3", "scale4"].contains(&&name[..name.len().min(6)]) {
                named(name);
            }
            names(value);
        }),
        _ => {}
    }
}
