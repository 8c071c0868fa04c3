//! A list of pairs: one status, one summary, and a report of each, closed as a whole.

use crate::json::Json;
use crate::run::{run, run_fed, run_in, Ended, Room};
use crate::video::Video;
use crate::words;
use std::ffi::OsString;
use std::fs;
use std::path::PathBuf;

/// Files that pass, break a threshold of 0 error, and cannot be compared, under names with spaces and more.
struct Night {
    room: Room,
    good: [OsString; 2],
    broken: [OsString; 2],
    cut: [OsString; 2],
}

impl Night {
    fn new(name: &str) -> Night {
        let room = Room::new(name);
        let video = Video::new(32, 32, 8, "420", 2, 101);
        let file = |name: &str, bytes: &[u8]| room.file(name, bytes);
        let good = [file("an original, \"good\".y4m", &video.y4m()), file(" decoded 1 .y4m", &video.y4m())];
        let broken = [good[0].clone(), file("noisy.y4m", &video.noisy(102).y4m())];
        let cut = [good[0].clone(), file("cut.y4m", &video.y4m()[..2_000])];
        Night { room, good, broken, cut }
    }

    fn list(&self, pairs: &[&[OsString; 2]]) -> OsString {
        let mut text = "# a night\n\n".to_string();
        for [original, decoded] in pairs {
            text += &format!("{}\t{}\n", original.to_str().unwrap(), decoded.to_str().unwrap());
        }
        self.room.file("list", text.as_bytes())
    }

    fn folder(&self) -> PathBuf {
        self.room.path("reports")
    }

    /// What a file of the folder says.
    fn report(&self, name: &str) -> String {
        fs::read_to_string(self.folder().join(name)).unwrap_or_else(|error| panic!("{}: {}", name, error))
    }

    fn names(&self) -> Vec<String> {
        let entries = fs::read_dir(self.folder()).unwrap();
        let mut names: Vec<String> = entries.map(|entry| entry.unwrap().file_name().into_string().unwrap()).collect();
        names.sort();
        names
    }
}

fn compare(list: &OsString, more: &[OsString]) -> Ended {
    run(&[&words!["compare", "--pairs", list, "--max-error=0"][..], more].concat())
}

fn statuses(summary: &Json) -> Vec<f64> {
    summary.at("pairs").list().iter().map(|pair| pair.at("status").number()).collect()
}

#[test]
fn the_worst_status_is_the_lists_and_hides_nothing() {
    let night = Night::new("pairs-worst");
    let Night { good, broken, cut, .. } = &night;
    let missing = &[good[0].clone(), night.room.path("missing.y4m").into_os_string()];
    let cases: [(&[&[OsString; 2]], &[f64]); 6] = [
        (&[good], &[0.0]),
        (&[good, good, good], &[0.0, 0.0, 0.0]),
        (&[good, broken, good], &[0.0, 1.0, 0.0]),
        (&[cut, broken, good], &[3.0, 1.0, 0.0]),
        (&[broken, missing, good, cut, good], &[1.0, 3.0, 0.0, 3.0, 0.0]),
        (&[missing], &[3.0]),
    ];
    for (pairs, wanted) in cases {
        let list = night.list(pairs);
        let worst = wanted.iter().fold(0.0, |a: f64, b| a.max(*b));
        let ended = compare(&list, &words!["--json"]);
        assert_eq!(f64::from(ended.status), worst, "{}", ended.err);
        let summary = Json::read(&ended.out);
        assert_eq!(statuses(&summary), wanted);
        assert_eq!((summary.at("status").number(), summary.at("passed")), (worst, &Json::Truth(worst == 0.0)));
        let count = |status: f64| wanted.iter().filter(|told| **told == status).count() as f64;
        let counts = summary.at("counts");
        assert_eq!(counts.at("pairs").number(), wanted.len() as f64);
        assert_eq!(["passed", "broken", "faults"].map(|name| counts.at(name).number()), [0.0, 1.0, 3.0].map(count));
        // each message says which pair it is about
        for (number, status) in wanted.iter().enumerate() {
            let label = format!("fuavelino: pair {}: ", number + 1);
            assert_eq!(ended.err.contains(&label), *status > 0.0, "{}", ended.err);
        }
        let table = compare(&list, &[]);
        assert_eq!((f64::from(table.status), &table.err), (worst, &ended.err));
        let last = table.out.lines().last().unwrap();
        let told = if worst == 0.0 { "passed: pairs: " } else { "NOT PASSED: pairs: " };
        assert!(last.starts_with(&format!("{}{}: {} passed, ", told, wanted.len(), count(0.0))), "{}", last);
    }
}

#[test]
fn each_pair_has_the_report_of_its_own_comparison() {
    for (form, extension) in [("--json", "json"), ("--csv", "csv"), ("", "txt")] {
        let night = Night::new(&format!("pairs-reports-{}", extension));
        let form: Vec<OsString> = Some(form).filter(|form| !form.is_empty()).map(OsString::from).into_iter().collect();
        let pairs = [&night.good, &night.cut, &night.broken];
        let list = night.list(&pairs);
        let direct = compare(&list, &form);
        let ended = compare(&list, &[&form[..], &words!["--output", night.folder()]].concat());
        assert_eq!((ended.status, &ended.out[..], &ended.err), (3, "", &direct.err));
        let names = ["0001", "0002", "0003", "summary"].map(|name| format!("fuavelino-{}.{}", name, extension));
        assert_eq!(night.names(), names);
        for (name, [original, decoded]) in names.iter().zip(pairs) {
            let alone = run(&[&words!["compare", original, decoded, "--max-error=0"][..], &form].concat());
            assert_eq!(night.report(name), alone.out);
        }
        told_alike(&night, &names, &direct.out);
    }
}

/// The summary is the one that standard output has, but that it names the reports.
fn told_alike(night: &Night, names: &[String; 4], direct: &str) {
    let summary = night.report(&names[3]);
    if names[3].ends_with(".json") {
        for (pair, name) in Json::read(&summary).at("pairs").list().iter().zip(names) {
            assert_eq!(pair.at("report").text(), name);
            let report = Json::read(&night.report(name));
            for same in ["original", "decoded", "error", "status", "passed", "broken"] {
                assert_eq!(pair.at(same), report.at(same));
            }
            assert_eq!(pair.at("frames").number(), report.at("frames").list().len() as f64);
            if report.at("run") != &Json::Null {
                assert_eq!(pair.at("combined"), report.at("run").at("combined"));
            }
        }
        let unnamed = names.iter().fold(summary, |text, name| text.replace(&format!("\"{}\"", name), "null"));
        assert_eq!(unnamed, direct);
    } else if names[3].ends_with(".csv") {
        let columns = summary.lines().next().unwrap().split(',').count();
        assert!(summary.starts_with("scope,pair,status,frames,broken,original,decoded,report,message,sq_err,"));
        assert!(summary.ends_with(&format!("\nnot passed{}\n", ",".repeat(columns - 1))));
        // a name with a comma and quotes is one cell
        assert!(summary.contains("an original, \"\"good\"\".y4m\","), "{}", summary);
        assert!(summary.contains("\npair,1,0,2,0,") && summary.contains("\npair,2,3,1,0,"), "{}", summary);
    } else {
        assert_eq!(summary, direct);
    }
}

#[test]
fn a_list_that_is_not_understood_is_a_fault_and_compares_nothing() {
    let night = Night::new("pairs-list");
    let [a, b] = ["original", "decoded"];
    for (text, message) in [
        ("", "list: the list has no pairs"),
        ("# nothing\n\n \n", "list: the list has no pairs"),
        (&format!("{}\t{}\n{}\n", a, b, a), "list: line 2: not two names with one TAB"),
        (&format!("{} {}\n", a, b), "list: line 1: not two names"),
        (&format!("{}\t{}\t{}\n", a, b, b), "list: line 1: not two names"),
        (&format!("{}\t\n", a), "list: line 1: a name is missing"),
        (&format!("-\t{}\n", a), "list: line 1: a pair of a list cannot be standard input"),
    ] {
        // an earlier night that passed, with more in its folder than reports of this form
        compare(&night.list(&[&night.good, &night.good]), &words!["--json", "--output", night.folder()]).passes();
        fs::write(night.folder().join("fuavelino-0001.csv"), "scope,").unwrap();
        fs::write(night.folder().join("fuavelino-x1.json"), "{\"fuavelino\":").unwrap();
        let list = night.room.file("list", text.as_bytes());
        let ended = compare(&list, &words!["--json", "--output", night.folder()]);
        ended.says(3, &[message]);
        let summary = Json::read(&night.report("fuavelino-summary.json"));
        assert!(summary.at("error").at("message").text().contains(message));
        assert!(summary.at("pairs").list().is_empty());
        let kept = ["fuavelino-0001.csv", "fuavelino-summary.json", "fuavelino-x1.json"];
        assert_eq!(night.names(), kept);
        assert_eq!((summary.at("passed"), summary.at("status").number()), (&Json::Truth(false), 3.0));
        for form in [&[][..], &words!["--csv"]] {
            let ended = compare(&list, form);
            ended.says(3, &[message]);
            let last = ended.out.lines().last().unwrap();
            assert!(last.starts_with("NOT PASSED: pairs: 0") || last.starts_with("not passed,,"), "{}", last);
        }
    }
    compare(&night.room.path("no list").into_os_string(), &[]).says(3, &["no list: cannot read"]);
    run_in("exec \"$0\" compare --pairs /dev/zero", &[""; 0]).says(3, &["/dev/zero: a list of more than"]);
}

#[test]
fn a_quiet_list_says_only_what_went_wrong() {
    let night = Night::new("pairs-quiet");
    let ended = compare(&night.list(&[&night.broken, &night.good]), &words!["--quiet"]);
    assert_eq!((ended.status, &ended.out[..], &ended.err[..]), (1, "", ""));
    let ended = compare(&night.list(&[&night.broken, &night.cut]), &words!["--quiet"]);
    ended.says(3, &["fuavelino: pair 2: "]);
    assert!(ended.out.is_empty() && !ended.err.contains("pair 1: "));
}

#[test]
fn a_list_may_come_from_standard_input() {
    let night = Night::new("pairs-stdin");
    let list = fs::read(night.list(&[&night.good, &night.good])).unwrap();
    let crlf = String::from_utf8(list.clone()).unwrap().replace('\n', "\r\n").into_bytes();
    for list in [&list[..], &list[..list.len() - 1], &crlf] {
        let ended = run_fed(&words!["compare", "--pairs", "-", "--json", "--max-error=0"], list);
        assert_eq!(statuses(&Json::read(ended.passes())), [0.0, 0.0]);
    }
}

/// The second pair waits for a pipe: while it does, and after the run is killed, nothing of an earlier night says that it
/// passed, but the pair that did.
#[test]
fn a_killed_list_has_passed_only_what_had_ended() {
    let night = Night::new("pairs-killed");
    let earlier = night.list(&[&night.good, &night.good, &night.good, &night.good]);
    compare(&earlier, &words!["--json", "--output", night.folder()]).passes();
    let pipe = night.room.path("pipe");
    let list = night.list(&[&night.good, &[night.good[0].clone(), pipe.clone().into_os_string()], &night.good]);
    let script =
        "mkfifo \"$2\" && { \"$0\" compare --pairs \"$1\" --max-error=0 --json --output \"$3\" & } && pid=$! && \
                  exec 3>\"$2\" && kill -9 $pid && ! wait $pid 2>/dev/null";
    let ended = run_in(script, &words![list, pipe, night.folder()]);
    assert_eq!(ended.status, 0, "{}", ended.err);
    let passed = |name: &str| Json::read(&night.report(&format!("fuavelino-{}.json", name))).at("passed").clone();
    assert_eq!(["0001", "0002", "0003", "summary"].map(passed), [true, false, false, false].map(Json::Truth));
    // of the fourth, which is no longer there, nothing is said
    assert_eq!(night.names().iter().filter(|name| name.ends_with(".json")).count(), 4);
}

/// The list is a pipe, from which nothing comes.
#[test]
fn while_a_list_is_awaited_nothing_has_passed() {
    for (form, extension) in [("--json", "json"), ("--csv", "csv"), ("", "txt")] {
        let night = Night::new(&format!("pairs-awaited-{}", extension));
        let form: Vec<OsString> = Some(form).filter(|form| !form.is_empty()).map(OsString::from).into_iter().collect();
        let list = night.list(&[&night.good, &night.good]);
        compare(&list, &[&form[..], &words!["--output", night.folder()]].concat()).passes();
        let script =
            "mkfifo \"$1\" && { \"$0\" compare --pairs \"$@\" & } && pid=$! && exec 3>\"$1\" && kill -9 $pid && \
                      ! wait $pid 2>/dev/null";
        let words = [&words![night.room.path("pipe"), "--output", night.folder()][..], &form].concat();
        assert_eq!(run_in(script, &words).status, 0);
        let summary = format!("fuavelino-summary.{}", extension);
        let reports: Vec<String> = night.names().into_iter().filter(|name| !name.ends_with(".part")).collect();
        assert_eq!(reports, [&summary[..]]);
        let said = night.report(&summary);
        let not_passed = ["\"passed\":false}", "\nnot passed,", "\nNOT PASSED: "];
        assert!(not_passed.iter().any(|words| said.contains(words)), "{}", said);
    }
}

#[test]
fn one_report_that_cannot_be_written_hides_no_other_pair() {
    let night = Night::new("pairs-lost");
    let list = night.list(&[&night.good, &night.good, &night.good]);
    // a folder in the place of the second report
    fs::create_dir_all(night.folder().join("fuavelino-0002.json")).unwrap();
    let ended = compare(&list, &words!["--json", "--output", night.folder()]);
    ended.says(3, &["fuavelino: pair 2: ", "fuavelino-0002.json: cannot write"]);
    let summary = Json::read(&night.report("fuavelino-summary.json"));
    assert_eq!(statuses(&summary), [0.0, 3.0, 0.0]);
    assert!(summary.at("pairs").list()[1].at("error").at("message").text().contains("cannot write"));
    let nowhere = night.room.file("file", b"");
    compare(&list, &words!["--json", "--output", &nowhere]).says(3, &["cannot write"]);
    run_in("exec \"$0\" compare --pairs \"$1\" >&-", &[&list]).says(3, &["standard output: cannot write"]);
}

#[test]
fn files_that_are_compared_are_not_written_over() {
    let night = Night::new("pairs-over");
    fs::create_dir_all(night.folder()).unwrap();
    for name in ["fuavelino-0001.json", "fuavelino-0007.json"] {
        let path = night.folder().join(name);
        let bytes = fs::read(&night.good[0]).unwrap();
        fs::write(&path, &bytes).unwrap();
        let list = night.list(&[&[night.good[0].clone(), path.clone().into_os_string()]]);
        let ended = compare(&list, &words!["--json", "--output", night.folder()]);
        ended.says(3, &[name, "is to be compared, and has the name of a report"]);
        assert_eq!(fs::read(&path).unwrap(), bytes);
        fs::remove_file(&path).unwrap();
    }
    let list = fs::read(night.list(&[&night.good])).unwrap();
    let path = night.folder().join("fuavelino-summary.json");
    fs::write(&path, &list).unwrap();
    let path = path.into_os_string();
    compare(&path, &words!["--json", "--output", night.folder()]).says(2, &["would be written over"]);
    assert_eq!(fs::read(&path).unwrap(), list);
}
