//! How the program ends where something fails.

use crate::run::{answer, failure, folder, graph, names, program, put, root, run, run_in};
use std::fs::File;
use std::os::unix::process::ExitStatusExt;
use std::process::Stdio;
use std::thread::sleep;
use std::time::Duration;

#[test]
fn help_has_an_example() {
    for command in ["move", "check", "classes", "cut", "copies", "positions", "mend"] {
        let help = run(&[command, "--help"]);
        assert_eq!((help.errors.as_str(), help.status), ("", 0));
        assert!(help.output.contains("\nExample") && help.output.contains(&format!("$ tickdrizzle {command} ")));
    }
    assert_eq!(run(&["--version"]), answer("tickdrizzle 1.0.0\n", 0));
}

#[test]
fn examples_in_the_help_are_what_is_printed() {
    for command in ["move", "why", "check", "classes", "copies", "positions", "settles", "cues"] {
        let help = run(&[command, "--help"]).output;
        let lines: Vec<_> = help.lines().skip_while(|line| !line.starts_with("  $ ")).map(|line| &line[2..]).collect();
        let arguments: Vec<_> = lines[0].split(' ').skip(2).collect();
        let status = if command == "why" { 1 } else { 0 };
        assert_eq!(run(&arguments), answer(&(lines[1..].join("\n") + "\n"), status));
    }
}

#[test]
fn arguments_that_are_not_understood() {
    for arguments in [
        &[][..],
        &["fly"],
        &["move"],
        &["move", "a", "b", "c"],
        &["move", "--fast", "."],
        &["cut", "sheet.csv"],
        &["cut", "sheet.csv", "--cues", "x"],
    ] {
        let outcome = run(arguments);
        assert_eq!((outcome.output.as_str(), outcome.status), ("", 64), "{arguments:?}");
        assert!(!outcome.errors.is_empty());
    }
    let one = "tickdrizzle: examples/found/source.csv: this is one sheet; give its folder, or both sheets\n";
    assert_eq!(run(&["move", "examples/found/source.csv"]), failure(one, 64));
}

#[test]
fn what_cannot_be_read() {
    let here = folder("unread");
    let missing =
        "tickdrizzle: .: there is no show: source.csv, .ods, .xlsx, .tsv, .tab or .txt. The folder has no file. Give \
                   both sheets, or rename them.\n";
    assert_eq!(run_in(&here, &["move", "."]), failure(missing, 4));
    assert_eq!(run_in(&here, &["move", "--csv", "."]), answer("refused,1,20\r\n", 2));
    let no_folder = "tickdrizzle: nowhere: reading failed: there is no such file\n";
    for command in ["move", "check", "classes", "copies", "positions", "mend"] {
        assert_eq!(run_in(&here, &[command, "nowhere"]), failure(no_folder, 4));
    }
    let long = File::create(here.join("long.csv")).expect("files can be made");
    long.set_len((1 << 24) + 1).expect("it may be long");
    let too_long = "tickdrizzle: long.csv: reading failed: the file is too long for a sheet\n";
    assert_eq!(run_in(&here, &["check", "long.csv"]), failure(too_long, 4));
}

#[test]
fn what_was_answered_before_a_failure_is_said() {
    let here = folder("before");
    put(&here, "one.csv", "1\n");
    put(&here, "two.csv", "1\r\n");
    let checked = run_in(&here, &["check", "two.csv", "nowhere"]);
    assert_eq!((checked.output.as_str(), checked.status), ("two.csv: a linking table of 1 cue.\n", 4));
    let mended = run_in(&here, &["mend", "one.csv", "nowhere"]);
    assert!(mended.output.ends_with("Written: one.mended.csv\n") && mended.errors.contains("nowhere"));
    assert_eq!(mended.status, 4);
}

#[test]
fn an_answer_that_cannot_be_written() {
    let full = File::options().write(true).open("/dev/full").expect("the device is there");
    let done = program(&root(), &["move", "examples/found"]).stdout(full).output().expect("the program runs");
    let message = "tickdrizzle: writing the answer failed: no space left on device\n";
    assert_eq!(String::from_utf8_lossy(&done.stderr), message);
    assert_eq!(done.status.code(), Some(4));
    let page = "tickdrizzle: /dev/full: writing failed: no space left on device\n";
    assert_eq!(run(&["move", "examples/found", "--html", "/dev/full"]), failure(page, 4));
}

#[test]
fn a_file_is_written_whole_or_not_at_all() {
    let here = folder("whole");
    put(&here, "table.csv", "1\r\n");
    let message = "tickdrizzle: nowhere/part.csv: writing failed: there is no such folder\n";
    assert_eq!(run_in(&here, &["cut", "table.csv", "--cues", "1", "-o", "nowhere/part.csv"]), failure(message, 4));
    assert_eq!(names(&here), ["table.csv"]);
}

#[test]
fn an_interrupt_leaves_nothing_behind() {
    let here = folder("interrupt");
    put(&here, "source.csv", graph(20, 1));
    put(&here, "target.csv", graph(118, 2));
    let mut command = program(&here, &["move", ".", "--html", "page.html"]);
    let search = command.stdout(Stdio::piped()).stderr(Stdio::piped()).spawn().expect("the program runs");
    sleep(Duration::from_millis(800));
    let id = search.id().try_into().expect("the number is small");
    // SAFETY: the process was started above and has not been waited for.
    assert_eq!(unsafe { libc::kill(id, libc::SIGINT) }, 0);
    let done = search.wait_with_output().expect("the program ends");
    assert_eq!(done.status.signal(), Some(libc::SIGINT));
    assert_eq!((done.stdout, done.stderr), (Vec::new(), Vec::new()));
    assert_eq!(names(&here), ["source.csv", "target.csv"]);
}
