//! What is written: never over an input, never over what a user made, and a page for every outcome.

use crate::run::{answer, failure, folder, graph, names, program, put, run_in, Outcome};
use std::ffi::OsStr;
use std::fs;
use std::os::unix::ffi::OsStrExt;
use std::os::unix::fs::symlink;
use std::path::{Path, PathBuf};
use std::process::Stdio;

const SHOW: &str = "1,2\r\n2,1\r\n";

/// A folder with a show and a rig, the same table.
fn hall(name: &str) -> PathBuf {
    let here = folder(name);
    put(&here, "source.csv", SHOW);
    put(&here, "target.csv", SHOW);
    here
}

fn is_input(path: &str) -> Outcome {
    let why = "not written: it is one of the sheets that are read, and these are never changed; choose another name";
    failure(&format!("tickdrizzle: {path}: {why}\n"), 4)
}

fn is_there(path: &str) -> Outcome {
    let why = "not written: it is already there and may be yours; choose another name, or use --force";
    failure(&format!("tickdrizzle: {path}: {why}\n"), 4)
}

fn text(here: &Path, name: &str) -> String {
    fs::read_to_string(here.join(name)).expect("the file is there")
}

#[test]
fn no_input_is_overwritten() {
    let here = hall("inputs");
    put(&here, "source.names.csv", "1,a\r\n2,b\r\n");
    symlink("source.csv", here.join("link.csv")).expect("links can be made");
    fs::hard_link(here.join("source.csv"), here.join("hard.csv")).expect("links can be made");
    fs::create_dir(here.join("deeper")).expect("folders can be made");
    let absolute = here.join("source.csv");
    let before = names(&here);
    for path in [
        "source.csv",
        "./source.csv",
        "deeper/../source.csv",
        "link.csv",
        "hard.csv",
        "source.names.csv",
        absolute.to_str().expect("paths are text"),
    ] {
        for force in [&[][..], &["--force"]] {
            let cut = [&["cut", "source.csv", "--cues", "1", "-o", path][..], force].concat();
            assert_eq!(run_in(&here, &cut), is_input(path));
            let page = [&["move", ".", "--html", path][..], force].concat();
            assert_eq!(run_in(&here, &page), is_input(path));
            let page = [&["cut", "source.csv", "--cues", "1", "--html", path][..], force].concat();
            assert_eq!(run_in(&here, &page), is_input(path));
        }
    }
    for force in [&[][..], &["--force"]] {
        let classes = [&["classes", ".", "--html", "hard.csv"][..], force].concat();
        assert_eq!(run_in(&here, &classes), is_input("hard.csv"));
        // The names of the part would stand where the show's names are.
        let names = [&["cut", "source.csv", "--cues", "1", "-o", "source.txt"][..], force].concat();
        assert_eq!(run_in(&here, &names), is_input("source.names.csv"));
    }
    assert_eq!((text(&here, "source.csv"), text(&here, "source.names.csv")), (SHOW.into(), "1,a\r\n2,b\r\n".into()));
    assert_eq!(names(&here), before);
}

#[test]
fn folders_and_files_whose_names_are_no_text() {
    let here = folder("bytes");
    let hall = here.join(OsStr::from_bytes(b"hall \xE9"));
    fs::create_dir(&hall).expect("folders can be made");
    put(&hall, "source.csv", SHOW);
    put(&hall, "target.csv", SHOW);
    put(&hall, "source.names.csv", "1,a\r\n2,b\r\n");
    let run = |arguments: &[&OsStr]| {
        let done = program(&here, &[]).args(arguments).output().expect("the program runs");
        let text = |bytes: &[u8]| String::from_utf8_lossy(bytes).into_owned();
        (text(&done.stdout), text(&done.stderr), done.status.code())
    };
    let (moved, folder) = (OsStr::new("move"), hall.as_os_str());
    let words = "The show fits: its 2 cues go to 2 of the rig's 2.\n  1 \"a\"  ->  1\n  2 \"b\"  ->  2\n";
    assert_eq!(run(&[moved, folder]), (words.into(), String::new(), Some(0)));
    let names = hall.join("source.names.csv");
    let (_, errors, status) = run(&[moved, folder, "-o".as_ref(), names.as_os_str(), "--force".as_ref()]);
    assert!(errors.contains("it is one of the sheets that are read"), "{errors}");
    assert_eq!((status, text(&hall, "source.names.csv")), (Some(4), "1,a\r\n2,b\r\n".into()));
}

#[test]
fn what_cannot_be_written_is_told_before_a_long_search() {
    let here = folder("before-search");
    put(&here, "source.csv", graph(20, 1));
    put(&here, "target.csv", graph(118, 2));
    put(&here, "mine.csv", "mine");
    for option in ["--output", "--html"] {
        assert_eq!(run_in(&here, &["move", ".", option, "target.csv"]), is_input("target.csv"));
        assert_eq!(run_in(&here, &["move", ".", option, "mine.csv"]), is_there("mine.csv"));
        let folder = failure("tickdrizzle: nowhere/x: writing failed: there is no such folder\n", 4);
        assert_eq!(run_in(&here, &["move", ".", option, "nowhere/x"]), folder);
    }
    let one = failure("tickdrizzle: x: two outputs cannot go to one file\n", 64);
    assert_eq!(run_in(&here, &["move", ".", "--output", "./x", "--html", "x"]), one);
    let both = ["move", ".", "--html", "page.html", "--output", "mine.csv"];
    assert_eq!(run_in(&here, &both), is_there("mine.csv"));
    assert_eq!(names(&here), ["mine.csv", "source.csv", "target.csv"]);
}

#[test]
fn no_input_is_overwritten_where_the_command_fails() {
    let here = folder("inputs-failed");
    put(&here, "source.csv", SHOW);
    assert_eq!(run_in(&here, &["move", ".", "--html", "source.csv", "--force"]), is_input("source.csv"));
    assert_eq!(
        run_in(&here, &["move", "source.csv", "nowhere", "--html", "source.csv", "--force"]),
        is_input("source.csv")
    );
    put(&here, "mine.xlsx", "x");
    assert_eq!(
        run_in(&here, &["move", "mine.xlsx#One", "source.csv", "--html", "mine.xlsx", "--force"]),
        is_input("mine.xlsx")
    );
    assert_eq!(text(&here, "source.csv"), SHOW);
}

#[test]
fn standard_input_is_not_overwritten() {
    let here = hall("inputs-standard");
    let input = fs::File::open(here.join("source.csv")).expect("the file is there");
    let mut command = program(&here, &["cut", "-", "--cues", "1", "-o", "source.csv", "--force"]);
    let done = command.stdin(input).output().expect("the program runs");
    assert_eq!(
        (String::from_utf8_lossy(&done.stderr).into_owned(), done.status.code()),
        (is_input("source.csv").errors, Some(4))
    );
    assert_eq!(text(&here, "source.csv"), SHOW);
}

#[test]
fn what_a_user_made_stays() {
    let here = hall("mine");
    put(&here, "mine.html", "<p>mine");
    put(&here, "mine.csv", "mine");
    assert_eq!(run_in(&here, &["move", ".", "--html", "mine.html"]), is_there("mine.html"));
    let cut = ["cut", "source.csv", "--cues", "2", "-o", "mine.csv"];
    assert_eq!(run_in(&here, &cut), is_there("mine.csv"));
    assert_eq!(run_in(&here, &[&cut[..], &["--html", "page.html"]].concat()), is_there("mine.csv"));
    assert_eq!((text(&here, "mine.html"), text(&here, "mine.csv")), ("<p>mine".into(), "mine".into()));
    assert_eq!(names(&here), ["mine.csv", "mine.html", "source.csv", "target.csv"]);
    assert_eq!(run_in(&here, &["move", ".", "--html", "mine.html", "--force"]).status, 0);
    assert!(text(&here, "mine.html").starts_with("<!DOCTYPE html>"));
    let part = "The part has 2 of the 2 cues:\n  1  is  1\n  2  is  2\nWritten: mine.csv\n";
    assert_eq!(run_in(&here, &[&cut[..], &["--force"]].concat()), answer(part, 0));
    assert_eq!(text(&here, "mine.csv"), SHOW);
    // What holds the same already may be written again.
    assert_eq!(run_in(&here, &cut), answer(part, 0));
    let two = run_in(&here, &["cut", "source.csv", "--cues", "2", "-o", "x", "--html", "./x"]);
    assert_eq!(two, failure("tickdrizzle: ./x: two outputs cannot go to one file\n", 64));
    symlink("nowhere", here.join("link.html")).expect("links can be made");
    let nowhere = failure("tickdrizzle: link.html: not written: it is a link to nowhere\n", 4);
    assert_eq!(run_in(&here, &["move", ".", "--html", "link.html"]), nowhere);
}

#[test]
fn a_page_of_this_program_is_replaced_whatever_the_answer_is() {
    let here = hall("pages-anew");
    let page = |sheet: &str, status: i32| {
        put(&here, "source.csv", sheet);
        assert_eq!(run_in(&here, &["move", ".", "--html", "page.html"]).status, status);
        text(&here, "page.html")
    };
    assert!(page(SHOW, 0).contains("<p>The show fits: its 2 cues go to 2 of the rig's 2.</p>"));
    assert!(page("1,1,1\r\n1,1,1\r\n1,1,1\r\n", 1).contains("<p>The show does not fit"));
    let refused = page("1;x\n2;1\n", 2);
    assert!(refused.contains("<p>A sheet is refused.</p>") && refused.contains("<td class=\"fault\">x"), "{refused}");
    assert_eq!(refused.matches("class=\"fault\"").count(), 1);
    let wrong = page("2,1\r\n1,1\r\n", 2);
    assert_eq!(wrong.matches("class=\"fault\"").count(), 3, "{wrong}");
    put(&here, "source.csv", SHOW);
    assert_eq!(run_in(&here, &["move", ".", "--html", "page.html", "--pin", "3=1"]).status, 64);
    let unpinned = text(&here, "page.html");
    assert!(
        unpinned.contains("<p>--pin &quot;3=1&quot;: there is no cue 3; the show has cues 1 to 2</p>"),
        "{unpinned}"
    );
    fs::remove_file(here.join("source.csv")).expect("it is there");
    assert_eq!(run_in(&here, &["move", ".", "--html", "page.html"]).status, 4);
    assert!(text(&here, "page.html").contains("there is no show"));
    assert_eq!(names(&here), ["page.html", "target.csv"]);
}

#[test]
fn a_page_calls_each_cue_by_the_names_of_its_own_table() {
    let here = hall("pages-names");
    put(&here, "source.names.csv", "1,show one\r\n2,show two\r\n");
    put(&here, "target.names.csv", "1,rig one\r\n2,rig two\r\n");
    let said = |page: &str, data: &str, marked: &str| {
        assert!(page.contains(&format!("id=\"data\">{data}</script>")), "{page}");
        assert!(page.contains(&format!("Point at a cue, or tap it: {marked} are marked.</p>")), "{page}");
    };
    let both = "{\"cues\":[\"Cue \",\"The rig's cue \"],\"images\":[1,2],\"names\":[[\"show one\",\"show two\"],[\"rig one\",\"rig two\"]]}";
    let page = run_in(&here, &["move", ".", "--html", "-"]).output;
    said(&page, both, "its row, its column, the cells that lead to it and its partner");
    put(&here, "source.csv", "1,2\r\n2,x\r\n");
    let rig = "{\"cues\":[\"The rig's cue \"],\"images\":[],\"names\":[[\"rig one\",\"rig two\"]]}";
    let page = run_in(&here, &["move", ".", "--html", "-"]).output;
    said(&page, rig, "its row, its column and the cells that lead to it");
    let part =
        "{\"cues\":[\"Cue \",\"The whole table's cue \"],\"images\":[1],\"names\":[[],[\"rig one\",\"rig two\"]]}";
    let page = run_in(&here, &["cut", "target.csv", "--cues", "1", "--html", "-"]).output;
    said(&page, part, "its row, its column, the cells that lead to it and its partner");
}

#[test]
fn a_page_goes_to_standard_output() {
    let here = hall("standard");
    let page = run_in(&here, &["move", ".", "--html", "-"]);
    assert!(page.output.starts_with("<!DOCTYPE html>") && page.output.ends_with("</html>\n"));
    assert_eq!((page.errors.as_str(), page.status), ("", 0));
    assert_eq!(run_in(&here, &["cut", "source.csv", "--cues", "2", "-o", "-"]), answer(SHOW, 0));
    assert_eq!(run_in(&here, &["cut", "source.csv", "--cues", "2", "-o", "-", "--html", "-"]).status, 64);
    assert_eq!(names(&here), ["source.csv", "target.csv"]);
}

#[test]
fn a_part_has_its_names_beside_it() {
    let here = hall("part-names");
    put(&here, "target.csv", "1,1,4,4\r\n1,2,3,4\r\n1,3,2,4\r\n1,4,1,4\r\n");
    put(&here, "target.names.csv", "1,a\n2,\"b, \"\"c\"\"\"\n3,d\n4,e\n");
    let words = "The part has 2 of the 4 cues:\n  1  is  2 \"b, \"c\"\"\n  2  is  3 \"d\"\nWritten: act.csv\nWritten: act.names.csv\n";
    assert_eq!(run_in(&here, &["cut", "--quiet", "target.csv", "--cues", "3", "-o", "act.csv"]), answer(words, 0));
    assert_eq!(text(&here, "act.names.csv"), "1,\"b, \"\"c\"\"\"\r\n2,d\r\n");
    put(&here, "target.names.csv", "1,a\r\n2,b\r\n");
    let few = run_in(&here, &["cut", "target.csv", "--cues", "3", "-o", "act.csv"]);
    let notes = "Written: act.csv\nNote: target.names.csv has 2 names for 4 cues.\nNote: No names were written for the part: some of \
                 its cues have none.\nNote: act.names.csv was there before and is not about this part.\n";
    assert!(few.output.ends_with(notes), "{}", few.output);
}

#[test]
fn a_closed_pipe_ends_quietly_and_a_closed_output_does_not() {
    let here = hall("closed");
    let mut child =
        program(&here, &["move", "."]).stdout(Stdio::piped()).stderr(Stdio::piped()).spawn().expect("the program runs");
    drop(child.stdout.take());
    let done = child.wait_with_output().expect("it ends");
    assert_eq!((done.stderr, done.status.code()), (Vec::new(), Some(0)));
    let line = format!("'{}' move . >&-", env!("CARGO_BIN_EXE_tickdrizzle"));
    let done =
        std::process::Command::new("sh").args(["-c", &line]).current_dir(&here).output().expect("the shell runs");
    let message = "tickdrizzle: writing the answer failed: standard output is closed\n";
    assert_eq!((String::from_utf8_lossy(&done.stderr).as_ref(), done.status.code()), (message, Some(4)));
}

#[test]
fn a_search_that_takes_too_long_is_stopped() {
    let here = folder("timeout");
    put(&here, "source.csv", graph(20, 1));
    put(&here, "target.csv", graph(118, 2));
    let stopped = "Stopped: 200ms is not enough to tell. Give a larger --timeout, or none.\n";
    for command in ["move", "copies"] {
        assert_eq!(run_in(&here, &[command, ".", "--timeout", "200ms"]), answer(stopped, 3));
    }
    let wrong = run_in(&here, &["move", ".", "--timeout", "10d"]);
    assert_eq!(wrong.status, 64);
    assert!(wrong.errors.contains("d is no unit of time: use ms, s, m or h"), "{}", wrong.errors);
}
