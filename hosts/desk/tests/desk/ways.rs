//! Other ways to move a show: the next, all, how many; a rig read column first; the partners as a sheet and as a list to print.

use crate::plain::maps;
use crate::random::{of_maps, sheet, Random};
use crate::run::{answer, failure, folder, program, put, root, run, run_in};
use serde_json::{json, Value};
use std::fs;
use std::path::PathBuf;

/// Tables of two and three cues in which the first of a pair decides, or the second.
fn bands(name: &str) -> PathBuf {
    let here = folder(name);
    put(&here, "first.csv", "1,1\r\n2,2\r\n");
    put(&here, "second.csv", "1,2\r\n1,2\r\n");
    put(&here, "three.csv", "1,2,3\r\n1,2,3\r\n1,2,3\r\n");
    here
}

#[test]
fn the_next_way() {
    let here = bands("next");
    let second =
        "The show fits: its 2 cues go to 2 of the rig's 3. This is way 2: 1 comes before it.\n  1  ->  1\n  2  ->  3\n";
    assert_eq!(run_in(&here, &["move", "--next", "second.csv", "three.csv"]), answer(second, 0));
    let last =
        "The show fits: its 2 cues go to 2 of the rig's 3. This is way 6: 5 come before it.\n  1  ->  3\n  2  ->  2\n";
    assert_eq!(run_in(&here, &["move", "--next=5", "second.csv", "three.csv"]), answer(last, 0));
    let none = "There is no such way: the show fits in 6 ways.\n";
    assert_eq!(run_in(&here, &["move", "--next=6", "second.csv", "three.csv"]), answer(none, 1));
    // Read column first this rig takes the show too, but the show fits as it is.
    let one = "There is no such way: the show fits in 1 way.\n";
    assert_eq!(run(&["move", "--next", "examples/found"]), answer(one, 1));
}

#[test]
fn a_number_of_ways_that_stands_apart() {
    for option in ["--all", "--next"] {
        let words = format!("tickdrizzle: 5: there is no such sheet; a number of ways goes after =: {option}=5\n");
        assert_eq!(run(&["move", "examples/found", option, "5"]), failure(&words, 64));
        assert_eq!(run(&["move", option, "5", "examples/found"]), failure(&words, 64));
    }
}

#[test]
fn all_ways() {
    let here = bands("all");
    let two = "The show fits in more than 2 ways. The earliest:\nWay 1:\n  1  ->  1\n  2  ->  2\nWay 2:\n  1  ->  1\n  2  ->  3\n";
    assert_eq!(run_in(&here, &["move", "--all=2", "second.csv", "three.csv"]), answer(two, 0));
    let told = run_in(&here, &["move", "--all", "second.csv", "three.csv", "--json"]);
    let told: Value = serde_json::from_str(&told.output).expect("it is JSON");
    let maps = json!([[1, 2], [1, 3], [2, 1], [2, 3], [3, 1], [3, 2]]);
    assert_eq!(told["result"], json!({"maps": {"images": maps, "complete": true}}));
    let none = "The show does not fit: there is no way to give its 2 cues partners among the rig's 4.\n\
                Note: The rig's table read column first fits: see --mirror.\n";
    assert_eq!(run(&["move", "--all", "examples/none"]), answer(none, 1));
}

#[test]
fn how_many_ways() {
    let here = bands("count");
    let words = "The show fits in 6 ways: 3 places of the rig, 2 ways in each.\n";
    assert_eq!(run_in(&here, &["move", "--count", "second.csv", "three.csv"]), answer(words, 0));
    let none = "The show does not fit: there is no way to give its 2 cues partners among the rig's 4.\n\
                Note: The rig's table read column first fits: see --mirror.\n";
    assert_eq!(run(&["move", "--count", "examples/none"]), answer(none, 1));
    let mirrored =
        "The show fits in 2 ways, with the rig's table read column first: 1 place of the rig, 2 ways in each.\n";
    assert_eq!(run_in(&here, &["move", "--count", "--mirror", "first.csv", "second.csv"]), answer(mirrored, 0));
}

#[test]
fn as_many_ways_as_there_are() {
    let here = folder("count-random");
    let mut random = Random::new(7);
    for _ in 0..20 {
        let (show, rig) = (of_maps(&mut random, 4), of_maps(&mut random, 10));
        put(&here, "source.csv", sheet(&show));
        put(&here, "target.csv", sheet(&rig));
        let told = |option: &str| -> Value {
            serde_json::from_str(&run_in(&here, &["move", ".", option, "--json"]).output).expect("it is JSON")
        };
        let maps = maps(&show, &rig).len();
        let listed = &told("--all=100000")["result"]["maps"]["images"];
        assert_eq!(listed.as_array().map_or(0, Vec::len), maps);
        let ways = &told("--count")["result"]["ways"];
        assert_eq!(ways["places"].as_u64().unwrap_or(0) * ways["in_each"].as_u64().unwrap_or(0), maps as u64);
    }
}

#[test]
fn a_rig_read_column_first() {
    let here = bands("mirror");
    let plain = "The show does not fit: there is no way to give its 2 cues partners among the rig's 2.\n\
                 Note: The rig's table read column first fits: see --mirror.\n";
    assert_eq!(run_in(&here, &["move", "first.csv", "second.csv"]), answer(plain, 1));
    let equal = "The show fits: its 2 cues go to 2 of the rig's 2, with the rig's table read column first.\n  1  ->  1\n  2  ->  2\n";
    assert_eq!(run_in(&here, &["move", "--mirror", "first.csv", "second.csv"]), answer(equal, 0));
    let how = "Note: The orders differ: the rig's table was turned, rows for columns, and searched as usual.\n";
    let part = "The show fits: its 2 cues go to 2 of the rig's 3, with the rig's table read column first.\n  1  ->  1\n  2  ->  2\n";
    assert_eq!(run_in(&here, &["move", "--mirror", "first.csv", "three.csv"]), answer(&format!("{part}{how}"), 0));
    let other = "The show does not fit: there is no way to give its 2 cues partners among the rig's 3, with the rig's table read column first.\n";
    let hint = "Note: The rig's table read row first fits: leave out --mirror.\n";
    assert_eq!(
        run_in(&here, &["move", "--mirror", "second.csv", "three.csv"]),
        answer(&format!("{other}{how}{hint}"), 1)
    );
    let classes = "1 class in 2 sheets. A table and its mirrored one count as the same.\nClass 1, of 2 cues:\n  first.csv\n  second.csv\n";
    assert_eq!(run_in(&here, &["classes", "--mirror", "first.csv", "second.csv"]), answer(classes, 0));
}

#[test]
fn partners_as_a_sheet() {
    let here = folder("partners");
    let named = root().join("examples/named");
    let named = named.to_str().expect("the path is text");
    let words = "The show fits: its 2 cues go to 2 of the rig's 4.\n  \
                 1 \"hold\"             ->  2 \"stay\"\n  2 \"second link, up\"  ->  3 \"change places\"\nWritten: partners.csv\n";
    assert_eq!(run_in(&here, &["move", named, "--output", "partners.csv"]), answer(words, 0));
    let sheet = "Cue,Name,Partner,Partner's name\r\n1,hold,2,stay\r\n2,\"second link, up\",3,change places\r\n";
    assert_eq!(fs::read_to_string(here.join("partners.csv")).expect("it was written"), sheet);
    assert_eq!(run_in(&here, &["move", named, "--output", "-"]), answer(sheet, 0));
    for (example, status) in [("none", 1), ("refused", 2)] {
        let example = root().join("examples").join(example);
        let example = example.to_str().expect("the path is text");
        let none = run_in(&here, &["move", example, "--output", "none.csv"]);
        assert!(none.output.ends_with("Note: none.csv was not written: there are no partners.\n"), "{}", none.output);
        let older = run_in(&here, &["move", example, "--output", "partners.csv"]);
        let note = "Note: partners.csv was not written: there are no partners; what is there is older.\n";
        assert!(older.output.ends_with(note), "{}", older.output);
        assert_eq!((none.status, older.status), (status, status));
    }
    put(&here, "mine.csv", "x");
    let kept = run_in(&here, &["move", named, "--output", "mine.csv"]);
    assert_eq!((kept.status, fs::read(here.join("mine.csv")).expect("it is there")), (4, b"x".to_vec()));
}

#[test]
fn partners_to_print() {
    let here = folder("partners-printed");
    put(&here, "source.csv", crate::run::constant(120, 1));
    put(&here, "target.csv", crate::run::constant(120, 1));
    let mut command = program(&here, &["move", ".", "--html", "-", "--partners"]);
    let done = command.env("SOURCE_DATE_EPOCH", "1794787200").output().expect("the program runs");
    let page = String::from_utf8(done.stdout).expect("it is text");
    let heads =
        page.matches("<header><h1>Partners: ./source.csv on ./target.csv</h1><p>2026-11-16</p></header>").count();
    assert_eq!((heads, page.matches("<li><i></i>").count()), (2, 120));
    assert!(page.contains("<footer>Page 1 of 2</footer>") && page.contains("<footer>Page 2 of 2</footer>"));
    assert!(page.contains("<li><i></i><b>101</b> <span></span> → <b>101</b> <span></span>\n"));
    assert!(page.contains("@page{size:A4;margin:10mm}") && !page.contains("<section class="));
    // Two long names do not fit a row of an upright page.
    for sheet in ["source.names.csv", "target.names.csv"] {
        put(&here, sheet, format!("1,{}\r\n", "a name of twenty one"));
    }
    let page = run_in(&here, &["move", ".", "--html", "-", "--partners"]).output;
    assert!(page.contains("@page{size:A4 landscape;margin:10mm}"), "{page}");
    assert_eq!(page.matches("<section class=\"wide\">").count(), 2);
}
