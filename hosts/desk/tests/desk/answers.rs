//! Every subcommand on the examples.

use crate::run::{answer, failure, folder, names, put, root, run, run_in, Outcome};
use std::fs;
use std::path::PathBuf;

#[test]
fn a_show_that_fits() {
    let words = "The show fits: its 2 cues go to 2 of the rig's 4.\n  1  ->  2\n  2  ->  3\n";
    assert_eq!(run(&["move", "examples/found"]), answer(words, 0));
    assert_eq!(run(&["move", "examples/found/source.csv", "examples/found/target.csv"]), answer(words, 0));
}

#[test]
fn a_show_that_does_not_fit() {
    let words = "The show does not fit: there is no way to give its 2 cues partners among the rig's 4.\n\
                 Note: The rig's table read column first fits: see --mirror.\n";
    assert_eq!(run(&["move", "examples/none"]), answer(words, 1));
}

#[test]
fn records_are_those_of_recue() {
    for (example, status) in [("found", 0), ("named", 0), ("none", 1), ("refused", 2), ("touring", 0)] {
        let path = format!("examples/{example}");
        let records = fs::read_to_string(root().join(&path).join("output.csv")).expect("the example has an output");
        assert_eq!(run(&["move", "--csv", &path]), answer(&records, status), "{example}");
    }
}

#[test]
fn long_numbers_stand_below_each_other() {
    let output = run(&["move", "examples/touring"]).output;
    let lines: Vec<_> = output.lines().collect();
    assert_eq!(lines[..2], ["The show fits: its 31 cues go to 31 of the rig's 59.", "  1   ->  15"]);
    assert_eq!(lines[31], "  31  ->  20");
}

#[test]
fn tables_that_are_fine() {
    let words = "examples/found/source.csv: a linking table of 2 cues.\n\
                 examples/found/target.csv: a linking table of 4 cues.\n";
    assert_eq!(run(&["check", "examples/found"]), answer(words, 0));
    assert_eq!(run(&["check", "examples/found/source.csv", "examples/found/target.csv"]), answer(words, 0));
}

#[test]
fn classes_of_a_folder() {
    let records = fs::read_to_string(root().join("examples/classes/output.csv")).expect("the example has an output");
    let csv = run(&["classes", "--csv", "examples/classes"]);
    assert_eq!((csv.output, csv.status), (records.clone(), 2));
    assert_eq!(run(&["classes", "--csv", "--quiet", "examples/classes"]), answer(&records, 2));
    let words = "3 classes in 6 sheets.\n\
                 Class 1, of 4 cues:\n  examples/classes/01.csv\n  examples/classes/03.csv\n\
                 Class 2, of 4 cues:\n  examples/classes/02.csv\n  examples/classes/05.csv\n\
                 Class 3, of 3 cues:\n  examples/classes/06.csv\n\
                 examples/classes/04.csv: refused (question 3).\n  where:     row 2, column 2 (B2)\n  there:     \"3\"\n  \
                 expected:  a cue of this table, 1 to 2\n  to do:     correct the cell\n\
                 Note: Left out: output.csv (answers of this program and mended copies).\n";
    assert_eq!(run(&["classes", "examples/classes"]), answer(words, 2));
}

#[test]
fn classes_end_at_the_first_gap() {
    let here = folder("gap");
    put(&here, "01.csv", "1\r\n");
    put(&here, "03.csv", "1\r\n");
    let left = "tickdrizzle: Left out: 03.csv (01.csv, 02.csv and so on are read, up to 50.csv and the first gap).\n";
    let one = Outcome { errors: left.into(), ..answer("class,1,1,1\r\ntotal,1,1\r\n", 0) };
    assert_eq!(run_in(&here, &["classes", "--csv", "."]), one);
    let both = "1 class in 2 sheets.\nClass 1, of 1 cue:\n  ./01.csv\n  ./03.csv\n";
    assert_eq!(run_in(&here, &["classes", "."]), answer(both, 0));
}

#[test]
fn no_classes() {
    let here = folder("no-classes");
    assert_eq!(run_in(&here, &["classes", "--csv", "."]), answer("", 1));
    let words = "There is no sheet in the folder: no .csv, .ods, .xlsx, .tsv, .tab or .txt file with a table.\n";
    assert_eq!(run_in(&here, &["classes", "."]), answer(words, 1));
}

#[test]
fn classes_with_a_refused_sheet() {
    let here = folder("refused-class");
    put(&here, "a.csv", "1\r\n");
    put(&here, "b.csv", "2\r\n");
    put(&here, "c.csv", "1");
    let sheets = ["a.csv", "b.csv", "c.csv"];
    let records = "class,1,1,1\r\nrefused,2,3\r\nclass,3,1,1\r\ntotal,1,2\r\n";
    assert_eq!(run_in(&here, &[&["classes", "--csv"][..], &sheets].concat()), answer(records, 2));
    let words = "1 class in 3 sheets.\nClass 1, of 1 cue:\n  a.csv\n  c.csv\nb.csv: refused (question 3).\n  \
                 where:     row 1, column 1 (A1)\n  there:     \"2\"\n  expected:  a cue of this table, 1 to 1\n  \
                 to do:     correct the cell\n";
    assert_eq!(run_in(&here, &[&["classes"][..], &sheets].concat()), answer(words, 2));
}

#[test]
fn a_part() {
    let here = folder("cut");
    let table = root().join("examples/found/target.csv");
    let words = "The part has 2 of the 4 cues:\n  1  is  2\n  2  is  3\nWritten: act.csv\n";
    let arguments = ["cut", table.to_str().expect("the path is text"), "--cues", "3", "--output", "act.csv"];
    assert_eq!(run_in(&here, &arguments), answer(words, 0));
    assert_eq!(names(&here), ["act.csv"]);
    let two = "The part has 2 of the 4 cues:\n  1  is  2\n  2  is  3\n";
    assert_eq!(run(&["cut", "examples/found/target.csv", "--cues", "3, 2"]), answer(two, 0));
    assert_eq!(fs::read(here.join("act.csv")).expect("it was written"), b"1,2\r\n2,1\r\n");
}

#[test]
fn fewest_positions() {
    let words = "2 rest positions carry the 2 cues, and fewer do not. Where each lands from positions 1 to 2:\n  \
                 1  lands at  1 2\n  2  lands at  2 1\n";
    assert_eq!(run(&["positions", "examples/found"]), answer(words, 0));
    let here = folder("positions");
    put(&here, "one.csv", "1\r\n");
    let one = "1 rest position carries the 1 cue, and fewer do not. Where each lands from positions 1 to 1:\n  1  lands at  1\n";
    assert_eq!(run_in(&here, &["positions", "one.csv"]), answer(one, 0));
    put(&here, "four.csv", "1,2,3,4\r\n2,3,4,1\r\n3,4,1,2\r\n4,1,2,3\r\n");
    let none = "No: 3 rest positions do not carry the 4 cues, and more are not tried.\n";
    assert_eq!(run_in(&here, &["positions", "four.csv"]), answer(none, 1));
}

#[test]
fn pages_need_nothing_else() {
    let here = folder("pages");
    let example = |name: &str| root().join("examples").join(name).to_str().expect("the path is text").to_owned();
    let target = example("found/target.csv");
    for arguments in [
        &["move", &example("touring"), "--html", "move.html"][..],
        &["move", &example("none"), "--html", "none.html"],
        &["classes", &example("classes"), "--html", "classes.html"],
        &["cut", &target, "--cues", "3", "--html", "cut.html"],
    ] {
        assert!(run_in(&here, arguments).status < 3);
        let page = fs::read_to_string(here.join(arguments[arguments.len() - 1])).expect("it was written");
        assert!(page.starts_with("<!DOCTYPE html>") && page.ends_with("</html>\n"));
        assert!(!page.contains("<link") && !page.contains("src=") && !page.contains("url(") && !page.contains("http"));
    }
    let page = fs::read_to_string(here.join("move.html")).expect("it was written");
    let marked = page.matches("<td class=").count();
    assert_eq!((page.matches("<td").count(), marked), (31 * 31 + 59 * 59, 31 * 31));
    assert!(page.contains("<li><b class=\"m\">31</b> <span>→ 20</span>"));
    // The rig's cue 20, with the show's cue 31 below it.
    assert!(page.contains("<th scope=\"col\" class=\"m\">20<small>31</small>"));
}

#[test]
fn a_limit() {
    let found = "The show fits: its 2 cues go to 2 of the rig's 4. 4 trials.\n  1  ->  2\n  2  ->  3\n";
    assert_eq!(run(&["move", "--limit", "4", "examples/found"]), answer(found, 0));
    let stopped = "Stopped: 1 trial is not enough to tell. Give a larger --limit, or none.\n";
    assert_eq!(run(&["move", "--limit", "1", "examples/found"]), answer(stopped, 3));
    assert_eq!(run(&["move", "--limit", "0", "--csv", "examples/found"]), answer("stopped,2,4\r\n", 3));
    let none = run(&["move", "--quiet", "--limit", "4294967295", "examples/none"]);
    assert!(none.output.starts_with("The show does not fit: ") && none.output.ends_with(" trials.\n"));
    assert_eq!(none.status, 1);
}

/// A folder with the example that fits and names for both tables.
fn with_names(name: &str) -> PathBuf {
    let here = folder(name);
    for sheet in ["source.csv", "target.csv"] {
        put(&here, sheet, fs::read(root().join("examples/found").join(sheet)).expect("the example is there"));
    }
    put(&here, "source.names.csv", "1,House to half\r\n2,\"second link, up\"\r\n");
    put(&here, "target.names.csv", "1,dark\r\n2,T2 half\r\n3,say \\now\r\n4,<b>\r\n");
    here
}

#[test]
fn the_example_with_names() {
    let words = "The show fits: its 2 cues go to 2 of the rig's 4.\n  \
                 1 \"hold\"             ->  2 \"stay\"\n  2 \"second link, up\"  ->  3 \"change places\"\n";
    assert_eq!(run(&["move", "examples/named"]), answer(words, 0));
}

#[test]
fn cues_by_name() {
    let here = with_names("names");
    let words = "The show fits: its 2 cues go to 2 of the rig's 4.\n  \
                 1 \"House to half\"    ->  2 \"T2 half\"\n  2 \"second link, up\"  ->  3 \"say \\now\"\n";
    assert_eq!(run_in(&here, &["move", "."]), answer(words, 0));
    let part = "The part has 2 of the 4 cues:\n  1  is  2 \"T2 half\"\n  2  is  3 \"say \\now\"\n";
    assert_eq!(run_in(&here, &["cut", "target.csv", "--cues", "3"]), answer(part, 0));
    let lands = "2 rest positions carry the 2 cues, and fewer do not. Where each lands from positions 1 to 2:\n  \
                 1 \"House to half\"    lands at  1 2\n  2 \"second link, up\"  lands at  2 1\n";
    assert_eq!(run_in(&here, &["positions", "."]), answer(lands, 0));
    assert_eq!(run_in(&here, &["move", ".", "--html", "page.html"]).status, 0);
    let page = fs::read_to_string(here.join("page.html")).expect("it was written");
    assert!(
        page.contains("<li><b class=\"m c2\">2 &quot;second link, up&quot;</b> <span>→ 3 &quot;say \\now&quot;</span>")
    );
    assert!(page.contains("title=\"&lt;b&gt;\"") && !page.contains("<b>\""));
}

#[test]
fn name_sheets_that_are_fine() {
    let here = with_names("names-checked");
    let words = "source.names.csv: a name sheet of 2 cues.\n";
    assert_eq!(run_in(&here, &["check", "source.names.csv"]), answer(words, 0));
}

#[test]
fn names_where_links_do_not_fit() {
    let here = with_names("names-4");
    put(&here, "source.csv", "2,1\r\n1,1\r\n");
    let output = run_in(&here, &["check", "source.csv"]).output;
    assert!(output.contains("where:     cues 1 \"House to half\", 1 \"House to half\", 2 \"second link, up\"\n"));
}

#[test]
fn a_name_sheet_that_is_refused_stops_nothing() {
    let here = with_names("names-refused");
    let map = "The show fits: its 2 cues go to 2 of the rig's 4.\n  1  ->  2 \"T2 half\"\n  2  ->  3 \"say \\now\"\n";
    for (sheet, number, says) in [
        (
            "1,",
            41,
            "where:     row 1, column 2 (B1)\n  there:     an empty cell\n  expected:  a name of 1 to 40 plain characters",
        ),
        (
            "1,a\r\n3,b\r\n",
            42,
            "where:     row 2, column 1 (A2)\n  there:     \"3\"\n  expected:  the next number, 2",
        ),
        (
            "1,a\r\n\r\n2,b\r\n",
            40,
            "where:     row 2\n  there:     \"\"\n  expected:  a number and a name in each row",
        ),
        (
            "1,a\r\n2,b,c\r\n",
            40,
            "where:     row 2\n  there:     \"2,b,c\"\n  expected:  a number and a name in each row",
        ),
        (
            "1,Entr\u{E9}e\r\n2,b\r\n",
            40,
            "where:     row 1, column 2 (B1)\n  there:     \"\u{E9}\" in \"Entr\u{E9}e\"\n  expected:  names of plain ASCII letters, \
             digits and signs, without accents",
        ),
    ] {
        put(&here, "source.names.csv", sheet);
        let words = |path: &str| {
            format!(
                "{path}: refused (question {number}).\n  {says}\n  to do:     correct the name sheet; until then cues are shown by number\n"
            )
        };
        let moved = run_in(&here, &["move", "."]);
        assert!(moved.output.starts_with(map), "{}", moved.output);
        assert!(moved.output.contains(&words("./source.names.csv")), "{}", moved.output);
        assert_eq!((moved.errors.as_str(), moved.status), ("", 0));
        let checked = run_in(&here, &["check", "source.names.csv"]);
        assert!(checked.output.starts_with(&words("source.names.csv")), "{}", checked.output);
        assert_eq!(checked.status, 2);
        assert_eq!(run_in(&here, &["move", "--csv", "."]).status, 0);
    }
}

#[test]
fn a_name_sheet_that_cannot_be_read_stops_nothing() {
    let here = with_names("names-unread");
    let map = "The show fits: its 2 cues go to 2 of the rig's 4.\n  1  ->  2 \"T2 half\"\n  2  ->  3 \"say \\now\"\n";
    let to_do = "correct the name sheet; until then cues are shown by number";
    let quote = format!(
        "{map}./source.names.csv: refused (question 40).\n  where:     row 1, column 2 (B1)\n  there:     \"\"hold\"\n  expected:  a name \
         without a quote mark at its front, or between two\n  to do:     {to_do}\n"
    );
    put(&here, "source.names.csv", "1,\"hold\r\n2,b\r\n");
    assert_eq!(run_in(&here, &["move", "."]), answer(&quote, 0));
    let letter = format!(
        "./source.names.csv: mended on reading: letters in another encoding than UTF-8.\n{map}./source.names.csv: refused (question 40).\n  \
         where:     row 1, column 2 (B1)\n  there:     \"\u{FFFD}\" in \"Entr\u{FFFD}e\"\n  expected:  names of plain ASCII letters, digits \
         and signs, without accents\n  to do:     {to_do}\n"
    );
    put(&here, "source.names.csv", b"1,Entr\xE9e\r\n2,b\r\n");
    assert_eq!(run_in(&here, &["move", "."]), answer(&letter, 0));
    let long = format!(
        "{map}./source.names.csv: refused.\n  where:     the whole file\n  there:     reading failed: the file is too long for a \
         sheet\n  expected:  a file that can be read\n  to do:     check that this is the right file\n"
    );
    let file = fs::File::create(here.join("source.names.csv")).expect("files can be made");
    file.set_len((1 << 24) + 1).expect("it may be long");
    assert_eq!(run_in(&here, &["move", "."]), answer(&long, 0));
    let failed = "tickdrizzle: source.names.csv: reading failed: the file is too long for a sheet\n";
    assert_eq!(run_in(&here, &["check", "source.names.csv"]), failure(failed, 4));
}

#[test]
fn too_few_names_and_too_many() {
    let here = with_names("names-number");
    put(&here, "source.names.csv", "1,a\r\n");
    put(&here, "target.names.csv", "1,a\r\n2,b\r\n3,c\r\n4,d\r\n5,e\r\n");
    let words = "The show fits: its 2 cues go to 2 of the rig's 4.\n  1 \"a\"  ->  2 \"b\"\n  2      ->  3 \"c\"\n\
                 Note: ./source.names.csv has 1 name for 2 cues.\nNote: ./target.names.csv has 5 names for 4 cues.\n";
    assert_eq!(run_in(&here, &["move", "."]), answer(words, 0));
}

#[test]
fn copies_of_the_show() {
    let one = "The show fits in 1 place of the rig: 2 of its 4 cues, whichever show cue goes to which.\n";
    assert_eq!(run(&["copies", "examples/found"]), answer(one, 0));
    let none = "The show fits in no place of the rig: its 2 cues have no partners among the rig's 4.\n";
    assert_eq!(run(&["copies", "examples/none"]), answer(none, 1));
    let here = folder("copies");
    put(&here, "one.csv", "1\r\n");
    put(&here, "three.csv", "1,1,1\r\n2,2,2\r\n3,3,3\r\n");
    let three = "The show fits in 3 places of the rig: 1 of its 3 cues, whichever show cue goes to which.\n";
    assert_eq!(run_in(&here, &["copies", "one.csv", "three.csv"]), answer(three, 0));
}
