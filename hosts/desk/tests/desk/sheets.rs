//! What spreadsheets write, mended. `tests/sheets/README.md` tells how each sheet was made.

use crate::run::{answer, folder, names, put, root, run_in};
use std::fs;
use std::path::PathBuf;

const LF: &str = "rows end in LF";
const SEMICOLONS: &str = "semicolons between the cells";
const TABS: &str = "tabs between the cells";
const QUOTES: &str = "16 quoted cells";
const ZEROS: &str = "16 numbers with zeros that say nothing (\"1.0\" and \"01\" are 1)";

fn sheets() -> PathBuf {
    root().join("hosts/desk/tests/sheets")
}

/// A sheet that is mended to the table that it was made from.
fn mended(sheet: &str, changes: &[&str]) {
    let here = folder(&format!("mend-{sheet}"));
    put(&here, sheet, fs::read(sheets().join(sheet)).expect("the sheet is there"));
    let beside = format!("{}.mended.csv", sheet.rsplit_once('.').expect("the name has an ending").0);
    let read = format!("{sheet}: mended on reading: {}.\n{sheet}: a linking table of 4 cues.\n", changes.join("; "));
    assert_eq!(run_in(&here, &["check", sheet]), answer(&read, 0));
    let changes: String = changes.iter().map(|change| format!("  {change}\n")).collect();
    let says = format!("{sheet}: 4 rows of 4 cells.\n{changes}");
    let dry = run_in(&here, &["mend", "--dry-run", sheet]);
    assert_eq!(dry, answer(&format!("{says}Would be written: {beside}\n"), 0));
    assert_eq!(names(&here), [sheet]);
    assert_eq!(run_in(&here, &["mend", sheet]), answer(&format!("{says}Written: {beside}\n"), 0));
    let table = fs::read(root().join("examples/found/target.csv")).expect("the example is there");
    assert_eq!(fs::read(here.join(&beside)).expect("it was written"), table);
    let original = fs::read(sheets().join(sheet)).expect("the sheet is there");
    assert_eq!(fs::read(here.join(sheet)).expect("it is still there"), original);
    assert_eq!(run_in(&here, &["mend", &beside]), answer(&format!("{beside}: loads as it is; nothing to mend.\n"), 0));
}

#[test]
fn of_libreoffice() {
    mended("libreoffice-ods.csv", &[LF]);
    mended("libreoffice-xlsx.csv", &[LF]);
    mended("libreoffice-semicolon.csv", &[LF, SEMICOLONS]);
}

#[test]
fn of_python() {
    mended("python-excel-all.csv", &[QUOTES]);
    mended("python-excel-floats.csv", &[ZEROS]);
    for quoting in ["minimal", "nonnumeric", "none"] {
        mended(&format!("python-excel-tab-{quoting}.csv"), &[TABS]);
    }
    mended("python-excel-tab-all.csv", &[TABS, QUOTES]);
    mended("python-excel-tab-floats.csv", &[TABS, ZEROS]);
    for quoting in ["minimal", "nonnumeric", "none"] {
        mended(&format!("python-unix-{quoting}.csv"), &[LF]);
    }
    mended("python-unix-all.csv", &[LF, QUOTES]);
    mended("python-unix-floats.csv", &[LF, QUOTES, ZEROS]);
}

#[test]
fn of_python_that_load_as_they_are() {
    for quoting in ["minimal", "nonnumeric", "none"] {
        let sheet = format!("python-excel-{quoting}.csv");
        let words = format!("{sheet}: loads as it is; nothing to mend.\n");
        assert_eq!(run_in(&sheets(), &["mend", &sheet]), answer(&words, 0));
    }
}

#[test]
fn of_excel() {
    mended("excel-utf8.csv", &["a byte order mark at the front"]);
    mended("excel-semicolon.csv", &[SEMICOLONS]);
    mended("excel-decimals.csv", &[SEMICOLONS, ZEROS]);
    mended("excel-unicode.txt", &["UTF-16 text", TABS]);
    mended("excel-tabs.txt", &[TABS]);
    mended("excel-macintosh.csv", &["rows end in CR"]);
    mended("excel-blanks.csv", &["1 blank row at the end", "1 blank column at the end"]);
}

/// A sheet that is not mended, and why.
fn refused(sheet: &str, place: &str, there: &str, expected: &str, to_do: &str) {
    let here = folder(&format!("refuse-{sheet}"));
    put(&here, sheet, fs::read(sheets().join(sheet)).expect("the sheet is there"));
    let words = format!(
        "{sheet}: refused (question 21).\n  where:     {place}\n  there:     {there}\n  expected:  {expected}\n  to do:     {to_do}\n"
    );
    assert_eq!(run_in(&here, &["mend", sheet]), answer(&words, 2));
    assert_eq!(run_in(&here, &["check", "--quiet", sheet]), answer(&words, 2));
    assert_eq!(names(&here), [sheet]);
}

#[test]
fn that_are_not_mended() {
    let correct = "correct the cell";
    refused("excel-half.csv", "row 1, column 2 (B1)", "\"1,5\"", "a whole number", correct);
    let two = "1 or 1000: it has two readings";
    refused("excel-thousand.csv", "row 1, column 2 (B1)", "\"1.000\"", two, correct);
}

#[test]
fn with_two_readings() {
    let here = folder("two-readings");
    put(&here, "sheet.csv", fs::read(sheets().join("excel-two-readings.csv")).expect("the sheet is there"));
    let words = "sheet.csv: refused (question 24).\n  where:     row 1\n  there:     two readings, \"1 0\" and \"1\"\n  \
                 expected:  cells with one reading: no decimal commas\n  to do:     correct this in the spreadsheet and save \
                 it again\n";
    for command in ["check", "mend"] {
        assert_eq!(run_in(&here, &[command, "sheet.csv"]), answer(words, 2));
    }
    assert_eq!(names(&here), ["sheet.csv"]);
}

#[test]
fn with_a_heading() {
    let here = folder("heading");
    put(&here, "sheet.csv", fs::read(sheets().join("excel-names.csv")).expect("the sheet is there"));
    let words =
        "sheet.csv: mended on reading: row 1 looks like a heading: left out.\nsheet.csv: a linking table of 2 cues.\n";
    assert_eq!(run_in(&here, &["check", "sheet.csv"]), answer(words, 0));
    assert_eq!(run_in(&here, &["mend", "sheet.csv"]).status, 0);
    assert_eq!(fs::read(here.join("sheet.mended.csv")).expect("it was written"), b"1,2\r\n2,1\r\n");
}

#[test]
fn that_would_not_load() {
    let here = folder("mend-large");
    put(&here, "sheet.csv", "1;121\n2;1\n");
    let words =
        "sheet.csv: refused (question 25).\n  where:     row 1, column 2 (B1)\n  there:     \"121\"\n  expected:  a cue \
                 number from 1 to 120\n  to do:     correct the cell\n";
    assert_eq!(run_in(&here, &["mend", "sheet.csv"]), answer(words, 2));
    assert_eq!(names(&here), ["sheet.csv"]);
}

#[test]
fn that_are_no_linking_tables_yet() {
    let here = folder("mend-wrong");
    put(&here, "sheet.csv", "1;3\n2;1\n");
    let words = format!(
        "sheet.csv: 2 rows of 2 cells.\n  {LF}\n  {SEMICOLONS}\nWritten: sheet.mended.csv\nIt is no linking table yet. \
         sheet.csv: refused (question 3).\n  where:     row 1, column 2 (B1)\n  there:     \"3\"\n  expected:  a cue of this \
         table, 1 to 2\n  to do:     correct the cell\n"
    );
    assert_eq!(run_in(&here, &["mend", "sheet.csv"]), answer(&words, 2));
}

#[test]
fn beside_one_that_is_already_there() {
    let here = folder("mend-again");
    put(&here, "sheet.csv", "1\n");
    put(&here, "sheet.mended.csv", "mine");
    let outcome = run_in(&here, &["mend", "sheet.csv"]);
    let message = "tickdrizzle: sheet.mended.csv: not written: it is already there and may be yours; choose another name, or use --force\n";
    assert_eq!((outcome.errors.as_str(), outcome.status), (message, 4));
    assert_eq!(fs::read(here.join("sheet.mended.csv")).expect("it is there"), b"mine");
    assert_eq!(run_in(&here, &["mend", "--force", "sheet.csv"]).status, 0);
    assert_eq!(fs::read(here.join("sheet.mended.csv")).expect("it is there"), b"1\r\n");
    let again = format!("sheet.csv: 1 row of 1 cell.\n  {LF}\nAlready there: sheet.mended.csv\n");
    assert_eq!(run_in(&here, &["mend", "sheet.csv"]), answer(&again, 0));
}

#[test]
fn of_names() {
    let here = folder("mend-names");
    put(&here, "show.names.csv", "1;House to half\n2;\"say \"\"go\"\"\"\n");
    let words = format!("show.names.csv: 2 rows of 2 cells.\n  {LF}\n  {SEMICOLONS}\nWritten: show.mended.names.csv\n");
    assert_eq!(run_in(&here, &["mend", "show.names.csv"]), answer(&words, 0));
    let mended = fs::read(here.join("show.mended.names.csv")).expect("it was written");
    assert_eq!(mended, b"1,House to half\r\n2,\"say \"\"go\"\"\"\r\n");
    let again = "show.mended.names.csv: loads as it is; nothing to mend.\n";
    assert_eq!(run_in(&here, &["mend", "show.mended.names.csv"]), answer(again, 0));
    put(&here, "calc.names.csv", fs::read(sheets().join("libreoffice.names.csv")).expect("the sheet is there"));
    let words = format!("calc.names.csv: 2 rows of 2 cells.\n  {LF}\nWritten: calc.mended.names.csv\n");
    assert_eq!(run_in(&here, &["mend", "calc.names.csv"]), answer(&words, 0));
    let mended = fs::read(here.join("calc.mended.names.csv")).expect("it was written");
    assert_eq!(mended, b"1,House to half\r\n2,\"second link, up\"\r\n");
    put(&here, "bad.names.csv", "go,1\n");
    let refused = "bad.names.csv: refused (question 42).\n  where:     row 1, column 1 (A1)\n  there:     \"go\"\n  expected:  the \
                   next number, 1\n  to do:     correct the name sheet; until then cues are shown by number\n";
    assert_eq!(run_in(&here, &["mend", "bad.names.csv"]), answer(refused, 2));
}

#[test]
fn of_a_folder() {
    let here = folder("mend-folder");
    put(&here, "source.csv", "1\n");
    put(&here, "target.csv", "1\r\n");
    put(&here, "target.names.csv", "1,half\n");
    let words = format!(
        "./source.csv: 1 row of 1 cell.\n  {LF}\nWritten: ./source.mended.csv\n./target.csv: loads as it is; nothing to \
         mend.\n./target.names.csv: 1 row of 2 cells.\n  {LF}\nWritten: ./target.mended.names.csv\n"
    );
    assert_eq!(run_in(&here, &["mend", "."]), answer(&words, 0));
    let moved =
        "./source.csv: mended on reading: rows end in LF.\n./target.names.csv: mended on reading: rows end in LF.\n\
                 The show fits: its 1 cue goes to 1 of the rig's 1.\n  1  ->  1 \"half\"\n";
    assert_eq!(run_in(&here, &["move", "."]), answer(moved, 0));
    put(&here, "source.csv", "1\r\n");
    let words = format!(
        "./source.csv: loads as it is; nothing to mend.\n./target.csv: loads as it is; nothing to mend.\n\
         ./target.names.csv: 1 row of 2 cells.\n  {LF}\nAlready there: ./target.mended.names.csv\n"
    );
    assert_eq!(run_in(&here, &["mend", "."]), answer(&words, 0));
}

#[test]
fn that_were_mended_and_then_changed() {
    let here = folder("mend-stale");
    put(&here, "target.csv", "1,2\r\n2,1\r\n");
    put(&here, "source.csv", "1\n");
    put(&here, "source.names.csv", "1,old\n");
    assert_eq!(run_in(&here, &["mend", "."]).status, 0);
    put(&here, "source.csv", "1;2\n2;1\n");
    put(&here, "source.names.csv", "1;new\n2;newer\n");
    let now = "The show fits: its 2 cues go to 2 of the rig's 2.\n  1 \"new\"    ->  1\n  2 \"newer\"  ->  2\n";
    assert_eq!(run_in(&here, &["move", "--quiet", "."]), answer(now, 0));
    let old = run_in(&here, &["move", "source.mended.csv", "target.csv"]);
    let note = "Note: source.csv holds something else than source.mended.csv, which was mended from it earlier: give source.csv itself.\n";
    assert!(old.output.contains(note), "{}", old.output);
}
