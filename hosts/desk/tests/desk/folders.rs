//! Folders: where the show and the rig are, what may be meant, and which sheets are compared.

use crate::run::{answer, failure, folder, put, run_in};
use crate::workbooks::{numbers, ods, xlsx};

const SWAP: &str = "1,2\r\n2,1\r\n";

#[test]
fn the_show_and_the_rig_in_any_format() {
    let here = folder("any-format");
    let table = numbers(&[vec![1, 2], vec![2, 1]]);
    put(&here, "source.ods", ods(&[("One", &table)]));
    put(&here, "target.tsv", "1\t2\n2\t1\n");
    let words = "./target.tsv: mended on reading: rows end in LF; tabs between the cells.\n\
                 The show fits: its 2 cues go to 2 of the rig's 2.\n  1  ->  1\n  2  ->  2\n";
    assert_eq!(run_in(&here, &["move", "."]), answer(words, 0));
    let copies = "The show fits in 1 place of the rig: 2 of its 2 cues, whichever show cue goes to which.\n";
    assert_eq!(run_in(&here, &["copies", "--quiet", "."]), answer(copies, 0));
    let checked = "./source.ods: a linking table of 2 cues.\n./target.tsv: a linking table of 2 cues.\n";
    assert_eq!(run_in(&here, &["check", "--quiet", "."]), answer(checked, 0));
}

#[test]
fn a_show_that_is_there_twice() {
    let here = folder("twice");
    put(&here, "source.csv", SWAP);
    put(&here, "target.csv", SWAP);
    put(&here, "source.xlsx", xlsx(&[("One", &numbers(&[vec![1, 2], vec![2, 1]]))]));
    let words = "The show fits: its 2 cues go to 2 of the rig's 2.\n  1  ->  1\n  2  ->  2\n";
    assert_eq!(run_in(&here, &["move", "."]), answer(words, 0));
    put(&here, "source.csv", "1\r\n");
    let twice =
        ".: the show is there more than once, and not with the same table: source.csv, source.xlsx; take away what is \
                 old, or give both sheets\n";
    assert_eq!(run_in(&here, &["move", "."]), answer(twice, 2));
}

#[test]
fn a_sheet_that_is_not_there() {
    let here = folder("near");
    let missing = |what: &str, stem: &str, rest: &str| {
        let words =
            format!("tickdrizzle: .: there is no {what}: {stem}.csv, .ods, .xlsx, .tsv, .tab or .txt. {rest}\n");
        assert_eq!(run_in(&here, &["move", "."]), failure(&words, 4));
    };
    put(&here, "Source.CSV", SWAP);
    put(&here, "notes.doc", "x");
    let there = "There are: Source.CSV, notes.doc. Perhaps \"Source.CSV\" is meant: rename it, or give both sheets.";
    missing("show", "source", there);
    put(&here, "source.csv", SWAP);
    put(&here, "target.csv.csv", SWAP);
    let there = "There are: Source.CSV, notes.doc, source.csv, target.csv.csv. Perhaps \"target.csv.csv\" is meant: rename it, or give \
                 both sheets.";
    missing("rig", "target", there);
    let one = "tickdrizzle: nowhere.csv: reading failed: there is no such file\n";
    assert_eq!(run_in(&here, &["move", "source.csv", "nowhere.csv"]), failure(one, 4));
}

#[test]
fn what_may_have_been_meant() {
    let here = folder("meant");
    put(&here, "one.csv", SWAP);
    let same = "The show fits: its 2 cues go to 2 of the rig's 2.\n  1  ->  1\n  2  ->  2\nNote: The show and the rig are the same file.\n";
    assert_eq!(run_in(&here, &["move", "one.csv", "./one.csv"]), answer(same, 0));
    put(&here, "two.csv", "1,1,4,4\r\n1,2,3,4\r\n1,3,2,4\r\n1,4,1,4\r\n");
    let turned = "The show does not fit: there is no way to give its 4 cues partners among the rig's 2.\n\
                  Cues 1 and 2 already have no place on this rig.\n\
                  Note: The rig's table fits in the show's: perhaps the two are the wrong way round.\n";
    assert_eq!(run_in(&here, &["move", "two.csv", "one.csv"]), answer(turned, 1));
    put(&here, "three.csv", "1,1,1\r\n2,2,2\r\n3,3,3\r\n");
    let none = "The show does not fit: there is no way to give its 3 cues partners among the rig's 2.\n\
                Cues 1 and 2 already have no place on this rig.\n";
    assert_eq!(run_in(&here, &["move", "three.csv", "one.csv"]), answer(none, 1));
}

#[test]
fn classes_of_any_sheets() {
    let here = folder("any-classes");
    put(&here, "b rig.ods", ods(&[("One", &numbers(&[vec![1, 2], vec![2, 1]]))]));
    put(&here, "a.csv", "2;1\n1;2\n");
    put(&here, "a.names.csv", "1,a\r\n2,b\r\n");
    put(&here, "c.xlsx", xlsx(&[("One", &numbers(&[vec![1]]))]));
    put(&here, "answer.csv", "class,1,2,1\r\n");
    put(&here, "partners.csv", run_in(&here, &["move", "a.csv", "a.csv", "--output", "-"]).output);
    put(&here, "rigs.csv", run_in(&here, &["rigs", "a.csv", "a.csv", "--csv", "-q"]).output);
    put(&here, "a.mended.csv", "2,1\r\n1,2\r\n");
    put(&here, "readme.md", "x");
    let words =
        "2 classes in 3 sheets.\nClass 1, of 2 cues:\n  ./a.csv\n  ./b rig.ods\nClass 2, of 1 cue:\n  ./c.xlsx\n";
    assert_eq!(run_in(&here, &["classes", "--quiet", "."]), answer(words, 0));
    let loud = run_in(&here, &["classes", "."]).output;
    assert!(
        loud.ends_with(
            "Note: Left out: a.mended.csv, answer.csv, partners.csv, rigs.csv (answers of this program and mended copies).\n"
        ),
        "{loud}"
    );
}

#[test]
fn a_fifty_first_sheet() {
    let here = folder("fifty-one");
    for number in 1..=51 {
        put(&here, &format!("{number:02}.csv"), "1\r\n");
    }
    let csv = run_in(&here, &["classes", "--csv", "."]);
    assert_eq!(
        csv.errors,
        "tickdrizzle: Left out: 51.csv (01.csv, 02.csv and so on are read, up to 50.csv and the first gap).\n"
    );
    assert!(csv.output.ends_with("class,50,1,1\r\ntotal,1,50\r\n") && csv.status == 0);
    assert!(run_in(&here, &["classes", "."]).output.starts_with("1 class in 51 sheets.\n"));
}
