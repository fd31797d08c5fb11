//! Every refusal, as a record and in words.

use crate::run::{answer, constant, folder, put, run_in};

/// A show that is refused: its bytes, the number, and what is said of it.
fn refused(name: &str, bytes: impl AsRef<[u8]>, number: u32, says: [&str; 4]) {
    let here = folder(name);
    put(&here, "source.csv", bytes);
    put(&here, "target.csv", "1\r\n");
    assert_eq!(run_in(&here, &["move", "--csv", "."]), answer(&format!("refused,1,{number}\r\n"), 2));
    let [place, there, expected, to_do] = says;
    let words = format!(
        "./source.csv: refused (question {number}).\n  where:     {place}\n  there:     {there}\n  expected:  \
         {expected}\n  to do:     {to_do}\n"
    );
    assert_eq!(run_in(&here, &["move", "."]), answer(&words, 2));
    let checked = words.replace("./source.csv", "source.csv");
    assert_eq!(run_in(&here, &["check", "source.csv"]), answer(&checked, 2));
    for command in [&["cut", "--cues", "1", "source.csv"][..], &["positions", "source.csv"]] {
        assert_eq!(run_in(&here, command), answer(&checked, 2));
    }
}

const TOO_LARGE: &str = "the table is too large for this program: cut the show down to 120 cues";
const AT_MOST: &str = "at most 120 rows and columns, one for each cue";

/// A sheet that the library refuses and that is read all the same: what is mended, and what `--strict` says.
fn mendable(name: &str, bytes: &str, number: u32, mended: &str, says: [&str; 3]) {
    let here = folder(name);
    put(&here, "sheet.csv", bytes);
    put(&here, "one.csv", "1\r\n");
    let records = format!("refused,1,{number}\r\n");
    assert_eq!(run_in(&here, &["move", "--csv", "sheet.csv", "one.csv"]), answer(&records, 2));
    let read = run_in(&here, &["check", "sheet.csv"]);
    let note = format!("sheet.csv: mended on reading: {mended}.\nsheet.csv: a linking table of ");
    assert!(read.output.starts_with(&note) && read.status == 0, "{}", read.output);
    let [place, there, expected] = says;
    let words = format!(
        "sheet.csv: refused (question {number}).\n  where:     {place}\n  there:     {there}\n  expected:  {expected}\n  to \
         do:     leave out --strict, or run: tickdrizzle mend sheet.csv\n"
    );
    let strict = run_in(&here, &["check", "--strict", "sheet.csv"]);
    assert!(strict.output.starts_with(&words) && strict.status == 2, "{}", strict.output);
}

#[test]
fn by_20() {
    let to_do = "check that this is the right file, and save the sheet again";
    let expected = "a table: at most 57720 bytes for 120 cues";
    refused("20", "", 20, ["the whole sheet", "nothing: the sheet is empty", expected, to_do]);
    refused("20-long", "1".repeat(57721), 20, ["the whole sheet", "57721 bytes", expected, to_do]);
}

#[test]
fn by_21() {
    let expected = "digits, a comma between cells, CR LF after each row";
    refused("21", "1,2\r\n2,x\r\n", 21, ["row 2, column 2 (B2)", "\"x\"", "a whole number", "correct the cell"]);
    let lf = ["row 1, column 2 (B1)", "a line break LF without CR", expected];
    mendable("21-lf", "1,2\n2,1\n", 21, "rows end in LF", lf);
    let cr = ["row 1, column 2 (B1)", "a line break CR without LF", expected];
    mendable("21-cr", "1,2\r2,1\r", 21, "rows end in CR", cr);
    let semicolon = ["row 1, column 1 (A1)", "\";\"", "a whole number"];
    mendable("21-semicolon", "1;2\r\n2;1\r\n", 21, "semicolons between the cells", semicolon);
    let quotes = ["row 2, column 1 (A2)", "a quote mark", "digits alone"];
    mendable("21-quotes", "1,2\r\n\"2\",1\r\n", 21, "1 quoted cell", quotes);
    let mark = ["row 1, column 1 (A1)", "a byte order mark", expected];
    mendable("21-mark", "\u{FEFF}1\r\n", 21, "a byte order mark at the front", mark);
}

#[test]
fn by_21_and_what_is_mended() {
    let here = folder("21-lf-and-x");
    put(&here, "sheet.csv", "1;2\n2;x\n");
    let words = "sheet.csv: mended on reading: rows end in LF; semicolons between the cells.\nsheet.csv: refused (question 21).\n  \
                 where:     row 2, column 2 (B2)\n  there:     \"x\"\n  expected:  a whole number\n  to do:     correct the cell\n";
    assert_eq!(run_in(&here, &["check", "sheet.csv"]), answer(words, 2));
}

#[test]
fn all_faults_of_one_kind_up_to_ten() {
    let here = folder("ten");
    put(&here, "three.csv", "1,0,x\r\n2,,1\r\n1,200,2\r\n");
    let words = "three.csv: refused (question 21).\n  where:     row 1, column 3 (C1)\n  there:     \"x\"\n  expected:  a whole \
                 number\n  to do:     correct the cells\n  also:      row 1, column 2 (B1): \"0\"\n             row 2, column 2 (B2): an empty \
                 cell\n             row 3, column 2 (B3): \"200\"\n";
    assert_eq!(run_in(&here, &["check", "three.csv"]), answer(words, 2));
    put(&here, "many.csv", constant(4, 9));
    let also: Vec<String> = (1..10)
        .map(|cell| {
            format!(
                "row {r}, column {c} ({l}{r}): \"9\"",
                r = cell / 4 + 1,
                c = cell % 4 + 1,
                l = ['A', 'B', 'C', 'D'][cell % 4]
            )
        })
        .collect();
    let words = format!(
        "many.csv: refused (question 3).\n  where:     row 1, column 1 (A1)\n  there:     \"9\"\n  expected:  a cue of this table, 1 to \
         4\n  to do:     correct the cells\n  also:      {}\n             and 6 more\n",
        also.join("\n             ")
    );
    assert_eq!(run_in(&here, &["check", "many.csv"]), answer(&words, 2));
    put(&here, "rows.csv", "1,2\r\n2\r\n1,2,3\r\n");
    let words = "rows.csv: refused (question 26).\n  where:     row 2\n  there:     1 cell\n  expected:  2 rows of 2 cells, as the \
                 first row has\n  to do:     complete the table, or delete what is left over\n  also:      row 3: 3 cells\n";
    assert_eq!(run_in(&here, &["check", "rows.csv"]), answer(words, 2));
}

#[test]
fn what_does_not_show_is_written_by_number() {
    let here = folder("unseen");
    put(&here, "a.csv", "1,\u{1B}[31m\u{202E}2\r\n2,1\r\n");
    let output = run_in(&here, &["check", "a.csv"]).output;
    assert!(output.contains("there:     \"\\u{1B}[31m\\u{202E}2\"\n"), "{output}");
    put(&here, "a.csv", format!("1,{}\r\n2,1\r\n", "x".repeat(300)));
    let output = run_in(&here, &["check", "a.csv"]).output;
    assert!(output.contains(&format!("there:     \"{}…\" (", "x".repeat(40))), "{output}");
    let name = "b\u{202E}\u{7}.csv";
    put(&here, name, "x\r\n");
    let output = run_in(&here, &["check", name]).output;
    assert!(output.starts_with("b\\u{202E}\\u{7}.csv: refused"), "{output}");
}

#[test]
fn a_path_that_needs_quotes_has_them() {
    let here = folder("quotes");
    put(&here, "act 1's.csv", "1\n");
    let output = run_in(&here, &["check", "--strict", "act 1's.csv"]).output;
    assert!(output.ends_with("run: tickdrizzle mend 'act 1'\\''s.csv'\n"), "{output}");
}

#[test]
fn by_24() {
    let expected = "a number without leading 0; there is no cue 0";
    let zeros = "4 numbers with zeros that say nothing (\"1.0\" and \"01\" are 1)";
    let here = folder("24");
    put(&here, "sheet.csv", "01,02\r\n02,01\r\n");
    let note = format!("sheet.csv: mended on reading: {zeros}.\nsheet.csv: a linking table of 2 cues.\n");
    assert_eq!(run_in(&here, &["check", "sheet.csv"]), answer(&note, 0));
    let strict = run_in(&here, &["check", "--strict", "sheet.csv"]).output;
    let words = format!("sheet.csv: refused (question 24).\n  where:     row 1, column 1 (A1)\n  there:     \"01\"\n  expected:  {expected}\n");
    assert!(strict.starts_with(&words) && strict.contains("also:      row 1, column 2 (B1): \"02\"\n"), "{strict}");
    let none = "a cue number from 1 to 120; there is no cue 0";
    refused("24-0", "1,0\r\n2,1\r\n", 24, ["row 1, column 2 (B1)", "\"0\"", none, "correct the cell"]);
}

#[test]
fn by_23() {
    let at = ["row 2, column 1 (A2)", "an empty cell", "a cue number", "correct the cell"];
    refused("23", "1,2\r\n,1\r\n", 23, at);
    let range = "a cue number from 1 to 120";
    refused("23-long", "1,2\r\n2,1000\r\n", 23, ["row 2, column 2 (B2)", "\"1000\"", range, "correct the cell"]);
    mendable(
        "23-row",
        "1,2\r\n2,1\r\n\r\n",
        23,
        "1 blank row at the end",
        ["row 3, column 1 (A3)", "an empty cell", "a cue number"],
    );
}

#[test]
fn by_25() {
    let expected = "a cue number from 1 to 120";
    refused("25", "1,121\r\n2,1\r\n", 25, ["row 1, column 2 (B1)", "\"121\"", expected, "correct the cell"]);
}

#[test]
fn by_26() {
    let expected = "2 rows of 2 cells, as the first row has";
    let to_do = "complete the table, or delete what is left over";
    refused("26-row", "1,2\r\n2\r\n", 26, ["row 2", "1 cell", expected, to_do]);
    refused("26-rows", "2,1\r\n1,2\r\n1,1\r\n", 26, ["the whole sheet", "3 rows of 2 cells", expected, to_do]);
}

#[test]
fn by_1_and_whatever_else_is_asked_of_a_large_table() {
    refused("1", constant(121, 1), 1, ["the whole sheet", "121 rows of 121 cells", AT_MOST, TOO_LARGE]);
    let first = "121".to_string() + &constant(121, 1)[1..];
    refused("1-by-25", first, 25, ["the whole sheet", "121 rows of 121 cells", AT_MOST, TOO_LARGE]);
    refused("1-by-20", constant(200, 100), 20, ["the whole sheet", "200 rows of 200 cells", AT_MOST, TOO_LARGE]);
    let here = folder("1-mended");
    let unix = constant(121, 1).replace('\r', "");
    let bad = "x".to_string() + &unix[1..].replace(',', ";");
    for (name, sheet) in [("unix.csv", &unix), ("x.csv", &bad), ("halves.csv", &unix.replace('1', "1.5"))] {
        put(&here, name, sheet);
        let output = run_in(&here, &["check", "--quiet", name]).output;
        let (head, rest) = output.split_once('\n').expect("there are lines");
        assert!(head.starts_with(&format!("{name}: refused (question ")), "{head}");
        let words = format!("  where:     the whole sheet\n  there:     121 rows of 121 cells\n  expected:  {AT_MOST}\n  to do:     {TOO_LARGE}\n");
        assert_eq!(rest, words);
    }
    put(&here, "blanks.csv", "x".to_string() + &",".repeat(200) + &"\n".repeat(200));
    let output = run_in(&here, &["check", "--quiet", "blanks.csv"]).output;
    assert!(output.contains("where:     row 1, column 1 (A1)\n  there:     \"x\"\n"), "{output}");
}

#[test]
fn by_3() {
    let expected = "a cue of this table, 1 to 2";
    refused("3", "1,1\r\n1,3\r\n", 3, ["row 2, column 2 (B2)", "\"3\"", expected, "correct the cell"]);
}

#[test]
fn by_4() {
    let there = "1·1 = 2, 2·2 = 1; 1·2 = 1, 1·1 = 2";
    let expected = "the same cue both ways: (1·1)·2 = 1·(1·2)";
    let to_do = "one of these cells is wrong: row 1, column 1 (A1); row 2, column 2 (B2); row 1, column 2 (B1)\n  \
                 perhaps:   not clear: each of 2 changes of one cell, in 2 of these cells, makes it a linking table";
    refused("4", "2,1\r\n1,1\r\n", 4, ["cues 1, 1, 2", there, expected, to_do]);
}

#[test]
fn places_count_from_the_edge_of_the_sheet() {
    let here = folder("offset");
    put(&here, "sheet.csv", "\n,,1,2\n,1,1,2\n,2,2,3\n");
    let words = "sheet.csv: mended on reading: rows end in LF; 1 blank row before the table; 1 blank column before the table; row 2 and \
                 column 2 look like cue numbers: left out.\nsheet.csv: refused (question 3).\n  where:     row 4, column 4 (D4)\n  \
                 there:     \"3\"\n  expected:  a cue of this table, 1 to 2\n  to do:     correct the cell\n";
    assert_eq!(run_in(&here, &["check", "sheet.csv"]), answer(words, 2));
}

#[test]
fn by_60() {
    let here = folder("60");
    put(&here, "table.csv", "1,2\r\n2,1\r\n");
    for (cues, entry, there) in [("0", 1, "0"), ("1,3", 2, "3"), ("1,2,300", 3, "300")] {
        let words = format!(
            "table.csv: refused (question 60).\n  where:     entry {entry} of --cues\n  there:     {there}\n  expected:  a \
             cue of this table, 1 to 2\n  to do:     choose cues that the table has\n"
        );
        assert_eq!(run_in(&here, &["cut", "table.csv", "--cues", cues]), answer(&words, 2));
    }
}

#[test]
fn the_rig_is_looked_at_after_the_show() {
    let here = folder("both");
    put(&here, "source.csv", "1\r\n");
    put(&here, "target.csv", "2\r\n");
    assert_eq!(run_in(&here, &["move", "--csv", "."]), answer("refused,2,3\r\n", 2));
    put(&here, "source.csv", "01");
    assert_eq!(run_in(&here, &["move", "--csv", "."]), answer("refused,1,24\r\n", 2));
}

#[test]
fn records_have_the_number_of_the_library_whatever_the_bytes_are() {
    let here = folder("records");
    put(&here, "one.csv", "1\r\n");
    let workbook = crate::workbooks::ods(&[("One", &crate::workbooks::numbers(&[vec![1]]))]);
    let utf16: Vec<u8> = "1\r\n".encode_utf16().flat_map(u16::to_le_bytes).collect();
    for bytes in
        [b"\x80".to_vec(), b"1\0\x80".to_vec(), b"\xFF\xFE1".to_vec(), utf16, workbook, b"\xD0\xCF\x11\xE0".to_vec()]
    {
        put(&here, "sheet.csv", bytes);
        assert_eq!(run_in(&here, &["move", "--csv", "sheet.csv", "one.csv"]), answer("refused,1,21\r\n", 2));
        let classes = "class,1,1,1\r\nrefused,2,21\r\ntotal,1,1\r\n";
        assert_eq!(run_in(&here, &["classes", "--csv", "one.csv", "sheet.csv"]), answer(classes, 2));
    }
}
