//! Every format that a spreadsheet saves.

use crate::random::{table, Random};
use crate::run::{answer, folder, put, root, run_in};
use crate::workbooks::{archive, numbers, ods, xlsx, Cell, Rows};
use std::fs;
use std::path::Path;

fn text(table: &[Vec<u8>], separator: &str, end: &str, cell: impl Fn(u8) -> String) -> String {
    table.iter().map(|row| row.iter().map(|&number| cell(number)).collect::<Vec<_>>().join(separator) + end).collect()
}

fn utf16(text: &str, unit: fn(u16) -> [u8; 2], mark: bool) -> Vec<u8> {
    let mark = if mark { "\u{FEFF}" } else { "" };
    format!("{mark}{text}").encode_utf16().flat_map(unit).collect()
}

/// A table in every format: names of files and their bytes.
fn saved(table: &[Vec<u8>], headings: &Rows) -> Vec<(String, Vec<u8>)> {
    let mut files = Vec::new();
    for (name, separator) in [("comma", ","), ("semicolon", ";"), ("tab", "\t")] {
        for (breaks, end) in [("crlf", "\r\n"), ("lf", "\n"), ("cr", "\r")] {
            files.push((
                format!("{name}-{breaks}.csv"),
                text(table, separator, end, |cell| cell.to_string()).into_bytes(),
            ));
        }
        let quoted = text(table, separator, "\n", |cell| format!("\"{cell}\""));
        files.push((format!("{name}-quoted.csv"), quoted.into_bytes()));
        let decimals = text(table, separator, "\r\n", |cell| format!("{cell}.0"));
        files.push((format!("{name}-decimals.csv"), decimals.into_bytes()));
        let blanks = text(table, separator, &format!("{separator}\n"), |cell| format!(" 0{cell} "));
        files.push((format!("{name}-blanks.csv"), (blanks + "\n\n").into_bytes()));
    }
    let tabs = text(table, "\t", "\r\n", |cell| cell.to_string());
    files.push(("mark.csv".into(), [b"\xEF\xBB\xBF".to_vec(), tabs.clone().into_bytes()].concat()));
    for mark in [true, false] {
        files.push((format!("little-{mark}.txt"), utf16(&tabs, u16::to_le_bytes, mark)));
        files.push((format!("big-{mark}.txt"), utf16(&tabs, u16::to_be_bytes, mark)));
    }
    let other = vec![vec![Cell::Text("not this".into())]];
    for (name, rows) in [("plain", &numbers(table)), ("headings", headings)] {
        files.push((format!("{name}.ods"), ods(&[("Table", rows), ("Other", &other)])));
        files.push((format!("{name}.xlsx"), xlsx(&[("Table", rows), ("Other", &other)])));
    }
    files
}

/// The table with blank edges, its cues' numbers above and names before it.
fn with_headings(table: &[Vec<u8>]) -> Rows {
    let order = table.len();
    let above = (1..=order).map(|cue| Cell::Number(cue as f64));
    let first: Vec<_> = [Cell::Empty, Cell::Text("cue".into())].into_iter().chain(above).collect();
    let mut rows = vec![vec![], first];
    for (place, row) in numbers(table).into_iter().enumerate() {
        let name = if order == 1 { "only".into() } else { format!("cue, \"{}\"", place + 1) };
        rows.push([vec![Cell::Empty, Cell::Text(name)], row].concat());
    }
    rows
}

#[test]
fn a_hundred_random_tables_through_every_format_and_back() {
    let here = folder("formats");
    let mut random = Random::new(41);
    for _ in 0..100 {
        let table = table(&mut random);
        let plain = text(&table, ",", "\r\n", |cell| cell.to_string());
        let files = saved(&table, &with_headings(&table));
        for (name, bytes) in &files {
            put(&here, name, bytes);
        }
        let names: Vec<&str> = files.iter().map(|(name, _)| name.as_str()).collect();
        let outcome = run_in(&here, &[&["check", "--json"][..], &names].concat());
        assert_eq!((outcome.errors.as_str(), outcome.status), ("", 0), "{plain}\n{}", outcome.output);
        let answer: serde_json::Value = serde_json::from_str(&outcome.output).expect("it is JSON");
        for (sheet, name) in answer["sheets"].as_array().expect("it has sheets").iter().zip(&names) {
            assert_eq!(sheet["table"], serde_json::json!(table), "{name}");
        }
        let mended = run_in(&here, &[&["mend", "--force"][..], &["plain.ods", "headings.xlsx"]].concat());
        assert_eq!((mended.errors.as_str(), mended.status), ("", 0));
        for name in ["plain.mended.csv", "headings.mended.csv"] {
            assert_eq!(fs::read_to_string(here.join(name)).expect("it was written"), plain, "{name}");
        }
    }
}

#[test]
fn files_of_libreoffice() {
    let here = folder("libreoffice");
    for name in ["libreoffice.ods", "libreoffice.xlsx"] {
        put(&here, name, fs::read(root().join("hosts/desk/tests/sheets").join(name)).expect("the sheet is there"));
        let words = format!("{name}: a linking table of 4 cues.\n");
        assert_eq!(run_in(&here, &["check", name]), answer(&words, 0));
    }
    let strict = "libreoffice.ods: refused (question 21).\n  where:     the whole file\n  there:     a workbook\n  expected:  digits, a comma \
                  between cells, CR LF after each row\n  to do:     leave out --strict, or use tickdrizzle mend\n";
    assert_eq!(run_in(&here, &["check", "--strict", "libreoffice.ods"]), answer(strict, 2));
    let mended = "libreoffice.ods: 4 rows of 4 cells.\n  a workbook; now CSV\nWritten: libreoffice.mended.csv\n";
    assert_eq!(run_in(&here, &["mend", "libreoffice.ods"]), answer(mended, 0));
    let table = fs::read(root().join("examples/found/target.csv")).expect("the example is there");
    assert_eq!(fs::read(here.join("libreoffice.mended.csv")).expect("it was written"), table);
}

/// A folder with a workbook of two sheets.
fn two_sheets(name: &str) -> std::path::PathBuf {
    let here = folder(name);
    let (one, two) = (numbers(&[vec![1]]), numbers(&[vec![1, 2], vec![2, 1]]));
    put(&here, "book.ods", ods(&[("Hall", &one), ("Act 2", &two)]));
    put(&here, "book.xlsx", xlsx(&[("Hall", &one), ("Act 2", &two)]));
    here
}

#[test]
fn a_sheet_of_a_workbook() {
    let here = two_sheets("workbook");
    for book in ["book.ods", "book.xlsx"] {
        let first =
            format!("{book}: mended on reading: the first of 2 sheets, \"Hall\".\n{book}: a linking table of 1 cue.\n");
        assert_eq!(run_in(&here, &["check", book]), answer(&first, 0));
        let formulas = if book == "book.xlsx" {
            format!("{book}#Act 2: mended on reading: 2 formulas by the stored value.\n")
        } else {
            String::new()
        };
        let second = format!("{formulas}{book}#Act 2: a linking table of 2 cues.\n");
        assert_eq!(run_in(&here, &["check", &format!("{book}#Act 2")]), answer(&second, 0));
        let none = format!(
            "{book}#Act 3: refused.\n  where:     the whole file\n  there:     the sheets \"Hall\", \"Act 2\"\n  expected:  a sheet \"Act \
             3\"\n  to do:     name one of these after the #, or none for the first\n"
        );
        assert_eq!(run_in(&here, &["check", &format!("{book}#Act 3")]), answer(&none, 2));
    }
    put(&here, "odd#name.csv", "1\r\n");
    assert_eq!(run_in(&here, &["check", "odd#name.csv"]), answer("odd#name.csv: a linking table of 1 cue.\n", 0));
    put(&here, "odd#book.ods", ods(&[("Hall", &Rows::new()), ("Act #2", &numbers(&[vec![1]]))]));
    let odd = "odd#book.ods#Act #2";
    assert_eq!(run_in(&here, &["check", odd]), answer(&format!("{odd}: a linking table of 1 cue.\n"), 0));
}

#[test]
fn cells_of_a_workbook_that_are_no_numbers() {
    let here = folder("workbook-cells");
    let cell = |number: f64| Cell::Number(number);
    let rows = vec![
        vec![cell(1.0), cell(1.5), Cell::Empty],
        vec![cell(1.0), Cell::Text("x".into()), cell(2.0)],
        vec![cell(1.0), cell(0.0), cell(3.0)],
    ];
    put(&here, "book.ods", ods(&[("One", &rows)]));
    put(&here, "book.xlsx", xlsx(&[("One", &rows)]));
    for (book, half) in [("book.ods", "1.5"), ("book.xlsx", "1.5.0")] {
        let output = run_in(&here, &["check", "--quiet", book]).output;
        let words = format!(
            "{book}: refused (question 21).\n  where:     row 1, column 2 (B1)\n  there:     \"{half}\"\n  expected:  a whole number\n  to \
             do:     correct the cells\n  also:      row 1, column 3 (C1): an empty cell\n             row 2, column 2 (B2): \"x\"\n             row \
             3, column 2 (B3): \"0"
        );
        assert!(output.starts_with(&words), "{output}");
    }
}

#[test]
fn a_percentage_is_no_cue() {
    let here = folder("percentage");
    let book = archive(&[
        ("xl/workbook.xml", b"<workbook><sheets><sheet name=\"One\" r:id=\"a\"/></sheets></workbook>".as_slice()),
        (
            "xl/_rels/workbook.xml.rels",
            b"<Relationships><Relationship Id=\"a\" Target=\"/xl/one.xml\"/></Relationships>",
        ),
        ("xl/styles.xml", b"<styleSheet><cellXfs><xf numFmtId=\"0\"/><xf numFmtId=\"9\"/></cellXfs></styleSheet>"),
        (
            "xl/one.xml",
            b"<worksheet><sheetData><row r=\"1\"><c r=\"A1\" s=\"1\"><v>1</v></c></row></sheetData></worksheet>",
        ),
    ]);
    put(&here, "book.xlsx", book);
    let words = "book.xlsx: refused (question 21).\n  where:     row 1, column 1 (A1)\n  there:     \"1 shown as a percentage, date or \
                 time\"\n  expected:  a whole number\n  to do:     correct the cell\n";
    assert_eq!(run_in(&here, &["check", "book.xlsx"]), answer(words, 2));
}

/// An .ods file of one sheet with these cells in a row.
fn row_of(cells: &str) -> Vec<u8> {
    let content = format!(
        "<office:document-content><office:body><office:spreadsheet><table:table table:name=\"One\"><table:table-row>{cells}\
         </table:table-row></table:table></office:spreadsheet></office:body></office:document-content>"
    );
    archive(&[("content.xml", content.as_bytes())])
}

#[test]
fn cells_that_show_something_else_than_their_number() {
    let here = folder("ods-kinds");
    let date = "<table:table-cell office:value-type=\"date\" office:date-value=\"2026-11-01\"><text:p>1</text:p></table:table-cell>";
    put(&here, "date.ods", row_of(date));
    let words = "date.ods: refused (question 21).\n  where:     row 1, column 1 (A1)\n  there:     \"1 shown as a percentage, date or \
                 time\"\n  expected:  a whole number\n  to do:     correct the cell\n";
    assert_eq!(run_in(&here, &["check", "date.ods"]), answer(words, 2));
    let money = "<table:table-cell office:value-type=\"currency\" office:value=\"1\"><text:p>1.00 EUR</text:p></table:table-cell>";
    put(&here, "money.ods", row_of(money));
    assert_eq!(run_in(&here, &["check", "money.ods"]), answer("money.ods: a linking table of 1 cue.\n", 0));
}

#[test]
fn formulas_without_a_stored_value() {
    let here = folder("formulas");
    put(&here, "none.ods", row_of("<table:table-cell table:formula=\"of:=1\"/>"));
    let sheet = b"<worksheet><sheetData><row r=\"1\"><c r=\"A1\"><f>1</f></c></row></sheetData></worksheet>".as_slice();
    let book = archive(&[
        ("xl/workbook.xml", b"<workbook><sheets><sheet name=\"One\" r:id=\"a\"/></sheets></workbook>".as_slice()),
        (
            "xl/_rels/workbook.xml.rels",
            b"<Relationships><Relationship Id=\"a\" Target=\"/xl/one.xml\"/></Relationships>",
        ),
        ("xl/one.xml", sheet),
    ]);
    put(&here, "none.xlsx", book);
    for name in ["none.ods", "none.xlsx"] {
        let words = format!(
            "{name}: refused (question 21).\n  where:     row 1, column 1 (A1)\n  there:     \"a formula without a stored \
             value\"\n  expected:  a whole number\n  to do:     correct the cell\n"
        );
        assert_eq!(run_in(&here, &["check", name]), answer(&words, 2));
    }
}

#[test]
fn letters_in_an_older_encoding() {
    let here = folder("latin");
    put(&here, "sheet.csv", b"Gr\xE4fin;b\r\n1;2\r\n2;1\r\n");
    let words = "sheet.csv: mended on reading: letters in another encoding than UTF-8; semicolons between the cells; row 1 looks like a \
                 heading: left out.\nsheet.csv: a linking table of 2 cues.\n";
    assert_eq!(run_in(&here, &["check", "sheet.csv"]), answer(words, 0));
    put(&here, "sheet.csv", b"1;2\xA0\r\n2;1\r\n");
    let words = "sheet.csv: mended on reading: letters in another encoding than UTF-8; semicolons between the cells.\n\
                 sheet.csv: refused (question 21).\n  where:     row 1, column 2 (B1)\n  there:     \"2\u{FFFD}\"\n  \
                 expected:  a whole number\n  to do:     correct the cell\n";
    assert_eq!(run_in(&here, &["check", "sheet.csv"]), answer(words, 2));
    let strict = run_in(&here, &["check", "--strict", "sheet.csv"]).output;
    assert!(strict.contains("where:     row 1, column 1 (A1)\n  there:     \";\"\n"), "{strict}");
}

#[test]
fn names_in_a_workbook() {
    let here = folder("workbook-names");
    put(&here, "source.ods", ods(&[("Show", &numbers(&[vec![1, 2], vec![2, 1]]))]));
    put(&here, "target.xlsx", xlsx(&[("Rig", &numbers(&[vec![1, 2], vec![2, 1]]))]));
    let named = |names: [&str; 2]| -> Rows {
        let row = |(place, name): (usize, &&str)| vec![Cell::Number(place as f64 + 1.0), Cell::Text((*name).into())];
        names.iter().enumerate().map(row).collect()
    };
    put(&here, "source.names.ods", ods(&[("Names", &named(["House to  half", "say \"go\", now"]))]));
    put(&here, "target.names.xlsx", xlsx(&[("Names", &named([" <dark> & light", "b"]))]));
    let words =
        "The show fits: its 2 cues go to 2 of the rig's 2.\n  1 \"House to  half\"  ->  1 \" <dark> & light\"\n  \
                 2 \"say \"go\", now\"   ->  2 \"b\"\n";
    assert_eq!(run_in(&here, &["move", "--quiet", "."]), answer(words, 0));
}

#[test]
fn files_that_are_no_spreadsheets() {
    let here = folder("no-spreadsheet");
    put(&here, "old.xls", b"\xD0\xCF\x11\xE0\xA1\xB1\x1A\xE1");
    put(&here, "cut.ods", &ods(&[("One", &numbers(&[vec![1]]))])[..100]);
    put(&here, "other.zip", archive(&[("a.txt", b"1")]));
    put(&here, "noise.csv", b"\x80\x81\x01");
    for (name, there) in [
        ("old.xls", "a file of an older Excel (.xls), or a workbook with a password"),
        ("cut.ods", "an archive with very many files, or cut short"),
        ("other.zip", "an archive without a spreadsheet"),
        ("noise.csv", "the byte 80 (hexadecimal), 0 bytes into the file"),
    ] {
        let outcome = run_in(&here, &["check", name]);
        let head = format!("{name}: refused.\n  where:     the whole file\n  there:     {there}\n");
        assert!(outcome.output.starts_with(&head) && outcome.status == 2, "{}", outcome.output);
    }
}

#[test]
fn standard_input_is_one_sheet() {
    let here = two_sheets("standard-input");
    let piped = |arguments: &[&str], file: &str| {
        let input = fs::File::open(Path::new(&here).join(file)).expect("the file is there");
        let done = crate::run::program(&here, arguments).stdin(input).output().expect("the program runs");
        (String::from_utf8(done.stdout).expect("it is text"), done.status.code())
    };
    let checked = "-: mended on reading: the first of 2 sheets, \"Hall\".\n-: a linking table of 1 cue.\n";
    assert_eq!(piped(&["check", "-"], "book.ods"), (checked.into(), Some(0)));
    let moved = "The show fits: its 1 cue goes to 1 of the rig's 2.\n  1  ->  1\n";
    assert_eq!(piped(&["move", "--quiet", "-", "book.xlsx#Act 2"], "book.ods"), (moved.into(), Some(0)));
    assert_eq!(piped(&["mend", "-"], "book.ods"), ("1\r\n".into(), Some(0)));
    // What loads as it is goes on as it is.
    put(&here, "one.csv", "1\r\n");
    assert_eq!(piped(&["mend", "-"], "one.csv"), ("1\r\n".into(), Some(0)));
    let dry = "-: loads as it is; nothing to mend.\n";
    assert_eq!(piped(&["mend", "--dry-run", "-"], "one.csv"), (dry.into(), Some(0)));
    for command in ["move", "check", "mend", "classes"] {
        assert_eq!(piped(&[command, "-", "-"], "book.ods"), (String::new(), Some(64)));
    }
}
