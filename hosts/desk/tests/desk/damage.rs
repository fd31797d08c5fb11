//! Damaged files: each ends in an answer or a refusal, within bounds of memory, and no file is changed.

use crate::random::{table, Random};
use crate::run::{folder, names, program, put};
use crate::workbooks::{archive, numbers, ods, xlsx, Cell, Rows};
use std::fs;
use std::os::unix::process::CommandExt;
use std::path::Path;
use std::process::Output;

/// What the program may take of memory, addresses that it does not touch included.
const MOST_MEMORY: u64 = 512 << 20;

/// The seconds of processor time that it may take.
const MOST_SECONDS: u64 = 60;

/// A run of this many files at once.
const BATCH: usize = 200;

/// How many files are damaged, where the environment does not say it.
const FEW: usize = 1000;

/// Runs the program within the bounds of memory and time.
fn bounded(here: &Path, arguments: &[&str]) -> Output {
    let mut command = program(here, arguments);
    let limit = |most: u64| libc::rlimit { rlim_cur: most, rlim_max: most };
    // SAFETY: between fork and exec the calls set limits and touch nothing else.
    unsafe {
        command.pre_exec(move || {
            libc::setrlimit(libc::RLIMIT_AS, &limit(MOST_MEMORY));
            libc::setrlimit(libc::RLIMIT_CPU, &limit(MOST_SECONDS));
            Ok(())
        })
    };
    command.output().expect("the program runs")
}

/// Files to be damaged: a table in some formats, and a name sheet.
fn originals(random: &mut Random) -> Vec<(&'static str, Vec<u8>)> {
    let table = table(random);
    let rows = numbers(&table);
    let line = |row: &Vec<u8>| row.iter().map(u8::to_string).collect::<Vec<_>>().join(";") + "\n";
    let text: String = table.iter().map(line).collect();
    let quoted = text.replace(';', "\",\"").replace('\n', "\"\r\n\"");
    let utf16: Vec<u8> = text.replace(';', "\t").encode_utf16().flat_map(u16::to_le_bytes).collect();
    let named: Rows = vec![vec![Cell::Number(1.0), Cell::Text("a \"b\", c".into())]];
    vec![
        ("ods", ods(&[("One", &rows)])),
        ("xlsx", xlsx(&[("One", &rows)])),
        ("csv", text.into_bytes()),
        ("csv", quoted.into_bytes()),
        ("txt", utf16),
        ("names.ods", ods(&[("Names", &named)])),
        ("names.csv", b"1,a\r\n2,\"b, c\"\r\n".to_vec()),
    ]
}

/// A workbook whose XML is damaged and packed again.
fn damaged_inside(bytes: &[u8], random: &mut Random) -> Option<Vec<u8>> {
    let mut opened = zip::ZipArchive::new(std::io::Cursor::new(bytes)).ok()?;
    let mut files = Vec::new();
    for place in 0..opened.len() {
        let mut file = opened.by_index(place).ok()?;
        let mut text = Vec::new();
        std::io::Read::read_to_end(&mut file, &mut text).ok()?;
        files.push((file.name().to_owned(), text));
    }
    let place = random.below(files.len());
    damage(&mut files[place].1, random);
    let files: Vec<_> = files.iter().map(|(name, text)| (name.as_str(), text.as_slice())).collect();
    Some(archive(&files))
}

/// Changes, takes away, doubles and puts in bytes.
fn damage(bytes: &mut Vec<u8>, random: &mut Random) {
    const PIECES: [&[u8]; 14] = [
        b"\"",
        b",",
        b";",
        b"\t",
        b"\r",
        b"\n",
        b"\0",
        b"\xFF\xFE",
        b"999999999999",
        b"1.000",
        b"<a>",
        b"</table:table>",
        b" table:number-columns-repeated=\"4294967295\"",
        b"\xE2\x80\xAE",
    ];
    for _ in 0..=random.below(4) {
        let place = random.below(bytes.len() + 1);
        let end = (place + 1 + random.below(20)).min(bytes.len());
        match random.below(6) {
            0 if place < bytes.len() => bytes[place] ^= 1 << random.below(8),
            1 if place < bytes.len() => bytes[place] = random.below(256) as u8,
            2 if place < end => drop(bytes.drain(place..end)),
            3 => bytes.truncate(place),
            4 if place < end => {
                let piece = bytes[place..end].to_vec();
                bytes.splice(place..place, piece);
            }
            _ => drop(bytes.splice(place..place, PIECES[random.below(PIECES.len())].iter().copied())),
        }
    }
}

#[test]
fn ends_in_an_answer_or_a_refusal() {
    let number = |name: &str| std::env::var(name).ok().and_then(|text| text.parse::<usize>().ok());
    let files = number("TICKDRIZZLE_DAMAGED").unwrap_or(FEW);
    let mut random = Random::new(number("TICKDRIZZLE_SEED").unwrap_or(1) as u64);
    let (mut accepted, mut refused, mut done) = (0, 0, 0);
    while done < files {
        let here = folder(&format!("damage-{files}"));
        let mut written = Vec::new();
        while written.len() < BATCH.min(files - done) {
            for (ending, mut bytes) in originals(&mut random) {
                let inside = if random.below(2) == 0 { damaged_inside(&bytes, &mut random) } else { None };
                match inside {
                    Some(packed) => bytes = packed,
                    None => damage(&mut bytes, &mut random),
                }
                let name = format!("{:04}.{ending}", written.len());
                put(&here, &name, &bytes);
                written.push((name, bytes));
            }
        }
        let arguments: Vec<&str> =
            ["check", "--json"].into_iter().chain(written.iter().map(|(name, _)| name.as_str())).collect();
        let outcome = bounded(&here, &arguments);
        assert!(outcome.stderr.is_empty(), "{}", String::from_utf8_lossy(&outcome.stderr));
        assert!(matches!(outcome.status.code(), Some(0 | 2)), "{:?}", outcome.status);
        let answer: serde_json::Value = serde_json::from_slice(&outcome.stdout).expect("it is JSON");
        let sheets = answer["sheets"].as_array().expect("it has sheets");
        assert_eq!(sheets.len(), written.len());
        for sheet in sheets {
            let is_refused = !sheet["refusal"].is_null();
            let is_read = !sheet["table"].is_null() || !sheet["names"].as_array().expect("it has names").is_empty();
            assert!(is_refused != is_read, "{sheet}");
            *(if is_refused { &mut refused } else { &mut accepted }) += 1;
        }
        let mut expected: Vec<_> = written.iter().map(|(name, _)| name.clone()).collect();
        expected.sort();
        assert_eq!(names(&here), expected);
        for (name, bytes) in &written {
            assert_eq!(&fs::read(here.join(name)).expect("it is there"), bytes, "{name}");
        }
        done += written.len();
    }
    println!("{done} damaged files: {accepted} accepted, {refused} refused");
}

/// A file is refused within the bounds of memory and time.
fn refused_soon(here: &Path, name: &str, there: &str) {
    let outcome = bounded(here, &["check", name]);
    let output = String::from_utf8_lossy(&outcome.stdout);
    assert!(output.contains(there), "{output}{}", String::from_utf8_lossy(&outcome.stderr));
    assert_eq!(outcome.status.code(), Some(2));
}

#[test]
fn bombs_and_very_large_sheets_are_refused_within_bounds() {
    let here = folder("large");
    let front = "<office:document-content><office:body><office:spreadsheet><table:table table:name=\"One\">";
    let bomb = front.to_string() + &" ".repeat(40 << 20);
    put(&here, "bomb.ods", archive(&[("content.xml", bomb.as_bytes())]));
    refused_soon(&here, "bomb.ods", "which unpacks to more than 33554432 bytes");
    let deep = front.to_string() + &"<a>".repeat(1 << 20);
    put(&here, "deep.ods", archive(&[("content.xml", deep.as_bytes())]));
    refused_soon(&here, "deep.ods", "with elements 100 deep");
    let repeated = format!(
        "{front}<table:table-row table:number-rows-repeated=\"10000\"><table:table-cell table:number-columns-repeated=\"1000\" \
         office:value-type=\"float\" office:value=\"1\"/></table:table-row></table:table></office:spreadsheet></office:body>\
         </office:document-content>"
    );
    put(&here, "repeated.ods", archive(&[("content.xml", repeated.as_bytes())]));
    refused_soon(&here, "repeated.ods", "10000 rows of 1000 cells");
    put(&here, "cells.csv", "1,".repeat(3999) + "1\n");
    refused_soon(&here, "cells.csv", "1 row of 4000 cells");
    let line = "1;".repeat(2000) + "1\n";
    put(&here, "long.csv", line.repeat(4000));
    refused_soon(&here, "long.csv", "4000 rows of 2001 cells");
    let row = |row: usize| format!("<row r=\"{row}\">{}</row>", "<c><v>1</v></c>".repeat(1000));
    let sheet = format!("<worksheet><sheetData>{}</sheetData></worksheet>", (1..=2000).map(row).collect::<String>());
    let book = archive(&[
        ("xl/workbook.xml", b"<workbook><sheets><sheet name=\"One\" r:id=\"a\"/></sheets></workbook>".as_slice()),
        (
            "xl/_rels/workbook.xml.rels",
            b"<Relationships><Relationship Id=\"a\" Target=\"/xl/one.xml\"/></Relationships>",
        ),
        ("xl/one.xml", sheet.as_bytes()),
    ]);
    put(&here, "cells.xlsx", book);
    refused_soon(&here, "cells.xlsx", "2000 rows of 1000 cells");
    let quotes = "\"\"\",".repeat(1 << 20) + "\n";
    put(&here, "quotes.csv", quotes);
    refused_soon(&here, "quotes.csv", "refused");
}
