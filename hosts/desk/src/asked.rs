//! Questions of the page: a command line with the sheets that it names, answered by the command itself. docs/JSON.md documents them.
//!
//! The process that answers sees the sent sheets and can open no file at all.

use crate::answer::{Answer, Cells, Found};
use crate::arguments::{Arguments, Command};
use crate::commands::{self, Done};
use crate::input::Source;
use crate::names::is_name_sheet;
use crate::reader::{self, table};
use crate::status::{Failure, Status};
use crate::views::text::{chosen, rig_in_words};
use crate::words::shown;
use crate::{files, printed, signals};
use clap::Parser;
use serde::{Deserialize, Serialize};
use std::collections::BTreeMap;
use std::io::{self, Read};
use std::path::{Path, PathBuf};

/// A longer sheet is not taken.
const MOST_BYTES: usize = 2 << 20;

/// A longer question is not read.
pub const MOST_ASKED: usize = 16 << 20;

/// What is asked.
#[derive(Debug, Deserialize)]
pub struct Asked {
    /// The command and its arguments, as at a prompt.
    arguments: Vec<String>,
    /// The files that the arguments may name.
    #[serde(default)]
    files: Vec<Sent>,
    /// Whether the reply has the sheets that were sent as cells, as files to save.
    #[serde(default)]
    save: bool,
}

/// A file that was sent: its bytes, or its cells.
#[derive(Debug, Deserialize)]
struct Sent {
    name: String,
    base64: Option<String>,
    cells: Option<Cells>,
}

/// What is replied.
#[derive(Debug, Serialize)]
pub struct Replied {
    /// What `--json` prints.
    answer: Answer,
    /// What is printed without it.
    printed: String,
    /// What was kept of the operator's choice, and what came of each rig, in words.
    said: Vec<String>,
    rigs: Vec<String>,
    /// The files that the command has written.
    files: Vec<Written>,
    /// What each table that was sent by its bytes has been read as.
    read: Vec<SheetRead>,
}

#[derive(Debug, Serialize)]
struct Written {
    name: String,
    text: String,
}

#[derive(Debug, Serialize)]
struct SheetRead {
    name: String,
    /// The names of a workbook's sheets.
    sheets: Vec<String>,
    /// Nothing where they cannot be read or were not all kept.
    cells: Option<Cells>,
}

/// Answers the question on standard input, as JSON and a line break.
pub fn run() -> Result<String, String> {
    let mut text = Vec::new();
    let most = MOST_ASKED as u64 + 1;
    io::stdin().lock().take(most).read_to_end(&mut text).map_err(|_| "the question cannot be read")?;
    signals::open_no_files();
    if text.len() > MOST_ASKED {
        return Err("the question is too long".into());
    }
    let asked: Asked = serde_json::from_slice(&text).map_err(|error| format!("this is no question: {error}"))?;
    let replied = reply(asked)?;
    Ok(serde_json::to_string(&replied).expect("a reply has numbers, texts and lists alone") + "\n")
}

fn reply(asked: Asked) -> Result<Replied, String> {
    let mut sent = BTreeMap::new();
    let (mut by_bytes, mut saved) = (Vec::new(), Vec::new());
    for file in asked.files {
        let path = PathBuf::from(&file.name);
        let bytes = match (&file.base64, &file.cells) {
            (Some(text), None) => decoded(text).ok_or_else(|| format!("{}: this is no base64", shown(&file.name)))?,
            (None, Some(cells)) => written(cells)?,
            _ => return Err(format!("{}: give its bytes as base64, or its cells", shown(&file.name))),
        };
        if bytes.len() > MOST_BYTES {
            return Err(format!("{}: the file is too long for a sheet", shown(&file.name)));
        }
        if file.base64.is_some() && !is_name_sheet(&path) {
            by_bytes.push(file.name.clone());
        }
        if file.cells.is_some() && asked.save {
            saved.push(Written { name: corrected(&path), text: String::from_utf8_lossy(&bytes).into_owned() });
        }
        if sent.insert(path, bytes).is_some() {
            return Err(format!("{}: two files have this name", shown(&file.name)));
        }
    }
    files::see_only(sent);
    let sources: Vec<_> = asked.arguments.iter().map(|argument| Source::new(Path::new(argument))).collect();
    let read = by_bytes.into_iter().map(|name| sheet_read(name, &sources)).collect();
    let (done, printed) = answer(&asked.arguments);
    let written = |output: crate::output::Output| Written {
        name: output.path.display().to_string(),
        text: String::from_utf8_lossy(&output.bytes).into_owned(),
    };
    saved.extend(done.outputs.into_iter().map(written));
    let answer = done.answer;
    let rigs = match &answer.result {
        Some(Found::Rigs(rigs)) => rigs.iter().map(|rig| rig_in_words(&answer.sheets[rig.sheet - 1], rig)).collect(),
        _ => Vec::new(),
    };
    Ok(Replied { said: chosen(&answer), rigs, answer, printed, files: saved, read })
}

/// Runs the command that the arguments name, and what it prints.
fn answer(arguments: &[String]) -> (Done, String) {
    let unanswered = |says: String| {
        let answer = Answer::new("usage").failed(Failure::usage(says));
        (Done { answer, standard: None, outputs: Vec::new() }, String::new())
    };
    let line = std::iter::once("tickdrizzle").chain(arguments.iter().map(String::as_str));
    match Arguments::try_parse_from(line) {
        Ok(Arguments {
            command: Command::Open(_) | Command::Ask | Command::SearchRigs | Command::Completions(_),
            ..
        }) => unanswered("this command is not asked from a page".into()),
        Ok(arguments) => {
            let done = commands::run(&arguments.command, &arguments.options);
            let (text, errors) = printed(&done, &arguments);
            let text = String::from_utf8_lossy(&text).into_owned();
            let is_failure = matches!(done.answer.status, Status::Failed | Status::Usage);
            (done, if is_failure { errors } else { text })
        }
        Err(error) => unanswered(error.render().to_string()),
    }
}

/// What a file has been read as: of a workbook the sheet that an argument names, or the first.
fn sheet_read(name: String, sources: &[Source]) -> SheetRead {
    let path = PathBuf::from(&name);
    let bytes = files::read(&path, MOST_BYTES as u64).unwrap_or_default();
    let sheet =
        sources.iter().find(|source| source.file.as_ref() == Some(&path)).and_then(|source| source.sheet.as_deref());
    SheetRead { sheets: reader::sheets(&bytes), cells: cells(&bytes, sheet), name }
}

/// The cells of a sheet.
fn cells(bytes: &[u8], sheet: Option<&str>) -> Option<Cells> {
    let ((top, left), rows) = table::read(bytes, sheet).ok()?.cells()?;
    Some(Cells { row: top + 1, column: left + 1, rows })
}

/// Cells as CSV, at their places. Each is quoted where any might not be read as it stands, so that there is one reading.
fn written(cells: &Cells) -> Result<Vec<u8>, String> {
    const MOST: usize = 1 << 10;
    if cells.row.max(cells.column).max(cells.rows.len()) > MOST || cells.row.min(cells.column) == 0 {
        return Err("cells at such a place are not taken".into());
    }
    let is_plain =
        |text: &String| !text.starts_with('0') && !text.is_empty() && text.bytes().all(|byte| byte.is_ascii_digit());
    let is_plain = cells.rows.iter().flatten().all(is_plain);
    let field = |text: &String| if is_plain { text.clone() } else { format!("\"{}\"", text.replace('"', "\"\"")) };
    let mut text = "\r\n".repeat(cells.row - 1);
    for row in &cells.rows {
        text += &",".repeat(cells.column - 1);
        text += &row.iter().map(field).collect::<Vec<_>>().join(",");
        text += "\r\n";
    }
    Ok(text.into_bytes())
}

/// `show.corrected.csv` for `show.ods`.
fn corrected(path: &Path) -> String {
    let stem = path.file_stem().unwrap_or_default().to_string_lossy();
    format!("{}.corrected.csv", stem.strip_suffix(".corrected").unwrap_or(&stem))
}

/// The bytes that base64 stands for.
fn decoded(text: &str) -> Option<Vec<u8>> {
    let digits = text.trim_end_matches('=');
    if text.len() % 4 != 0 || text.len() - digits.len() > 2 {
        return None;
    }
    let value = |digit: u8| match digit {
        b'A'..=b'Z' => Some(digit - b'A'),
        b'a'..=b'z' => Some(digit - b'a' + 26),
        b'0'..=b'9' => Some(digit - b'0' + 52),
        b'+' => Some(62),
        b'/' => Some(63),
        _ => None,
    };
    let mut bytes = Vec::with_capacity(text.len() / 4 * 3);
    for group in digits.as_bytes().chunks(4) {
        let mut held = 0;
        for &digit in group {
            held = held << 6 | u32::from(value(digit)?);
        }
        let [_, one, two, three] = (held << (6 * (4 - group.len()))).to_be_bytes();
        bytes.extend(&[one, two, three][..group.len() - 1]);
    }
    Some(bytes)
}

#[cfg(test)]
mod tests {
    use super::*;

    #[test]
    fn base64_as_its_document_has_it() {
        for (text, bytes) in
            [("", ""), ("Zg==", "f"), ("Zm8=", "fo"), ("Zm9v", "foo"), ("Zm9vYg==", "foob"), ("Zm9vYmFy", "foobar")]
        {
            assert_eq!(decoded(text), Some(bytes.into()));
        }
        assert_eq!(decoded("+/+/"), Some(vec![0xFB, 0xFF, 0xBF]));
        for text in ["Z", "Zg=", "Zg", "====", "Zm9v!w==", "Z===", "Zg==Zg=="] {
            assert_eq!(decoded(text), None, "{text}");
        }
    }

    #[test]
    fn cells_keep_their_places_and_have_one_reading() {
        let read_again = |row: usize, column: usize, rows: &[&[&str]]| {
            let rows = rows.iter().map(|row| row.iter().map(|cell| (*cell).into()).collect()).collect();
            let sent = Cells { row, column, rows };
            let read = cells(&written(&sent).expect("they are written"), None).expect("they are read");
            assert_eq!((read.row, read.column, read.rows), (sent.row, sent.column, sent.rows));
        };
        read_again(1, 1, &[&["1", "2"], &["2", "1"]]);
        read_again(3, 2, &[&["1", "2"], &["2", "1"]]);
        read_again(1, 1, &[&["cue", "a, \"b\""], &["c;d", "1"]]);
        read_again(1, 1, &[&["1", "0"], &["2", "0"]]);
        read_again(2, 5, &[&["1.000", "x\ny"], &["", "1,0,0"]]);
    }
}
