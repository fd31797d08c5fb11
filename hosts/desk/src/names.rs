//! The names of cues, from a name sheet that stands beside the table's: `show.names.csv` beside `show.csv`.

use crate::answer::{Fault, NameSheet, Refusal, Role, Sheet};
use crate::input::{with_ending, with_endings, Source};
use crate::reader::grid::Cell;
use crate::reader::names::{is_open, names, read, Reading};
use crate::reader::table::place;
use crate::sheet::{original_of, several, unread};
use crate::status::Failure;
use crate::words::{count, path_shown, shown};
use std::path::{Path, PathBuf};
use tickdrizzle::{Question, LONGEST_NAME};

const TO_DO: &str = "correct the name sheet; until then cues are shown by number";

/// What stands beside a table.
#[derive(Default)]
pub struct Beside {
    pub names: Vec<String>,
    pub sheet: Option<NameSheet>,
}

/// Tells that there are too few names or too many for a table.
pub fn hint(sheet: Option<&NameSheet>, table: &Sheet) -> Option<String> {
    let (sheet, order, names) = (sheet?, table.order?, table.names.len());
    let wrong = names > 0 && names != order;
    wrong.then(|| format!("{} has {} for {}.", sheet.path, count(names, "name"), count(order, "cue")))
}

/// Whether a path is that of a name sheet.
pub fn is_name_sheet(path: &Path) -> bool {
    path.file_stem().is_some_and(|stem| stem.to_string_lossy().ends_with(".names"))
}

/// The name sheets beside a sheet; of a mended sheet also those of the original.
pub fn name_sheets(file: &Path) -> Vec<PathBuf> {
    let of = |stem: &Path| with_endings(&with_ending(stem, "names"));
    let own = of(&file.with_extension(""));
    match original_of(file) {
        Some(original) if own.is_empty() => of(&original),
        _ => own,
    }
}

/// Reads the name sheet beside a sheet. A name sheet that is refused or cannot be read gives no names and stops nothing.
pub fn beside(file: &Path, strict: bool) -> Beside {
    let paths = name_sheets(file);
    let Some(first) = paths.first() else { return Beside::default() };
    let read = |path: &PathBuf| {
        let source = Source::new(path);
        opened(&source, strict).unwrap_or_else(|failure| unread(&source, Role::Names, &failure))
    };
    let mut readings: Vec<_> = paths.iter().map(read).collect();
    let one = readings.swap_remove(0);
    let mut refusal = one.refusal;
    if let Some(other) = readings.iter().find(|other| other.names != one.names) {
        let there = format!("{}, with other names", other.path);
        let fault = Fault { place: "beside it".into(), cells: Vec::new(), there };
        refusal = Some(several(
            vec![fault],
            "one name sheet",
            "take away the one that is old; until then cues are shown by number",
        ));
    }
    let names = if refusal.is_some() { Vec::new() } else { one.names };
    let sheet = NameSheet { path: path_shown(first), mended: one.mended, refusal };
    Beside { names, sheet: Some(sheet) }
}

/// A name sheet by itself.
pub fn opened(source: &Source, strict: bool) -> Result<Sheet, Failure> {
    let bytes = source.bytes()?;
    let mut about = Sheet { path: path_shown(&source.given), role: Role::Names, ..Sheet::default() };
    match read(&bytes, source.sheet.as_deref()) {
        Ok(mut reading) => {
            if strict {
                (reading.text, reading.mended) = (bytes, Vec::new());
            }
            match names(&reading.text) {
                Ok(names) => about.names = names,
                Err(refusal) => about.refusal = Some(explain(&reading, refusal.question)),
            }
            about.mended = reading.mended;
        }
        Err(unread) => {
            let fault = Fault { place: unread.place, cells: Vec::new(), there: unread.there };
            about.refusal = Some(several(vec![fault], &unread.expected, &unread.to_do));
        }
    }
    Ok(about)
}

/// Why a name sheet is refused: first the record that the library names.
fn explain(reading: &Reading, question: Question) -> Refusal {
    let breaks =
        |place: usize| reading.text[..place.min(reading.text.len())].iter().filter(|&&byte| byte == b'\n').count();
    let (first, expected) = match question {
        Question::Sheet { place } => (breaks(place), "a number, a comma, a name and CR LF in each row"),
        Question::Name { place } => (place - 1, "a name of 1 to 40 plain characters"),
        Question::NameNumber { place } => (place - 1, "the next number, counted from 1, at most 120"),
        _ => (0, ""),
    };
    let mut faults: Vec<_> =
        (0..reading.records.len()).filter_map(|record| fault(reading, record).map(|fault| (record, fault))).collect();
    // Past the last record the library has looked for the end of an earlier one, whose fault is told.
    let is_told = faults.iter().any(|(record, _)| *record == first || first >= reading.records.len());
    if !is_told {
        faults.push((first, (whole(reading, first), expected.into())));
    }
    faults.sort_by_key(|(record, _)| (*record != first, *record));
    let expected = faults[0].1 .1.clone();
    let mut refusal = several(faults.into_iter().map(|(_, (fault, _))| fault).collect(), &expected, TO_DO);
    refusal.question = Some(question.number() as usize);
    refusal
}

/// A record as it stands, or the end of the sheet.
fn whole(reading: &Reading, record: usize) -> Fault {
    match reading.records.get(record) {
        Some((row, cells)) => {
            let text: Vec<_> = cells.iter().map(|cell| cell.text.clone()).collect();
            Fault {
                place: format!("row {}", row + 1),
                cells: vec![[row + 1, reading.left + 1]],
                there: shown(&text.join(",")),
            }
        }
        None => Fault { place: "the whole sheet".into(), cells: Vec::new(), there: "no name".into() },
    }
}

/// What is wrong with a record, counted from 0, and what was expected.
fn fault(reading: &Reading, record: usize) -> Option<(Fault, String)> {
    let (row, cells) = &reading.records[record];
    let at = |column: usize, there: String| {
        let place = place((*row, reading.left + column));
        Fault { place, cells: vec![[row + 1, reading.left + column + 1]], there }
    };
    let [number, name] = &cells[..] else {
        return Some((whole(reading, record), "a number and a name in each row".into()));
    };
    if number.trimmed() != (record + 1).to_string() {
        return Some((at(0, told(number)), format!("the next number, {}", record + 1)));
    }
    if is_open(name) {
        return Some((at(1, told(name)), "a name without a quote mark at its front, or between two".into()));
    }
    if let Some(letter) = name.text.chars().find(|letter| !(' '..='~').contains(letter)) {
        let there = format!("{} in {}", shown(&letter.to_string()), shown(&name.text));
        return Some((at(1, there), "names of plain ASCII letters, digits and signs, without accents".into()));
    }
    let is_short = (1..=LONGEST_NAME).contains(&name.text.len());
    (!is_short).then(|| (at(1, told(name)), "a name of 1 to 40 plain characters".into()))
}

fn told(cell: &Cell) -> String {
    if cell.text.is_empty() {
        "an empty cell".into()
    } else {
        shown(&cell.text)
    }
}
