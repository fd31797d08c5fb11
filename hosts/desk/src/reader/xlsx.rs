//! The cells of an .xlsx file: a file for each sheet, and one for the texts that cells share.

use super::grid::{Cell, Grid, MOST_KEPT};
use super::workbook::{attribute, broken, characters, chosen, each_event, NO_VALUE, SHOWN_OTHERWISE};
use super::Unread;
use crate::words::count;
use quick_xml::events::{BytesStart, Event};
use std::collections::HashMap;
use std::io::Cursor;
use zip::ZipArchive;

type Archive<'a> = ZipArchive<Cursor<&'a [u8]>>;

const WORKBOOK: &str = "xl/workbook.xml";
const RELATIONS: &str = "xl/_rels/workbook.xml.rels";
const SHARED: &str = "xl/sharedStrings.xml";
const STYLES: &str = "xl/styles.xml";

/// More elements of one kind are not looked at.
const MOST_ELEMENTS: usize = 1 << 16;

/// No row and no column is counted farther.
const FARTHEST: usize = 1 << 24;

/// The names of the sheets.
pub fn sheets(archive: &mut Archive) -> Result<Vec<String>, Unread> {
    let sheets = elements(archive, WORKBOOK, b"sheet", ["name", "id"])?;
    Ok(sheets.into_iter().map(|[name, _]| name).collect())
}

/// The cells of the sheet of this name, or of the first.
pub fn grid(archive: &mut Archive, sheet: Option<&str>) -> Result<Grid, Unread> {
    let sheets = elements(archive, WORKBOOK, b"sheet", ["name", "id"])?;
    let names: Vec<String> = sheets.iter().map(|[name, _]| name.clone()).collect();
    let (wanted, said) = chosen(&names, sheet)?;
    let relations = elements(archive, RELATIONS, b"Relationship", ["Id", "Target"])?;
    let target = relations.into_iter().find(|[id, _]| *id == sheets[wanted][1]).map(|[_, target]| target);
    let target = target.ok_or_else(|| broken("a workbook that does not tell where its sheet is"))?;
    let file = target.strip_prefix('/').map_or_else(|| format!("xl/{target}"), str::to_owned);
    let mut reading = Reading { is_plain: plain_formats(archive)?, ..Reading::default() };
    each_event(archive, &file, |around, event| reading.take(around, event))?;
    share(archive, &mut reading)?;
    reading.grid.changes.extend(said);
    if reading.formulas > 0 {
        reading.grid.changes.push(format!("{} by the stored value", count(reading.formulas, "formula")));
    }
    Ok(reading.grid)
}

/// Two attributes of each element of this name in a file.
fn elements(archive: &mut Archive, file: &str, name: &[u8], of: [&str; 2]) -> Result<Vec<[String; 2]>, Unread> {
    let mut found = Vec::new();
    each_event(archive, file, |_, event| {
        if let Event::Start(start) = event {
            if start.local_name().as_ref() == name {
                found.push(of.map(|name| attribute(start, name).unwrap_or_default()));
            }
        }
        Ok(found.len() < MOST_ELEMENTS)
    })?;
    Ok(found)
}

/// Whether each format of cells, by its place in the workbook, shows the number that is stored: no percentage, date or time.
fn plain_formats(archive: &mut Archive) -> Result<Vec<bool>, Unread> {
    let mut is_plain = Vec::new();
    if !archive.file_names().any(|name| name == STYLES) {
        return Ok(is_plain);
    }
    let codes = elements(archive, STYLES, b"numFmt", ["numFmtId", "formatCode"])?;
    let codes: HashMap<String, String> = codes.into_iter().map(|[id, code]| (id, code)).collect();
    each_event(archive, STYLES, |around, event| {
        if let Event::Start(start) = event {
            if start.local_name().as_ref() == b"xf" && around.last().is_some_and(|parent| parent == b"cellXfs") {
                let id = attribute(start, "numFmtId").unwrap_or_default();
                is_plain.push(codes.get(&id).map_or_else(|| is_plain_number(&id), |code| is_plain_code(code)));
            }
        }
        Ok(is_plain.len() < MOST_ELEMENTS)
    })?;
    Ok(is_plain)
}

/// The formats that have a number of their own: 9 and 10 are percentages, 14 to 22 and 45 to 47 dates and times.
fn is_plain_number(id: &str) -> bool {
    !matches!(id.parse(), Ok(9 | 10 | 14..=22 | 45..=47))
}

/// A format's code without what stands in quote marks and brackets has no sign of a percentage, a date or a time.
fn is_plain_code(code: &str) -> bool {
    let mut closes = None;
    code.chars().all(|character| match (closes, character) {
        (Some(close), _) => {
            closes = Some(close).filter(|&close| close != character);
            true
        }
        (None, '"') => {
            closes = Some('"');
            true
        }
        (None, '[') => {
            closes = Some(']');
            true
        }
        (None, _) => !"%dmyhsDMYHS".contains(character),
    })
}

/// How far the sheet has been read. Rows and columns count from 0.
#[derive(Default)]
struct Reading {
    grid: Grid,
    row: usize,
    column: usize,
    kind: String,
    /// Which formats show the number that is stored, and whether that of the cell does.
    is_plain: Vec<bool>,
    shows_number: bool,
    text: String,
    /// Whether the cell has a formula, and whether it has a value.
    is_formula: bool,
    has_value: bool,
    formulas: usize,
    /// The cells whose text is shared, by its number.
    shared: HashMap<usize, Vec<(usize, usize)>>,
    /// How many rows and columns have been opened.
    opened: (usize, usize),
}

impl Reading {
    /// Takes an event; whether there is more to read.
    fn take(&mut self, around: &[Vec<u8>], event: &Event) -> Result<bool, Unread> {
        let is_within = |name: &[u8]| around.last().is_some_and(|parent| parent == name);
        match event {
            Event::Start(start) => self.open(start),
            Event::End(end) => match end.local_name().as_ref() {
                b"c" => self.close_cell(),
                b"sheetData" => return Ok(false),
                _ => (),
            },
            Event::Text(_) | Event::CData(_)
                if is_within(b"v") || is_within(b"t") && !around.iter().any(|name| name == b"rPh") =>
            {
                let text = std::mem::take(&mut self.text) + &characters(event)?;
                self.text = Cell::new(&text).text;
            }
            _ => (),
        }
        Ok(true)
    }

    fn open(&mut self, start: &BytesStart) {
        match start.local_name().as_ref() {
            b"row" => {
                let row = attribute(start, "r").and_then(|number| number.parse::<usize>().ok());
                self.row = row.map_or(self.opened.0, |row| row.saturating_sub(1)).min(FARTHEST);
                self.opened = (self.row + 1, 0);
            }
            b"c" => {
                let place = attribute(start, "r").and_then(|place| place_of(&place));
                let (row, column) = place.unwrap_or((self.row, self.opened.1));
                (self.row, self.column) = (row.min(FARTHEST), column.min(FARTHEST));
                self.opened.1 = self.column + 1;
                self.kind = attribute(start, "t").unwrap_or_default();
                let format = attribute(start, "s").and_then(|place| place.parse::<usize>().ok()).unwrap_or(0);
                self.shows_number = self.is_plain.get(format).copied().unwrap_or(true);
                self.text.clear();
                (self.is_formula, self.has_value) = (false, false);
            }
            b"f" => self.is_formula = true,
            b"v" | b"is" => self.has_value = true,
            _ => (),
        }
    }

    fn close_cell(&mut self) {
        let text = std::mem::take(&mut self.text);
        let (row, column) = (self.row, self.column);
        self.formulas += usize::from(self.is_formula && self.has_value);
        let cell = match self.kind.as_str() {
            _ if self.is_formula && !self.has_value => Cell::new(NO_VALUE),
            "s" if row < MOST_KEPT && column < MOST_KEPT => match text.parse() {
                Ok(number) => {
                    self.shared.entry(number).or_default().push((row, column));
                    return;
                }
                Err(_) => Cell::new(&text),
            },
            "" | "n" if !text.is_empty() && !self.shows_number => Cell::new(&format!("{text} {SHOWN_OTHERWISE}")),
            "" | "n" => Cell { stored: !text.is_empty(), ..Cell::new(&text) },
            "b" => Cell::new(if text == "0" { "FALSE" } else { "TRUE" }),
            _ => Cell::new(&text),
        };
        if !cell.is_blank() {
            self.grid.put(row, column, cell);
        }
    }
}

/// Puts the shared texts in their cells.
fn share(archive: &mut Archive, reading: &mut Reading) -> Result<(), Unread> {
    if reading.shared.is_empty() {
        return Ok(());
    }
    let (mut number, mut text) = (0, String::new());
    each_event(archive, SHARED, |around, event| {
        match event {
            Event::Text(_) | Event::CData(_)
                if around.last().is_some_and(|parent| parent == b"t") && !around.iter().any(|name| name == b"rPh") =>
            {
                text = Cell::new(&(std::mem::take(&mut text) + &characters(event)?)).text;
            }
            Event::End(end) if end.local_name().as_ref() == b"si" => {
                for (row, column) in reading.shared.remove(&number).unwrap_or_default() {
                    reading.grid.put(row, column, Cell::new(&text));
                }
                number += 1;
                text.clear();
            }
            _ => (),
        }
        Ok(true)
    })?;
    if reading.shared.is_empty() {
        Ok(())
    } else {
        Err(broken("cells whose text is not in the workbook"))
    }
}

/// The row and the column of a place such as B12, both counted from 0.
fn place_of(place: &str) -> Option<(usize, usize)> {
    let digits = place.find(|character: char| character.is_ascii_digit())?;
    let (letters, row) = place.split_at(digits);
    let letter = |column: usize, byte: u8| {
        byte.is_ascii_uppercase().then(|| column.saturating_mul(26).saturating_add(usize::from(byte - b'A') + 1))
    };
    let column = letters.bytes().try_fold(0, letter)?.checked_sub(1)?;
    Some((row.parse::<usize>().ok()?.checked_sub(1)?, column))
}

#[cfg(test)]
mod tests {
    use super::*;

    #[test]
    fn formats_that_show_what_is_stored() {
        for code in ["General", "0", "0.00", "#,##0", "[Red]0", "0 \"cues\"", "@"] {
            assert!(is_plain_code(code), "{code}");
        }
        for code in ["0%", "yyyy-mm-dd", "hh:mm", "[Red]0.0%", "\"x\"d"] {
            assert!(!is_plain_code(code), "{code}");
        }
        assert!(is_plain_number("0") && is_plain_number("49") && !is_plain_number("9") && !is_plain_number("14"));
    }

    #[test]
    fn places_have_letters_and_numbers() {
        assert_eq!(place_of("A1"), Some((0, 0)));
        assert_eq!(place_of("AB12"), Some((11, 27)));
        for place in ["", "A", "1", "A0", "a1", "A1B"] {
            assert_eq!(place_of(place), None);
        }
    }
}
