//! The cells of an .ods file: content.xml has the sheets one after another.

use super::grid::{Cell, Grid, MOST_KEPT};
use super::workbook::{attribute, characters, chosen, each_event, NO_VALUE, SHOWN_OTHERWISE};
use super::Unread;
use crate::words::count;
use quick_xml::events::{BytesStart, Event};
use std::io::Cursor;
use zip::ZipArchive;

const CONTENT: &str = "content.xml";

/// The names of the sheets.
pub fn sheets(archive: &mut ZipArchive<Cursor<&[u8]>>) -> Result<Vec<String>, Unread> {
    let mut names = Vec::new();
    each_event(archive, CONTENT, |around, event| {
        if let Event::Start(start) = event {
            if start.local_name().as_ref() == b"table" && is_sheet(around) {
                names.push(attribute(start, "name").unwrap_or_default());
            }
        }
        Ok(true)
    })?;
    Ok(names)
}

/// The cells of the sheet of this name, or of the first.
pub fn grid(archive: &mut ZipArchive<Cursor<&[u8]>>, sheet: Option<&str>) -> Result<Grid, Unread> {
    let (wanted, said) = chosen(&sheets(archive)?, sheet)?;
    let mut reading = Reading { wanted, ..Reading::default() };
    each_event(archive, CONTENT, |around, event| reading.take(around, event))?;
    reading.grid.changes.extend(said);
    if reading.formulas > 0 {
        reading.grid.changes.push(format!("{} by the stored value", count(reading.formulas, "formula")));
    }
    Ok(reading.grid)
}

/// Whether an element that stands inside these is a sheet, and not a table within a cell.
fn is_sheet(around: &[Vec<u8>]) -> bool {
    around.last().is_some_and(|parent| parent == b"spreadsheet")
}

/// How far the sheet has been read. Rows and columns count from 0.
#[derive(Default)]
struct Reading {
    /// Which sheet is wanted, and which one comes now.
    wanted: usize,
    sheets: usize,
    grid: Grid,
    row: usize,
    row_repeated: usize,
    column: usize,
    /// The cells of the row that are not empty and near enough.
    cells: Vec<(usize, Cell)>,
    last_filled: usize,
    cell: Cell,
    /// What is said after its text, where that is no number.
    said: &'static str,
    cell_repeated: usize,
    /// How deep the cell stands, while it is read.
    depth: Option<usize>,
    formulas: usize,
}

impl Reading {
    /// Takes an event; whether there is more to read.
    fn take(&mut self, around: &[Vec<u8>], event: &Event) -> Result<bool, Unread> {
        match event {
            Event::Start(start) if start.local_name().as_ref() == b"table" && is_sheet(around) => self.sheets += 1,
            _ if self.sheets != self.wanted + 1 => (),
            Event::End(end) if end.local_name().as_ref() == b"table" && is_sheet(around) => return Ok(false),
            Event::Start(start) => self.open(around, start),
            Event::End(end) => match end.local_name().as_ref() {
                _ if self.depth.is_some_and(|depth| depth < around.len()) => (),
                b"table-cell" | b"covered-table-cell" => self.close_cell(),
                b"table-row" => self.close_row(),
                _ => (),
            },
            Event::Text(_) | Event::CData(_) if self.is_paragraph(around) => self.add(&characters(event)?),
            _ => (),
        }
        Ok(true)
    }

    /// Whether these elements are a paragraph of the cell itself, and not of a note or a drawing in it.
    fn is_paragraph(&self, around: &[Vec<u8>]) -> bool {
        self.depth.is_some_and(|depth| around.get(depth + 1).is_some_and(|inner| inner == b"p"))
    }

    /// Adds to the text of the cell. A number is taken as it is stored, not as it is shown.
    fn add(&mut self, text: &str) {
        if !self.cell.stored {
            self.cell = Cell::new(&(std::mem::take(&mut self.cell.text) + text));
        }
    }

    fn open(&mut self, around: &[Vec<u8>], start: &BytesStart) {
        match start.local_name().as_ref() {
            b"p" if self.depth == Some(around.len() - 1) && !self.cell.text.is_empty() => self.add("\n"),
            b"s" if self.is_paragraph(around) => self.add(&" ".repeat(repeated(start, "c").min(MOST_KEPT))),
            b"tab" if self.is_paragraph(around) => self.add("\t"),
            b"line-break" if self.is_paragraph(around) => self.add("\n"),
            _ if self.depth.is_some() => (),
            b"table-row" => {
                self.row_repeated = repeated(start, "number-rows-repeated");
                (self.column, self.last_filled) = (0, 0);
                self.cells.clear();
            }
            b"table-cell" | b"covered-table-cell" => {
                self.depth = Some(around.len());
                self.cell_repeated = repeated(start, "number-columns-repeated");
                let kind = attribute(start, "value-type").unwrap_or_default();
                let value = attribute(start, "value").filter(|_| matches!(&*kind, "float" | "currency"));
                self.cell = Cell { stored: value.is_some(), ..Cell::new(&value.unwrap_or_default()) };
                let is_formula = attribute(start, "formula").is_some();
                self.formulas += usize::from(is_formula && !kind.is_empty());
                self.said = match &*kind {
                    "" if is_formula => NO_VALUE,
                    "percentage" | "date" | "time" => SHOWN_OTHERWISE,
                    _ => "",
                };
            }
            _ => (),
        }
    }

    fn close_cell(&mut self) {
        self.depth = None;
        let mut cell = std::mem::take(&mut self.cell);
        if !self.said.is_empty() {
            cell = Cell::new(format!("{} {}", cell.text, self.said).trim_start());
        }
        let end = self.column.saturating_add(self.cell_repeated);
        if !cell.is_blank() {
            self.last_filled = end;
            let columns = self.column..end.min(MOST_KEPT);
            self.cells.extend(columns.map(|column| (column, cell.clone())));
        }
        self.column = end;
    }

    fn close_row(&mut self) {
        let end = self.row.saturating_add(self.row_repeated);
        if self.last_filled > 0 {
            self.grid.height = self.grid.height.max(end);
            self.grid.width = self.grid.width.max(self.last_filled);
            for row in self.row..end.min(MOST_KEPT) {
                for (column, cell) in &self.cells {
                    self.grid.put(row, *column, cell.clone());
                }
            }
        }
        self.row = end;
    }
}

/// How often a row or a cell stands there.
fn repeated(start: &BytesStart, name: &str) -> usize {
    attribute(start, name).and_then(|number| number.parse().ok()).unwrap_or(1)
}
