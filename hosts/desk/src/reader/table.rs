//! A sheet's cells read as the numbers of a linking table, in one way.

use super::grid::{Cell, Grid, MOST_KEPT};
use super::{grids, is_workbook, text, Unread};
use crate::words::{count, row_and_column, shown, visible};
use tickdrizzle::{check_table, GREATEST_ORDER, MOST_CELLS};

/// More rows and columns of a refused sheet are not shown, and no more of a cell's text.
const MOST_IN_GRID: usize = GREATEST_ORDER + 5;
const LONGEST_IN_GRID: usize = 12;

/// The part of a sheet that holds the table, and what the library is given of it.
#[derive(Clone, Debug)]
pub struct Reading {
    pub grid: Grid,
    /// The row and the column of the sheet where the table begins, counted from 0.
    pub top: usize,
    pub left: usize,
    /// How many rows and columns it has, with those that were not kept.
    pub height: usize,
    pub width: usize,
    /// What the library is given.
    pub text: Vec<u8>,
    /// Where each cell begins in that text, with its row and column in the sheet, counted from 0.
    starts: Vec<(usize, usize, usize)>,
    /// What was overlooked to read the numbers.
    pub mended: Vec<String>,
    /// Whether only what the library takes is a number.
    pub strict: bool,
    numbers: Option<Vec<Vec<u32>>>,
}

/// Texts of cells, row after row, with the row and the column of the first, counted from 0.
pub type Placed = ((usize, usize), Vec<Vec<String>>);

/// What cells look like that stand before a table.
#[derive(Clone, Copy, PartialEq, Eq)]
enum Label {
    /// The cues' numbers.
    Counted,
    /// Words.
    Named,
}

/// Reads a file as a table. What the library takes is not looked at further.
pub fn read(bytes: &[u8], sheet: Option<&str>) -> Result<Reading, Unread> {
    if !is_workbook(bytes) && sheet.is_none() && loads(bytes) {
        return strict(bytes);
    }
    let readings = grids(bytes, sheet)?.into_iter().map(Reading::new).collect::<Result<Vec<_>, _>>()?;
    let reading = one(readings)?;
    Ok(if is_workbook(bytes) || !reading.mended.is_empty() { reading } else { reading.with_bytes(bytes) })
}

/// Takes the bytes as the library does, parted by commas.
pub fn strict(bytes: &[u8]) -> Result<Reading, Unread> {
    if is_workbook(bytes) {
        let expected = "digits, a comma between cells, CR LF after each row";
        let to_do = "leave out --strict, or use tickdrizzle mend".into();
        return Err(Unread { to_do, ..Unread::whole("a workbook", expected) });
    }
    let comma = text::grids(bytes)?.swap_remove(0);
    let longest = comma.rows.iter().map(Vec::len).max().unwrap_or(0);
    let (height, width) = (comma.all_rows, comma.width.max(longest));
    let whole = Reading::of(comma, (0, 0));
    Ok(Reading { height, width, mended: Vec::new(), strict: true, ..whole.with_bytes(bytes) })
}

fn loads(bytes: &[u8]) -> bool {
    tickdrizzle::load(bytes, &mut vec![0; MOST_CELLS]).is_ok()
}

impl Reading {
    /// Finds the table in the cells and leaves out what stands before it.
    fn new(grid: Grid) -> Result<Reading, Unread> {
        let (top, left) = grid.blank_before();
        let whole = Reading::of(grid.clone(), (top, left));
        let labels = whole.labels();
        if labels == (None, None) {
            return Ok(whole);
        }
        let begins = (top + usize::from(labels.0.is_some()), left + usize::from(labels.1.is_some()));
        let mut inner = Reading::of(grid, begins);
        whole.other_reading(&inner)?;
        inner.mended.push(left_out(labels, top, left));
        Ok(inner)
    }

    /// The cells from this place on.
    fn of(grid: Grid, (top, left): (usize, usize)) -> Reading {
        let mut reading = Reading {
            top,
            left,
            height: grid.height.saturating_sub(top),
            width: grid.width.saturating_sub(left),
            text: Vec::new(),
            starts: Vec::new(),
            mended: grid.changes.clone(),
            strict: false,
            numbers: None,
            grid,
        };
        reading.take_numbers();
        reading
    }

    /// The cells of the table, row after row, with their places in the sheet.
    fn rows(&self) -> impl Iterator<Item = (usize, &[Cell])> {
        let (left, right) = (self.left, (self.left + self.width).min(MOST_KEPT));
        let rows = self.grid.rows.iter().enumerate().skip(self.top).take(self.height);
        rows.map(move |(row, cells)| (row, &cells[left.min(cells.len())..right.min(cells.len())]))
    }

    /// Reads the numbers, notes what was strange about them, and writes what the library is given.
    fn take_numbers(&mut self) {
        let (mut text, mut starts, mut numbers) = (Vec::new(), Vec::new(), Some(Vec::new()));
        let (mut quoted, mut blanks, mut zeros) = (0, 0, 0);
        for (row, cells) in self.rows() {
            let mut in_row = Vec::new();
            for (column, cell) in cells.iter().enumerate() {
                if column > 0 {
                    text.push(b',');
                }
                starts.push((text.len(), row, self.left + column));
                match number(cell) {
                    Ok(value) => {
                        text.extend(value.to_string().bytes());
                        quoted += usize::from(cell.quoted);
                        blanks += usize::from(cell.trimmed() != cell.text);
                        zeros += usize::from(!cell.stored && cell.trimmed() != value.to_string());
                        in_row.push(value);
                    }
                    Err(_) => {
                        text.extend(field(&cell.text).bytes());
                        numbers = None;
                    }
                }
            }
            text.extend(b"\r\n");
            if let Some(numbers) = &mut numbers {
                numbers.push(in_row);
            }
        }
        let counted = |number, thing, how: &str| (number > 0).then(|| format!("{}{how}", count(number, thing)));
        let several = self.width > 1;
        let changes = [
            separator_change(self.grid.separator).filter(|_| several),
            counted(quoted, "quoted cell", ""),
            counted(blanks, "cell", " with blanks around the number"),
            counted(zeros, "number", " with zeros that say nothing (\"1.0\" and \"01\" are 1)"),
        ];
        self.mended.extend(changes.into_iter().flatten());
        if self.grid.separator.is_some() {
            self.mended.extend([self.grid.blank_rows(), self.grid.blank_columns()].concat());
        }
        let is_kept = self.grid.height <= MOST_KEPT && self.grid.width <= MOST_KEPT && self.height > 0;
        (self.text, self.starts, self.numbers) = (text, starts, numbers.filter(|_| is_kept));
    }

    /// The same cells, with the bytes as they came for the library.
    fn with_bytes(self, bytes: &[u8]) -> Reading {
        let starts = self
            .grid
            .rows
            .iter()
            .enumerate()
            .flat_map(|(row, cells)| cells.iter().enumerate().map(move |(column, cell)| (cell.start, row, column)));
        Reading { text: bytes.to_vec(), starts: starts.collect(), ..self }
    }

    /// The row and the column of the sheet in which a byte of the text stands, counted from 0.
    pub fn place_of(&self, byte: usize) -> (usize, usize) {
        let next = self.starts.partition_point(|(start, _, _)| *start <= byte);
        self.starts[..next].last().map_or((0, 0), |(_, row, column)| (*row, *column))
    }

    /// The cells of the table that are no cue numbers, with their places, counted from 0, and what was expected of them.
    pub fn bad_cells(&self) -> Vec<((usize, usize), &Cell, String)> {
        let mut bad = Vec::new();
        for (row, cells) in self.rows() {
            for (column, cell) in cells.iter().enumerate() {
                if let Some(expected) = self.expected(cell) {
                    bad.push(((row, self.left + column), cell, expected));
                }
            }
        }
        bad
    }

    /// What was expected of a cell that is no cue number.
    fn expected(&self, cell: &Cell) -> Option<String> {
        let is_plain = cell.text.bytes().all(|byte| byte.is_ascii_digit()) && !cell.quoted;
        match number(cell) {
            Ok(_) if self.strict && !is_plain => Some("digits alone".into()),
            Ok(_) if self.strict && cell.text.starts_with('0') => {
                Some("a number without leading 0; there is no cue 0".into())
            }
            Ok(0) => Some("a cue number from 1 to 120; there is no cue 0".into()),
            Ok(value) if value as usize > GREATEST_ORDER => Some("a cue number from 1 to 120".into()),
            Ok(_) => None,
            Err(expected) => Some(expected),
        }
    }

    /// The cell at a place of the sheet, counted from 0.
    pub fn cell(&self, (row, column): (usize, usize)) -> Cell {
        self.grid.cell(row, column).cloned().unwrap_or_default()
    }

    /// The cells from the first that is not blank on, with headings, as they are shown, and the place of that one, counted from 0.
    pub fn shown(&self) -> Placed {
        let (top, left) = self.grid.blank_before();
        let cut = |cell: &Cell| visible(&cell.text.chars().take(LONGEST_IN_GRID).collect::<String>());
        let rows = self.grid.rows.iter().skip(top).take(MOST_IN_GRID.min(self.grid.height.saturating_sub(top)));
        let cells = |row: &Vec<Cell>| {
            row.iter().skip(left).take(MOST_IN_GRID.min(self.grid.width.saturating_sub(left))).map(cut).collect()
        };
        ((top, left), rows.map(cells).collect())
    }

    /// The cells from the first that is not blank on, with headings, so that they can be written as text and read again: a number by its
    /// digits, all else as it stands; with the place of the first, counted from 0. Nothing where some cells were not kept.
    pub fn cells(&self) -> Option<Placed> {
        let (top, left) = self.grid.blank_before();
        let text = |cell: &Cell| number(cell).map_or_else(|_| cell.text.clone(), |value| value.to_string());
        let rows = self.grid.rows.iter().take(self.grid.height).skip(top);
        let cells = |row: &Vec<Cell>| row.iter().take(self.grid.width).skip(left).map(text).collect();
        let is_kept = self.grid.height <= MOST_KEPT && self.grid.width <= MOST_KEPT;
        is_kept.then(|| ((top, left), rows.map(cells).collect()))
    }

    /// How many cells each row of the table has.
    pub fn widths(&self) -> Vec<usize> {
        self.rows().map(|(_, cells)| cells.len()).collect()
    }

    /// What stands before the table: labels of the columns in the first row, of the rows in the first column. Only the form of the
    /// sheet and what cannot be taken for cells decides.
    fn labels(&self) -> (Option<Label>, Option<Label>) {
        if self.height > MOST_KEPT || self.width > MOST_KEPT {
            return (None, None);
        }
        let cells: Vec<&[Cell]> = self.rows().map(|(_, cells)| cells).collect();
        let first_row = || cells[0].iter().collect::<Vec<_>>();
        let first_column = || cells.iter().filter_map(|row| row.first()).collect::<Vec<_>>();
        match (self.height, self.width) {
            (height, width) if height == width && height > 1 => {
                let corner = cells[0].first().is_some_and(|cell| number(cell).is_err());
                let of_row = label(&first_row()[1.min(cells[0].len())..], width - 1);
                let of_column = label(&first_column()[1..], height - 1);
                if corner && of_row.is_some() && of_column.is_some() {
                    (of_row, of_column)
                } else {
                    (None, None)
                }
            }
            (height, width) if height == width + 1 && width > 1 => (label(&first_row(), width), None),
            (height, width) if width == height + 1 && height > 1 => (None, label(&first_column(), height)),
            _ => (None, None),
        }
    }

    /// Refuses where what was left out could be cells of another linking table, and the last row or column left over.
    fn other_reading(&self, inner: &Reading) -> Result<(), Unread> {
        let order = inner.height;
        let front = |numbers: &Vec<Vec<u32>>| -> Option<Vec<u8>> {
            let rows = numbers.get(..order)?.iter().map(|row| row.get(..order));
            rows.flat_map(|row| row.unwrap_or_default()).map(|&cell| u8::try_from(cell).ok()).collect()
        };
        let is_table = |cells: &Vec<u8>| cells.len() == order * order && check_table(cells, order).is_ok();
        let (one, other) = (self.numbers.as_ref().and_then(front), inner.numbers.as_ref().and_then(front));
        match one.filter(is_table) {
            Some(cells) if Some(&cells) != other.as_ref() => {
                let (line, last) =
                    if self.height > self.width { ("row", "last row") } else { ("column", "last column") };
                Err(Unread {
                    place: format!("the first {line} and the {last}"),
                    there: "two readings: either may be left over".into(),
                    expected: format!("a table of {} without headings", count(order, "cue")),
                    to_do: format!("delete the {line} that is not part of the table, and save the sheet again"),
                })
            }
            _ => Ok(()),
        }
    }
}

/// The label that cells are, so many and one for each cue.
fn label(cells: &[&Cell], order: usize) -> Option<Label> {
    let is_counted = |(place, cell): (usize, &&Cell)| number(cell).is_ok_and(|value| value as usize == place + 1);
    let is_word = |cell: &&Cell| {
        number(cell).is_err() && !cell.is_blank() && !cell.text.starts_with(|c: char| c.is_ascii_digit())
    };
    if cells.len() != order {
        None
    } else if cells.iter().enumerate().all(is_counted) {
        Some(Label::Counted)
    } else {
        cells.iter().all(is_word).then_some(Label::Named)
    }
}

/// What is said of the labels that are left out.
fn left_out(labels: (Option<Label>, Option<Label>), top: usize, left: usize) -> String {
    let row = format!("row {}", top + 1);
    let column = format!("column {}", left + 1);
    let like = |label: Label| if label == Label::Counted { "like cue numbers" } else { "like a heading" };
    match labels {
        (Some(one), Some(other)) if one == other => format!("{row} and {column} look {}: left out", like(one)),
        (Some(one), Some(other)) => format!("{row} looks {} and {column} {}: left out", like(one), like(other)),
        (Some(one), None) => format!("{row} looks {}: left out", like(one)),
        (None, Some(other)) => format!("{column} looks {}: left out", like(other)),
        (None, None) => String::new(),
    }
}

/// The one way to read cells as numbers; where there is none, the likeliest, whose faults are told.
fn one(readings: Vec<Reading>) -> Result<Reading, Unread> {
    let mut good = Vec::<&Reading>::new();
    for reading in readings.iter().filter(|reading| reading.numbers.is_some()) {
        if good.iter().all(|other| other.numbers != reading.numbers) {
            good.push(reading);
        }
    }
    match good[..] {
        [] => Ok(likeliest(readings)),
        [reading] => Ok(reading.clone()),
        [one, other, ..] => Err(two_readings(one, other)),
    }
}

/// The reading whose separator parts the most cells.
fn likeliest(readings: Vec<Reading>) -> Reading {
    let cells = |reading: &Reading| reading.grid.rows.iter().map(Vec::len).sum::<usize>();
    let most = readings.iter().map(cells).max();
    readings.into_iter().find(|reading| Some(cells(reading)) == most).expect("there is a reading")
}

fn two_readings(one: &Reading, other: &Reading) -> Unread {
    let rows = |reading: &Reading| reading.numbers.clone().unwrap_or_default();
    let (one_rows, other_rows) = (rows(one), rows(other));
    let row = one_rows.iter().zip(&other_rows).position(|(left, right)| left != right).unwrap_or(0);
    let said = |rows: &Vec<Vec<u32>>| rows[row].iter().map(u32::to_string).collect::<Vec<_>>().join(" ");
    Unread {
        place: format!("row {}", one.top + row + 1),
        there: format!("two readings, {} and {}", shown(&said(&one_rows)), shown(&said(&other_rows))),
        expected: "cells with one reading: no decimal commas".into(),
        to_do: "correct this in the spreadsheet and save it again".into(),
    }
}

/// What is said of a separator that is no comma.
pub fn separator_change(separator: Option<char>) -> Option<String> {
    match separator {
        Some(';') => Some("semicolons between the cells".into()),
        Some('\t') => Some("tabs between the cells".into()),
        _ => None,
    }
}

/// The whole number that a cell holds; else what was expected.
fn number(cell: &Cell) -> Result<u32, String> {
    let text = cell.trimmed();
    if cell.stored {
        return stored(text).ok_or_else(|| "a whole number".into());
    }
    let (whole, fraction) = text.split_once(['.', ',']).unwrap_or((text, "0"));
    let digits = |part: &str| !part.is_empty() && part.bytes().all(|byte| byte.is_ascii_digit());
    if text.is_empty() {
        return Err("a cue number".into());
    }
    if !digits(whole) || !digits(fraction) || fraction.bytes().any(|byte| byte != b'0') {
        return Err("a whole number".into());
    }
    if fraction.len() == 3 && whole.len() <= 3 {
        return Err(format!("{whole} or {whole}000: it has two readings"));
    }
    whole.parse().map_err(|_| "a cue number from 1 to 120".into())
}

/// The whole number that a spreadsheet stored.
fn stored(text: &str) -> Option<u32> {
    let value: f64 = text.parse().ok()?;
    let is_whole = value.fract() == 0.0 && (0.0..=f64::from(u32::MAX)).contains(&value);
    // The value is whole and within the range.
    #[allow(clippy::cast_possible_truncation, clippy::cast_sign_loss)]
    is_whole.then_some(value as u32)
}

/// A text as a field of CSV, quoted where it must be.
pub fn field(text: &str) -> String {
    if text.contains([',', '"', '\r', '\n']) {
        format!("\"{}\"", text.replace('"', "\"\""))
    } else {
        text.to_owned()
    }
}

/// The place of a cell of the sheet, counted from 0, in words.
pub fn place((row, column): (usize, usize)) -> String {
    row_and_column(row + 1, column + 1)
}

#[cfg(test)]
mod tests {
    use super::*;

    /// The text for the library, where the sheet has one reading as numbers.
    fn mended(sheet: &str) -> Option<String> {
        let reading = read(sheet.as_bytes(), None).ok()?;
        let text = String::from_utf8(reading.text).expect("digits are text");
        reading.numbers.map(|_| text)
    }

    fn is_mended_to(sheet: &str, text: &str) {
        assert_eq!(mended(sheet).as_deref(), Some(text), "{sheet}");
    }

    #[test]
    fn a_quote_mark_inside_a_cell_is_a_fault() {
        for sheet in ["\"1\"2\n", "1\"2\n", "\"1\n"] {
            assert_eq!(mended(sheet), None);
        }
        for sheet in ["\"1\"\n", " \"1\" \n", "\" 1 \"\n"] {
            is_mended_to(sheet, "1\r\n");
        }
    }

    #[test]
    fn numbers_keep_their_value() {
        is_mended_to("1.0;2.00\n02;1,0\n", "1,2\r\n2,1\r\n");
        for sheet in ["1.5\n", "1.000\n", "1e0\n", "-1\n", "+1\n"] {
            assert_eq!(mended(sheet), None);
        }
        assert_eq!(
            [stored("1"), stored("12.0"), stored("1E2"), stored("1.5"), stored("-1"), stored("nan")],
            [Some(1), Some(12), Some(100), None, None, None]
        );
    }

    #[test]
    fn two_readings_are_refused() {
        assert!(read(b"1,0\n", None).is_err() && read(b"1,0\n2,0\n", None).is_err());
        is_mended_to("1,0;2,0\n2,0;1,0\n", "1,2\r\n2,1\r\n");
    }

    #[test]
    fn blank_rows_and_columns_go_at_the_edges_alone() {
        is_mended_to("1,2,\n2,1,\n,,\n\n", "1,2\r\n2,1\r\n");
        is_mended_to("\n,1,2\n,2,1\n", "1,2\r\n2,1\r\n");
        for sheet in ["1,2\n\n2,1\n", "1,\n2,1\n", "", ",,\n,,\n"] {
            assert_eq!(mended(sheet), None);
        }
    }

    #[test]
    fn headings_are_left_out_and_said() {
        for (sheet, said) in [
            (",1,2\n1,1,2\n2,2,1\n", "row 1 and column 1 look like cue numbers: left out"),
            ("cue,1,2\n1,1,2\n2,2,1\n", "row 1 and column 1 look like cue numbers: left out"),
            (",a,b\n1,1,2\n2,2,1\n", "row 1 looks like a heading and column 1 like cue numbers: left out"),
            ("a,b\n1,2\n2,1\n", "row 1 looks like a heading: left out"),
            ("a,1,2\nb,2,1\n", "column 1 looks like a heading: left out"),
            ("\n,x,1,2\n,1,1,2\n,2,2,1\n", "row 2 and column 2 look like cue numbers: left out"),
        ] {
            is_mended_to(sheet, "1,2\r\n2,1\r\n");
            let reading = read(sheet.as_bytes(), None).expect("it has one reading");
            assert_eq!(reading.mended.last().map(String::as_str), Some(said));
        }
    }

    #[test]
    fn what_could_be_cells_is_no_heading() {
        is_mended_to("1,2\n2,1\n", "1,2\r\n2,1\r\n");
        // With the first row or with the last one left out, this is a linking table.
        assert!(read(b"1,2\n1,2\n2,1\n", None).is_err() && read(b"1,2\n2,1\n1,2\n", None).is_err());
        is_mended_to("1,3,2\n1,2,3\n2,3,1\n3,1,2\n", "1,3,2\r\n1,2,3\r\n2,3,1\r\n3,1,2\r\n");
    }
}
