//! A sheet's cells read as a name sheet: the number and the name of each cue. No name is changed.

use super::grid::{Cell, Grid};
use super::table::{field, separator_change};
use super::{grids, is_workbook, Unread};
use tickdrizzle::{load_names, LONGEST_NAME, MOST_NAMES};

/// The records of a name sheet and what the library is given of them.
#[derive(Clone, Debug)]
pub struct Reading {
    /// What the library is given.
    pub text: Vec<u8>,
    /// What was overlooked to read the records.
    pub mended: Vec<String>,
    /// The cells of each record, with the row of the sheet where it stands, counted from 0.
    pub records: Vec<(usize, Vec<Cell>)>,
    /// The column of the sheet where the records begin, counted from 0.
    pub left: usize,
}

/// Reads a file as a name sheet. What the library takes is not looked at further.
pub fn read(bytes: &[u8], sheet: Option<&str>) -> Result<Reading, Unread> {
    let mut readings: Vec<Reading> = grids(bytes, sheet)?.into_iter().map(Reading::new).collect();
    let good = readings.iter().position(Reading::is_good).unwrap_or_else(|| likeliest(&readings));
    let reading = readings.swap_remove(good);
    let as_it_is = !is_workbook(bytes) && (reading.mended.is_empty() || names(bytes).is_ok());
    Ok(if as_it_is { Reading { text: bytes.to_vec(), mended: Vec::new(), ..reading } } else { reading })
}

/// The names of a sheet that the library loads.
pub fn names(text: &[u8]) -> Result<Vec<String>, tickdrizzle::Refusal> {
    let (mut bytes, mut lengths) = ([0; MOST_NAMES * LONGEST_NAME], [0; MOST_NAMES]);
    let count = load_names(text, &mut bytes, &mut lengths)?;
    let mut rest = &bytes[..];
    let mut names = Vec::new();
    for &length in &lengths[..count] {
        let (name, later) = rest.split_at(length.into());
        names.push(String::from_utf8_lossy(name).into_owned());
        rest = later;
    }
    Ok(names)
}

/// The reading that parts most rows in two.
fn likeliest(readings: &[Reading]) -> usize {
    let pairs = |reading: &Reading| reading.records.iter().filter(|(_, cells)| cells.len() == 2).count();
    let most = readings.iter().map(pairs).max();
    readings.iter().position(|reading| Some(pairs(reading)) == most).unwrap_or(0)
}

impl Reading {
    fn new(grid: Grid) -> Reading {
        let (top, left) = grid.blank_before();
        let mut mended = grid.changes.clone();
        mended.extend(separator_change(grid.separator));
        if grid.separator.is_some() {
            mended.extend(grid.blank_rows());
        }
        let rows = grid.rows.iter().enumerate().take(grid.height).skip(top);
        let record = |(row, cells): (usize, &Vec<Cell>)| {
            let end = cells.iter().rposition(|cell| !cell.is_blank()).map_or(left, |last| last + 1);
            // An empty name is a fault of its own, and not a missing cell.
            let end = end.max(cells.len().min(left + 2));
            (row, cells[left.min(end)..end].to_vec())
        };
        let mut records: Vec<(usize, Vec<Cell>)> = rows.map(record).collect();
        if has_heading(&records) {
            mended.push(format!("row {} looks like a heading: left out", records[0].0 + 1));
            records.remove(0);
        }
        let line = |(_, cells): &(usize, Vec<Cell>)| match &cells[..] {
            [number, name] => format!("{},{}\r\n", field(number.trimmed()), written(name)),
            _ => cells.iter().map(|cell| field(&cell.text)).collect::<Vec<_>>().join(",") + "\r\n",
        };
        let text: String = records.iter().map(line).collect();
        Reading { text: text.into_bytes(), mended, records, left }
    }

    /// Whether each record is a number and a name.
    fn is_good(&self) -> bool {
        !self.records.is_empty() && self.records.iter().all(|(_, cells)| is_record(cells))
    }
}

/// A number and a name.
fn is_record(cells: &[Cell]) -> bool {
    matches!(cells, [number, name] if is_number(number) && !is_open(name))
}

/// Whether a name opens a quote mark and does not close it, which is a fault.
pub fn is_open(name: &Cell) -> bool {
    !name.quoted && name.text.trim_start().starts_with('"')
}

fn is_number(cell: &Cell) -> bool {
    cell.trimmed().bytes().all(|byte| byte.is_ascii_digit()) && !cell.is_blank()
}

/// The name as a field: one that opens a quote mark and does not close it stays as it is, so that the library refuses it.
fn written(name: &Cell) -> String {
    if is_open(name) {
        name.text.clone()
    } else {
        field(&name.text)
    }
}

/// Whether the first record is words and the second one has the number 1.
fn has_heading(records: &[(usize, Vec<Cell>)]) -> bool {
    match records {
        [(_, first), (_, second), ..] => {
            first.len() == 2
                && first
                    .iter()
                    .all(|cell| !cell.is_blank() && !cell.text.starts_with(|c: char| c.is_ascii_digit() || c == '"'))
                && is_record(second)
                && second[0].trimmed() == "1"
        }
        _ => false,
    }
}

#[cfg(test)]
mod tests {
    use super::*;

    fn text(bytes: &[u8]) -> String {
        String::from_utf8(read(bytes, None).expect("this sheet is read").text).expect("names are text")
    }

    #[test]
    fn names_stay_as_they_are() {
        assert_eq!(text(b"1,a\n2,\"b, c\"\n"), "1,a\r\n2,\"b, c\"\r\n");
        assert_eq!(text(b"1;\"a; \"\"b\"\"\"\n\n"), "1,\"a; \"\"b\"\"\"\r\n");
        assert_eq!(text("\u{FEFF}1\t a \r\n".as_bytes()), "1, a \r\n");
        assert_eq!(names(text(b"1,a\"b\n").as_bytes()), Ok(vec!["a\"b".into()]));
        assert_eq!(text(b"cue,name\n1,a\n"), "1,a\r\n");
    }

    #[test]
    fn what_is_no_number_and_name_is_a_fault() {
        for sheet in ["", "1\n", "a,b\n", "1,a,b\n", "1,\"a\"b\n", "1,\"a\n", "name,cue\na,1\n"] {
            let read = read(sheet.as_bytes(), None).expect("this is text");
            assert!(names(&read.text).is_err(), "{sheet}");
        }
    }
}
