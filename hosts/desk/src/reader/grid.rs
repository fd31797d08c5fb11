//! Cells with places, whatever file they come from.

use crate::words::count;

/// Rows and columns past these are counted and not kept: a table has at most 120 of each, headings and blank edges a few more.
pub const MOST_KEPT: usize = 256;

/// A longer text is kept cut: no number and no name is that long.
const LONGEST_KEPT: usize = 256;

/// What stands in a cell.
#[derive(Clone, Debug, Default, PartialEq, Eq)]
pub struct Cell {
    /// Without the quote marks that a text file may have around it.
    pub text: String,
    pub quoted: bool,
    /// Whether a spreadsheet stored a number, whose decimal sign is a point.
    pub stored: bool,
    /// Where a text file has it: how many bytes stand before it.
    pub start: usize,
}

impl Cell {
    pub fn new(text: &str) -> Cell {
        let kept = text.char_indices().nth(LONGEST_KEPT).map_or(text.len(), |(end, _)| end);
        let cut = if kept < text.len() { "…" } else { "" };
        Cell { text: format!("{}{cut}", &text[..kept]), ..Cell::default() }
    }

    pub fn trimmed(&self) -> &str {
        self.text.trim_matches(is_blank)
    }

    pub fn is_blank(&self) -> bool {
        self.trimmed().is_empty()
    }
}

/// A space, or one that does not break.
pub fn is_blank(character: char) -> bool {
    character == ' ' || character == '\u{A0}'
}

/// The cells of a sheet, row after row, and what was strange about the file that they come from.
#[derive(Clone, Debug, Default)]
pub struct Grid {
    /// The cells that are kept. A row may be shorter than others.
    pub rows: Vec<Vec<Cell>>,
    /// How many rows there are up to the last one that is not blank, and columns likewise.
    pub height: usize,
    pub width: usize,
    /// How many rows there are, blank ones too, and cells in the longest row that is not blank.
    pub all_rows: usize,
    pub all_columns: usize,
    /// What stands between the cells of a text file.
    pub separator: Option<char>,
    pub changes: Vec<String>,
}

impl Grid {
    /// Puts a cell at a place, both counted from 0.
    pub fn put(&mut self, row: usize, column: usize, cell: Cell) {
        self.all_rows = self.all_rows.max(row + 1);
        if !cell.is_blank() {
            self.height = self.height.max(row + 1);
            self.width = self.width.max(column + 1);
        }
        if row < MOST_KEPT && column < MOST_KEPT {
            if self.rows.len() <= row {
                self.rows.resize(row + 1, Vec::new());
            }
            let cells = &mut self.rows[row];
            if cells.len() <= column {
                cells.resize(column + 1, Cell::default());
            }
            cells[column] = cell;
        }
    }

    /// Says that a row has so many cells.
    pub fn ends_at(&mut self, columns: usize) {
        self.all_columns = self.all_columns.max(columns);
    }

    /// Fills rows up with empty cells, as a spreadsheet shows them.
    pub fn fill_up(&mut self) {
        let (height, width) = (self.height.min(MOST_KEPT), self.width.min(MOST_KEPT));
        self.rows.resize(height, Vec::new());
        for row in &mut self.rows {
            row.resize(width, Cell::default());
        }
        (self.all_rows, self.all_columns) = (self.height, self.width);
    }

    pub fn cell(&self, row: usize, column: usize) -> Option<&Cell> {
        self.rows.get(row).and_then(|cells| cells.get(column))
    }

    /// How many blank rows and columns stand before the first cell that is not blank.
    pub fn blank_before(&self) -> (usize, usize) {
        let filled = |row: &Vec<Cell>| row.iter().position(|cell| !cell.is_blank());
        let top = self.rows.iter().position(|row| filled(row).is_some()).unwrap_or(0);
        let left = self.rows.iter().filter_map(filled).min().unwrap_or(0);
        (top, left)
    }

    /// How many blank rows stand at the edges, in words.
    pub fn blank_rows(&self) -> Vec<String> {
        edges("blank row", self.blank_before().0, self.all_rows - self.height)
    }

    /// How many blank columns stand at the edges, in words.
    pub fn blank_columns(&self) -> Vec<String> {
        edges("blank column", self.blank_before().1, self.all_columns.saturating_sub(self.width))
    }
}

fn edges(thing: &str, before: usize, after: usize) -> Vec<String> {
    let edges = [(before, "before the table"), (after, "at the end")];
    edges
        .iter()
        .filter(|(number, _)| *number > 0)
        .map(|(number, place)| format!("{} {place}", count(*number, thing)))
        .collect()
}

/// The column's letters: A for 0, Z for 25, AA for 26.
pub fn letters(column: usize) -> String {
    let last = char::from(b'A' + u8::try_from(column % 26).expect("there are 26 letters"));
    if column < 26 {
        last.to_string()
    } else {
        letters(column / 26 - 1) + &last.to_string()
    }
}

#[cfg(test)]
mod tests {
    use super::*;

    #[test]
    fn columns_have_the_letters_of_spreadsheets() {
        for (column, name) in
            [(0, "A"), (11, "L"), (25, "Z"), (26, "AA"), (51, "AZ"), (52, "BA"), (701, "ZZ"), (702, "AAA")]
        {
            assert_eq!(letters(column), name);
        }
    }

    #[test]
    fn what_is_far_away_is_counted_and_not_kept() {
        let mut grid = Grid::default();
        grid.put(1_000_000, 16_000, Cell::new("1"));
        assert_eq!((grid.height, grid.width, grid.rows.len()), (1_000_001, 16_001, 0));
    }
}
