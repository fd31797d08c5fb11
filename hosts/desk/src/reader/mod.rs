//! Files that spreadsheets save, read as cells with places: CSV and other text, .ods and .xlsx.
//!
//! Nothing is guessed and no number is changed: what can be read in two ways is refused. A file of any content is read within bounds of
//! memory and time that do not depend on what it says of itself.

pub mod grid;
pub mod names;
mod ods;
pub mod table;
pub mod text;
mod workbook;
mod xlsx;

use grid::Grid;

/// Why a file cannot be read as cells, or its cells in one way.
#[derive(Clone, Debug, PartialEq, Eq)]
pub struct Unread {
    pub place: String,
    pub there: String,
    pub expected: String,
    pub to_do: String,
}

const SAVE_AGAIN: &str = "save the sheet again as .ods, .xlsx or CSV";

impl Unread {
    /// A fault of the file as a whole.
    fn whole(there: impl Into<String>, expected: &str) -> Unread {
        Unread {
            place: "the whole file".into(),
            there: there.into(),
            expected: expected.into(),
            to_do: SAVE_AGAIN.into(),
        }
    }

    fn no_text(there: String) -> Unread {
        Unread::whole(there, "a spreadsheet's file, or text with numbers")
    }
}

/// The ways to read a file as cells: one for a workbook, one for each separator of a text. A workbook's sheet has a name, or is the
/// first.
pub fn grids(bytes: &[u8], sheet: Option<&str>) -> Result<Vec<Grid>, Unread> {
    match bytes {
        [b'P', b'K', 3, 4, ..] => Ok(vec![workbook::grid(bytes, sheet)?]),
        [0xD0, 0xCF, 0x11, 0xE0, ..] => {
            let there = "a file of an older Excel (.xls), or a workbook with a password";
            Err(Unread::whole(there, "an .xlsx or .ods file without a password"))
        }
        _ if sheet.is_some() => {
            Err(Unread::whole("text, which has one sheet", "an .xlsx or .ods file where # and a sheet's name follow"))
        }
        _ => text::grids(bytes),
    }
}

/// The names of a workbook's sheets, the first of very many; none of other files.
pub fn sheets(bytes: &[u8]) -> Vec<String> {
    const MOST: usize = 256;
    let mut names = if is_workbook(bytes) { workbook::sheets(bytes).unwrap_or_default() } else { Vec::new() };
    names.truncate(MOST);
    names
}

/// Whether the bytes are those of a workbook, .ods or .xlsx.
pub fn is_workbook(bytes: &[u8]) -> bool {
    bytes.starts_with(b"PK\x03\x04")
}
