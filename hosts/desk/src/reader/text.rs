//! Text files: CSV with any separator, tab-separated text, UTF-8 and UTF-16.

use super::grid::{is_blank, Cell, Grid, MOST_KEPT};
use super::Unread;

/// What may stand between cells.
pub const SEPARATORS: [char; 3] = [',', ';', '\t'];

/// A quote mark that is not closed within so many bytes opens no cell.
const LONGEST_QUOTED: usize = 4096;

/// The text with its cells parted by each separator in turn.
pub fn grids(bytes: &[u8]) -> Result<Vec<Grid>, Unread> {
    let (text, mut changes) = decode(bytes)?;
    changes.extend(line_breaks(&text));
    Ok(SEPARATORS.into_iter().map(|separator| Grid { changes: changes.clone(), ..parted(&text, separator) }).collect())
}

/// The text of a file, and what was strange about its bytes.
fn decode(bytes: &[u8]) -> Result<(String, Vec<String>), Unread> {
    let utf16_text = || vec!["UTF-16 text".into()];
    match bytes {
        [0xFF, 0xFE, rest @ ..] => Ok((utf16(rest, u16::from_le_bytes)?, utf16_text())),
        [0xFE, 0xFF, rest @ ..] => Ok((utf16(rest, u16::from_be_bytes)?, utf16_text())),
        [0xEF, 0xBB, 0xBF, rest @ ..] => {
            let (text, others) = utf8(rest)?;
            Ok((text, ["a byte order mark at the front".into()].into_iter().chain(others).collect()))
        }
        [first, 0, ..] if *first != 0 => Ok((utf16(bytes, u16::from_le_bytes)?, utf16_text())),
        [0, second, ..] if *second != 0 => Ok((utf16(bytes, u16::from_be_bytes)?, utf16_text())),
        _ => utf8(bytes),
    }
}

/// UTF-8, or text in an older encoding, whose other letters are not known: digits and separators are the same in all of these.
fn utf8(bytes: &[u8]) -> Result<(String, Vec<String>), Unread> {
    let is_binary = |byte: &u8| byte.is_ascii_control() && !b"\t\r\n".contains(byte);
    match std::str::from_utf8(bytes) {
        Ok(text) => Ok((text.into(), Vec::new())),
        Err(error) if bytes.iter().any(is_binary) => {
            let place = error.valid_up_to();
            let there = format!("the byte {:02X} (hexadecimal), {place} bytes into the file", bytes[place]);
            Err(Unread::no_text(there))
        }
        Err(_) => Ok((String::from_utf8_lossy(bytes).into(), vec!["letters in another encoding than UTF-8".into()])),
    }
}

fn utf16(bytes: &[u8], unit: fn([u8; 2]) -> u16) -> Result<String, Unread> {
    let units: Vec<u16> = bytes.chunks_exact(2).map(|pair| unit([pair[0], pair[1]])).collect();
    let whole = bytes.len() % 2 == 0;
    String::from_utf16(&units)
        .ok()
        .filter(|_| whole)
        .ok_or_else(|| Unread::no_text("UTF-16 text that is cut short".into()))
}

/// What closes rows where it is not CR LF.
fn line_breaks(text: &str) -> Option<String> {
    let bytes = text.as_bytes();
    let after = |place: usize| bytes.get(place + 1) == Some(&b'\n');
    let before = |place: usize| place > 0 && bytes[place - 1] == b'\r';
    let lf = bytes.iter().enumerate().any(|(place, &byte)| byte == b'\n' && !before(place));
    let cr = bytes.iter().enumerate().any(|(place, &byte)| byte == b'\r' && !after(place));
    match (lf, cr) {
        (false, false) => None,
        (true, false) => Some("rows end in LF".into()),
        (false, true) => Some("rows end in CR".into()),
        (true, true) => Some("rows end in LF and CR".into()),
    }
}

/// The cells of a text, parted by this separator. Rows end in CR LF, LF or CR.
fn parted(text: &str, separator: char) -> Grid {
    let mut grid = Grid { separator: Some(separator), ..Grid::default() };
    let (mut row, mut column, mut place) = (0, 0, 0);
    while place < text.len() || column > 0 {
        let kept = row < MOST_KEPT && column < MOST_KEPT;
        let (mut cell, length) = cell(&text[place..], separator, kept);
        cell.start = place;
        grid.put(row, column, cell);
        place += length;
        let rest = &text[place..];
        if rest.starts_with(separator) {
            (column, place) = (column + 1, place + 1);
            continue;
        }
        if grid.height == row + 1 {
            grid.ends_at(column + 1);
        }
        (row, column, place) = (row + 1, 0, place + if rest.starts_with("\r\n") { 2 } else { 1 });
    }
    grid
}

/// The cell at the front of a text, and its length. Quote marks are read where they open and close a whole cell; a cell that is
/// only counted is not looked into.
fn cell(text: &str, separator: char, kept: bool) -> (Cell, usize) {
    let is_end = |character| character == separator || character == '\r' || character == '\n';
    if let Some((inner, length)) = quoted(text).filter(|_| kept) {
        let blanks = text[length..].len() - text[length..].trim_start_matches(is_blank).len();
        let end = length + blanks;
        if text[end..].chars().next().is_none_or(is_end) {
            return (Cell { quoted: true, ..Cell::new(&inner) }, end);
        }
    }
    let length = text.find(is_end).unwrap_or(text.len());
    (Cell::new(&text[..length]), length)
}

/// What stands between the quote marks at the front of a text, and how far they reach; a doubled quote mark stands for one.
fn quoted(text: &str) -> Option<(String, usize)> {
    let opened = text.trim_start_matches(is_blank).strip_prefix('"')?;
    let mut inner = String::new();
    let mut rest = opened;
    loop {
        let (before, after) = rest.split_at(rest.find('"')?);
        inner += before;
        if inner.len() > LONGEST_QUOTED {
            return None;
        }
        match after.strip_prefix("\"\"") {
            Some(later) => {
                inner.push('"');
                rest = later;
            }
            None => return Some((inner, text.len() - after.len() + 1)),
        }
    }
}

#[cfg(test)]
mod tests {
    use super::*;

    fn texts(text: &str, separator: char) -> Vec<Vec<String>> {
        let grid = parted(text, separator);
        grid.rows.iter().map(|row| row.iter().map(|cell| cell.text.clone()).collect()).collect()
    }

    #[test]
    fn cells_are_parted_and_unquoted() {
        assert_eq!(texts("1,2\r\n3,4", ','), [["1", "2"], ["3", "4"]]);
        assert_eq!(texts("1,\n,2\r", ','), [["1", ""], ["", "2"]]);
        assert_eq!(texts("\"a,\"\"b\"\"\r\nc\" ,2\n", ','), [["a,\"b\"\r\nc", "2"]]);
        assert_eq!(texts("\"1\"2;\"3\n", ';'), [["\"1\"2", "\"3"]]);
        assert_eq!(texts("a\n\nb\n", ','), [vec!["a"], vec![""], vec!["b"]]);
        assert!(texts("", ',').is_empty());
    }

    #[test]
    fn every_encoding() {
        let text = "1\t2\r\n";
        let little: Vec<u8> = text.encode_utf16().flat_map(u16::to_le_bytes).collect();
        let big: Vec<u8> = text.encode_utf16().flat_map(u16::to_be_bytes).collect();
        for bytes in
            [&little, &big, &[vec![0xFF, 0xFE], little.clone()].concat(), &[vec![0xFE, 0xFF], big.clone()].concat()]
        {
            assert_eq!(decode(bytes), Ok((text.into(), vec!["UTF-16 text".into()])));
        }
        let other = vec!["letters in another encoding than UTF-8".into()];
        assert_eq!(decode(b"Entr\xE9e,1\n"), Ok(("Entr\u{FFFD}e,1\n".into(), other)));
        assert!(decode(b"\xFF\xFE1").is_err() && decode(b"1,\xFF\x01\n").is_err());
    }

    #[test]
    fn quote_marks_that_close_nothing_take_no_time() {
        let grid = parted(&"\"\"\",".repeat(1 << 20), ',');
        assert_eq!((grid.height, grid.rows.len()), (1, 1));
    }
}
