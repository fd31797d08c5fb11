//! Workbooks: archives of XML files.

use super::grid::Grid;
use super::{ods, xlsx, Unread};
use crate::words::shown;
use quick_xml::events::{BytesStart, Event};
use quick_xml::Reader;
use std::io::{BufReader, Cursor, Error, ErrorKind, Read};
use zip::read::ZipFile;
use zip::ZipArchive;

/// A file of the archive is unpacked no further: that of a full table has some three million bytes.
const MOST_UNPACKED: u64 = 1 << 25;

/// An archive with more files is not opened: a workbook has some ten and a few for each sheet.
const MOST_FILES: u16 = 4096;

/// XML elements inside each other are read no deeper.
const DEEPEST: usize = 100;

type Archive<'a> = ZipArchive<Cursor<&'a [u8]>>;

/// What a cell is said to hold whose stored value is no number of a cue.
pub const SHOWN_OTHERWISE: &str = "shown as a percentage, date or time";
pub const NO_VALUE: &str = "a formula without a stored value";

/// A workbook of either kind.
enum Book<'a> {
    Ods(Archive<'a>),
    Xlsx(Archive<'a>),
}

/// The cells of a sheet: the one of this name, or the first.
pub fn grid(bytes: &[u8], sheet: Option<&str>) -> Result<Grid, Unread> {
    let mut grid = match open(bytes)? {
        Book::Ods(mut archive) => ods::grid(&mut archive, sheet)?,
        Book::Xlsx(mut archive) => xlsx::grid(&mut archive, sheet)?,
    };
    grid.fill_up();
    Ok(grid)
}

/// The names of the sheets.
pub fn sheets(bytes: &[u8]) -> Result<Vec<String>, Unread> {
    match open(bytes)? {
        Book::Ods(mut archive) => ods::sheets(&mut archive),
        Book::Xlsx(mut archive) => xlsx::sheets(&mut archive),
    }
}

fn open(bytes: &[u8]) -> Result<Book<'_>, Unread> {
    if !has_few_files(bytes) {
        return Err(broken("an archive with very many files, or cut short"));
    }
    let archive = ZipArchive::new(Cursor::new(bytes)).map_err(|_| broken("an archive that is damaged"))?;
    let has = |name: &str| archive.file_names().any(|file| file == name);
    if has("content.xml") {
        Ok(Book::Ods(archive))
    } else if has("xl/workbook.xml") {
        Ok(Book::Xlsx(archive))
    } else {
        Err(broken("an archive without a spreadsheet"))
    }
}

pub fn broken(there: impl Into<String>) -> Unread {
    Unread::whole(there, "an .ods or .xlsx file as a spreadsheet saves it")
}

/// Whether the end of the archive tells of few files, in the plain form.
fn has_few_files(bytes: &[u8]) -> bool {
    let end = bytes.windows(4).rposition(|signature| signature == b"PK\x05\x06");
    end.is_some_and(|end| {
        let number = bytes.get(end + 10..end + 12).map(|pair| u16::from_le_bytes([pair[0], pair[1]]));
        let long_form = end >= 20 && bytes[end - 20..].starts_with(b"PK\x06\x07");
        number.is_some_and(|number| number <= MOST_FILES) && !long_form
    })
}

/// Which sheet is meant, of those that a workbook has; what is said where it is not the only one.
pub fn chosen(sheets: &[String], sheet: Option<&str>) -> Result<(usize, Option<String>), Unread> {
    let listed = || sheets.iter().map(|name| shown(name)).collect::<Vec<_>>().join(", ");
    match (sheet, sheets) {
        (_, []) => Err(broken("a workbook without a sheet")),
        (None, [_]) => Ok((0, None)),
        (None, _) => Ok((0, Some(format!("the first of {} sheets, {}", sheets.len(), shown(&sheets[0]))))),
        (Some(name), _) => match sheets.iter().position(|other| other == name) {
            Some(place) => Ok((place, None)),
            None => Err(Unread {
                to_do: "name one of these after the #, or none for the first".into(),
                ..Unread::whole(format!("the sheets {}", listed()), &format!("a sheet {}", shown(name)))
            }),
        },
    }
}

/// Reads a file of the archive as XML and hands each event to a function, with the names of the elements around it, until that
/// says to stop.
pub fn each_event(
    archive: &mut Archive,
    file: &str,
    mut take: impl FnMut(&[Vec<u8>], &Event) -> Result<bool, Unread>,
) -> Result<(), Unread> {
    let packed = archive
        .by_name(file)
        .map_err(|_| broken(format!("no {file} in the workbook, or in a form that is not read")))?;
    let mut reader = Reader::from_reader(BufReader::new(Bounded { file: packed, left: MOST_UNPACKED }));
    reader.expand_empty_elements(true);
    let (mut buffer, mut around) = (Vec::new(), Vec::<Vec<u8>>::new());
    loop {
        buffer.clear();
        let event = reader.read_event_into(&mut buffer).map_err(|error| damaged(file, &error))?;
        match &event {
            Event::Eof if around.is_empty() => return Ok(()),
            Event::Eof => return Err(broken(format!("{file} in the workbook, cut short"))),
            Event::End(_) => {
                around.pop();
            }
            _ => (),
        }
        if !take(&around, &event)? {
            return Ok(());
        }
        if let Event::Start(start) = &event {
            if around.len() == DEEPEST {
                return Err(broken(format!("{file} in the workbook, with elements {DEEPEST} deep")));
            }
            around.push(start.local_name().as_ref().to_vec());
        }
    }
}

fn damaged(file: &str, error: &quick_xml::Error) -> Unread {
    match error {
        quick_xml::Error::Io(error) if error.kind() == ErrorKind::OutOfMemory => {
            broken(format!("{file} in the workbook, which unpacks to more than {MOST_UNPACKED} bytes"))
        }
        _ => broken(format!("{file} in the workbook, which is damaged or has a password")),
    }
}

/// Ends with an error where more is unpacked than is allowed.
struct Bounded<'a> {
    file: ZipFile<'a>,
    left: u64,
}

impl Read for Bounded<'_> {
    fn read(&mut self, buffer: &mut [u8]) -> std::io::Result<usize> {
        let read = self.file.read(buffer)?;
        self.left = self.left.checked_sub(read as u64).ok_or_else(|| Error::from(ErrorKind::OutOfMemory))?;
        Ok(read)
    }
}

/// The value of an attribute, by its name without the prefix.
pub fn attribute(element: &BytesStart, name: &str) -> Option<String> {
    let found =
        element.attributes().flatten().find(|attribute| attribute.key.local_name().as_ref() == name.as_bytes())?;
    found.unescape_value().ok().map(|value| value.into_owned())
}

/// The characters that an event stands for.
pub fn characters(event: &Event) -> Result<String, Unread> {
    match event {
        Event::Text(text) => {
            text.unescape().map(|text| text.into_owned()).map_err(|_| broken("text in the workbook, which is damaged"))
        }
        Event::CData(text) => Ok(String::from_utf8_lossy(text).into_owned()),
        _ => Ok(String::new()),
    }
}
