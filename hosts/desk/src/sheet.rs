//! Sheets that are opened: the table that the library loads from what was read, or why it is refused and where.

use crate::answer::{rows, Cells, Fault, Refusal, Role, Sheet};
use crate::input::{with_endings, Source};
use crate::names;
use crate::reader::grid::MOST_KEPT;
use crate::reader::table::{self, place, Reading};
use crate::reader::Unread;
use crate::repair;
use crate::status::Failure;
use crate::words::{count, path_shown, row_and_column, shown, typed};
use std::ffi::OsStr;
use std::os::unix::ffi::OsStrExt;
use std::path::{Path, PathBuf};
use tickdrizzle::{Question, Table, GREATEST_ORDER, LONGEST_TEXT};

/// More faults of one kind are counted and not told.
const MOST_FAULTS: usize = 10;

/// A sheet that was read.
pub struct Opened {
    pub about: Sheet,
    pub table: Option<Table>,
    pub hints: Vec<String>,
}

/// How the library makes a table of a text, or refuses it.
pub type Loading<'a> = &'a dyn Fn(&[u8]) -> Result<Table, tickdrizzle::Refusal>;

/// Reads a sheet and the name sheet beside it.
pub fn open(source: &Source, role: Role, strict: bool) -> Result<Opened, Failure> {
    open_by(&Table::load, source, role, strict)
}

/// Reads a sheet, as a table in this way, and the name sheet beside it.
pub fn open_by(load: Loading, source: &Source, role: Role, strict: bool) -> Result<Opened, Failure> {
    let bytes = source.bytes()?;
    let Some(file) = &source.file else { return Ok(opened_by(load, source, &bytes, role, strict, Vec::new())) };
    let beside = names::beside(file, strict);
    let mut opened = opened_by(load, source, &bytes, role, strict, beside.names);
    opened.hints.extend(names::hint(beside.sheet.as_ref(), &opened.about));
    opened.hints.extend(outdated(file, &bytes));
    opened.about.name_sheet = beside.sheet;
    Ok(opened)
}

/// Reads a sheet by itself, from bytes, with the names of its cues.
pub fn opened(source: &Source, bytes: &[u8], role: Role, strict: bool, names: Vec<String>) -> Opened {
    opened_by(&Table::load, source, bytes, role, strict, names)
}

/// Reads a sheet by itself, as a table in this way.
pub fn opened_by(load: Loading, source: &Source, bytes: &[u8], role: Role, strict: bool, names: Vec<String>) -> Opened {
    let mut about = Sheet { path: path_shown(&source.given), role, names, ..Sheet::default() };
    // What the library takes as it is needs no reading.
    let as_it_is = Some(bytes).filter(|_| source.sheet.is_none()).and_then(|bytes| load(bytes).ok());
    about.begins = as_it_is.as_ref().map(|_| [1, 1]);
    let table = as_it_is.or_else(|| read(load, source, bytes, strict, &mut about));
    about.order = table.as_ref().map(Table::order);
    about.table = table.as_ref().map(rows);
    Opened { about, table, hints: Vec::new() }
}

/// Reads cells and loads the table that they hold; tells what was mended, or why there is none.
fn read(load: Loading, source: &Source, bytes: &[u8], strict: bool, about: &mut Sheet) -> Option<Table> {
    let reading = if strict { table::strict(bytes) } else { table::read(bytes, source.sheet.as_deref()) };
    match reading {
        Ok(reading) => {
            about.mended.clone_from(&reading.mended);
            let loaded = load(&reading.text);
            about.begins = loaded.is_ok().then_some([reading.top + 1, reading.left + 1]);
            if let Err(refusal) = &loaded {
                about.refusal = Some(explain(&reading, refusal.question, &source.given, about));
                let ((top, left), rows) = reading.shown();
                about.cells = Some(Cells { row: top + 1, column: left + 1, rows });
            }
            loaded.ok()
        }
        Err(unread) => {
            about.refusal = Some(unreadable(unread, bytes, strict));
            None
        }
    }
}

/// A file that has no cells to ask about, or cells with two readings. The library's question is named where the file is text, and
/// where the library alone decides.
fn unreadable(unread: Unread, bytes: &[u8], strict: bool) -> Refusal {
    let is_text = !crate::reader::is_workbook(bytes) && std::str::from_utf8(bytes).is_ok();
    let question = Table::load(bytes).err().map(|refusal| refusal.question.number() as usize);
    Refusal {
        question: question.filter(|_| is_text || strict),
        faults: vec![Fault { place: unread.place, cells: Vec::new(), there: unread.there }],
        more: 0,
        expected: unread.expected,
        to_do: unread.to_do,
        repair: None,
    }
}

/// A sheet that the system would not read.
pub fn unread(source: &Source, role: Role, failure: &Failure) -> Sheet {
    let path = path_shown(&source.given);
    let there = failure.message.strip_prefix(&format!("{path}: ")).unwrap_or(&failure.message).to_owned();
    let fault =
        one_fault("the whole file".into(), there, "a file that can be read", "check that this is the right file");
    Sheet { path, role, refusal: Some(fault), ..Sheet::default() }
}

/// A mended sheet whose original now holds something else.
fn outdated(file: &Path, bytes: &[u8]) -> Option<String> {
    let original = with_endings(&original_of(file)?).into_iter().next()?;
    let now = table::read(&Source::new(&original).bytes().ok()?, None).ok()?;
    (now.text != bytes).then(|| {
        format!(
            "{} holds something else than {}, which was mended from it earlier: give {} itself.",
            path_shown(&original),
            path_shown(file),
            path_shown(&original)
        )
    })
}

/// `show` for `show.mended.csv`.
pub fn original_of(file: &Path) -> Option<PathBuf> {
    let name = file.file_name()?.as_bytes().strip_suffix(b".mended.csv")?;
    Some(file.with_file_name(OsStr::from_bytes(name)))
}

/// Tells why a sheet is refused.
pub fn explain(reading: &Reading, question: Question, path: &Path, about: &Sheet) -> Refusal {
    let mut refusal = match question {
        _ if is_too_large(reading.height, reading.width) => too_large(reading),
        Question::TextLength => text_length(reading),
        Question::TextByte { place } => bad_cells(reading, Some(place)),
        Question::FieldStart | Question::FieldLength | Question::FieldRange => bad_cells(reading, None),
        Question::Square => square(reading),
        Question::CellRange { cell } => cell_range(reading, cell),
        Question::Associativity { i, j, k } => associativity(reading, [i, j, k], about),
        Question::Generator => one_fault(
            "--cues".into(),
            String::new(),
            &format!("cues of this table, 1 to {}", reading.height),
            "choose cues that the table has",
        ),
        Question::Generation => one_fault(
            "--cues".into(),
            String::new(),
            "cues from which all others are linked",
            &format!("add cues to the list; this finds one: tickdrizzle cues {}", typed(path)),
        ),
        other => one_fault("the whole sheet".into(), other.to_string(), "", ""),
    };
    refusal.question = Some(question.number() as usize);
    let is_mended = || table::read(&reading.text, None).is_ok_and(|reading| Table::load(&reading.text).is_ok());
    if reading.strict && Table::load(&reading.text).is_err() && is_mended() {
        refusal.to_do = format!("leave out --strict, or run: tickdrizzle mend {}", typed(path));
    }
    refusal
}

fn one_fault(place: String, there: String, expected: &str, to_do: &str) -> Refusal {
    several(vec![Fault { place, cells: Vec::new(), there }], expected, to_do)
}

/// A refusal by faults of one kind.
pub fn several(mut faults: Vec<Fault>, expected: &str, to_do: &str) -> Refusal {
    let more = faults.len().saturating_sub(MOST_FAULTS);
    faults.truncate(MOST_FAULTS);
    Refusal { question: None, faults, more, expected: expected.into(), to_do: to_do.into(), repair: None }
}

/// Whether a sheet of this size is a table with too many cues, or has cells that are not kept.
fn is_too_large(rows: usize, columns: usize) -> bool {
    rows.min(columns) > GREATEST_ORDER || rows.max(columns) > MOST_KEPT
}

fn too_large(reading: &Reading) -> Refusal {
    one_fault(
        "the whole sheet".into(),
        format!("{} of {}", count(reading.height, "row"), count(reading.width, "cell")),
        &format!("at most {GREATEST_ORDER} rows and columns, one for each cue"),
        &format!("the table is too large for this program: cut the show down to {GREATEST_ORDER} cues"),
    )
}

fn text_length(reading: &Reading) -> Refusal {
    let there = match reading.text.len() {
        0 => "nothing: the sheet is empty".to_string(),
        length => format!("{length} bytes"),
    };
    let expected = format!("a table: at most {LONGEST_TEXT} bytes for {GREATEST_ORDER} cues");
    one_fault("the whole sheet".into(), there, &expected, "check that this is the right file, and save the sheet again")
}

/// The fault that a cell is.
fn in_cell(at: (usize, usize), there: String) -> Fault {
    Fault { place: place(at), cells: vec![[at.0 + 1, at.1 + 1]], there }
}

/// Cells that are no cue numbers: first the one where the byte stands that the library refuses.
fn bad_cells(reading: &Reading, byte: Option<usize>) -> Refusal {
    let told = |text: &str| if text.is_empty() { "an empty cell".into() } else { shown(text) };
    let mut bad = reading.bad_cells();
    let first = byte.map(|byte| reading.place_of(byte));
    let mut faults = Vec::new();
    let mut expected = String::new();
    if let (Some(byte), Some(at)) = (byte, first) {
        let found = bad.iter().position(|(place, _, _)| *place == at).map(|found| bad.remove(found));
        expected = found
            .map_or_else(|| "digits, a comma between cells, CR LF after each row".into(), |(_, _, expected)| expected);
        let there = if reading.strict { character(&reading.text[byte..]) } else { told(&reading.cell(at).text) };
        faults.push(in_cell(at, there));
    } else if let Some((_, _, first)) = bad.first() {
        expected.clone_from(first);
    }
    faults.extend(bad.iter().map(|(at, cell, _)| in_cell(*at, told(&cell.text))));
    let to_do = if faults.len() == 1 { "correct the cell" } else { "correct the cells" };
    several(faults, &expected, to_do)
}

/// The first character of some bytes, as one would name it.
fn character(bytes: &[u8]) -> String {
    match bytes {
        [0xEF, 0xBB, 0xBF, ..] => "a byte order mark".into(),
        [0xFF, 0xFE, ..] | [0xFE, 0xFF, ..] => "the mark of UTF-16 text".into(),
        [b'\n', ..] => "a line break LF without CR".into(),
        [b'\r', ..] => "a line break CR without LF".into(),
        [b'\t', ..] => "a tab".into(),
        [b' ', ..] => "a space".into(),
        [b'"', ..] => "a quote mark".into(),
        _ => match String::from_utf8_lossy(&bytes[..bytes.len().min(4)]).chars().next() {
            Some(first) if first != '\u{FFFD}' => shown(&first.to_string()),
            _ => format!("the byte {:02X} (hexadecimal)", bytes[0]),
        },
    }
}

/// Which rows are not as long as the first, or that there are too many or too few.
fn square(reading: &Reading) -> Refusal {
    let widths = reading.widths();
    let first = widths.first().copied().unwrap_or(0);
    let uneven = |(row, &width): (usize, &usize)| {
        let place = format!("row {}", reading.top + row + 1);
        (width != first).then(|| Fault {
            place,
            cells: vec![[reading.top + row + 1, reading.left + 1]],
            there: count(width, "cell"),
        })
    };
    let mut faults: Vec<_> = widths.iter().enumerate().filter_map(uneven).collect();
    if faults.is_empty() {
        let there = format!("{} of {}", count(reading.height, "row"), count(first, "cell"));
        faults.push(Fault { place: "the whole sheet".into(), cells: Vec::new(), there });
    }
    let expected = format!("{} of {}, as the first row has", count(first, "row"), count(first, "cell"));
    several(faults, &expected, "complete the table, or delete what is left over")
}

/// Cells above the order of the table, which loads.
fn cell_range(reading: &Reading, first: usize) -> Refusal {
    let order = reading.height;
    let cells = loaded(reading);
    let above = (first - 1..order * order).filter(|&cell| usize::from(cells[cell]) > order);
    let at = |cell: usize| (reading.top + cell / order, reading.left + cell % order);
    let faults: Vec<_> = above.map(|cell| in_cell(at(cell), shown(&cells[cell].to_string()))).collect();
    let to_do = if faults.len() == 1 { "correct the cell" } else { "correct the cells" };
    several(faults, &format!("a cue of this table, 1 to {order}"), to_do)
}

/// The triple, both ways round, with the cells that were looked up.
fn associativity(reading: &Reading, [i, j, k]: [usize; 3], about: &Sheet) -> Refusal {
    let order = reading.height;
    let cells = loaded(reading);
    let product = |a: usize, b: usize| usize::from(cells[(a - 1) * order + (b - 1)]);
    let (ij, jk) = (product(i, j), product(j, k));
    let (left, right) = (product(ij, k), product(i, jk));
    let mut looked_up = vec![(i, j), (ij, k), (j, k), (i, jk)];
    for place in (1..4).rev() {
        if looked_up[..place].contains(&looked_up[place]) {
            looked_up.remove(place);
        }
    }
    let at = |(row, column): (usize, usize)| [reading.top + row, reading.left + column];
    let suspects: Vec<_> = looked_up.iter().map(|&cell| at(cell)).collect();
    let told: Vec<_> = suspects.iter().map(|[row, column]| row_and_column(*row, *column)).collect();
    let fault = Fault {
        place: format!("cues {}, {}, {}", about.label(i), about.label(j), about.label(k)),
        cells: suspects,
        there: format!("{i}·{j} = {ij}, {ij}·{k} = {left}; {j}·{k} = {jk}, {i}·{jk} = {right}"),
    };
    let expected = format!("the same cue both ways: ({i}·{j})·{k} = {i}·({j}·{k})");
    let to_do = format!("one of these cells is wrong: {}", told.join("; "));
    let repair = repair::of(&cells[..order * order], order, &looked_up, (reading.top, reading.left));
    Refusal { repair: Some(repair), ..several(vec![fault], &expected, &to_do) }
}

/// The cells of a sheet that loads.
fn loaded(reading: &Reading) -> Vec<u8> {
    let mut cells = vec![0; tickdrizzle::MOST_CELLS];
    tickdrizzle::load(&reading.text, &mut cells).expect("questions about cells are asked of a sheet that loads");
    cells
}
