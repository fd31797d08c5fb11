//! Which sheets hold the same table but for the numbering.

use super::Work;
use crate::answer::{Class, Found, Role};
use crate::arguments::ClassesArguments;
use crate::files;
use crate::input::{self, name_of, Source};
use crate::progress::Progress;
use crate::sheet::{opened, original_of};
use crate::status::{Failure, Status};
use crate::views::{partners, records};
use crate::words::count;
use std::path::{Path, PathBuf};
use tickdrizzle::Table;

/// Of a folder the program classes reads the files up to this number.
const LAST_FILE: usize = 50;

/// The words that the records of this program's answers begin with.
const RECORDS: [&[u8]; 6] = [b"class,", b"total,", b"refused,", b"found,", b"none,", b"stopped,"];

/// The first rows of its sheets of partners and of rigs.
const HEADINGS: [&str; 2] = [partners::HEADING, records::RIGS_HEADING];

/// A class: a table of it, and the places of its sheets, counted from 1.
struct Members {
    table: Table,
    sheets: Vec<usize>,
}

pub fn run(arguments: &ClassesArguments, work: &mut Work) -> Result<(), Failure> {
    work.outputs_are_allowed(None, false)?;
    let strict = work.options.strict || arguments.csv;
    let _line = Progress::start("comparing sheets", work.options.quiet);
    let mut classes = Vec::<Members>::new();
    for source in sources(&arguments.paths, arguments.csv, work)? {
        let bytes = if arguments.csv { source.bytes_or_none() } else { source.bytes()? };
        let sheet = opened(&source, &bytes, Role::Table, strict, Vec::new());
        work.take(&sheet);
        if let Some(table) = sheet.table {
            add(&mut classes, table, work.answer.sheets.len(), arguments.mirror);
        }
    }
    if work.answer.sheets.is_empty() {
        work.say(
            "There is no sheet in the folder: no .csv, .ods, .xlsx, .tsv, .tab or .txt file with a table.".into(),
            Status::None,
        );
    } else {
        work.answer.says = sentence(classes.len(), work.answer.sheets.len());
        if arguments.mirror {
            work.answer.says += " A table and its mirrored one count as the same.";
        }
    }
    let class = |members: Members| Class { order: members.table.order(), sheets: members.sheets };
    work.answer.result = Some(Found::Classes(classes.into_iter().map(class).collect()));
    Ok(())
}

/// Puts a sheet into its class, or into a new one; a class may have mirrored tables too.
fn add(classes: &mut Vec<Members>, table: Table, place: usize, mirror: bool) {
    let same = |members: &&mut Members| {
        members.table.isomorphisms(&table).next().is_some()
            || mirror && members.table.reversed_isomorphisms(&table).next().is_some()
    };
    match classes.iter_mut().find(same) {
        Some(members) => members.sheets.push(place),
        None => classes.push(Members { table, sheets: vec![place] }),
    }
}

fn sentence(classes: usize, sheets: usize) -> String {
    let classes = if classes == 1 { "1 class".into() } else { format!("{classes} classes") };
    format!("{classes} in {}.", count(sheets, "sheet"))
}

/// The sheets that were given, or those of a folder.
fn sources(paths: &[PathBuf], csv: bool, work: &mut Work) -> Result<Vec<Source>, Failure> {
    let [folder] = paths else { return input::each_file(paths) };
    if !files::is_folder(folder) {
        return input::each_file(paths);
    }
    if !csv {
        return Ok(in_folder(folder, work));
    }
    let numbered = numbered(folder);
    let left = input::sheets(folder).into_iter().filter(|path| !numbered.contains(path)).collect();
    left_out(left, "01.csv, 02.csv and so on are read, up to 50.csv and the first gap", work);
    Ok(numbered.iter().map(|path| Source::new(path)).collect())
}

/// The sheets of a folder.
pub fn in_folder(folder: &Path, work: &mut Work) -> Vec<Source> {
    let sheets = input::sheets(folder).into_iter();
    let (taken, left): (Vec<PathBuf>, Vec<PathBuf>) = sheets.partition(|path| !is_answer(path) && !is_copy(path));
    left_out(left, "answers of this program and mended copies", work);
    taken.iter().map(|path| Source::new(path)).collect()
}

/// Tells which files of a folder are left out.
fn left_out(left: Vec<PathBuf>, why: &str, work: &mut Work) {
    if !left.is_empty() {
        let names: Vec<_> = left.iter().map(|path| name_of(path)).collect();
        let hint = format!("Left out: {} ({why}).", names.join(", "));
        if !work.answer.hints.contains(&hint) {
            work.answer.hints.push(hint);
        }
    }
}

/// The files that the program classes reads: 01.csv, 02.csv and so on, until one cannot be opened.
fn numbered(folder: &Path) -> Vec<PathBuf> {
    let names = (1..=LAST_FILE).map(|number| folder.join(format!("{number:02}.csv")));
    names.take_while(|path| files::opens(path)).collect()
}

/// Whether a file holds what this program printed.
fn is_answer(path: &Path) -> bool {
    let bytes = Source::new(path).bytes_or_none();
    let starts = RECORDS.into_iter().chain(HEADINGS.map(str::as_bytes));
    starts.into_iter().any(|start| bytes.starts_with(start))
}

/// Whether a file was mended from another one that is there too.
fn is_copy(path: &Path) -> bool {
    original_of(path).is_some_and(|original| !input::with_endings(&original).is_empty())
}
