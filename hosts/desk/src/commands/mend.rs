//! Sheets that load, made from what spreadsheets save.

use super::Work;
use crate::answer::{Found, Mending, MendingState, Refusal, Role};
use crate::arguments::MendArguments;
use crate::files::is_folder;
use crate::input::{self, Source};
use crate::names::{self, is_name_sheet, name_sheets};
use crate::output::{holds, is_standard, STANDARD};
use crate::reader::{self, is_workbook};
use crate::sheet::opened;
use crate::status::{Failure, Status};
use crate::words::path_shown;
use std::path::{Path, PathBuf};
use tickdrizzle::MOST_CELLS;

/// A sheet that was read, as it should be.
struct Clean {
    text: Vec<u8>,
    rows: usize,
    columns: usize,
    changes: Vec<String>,
    /// Whether the library takes the text.
    loads: bool,
    refusal: Option<Refusal>,
}

pub fn run(arguments: &MendArguments, work: &mut Work) -> Result<(), Failure> {
    work.force = arguments.force;
    let mut mendings = Vec::new();
    let sources = sources(&arguments.paths)?;
    if !arguments.dry_run && sources.iter().any(|source| source.file.is_none()) {
        work.outputs_are_allowed(Some(Path::new(STANDARD)), false)?;
    }
    for source in sources {
        let done = one(&source, arguments, work);
        mendings.extend(done.as_ref().ok().cloned());
        work.answer.result = Some(Found::Mended(mendings.clone()));
        done?;
    }
    if mendings.iter().any(|mending| mending.refusal.is_some()) {
        work.answer.status = Status::Refused;
    }
    Ok(())
}

/// The sheets that the paths name; of a folder also the name sheets that are there.
fn sources(paths: &[PathBuf]) -> Result<Vec<Source>, Failure> {
    let mut sources = Vec::new();
    for path in paths {
        let tables = input::each(std::slice::from_ref(path))?;
        let files = tables.iter().filter_map(|table| table.file.clone()).filter(|_| is_folder(path));
        let names: Vec<Source> = files.flat_map(|file| name_sheets(&file)).map(|names| Source::new(&names)).collect();
        sources.extend(tables);
        sources.extend(names);
    }
    input::one_standard(&sources)?;
    Ok(sources)
}

/// Mends a sheet.
fn one(source: &Source, arguments: &MendArguments, work: &mut Work) -> Result<Mending, Failure> {
    let bytes = source.bytes()?;
    let is_names = source.file.as_ref().is_some_and(|file| is_name_sheet(file));
    let clean = if is_names { clean_names(source, &bytes)? } else { clean_table(source, &bytes) };
    let mut mending = Mending {
        path: path_shown(&source.given),
        rows: clean.rows,
        columns: clean.columns,
        changes: clean.changes,
        output: None,
        state: MendingState::NotMended,
        refusal: clean.refusal,
    };
    if !clean.loads {
        return Ok(mending);
    }
    let output = beside(source);
    let goes_on = is_standard(&output) && !arguments.dry_run;
    if clean.text == bytes && !goes_on {
        mending.state = MendingState::LoadsAsItIs;
        return Ok(mending);
    }
    mending.output = Some(path_shown(&output));
    mending.state = if arguments.dry_run {
        MendingState::WouldBeWritten
    } else if !goes_on && holds(&output, &clean.text) {
        MendingState::AlreadyThere
    } else {
        work.put(&output, clean.text);
        MendingState::Written
    };
    Ok(mending)
}

fn clean_table(source: &Source, bytes: &[u8]) -> Clean {
    let about = opened(source, bytes, Role::Table, false, Vec::new()).about;
    match reader::table::read(bytes, source.sheet.as_deref()) {
        Ok(reading) => Clean {
            loads: tickdrizzle::load(&reading.text, &mut vec![0; MOST_CELLS]).is_ok(),
            rows: reading.height,
            columns: reading.width,
            changes: changes(reading.mended, bytes),
            refusal: about.refusal,
            text: reading.text,
        },
        Err(_) => {
            Clean { text: Vec::new(), rows: 0, columns: 0, changes: Vec::new(), loads: false, refusal: about.refusal }
        }
    }
}

fn clean_names(source: &Source, bytes: &[u8]) -> Result<Clean, Failure> {
    let about = names::opened(source, false)?;
    Ok(match reader::names::read(bytes, source.sheet.as_deref()) {
        Ok(reading) => Clean {
            loads: about.refusal.is_none(),
            rows: reading.records.len(),
            columns: 2,
            changes: changes(reading.mended, bytes),
            refusal: about.refusal,
            text: reading.text,
        },
        Err(_) => {
            Clean { text: Vec::new(), rows: 0, columns: 0, changes: Vec::new(), loads: false, refusal: about.refusal }
        }
    })
}

/// What was not as it should be; of a workbook that it is one.
fn changes(mended: Vec<String>, bytes: &[u8]) -> Vec<String> {
    let workbook = is_workbook(bytes).then(|| "a workbook; now CSV".to_string());
    workbook.into_iter().chain(mended).collect()
}

/// `show.ods` is mended as `show.mended.csv`, `show.names.csv` as `show.mended.names.csv`, standard input to standard output.
fn beside(source: &Source) -> PathBuf {
    match &source.file {
        None => STANDARD.into(),
        Some(file) if is_name_sheet(file) => file.with_extension("").with_extension("mended.names.csv"),
        Some(file) => file.with_extension("mended.csv"),
    }
}
