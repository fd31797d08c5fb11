//! Whether sheets are linking tables or name sheets.

use super::Work;
use crate::answer::{Found, Role};
use crate::arguments::CheckArguments;
use crate::building::closure;
use crate::input::{self, Source};
use crate::names::{self, is_name_sheet};
use crate::sheet::{open, open_by, Opened};
use crate::status::Failure;
use crate::words::listed;
use std::cell::RefCell;
use tickdrizzle::{load, Question, Refusal, Table, MOST_CELLS};

pub fn run(arguments: &CheckArguments, work: &mut Work) -> Result<(), Failure> {
    let strict = work.options.strict;
    // No element is 0, which stands for every number that is none either.
    let cues: Vec<u8> = arguments.cues.iter().map(|&cue| u8::try_from(cue).unwrap_or(0)).collect();
    for source in input::each(&arguments.paths)? {
        let sheet = if source.file.as_ref().is_some_and(|file| is_name_sheet(file)) {
            Opened { about: names::opened(&source, strict)?, table: None, hints: Vec::new() }
        } else if cues.is_empty() {
            open(&source, Role::Table, strict)?
        } else {
            open_built(&source, &arguments.cues, &cues, strict)?
        };
        work.take(&sheet);
    }
    if !cues.is_empty() {
        work.answer.result = Some(Found::Building { cues });
    }
    Ok(())
}

/// Reads a sheet by the shorter check, given the cues that it is built from.
fn open_built(source: &Source, given: &[usize], cues: &[u8], strict: bool) -> Result<Opened, Failure> {
    let there = RefCell::new(String::new());
    let built = |text: &[u8]| -> Result<Table, Refusal> {
        let mut cells = vec![0; MOST_CELLS];
        let order = load(text, &mut cells)?;
        cells.truncate(order * order);
        let table = Table::generated(cells.clone(), order, cues);
        match table.as_ref().map_err(|refusal| refusal.question) {
            Err(Question::Generator) => *there.borrow_mut() = outside(given, order),
            Err(Question::Generation) => *there.borrow_mut() = not_reached(&cells, order, cues),
            _ => {}
        }
        table
    };
    let mut sheet = open_by(&built, source, Role::Table, strict)?;
    let there = there.take();
    if let Some(refusal) = sheet.about.refusal.as_mut().filter(|_| !there.is_empty()) {
        refusal.faults[0].there = there;
    }
    Ok(sheet)
}

/// The cues that the table does not have.
fn outside(cues: &[usize], order: usize) -> String {
    let is_outside = |cue: &&usize| !(1..=order).contains(*cue);
    let entries: Vec<_> = cues.iter().filter(is_outside).map(usize::to_string).collect();
    format!("{}, which the table does not have", listed(&entries))
}

/// The cues that are not linked from these.
fn not_reached(cells: &[u8], order: usize, cues: &[u8]) -> String {
    let reached = closure(cells, order, &cues.iter().map(|&cue| cue.into()).collect::<Vec<_>>());
    let first = (1..=order).find(|cue| !reached.contains(cue)).unwrap_or(0);
    format!("cues from which {} of {order} are linked; the first that is not is cue {first}", reached.len())
}
