//! The part of a table that chosen cues make.

use super::Work;
use crate::answer::{rows, Fault, Found, Role, Sheet};
use crate::arguments::CutArguments;
use crate::files;
use crate::input;
use crate::output::is_standard;
use crate::sheet::{open, several};
use crate::status::{Failure, Status};
use crate::words::{count, path_shown};
use std::path::{Path, PathBuf};
use tickdrizzle::{save_names, Part, LONGEST_NAME, MOST_NAMES};

pub fn run(arguments: &CutArguments, work: &mut Work) -> Result<(), Failure> {
    work.outputs_are_allowed(arguments.output.as_deref(), true)?;
    let whole = open(&input::single(&arguments.path)?, Role::Table, work.options.strict)?;
    work.take(&whole);
    let Some(table) = &whole.table else { return Ok(()) };
    // No element is 0, which stands for every number that is none either.
    let chosen: Vec<u8> = arguments.cues.iter().map(|&cue| u8::try_from(cue).unwrap_or(0)).collect();
    let Ok(part) = table.part(&chosen) else {
        outside(work, &arguments.cues, table.order());
        return Ok(());
    };
    let says = format!("The part has {} of the {}:", part.table.order(), count(table.order(), "cue"));
    work.say(says, Status::Found);
    if let Some(path) = &arguments.output {
        work.put(path, part.table.text());
        name_part(work, &whole.about, &part, path);
    }
    work.answer.result = Some(Found::Part { elements: part.elements, table: rows(&part.table) });
    Ok(())
}

/// Tells which of the chosen cues the table does not have.
fn outside(work: &mut Work, cues: &[usize], order: usize) {
    let is_outside = |(place, cue): (usize, &usize)| {
        let fault =
            Fault { place: format!("entry {} of --cues", place + 1), cells: Vec::new(), there: cue.to_string() };
        (!(1..=order).contains(cue)).then_some(fault)
    };
    let faults = cues.iter().enumerate().filter_map(is_outside).collect();
    let mut refusal = several(faults, &format!("a cue of this table, 1 to {order}"), "choose cues that the table has");
    refusal.question = Some(60);
    work.answer.sheets[0].refusal = Some(refusal);
    work.answer.status = Status::Refused;
}

/// Writes the names of the part beside it, where each of its cues has one.
fn name_part(work: &mut Work, whole: &Sheet, part: &Part, path: &Path) {
    if is_standard(path) {
        return;
    }
    let beside: PathBuf = path.with_extension("names.csv");
    let names: Option<Vec<&str>> = part.elements.iter().map(|&cue| whole.name(cue.into())).collect();
    match names {
        Some(names) => {
            let lengths: Vec<u8> = names.iter().map(|name| u8::try_from(name.len()).unwrap_or(0)).collect();
            // Each name with its quote marks doubled, two around it, its number, a comma and a line break.
            let mut text = vec![0; MOST_NAMES * (2 * LONGEST_NAME + 8)];
            let length =
                save_names(names.concat().as_bytes(), &lengths, &mut text).expect("names that were loaded are saved");
            text.truncate(length);
            work.put(&beside, text);
        }
        None => {
            if !whole.names.is_empty() {
                work.answer.hints.push("No names were written for the part: some of its cues have none.".into());
            }
            if files::exists(&beside) {
                work.answer.hints.push(format!("{} was there before and is not about this part.", path_shown(&beside)));
            }
        }
    }
}
