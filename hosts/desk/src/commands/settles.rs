//! Which cue a repeat settles on.

use super::Work;
use crate::answer::{Fault, Found, Role, Settling, Sheet};
use crate::arguments::SettlesArguments;
use crate::input;
use crate::progress::Progress;
use crate::sheet::{open, several};
use crate::status::{Failure, Status};
use crate::words::{count, shown};

pub fn run(arguments: &SettlesArguments, work: &mut Work) -> Result<(), Failure> {
    let sheet = open(&input::single(&arguments.path)?, Role::Table, work.options.strict)?;
    work.take(&sheet);
    let Some(table) = &sheet.table else { return Ok(()) };
    let Some(cues) = chosen(&arguments.cues, &sheet.about, work) else { return Ok(()) };
    let _line = Progress::start("repeating cues", work.options.quiet);
    let settling = |&cue: &usize| {
        let found = table.index_period(cue).expect("the cue is one of the table");
        let (index, period) = (found.index, found.period);
        // Of the repeats that come again, the settled one is that whose number of times the period divides.
        Settling { cue, settles_on: found.idempotent, times: index.div_ceil(period) * period, index, period }
    };
    let settlings: Vec<_> = cues.iter().map(settling).collect();
    let who = if arguments.cues.is_empty() { count(cues.len(), "cue") } else { count(cues.len(), "chosen cue") };
    let each = if cues.len() == 1 { "the" } else { "each of the" };
    work.say(format!("What {each} {who} settles on when it is repeated:"), Status::Found);
    work.answer.result = Some(Found::Settles(settlings));
    Ok(())
}

/// The cues that were chosen by number or name, or all; nothing where the table does not have one of them, which is told.
fn chosen(given: &[String], sheet: &Sheet, work: &mut Work) -> Option<Vec<usize>> {
    let order = sheet.order.unwrap_or(0);
    if given.is_empty() {
        return Some((1..=order).collect());
    }
    let (mut cues, mut faults) = (Vec::new(), Vec::new());
    for (place, text) in given.iter().enumerate() {
        match sheet.cue(text) {
            Some(cue) => cues.push(cue),
            None => faults.push(Fault {
                place: format!("cue {} of the arguments", place + 1),
                cells: Vec::new(),
                there: shown(text),
            }),
        }
    }
    if faults.is_empty() {
        return Some(cues);
    }
    let expected = format!("a cue of this table, 1 to {order}, or its name");
    let mut refusal = several(faults, &expected, "choose cues that the table has");
    refusal.question = Some(7);
    work.answer.sheets[0].refusal = Some(refusal);
    work.answer.status = Status::Refused;
    None
}
