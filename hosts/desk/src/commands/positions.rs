//! The fewest rest positions that carry a table.

use super::Work;
use crate::answer::{Found, Role};
use crate::arguments::PositionsArguments;
use crate::input;
use crate::progress::Progress;
use crate::sheet::open;
use crate::status::{Failure, Status};
use crate::words::count;

pub fn run(arguments: &PositionsArguments, work: &mut Work) -> Result<(), Failure> {
    let sheet = open(&input::single(&arguments.path)?, Role::Table, work.options.strict)?;
    work.take(&sheet);
    let Some(table) = &sheet.table else { return Ok(()) };
    let cues = count(table.order(), "cue");
    let _line = Progress::start("counting rest positions", work.options.quiet);
    match table.positions() {
        Some(positions) => {
            let degree = positions[0].len();
            let carry = if degree == 1 { "carries" } else { "carry" };
            let fewest = count(degree, "rest position");
            let says = format!(
                "{fewest} {carry} the {cues}, and fewer do not. Where each lands from positions 1 to {degree}:"
            );
            work.say(says, Status::Found);
            work.answer.result = Some(Found::Positions { degree, positions });
        }
        None => {
            work.say(format!("No: 3 rest positions do not carry the {cues}, and more are not tried."), Status::None);
        }
    }
    Ok(())
}
