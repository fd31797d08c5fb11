//! Building cues: a short list of cues from which all others are linked.

use super::Work;
use crate::answer::{Found, Role};
use crate::arguments::CuesArguments;
use crate::building::generators;
use crate::input;
use crate::progress::Progress;
use crate::sheet::open;
use crate::status::{Failure, Status};
use crate::words::count;
use tickdrizzle::check_generated;

pub fn run(arguments: &CuesArguments, work: &mut Work) -> Result<(), Failure> {
    let sheet = open(&input::single(&arguments.path)?, Role::Table, work.options.strict)?;
    work.take(&sheet);
    let Some(table) = &sheet.table else { return Ok(()) };
    let _line = Progress::start("choosing building cues", work.options.quiet);
    let cues = generators(table.cells(), table.order());
    check_generated(table.cells(), table.order(), &cues).expect("the chosen cues build the table");
    let (builds, them) = if cues.len() == 1 {
        ("builds", "")
    } else {
        ("build", "; none of them can be left out, but a shorter list of others may do")
    };
    let says = format!("{} {builds} all {}{them}:", count(cues.len(), "cue"), table.order());
    work.say(says, Status::Found);
    work.answer.result = Some(Found::Building { cues });
    Ok(())
}
