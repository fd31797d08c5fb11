//! How many different copies of the show's table the rig's holds.

use super::Work;
use crate::answer::{Found, Role};
use crate::arguments::CopiesArguments;
use crate::input;
use crate::patience::within;
use crate::progress::Progress;
use crate::sheet::open;
use crate::status::{Failure, Status};
use crate::words::count;
use tickdrizzle::{Copies, Table, MOST_COPIES};

pub fn run(arguments: &CopiesArguments, work: &mut Work) -> Result<(), Failure> {
    let mut tables = Vec::new();
    for (source, role) in input::pair(&arguments.tables.paths)?.iter().zip([Role::Show, Role::Rig]) {
        let sheet = open(source, role, work.options.strict)?;
        work.take(&sheet);
        tables.extend(sheet.table);
    }
    let [source, target] = &tables[..] else { return Ok(()) };
    let _line = Progress::start("counting copies", work.options.quiet);
    let lent = (source.clone(), target.clone());
    match within(arguments.timeout, move || lent.0.copies(&lent.1)) {
        Some(copies) => {
            let status = if copies == Copies::Number(0) { Status::None } else { Status::Found };
            work.say(sentence(copies, source, target), status);
            work.answer.result = Some(match copies {
                Copies::Number(number) => Found::Copies { number, more: false },
                Copies::More => Found::Copies { number: MOST_COPIES, more: true },
            });
        }
        None => {
            let time = arguments.timeout.unwrap_or_default();
            work.say(
                format!("Stopped: {time:?} is not enough to tell. Give a larger --timeout, or none."),
                Status::Stopped,
            );
        }
    }
    Ok(())
}

fn sentence(copies: Copies, source: &Table, target: &Table) -> String {
    let (cues, order) = (source.order(), target.order());
    let places = match copies {
        Copies::Number(0) => {
            let cues = count(cues, "cue");
            return format!(
                "The show fits in no place of the rig: its {cues} have no partners among the rig's {order}."
            );
        }
        Copies::Number(number) => count(number, "place"),
        Copies::More => format!("more than {MOST_COPIES} places"),
    };
    format!("The show fits in {places} of the rig: {cues} of its {order} cues, whichever show cue goes to which.")
}
