//! Why a show does not fit: the smallest part of it that already has no place, and the largest part that can be moved.

use super::moving::Search;
use super::Work;
use crate::answer::{Fitting, Found, Misfit, Misfitting, Role, Sheet};
use crate::arguments::WhyArguments;
use crate::building::generators;
use crate::input;
use crate::parts::{self, Look};
use crate::patience::{told_within, within};
use crate::progress::Progress;
use crate::sheet::open;
use crate::status::{Failure, Status};
use crate::words::{count, listed};
use std::time::Duration;
use tickdrizzle::Table;

/// How long each search may take where no time is given.
const PATIENCE: Duration = Duration::from_secs(10);

/// More cues of a part are counted and not told.
const MOST_TOLD: usize = 12;

pub fn run(arguments: &WhyArguments, work: &mut Work) -> Result<(), Failure> {
    let mut tables = Vec::new();
    for (source, role) in input::pair(&arguments.tables.paths)?.iter().zip([Role::Show, Role::Rig]) {
        let sheet = open(source, role, work.options.strict)?;
        work.take(&sheet);
        tables.extend(sheet.table);
    }
    let [show, rig] = &tables[..] else { return Ok(()) };
    let limit = arguments.timeout.unwrap_or(PATIENCE);
    let _line = Progress::start("looking for the reason", work.options.quiet);
    let search = Search::plain(show, rig);
    let lent = (show.clone(), rig.clone());
    let whole = within(Some(limit), move || lent.0.embeddings(&lent.1).next());
    if let Some(Some(images)) = whole {
        work.say(format!("{} There is nothing to explain.", search.fits()), Status::Found);
        work.answer.result = Some(Found::Map { images, trials: None, mirrored: false });
        return Ok(());
    }
    let mut misfit = smallest(&work.answer.sheets[0], show, rig, limit);
    if whole.is_none() && misfit.smallest.is_none() {
        let says = format!("Stopped: {limit:?} for each search is not enough to tell. Give a larger --timeout.");
        work.say(says, Status::Stopped);
    } else {
        add_largest(&mut misfit, &work.answer.sheets[0], show, rig, limit);
        misfit.says.push("What is said of parts is certain; what to leave out is a suggestion.".into());
        work.say(search.does_not_fit(), Status::None);
    }
    work.answer.result = Some(Found::Misfit(misfit));
    Ok(())
}

/// The smallest part that has no place, within a time, in a sentence or two.
pub fn smallest(sheet: &Sheet, show: &Table, rig: &Table, limit: Duration) -> Misfit {
    let lent = (show.clone(), rig.clone());
    let (told, complete) = told_within(Some(limit), move |tell| parts::smallest_misfit(&lent.0, &lent.1, tell));
    let (mut looked, mut smallest) = ([0; parts::MOST_CUES], None);
    for look in told {
        match look {
            Look::Fits { cues } => looked[cues - 1] += 1,
            Look::Misfit { cues, elements } => {
                looked[cues.len() - 1] += 1;
                smallest = Some(Misfitting { cues, elements });
            }
        }
    }
    let says = match &smallest {
        Some(part) => vec![no_place(sheet, part), smaller(part, complete, limit)],
        None if show.order() > rig.order() => {
            vec!["The show has more cues than the rig.".into(), others(looked, complete, limit)]
        }
        None => vec![others(looked, complete, limit)],
    };
    let says = says.into_iter().filter(|sentence| !sentence.is_empty()).collect();
    Misfit { says, smallest, largest: None, looked, complete }
}

/// That a part has no place.
fn no_place(sheet: &Sheet, part: &Misfitting) -> String {
    let one = part.cues.len() == 1;
    let (they, have) = if one { ("it links", "has") } else { ("they link", "have") };
    let with = if part.elements.len() > part.cues.len() {
        let held = count(part.elements.len(), "cue");
        let held = if part.elements.len() > MOST_TOLD { held } else { format!("{held}: {}", numbers(&part.elements)) };
        format!("with what {they} to ({held}) ")
    } else {
        String::new()
    };
    format!("{} {with}already {have} no place on this rig.", named(sheet, &part.cues, true))
}

/// That smaller parts of it have one.
fn smaller(part: &Misfitting, complete: bool, limit: Duration) -> String {
    if !complete {
        return format!("Within {limit:?} no smaller part was found.");
    }
    if part.elements.len() == 1 {
        return String::new();
    }
    format!("Each smaller part that {} has one.", makers(part.cues.len(), "makes", "make"))
}

/// That no part without a place was found.
fn others(looked: [usize; 3], complete: bool, limit: Duration) -> String {
    let parts = count(looked.iter().sum(), "part");
    if complete {
        let makers = makers(parts::MOST_CUES, "makes", "make");
        format!("Each smaller part that {makers} has a place ({parts}); the whole show has none.")
    } else {
        format!("Within {limit:?} no part without a place was found ({parts} looked at).")
    }
}

/// "one cue makes", "one or two cues make".
fn makers(most: usize, makes: &str, make: &str) -> String {
    match most {
        1 => format!("one cue {makes}"),
        2 => format!("one or two cues {make}"),
        _ => format!("one, two or three cues {make}"),
    }
}

/// Adds the largest part that has a place.
fn add_largest(misfit: &mut Misfit, sheet: &Sheet, show: &Table, rig: &Table, limit: Duration) {
    let building = generators(show.cells(), show.order());
    let lent = (show.clone(), rig.clone(), building.clone());
    let (mut told, complete) =
        told_within(Some(limit), move |tell| parts::largest_fit(&lent.0, &lent.1, &lent.2, tell));
    let among = format!("where one, two or three of its building cues ({}) are left out", numbers(&building));
    match told.pop() {
        _ if building.len() == 1 => {
            misfit.says.push(format!("Cue {} makes the whole show: no part is left without it.", building[0]));
        }
        Some(parts::Rest { without, elements, images }) => {
            let (moved, order) = (elements.len(), show.order());
            misfit
                .says
                .push(format!("Without {}, {moved} of {order} cues can be moved.", named(sheet, &without, false)));
            misfit.says.push(if complete {
                format!("More cannot, {among}.")
            } else {
                format!("Perhaps more can: within {limit:?} not every part was looked at, {among}.")
            });
            misfit.largest = Some(Fitting { generators: building, without, elements, images, complete });
        }
        None if complete => misfit.says.push(format!("No part can be moved {among}.")),
        None => misfit.says.push(format!("Within {limit:?} no part was found that can be moved {among}.")),
    }
}

/// Cues by number and name.
fn named(sheet: &Sheet, cues: &[u8], at_start: bool) -> String {
    let labels: Vec<_> = cues.iter().map(|&cue| sheet.label(cue.into())).collect();
    let word = if at_start { "Cue" } else { "cue" };
    format!("{word}{} {}", if cues.len() == 1 { "" } else { "s" }, listed(&labels))
}

fn numbers(cues: &[u8]) -> String {
    cues.iter().map(u8::to_string).collect::<Vec<_>>().join(", ")
}
