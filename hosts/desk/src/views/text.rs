//! An answer in words.

use crate::answer::{
    Answer, Class, Found, Mending, MendingState, Misfit, Pair, Refusal, Rig, RigOutcome, Role, Settling, Sheet,
};
use crate::status::Status;
use crate::words::count;

/// How the words are shown.
#[derive(Clone, Copy)]
pub struct Manner {
    /// Without what was mended and without hints.
    pub quiet: bool,
    pub colours: bool,
}

/// The answer in words. Of a command that failed only what it says of each sheet before is among them.
pub fn text(answer: &Answer, manner: Manner) -> String {
    match (&answer.result, answer.command) {
        (Some(Found::Mended(mendings)), _) => mendings.iter().map(|mending| mended(mending, manner)).collect(),
        (result, "check") => {
            let built = match result {
                Some(Found::Building { cues }) => format!(", built from {}", numbers(cues)),
                _ => String::new(),
            };
            answer.sheets.iter().map(|sheet| checked(sheet, &built, manner)).collect()
        }
        _ if matches!(answer.status, Status::Failed | Status::Usage) => String::new(),
        _ => answered(answer, manner),
    }
}

fn answered(answer: &Answer, manner: Manner) -> String {
    let mut text: String = answer.sheets.iter().map(|sheet| notes(sheet, manner)).collect();
    if !answer.says.is_empty() {
        text += &format!("{}\n", painted(&answer.says, answer.status, manner));
    }
    text += &chosen(answer).iter().map(|sentence| format!("{sentence}\n")).collect::<String>();
    text += &match &answer.result {
        Some(Found::Map { images, .. }) => map(answer, images),
        Some(Found::Maps { images, .. }) => {
            let way = |(place, images): (usize, &Vec<u8>)| format!("Way {}:\n{}", place + 1, map(answer, images));
            images.iter().enumerate().map(way).collect()
        }
        Some(Found::Classes(classes)) => classes_in_words(answer, classes),
        Some(Found::Part { elements, .. }) => part(answer, elements),
        Some(Found::Positions { positions, .. }) => landings(answer, positions),
        Some(Found::Misfit(misfit)) => misfit_in_words(answer, misfit),
        Some(Found::Rigs(rigs)) => rigs_in_words(answer, rigs),
        Some(Found::Settles(settlings)) => settlings_in_words(answer, settlings),
        Some(Found::Building { cues }) => {
            let label = |&cue: &u8| format!("  {}\n", answer.sheets[0].label(cue.into()));
            cues.iter().map(label).collect::<String>() + &format!("For the shorter check: --cues {}\n", numbers(cues))
        }
        _ => String::new(),
    };
    let in_lines = matches!(answer.result, Some(Found::Rigs(_)));
    for sheet in answer.sheets.iter().filter(|_| !in_lines) {
        text += &refusals(sheet, manner);
    }
    for path in &answer.written {
        text += &format!("Written: {path}\n");
    }
    if !manner.quiet {
        text += &answer.hints.iter().map(|hint| format!("Note: {hint}\n")).collect::<String>();
    }
    text
}

/// What was mended of a sheet and of the name sheet beside it, a line each.
fn notes(sheet: &Sheet, manner: Manner) -> String {
    let line = |path: &str, mended: &[String]| match mended {
        [] => String::new(),
        _ => format!("{path}: mended on reading: {}.\n", mended.join("; ")),
    };
    if manner.quiet {
        return String::new();
    }
    let names = sheet.name_sheet.as_ref().map_or(String::new(), |names| line(&names.path, &names.mended));
    line(&sheet.path, &sheet.mended) + &names
}

/// Why a sheet or the name sheet beside it is refused.
fn refusals(sheet: &Sheet, manner: Manner) -> String {
    let own = sheet.refusal.as_ref().map(|refusal| refused(&sheet.path, refusal, manner));
    let names = sheet.name_sheet.as_ref();
    let names = names.and_then(|names| Some(refused(&names.path, names.refusal.as_ref()?, manner)));
    own.into_iter().chain(names).collect()
}

/// A refusal: the sheet and the question, then where it fails, what stands there, what was expected and what to do.
pub fn refused(path: &str, refusal: &Refusal, manner: Manner) -> String {
    let question = refusal.question.map_or(String::new(), |number| format!(" (question {number})"));
    painted(&format!("{path}: refused{question}."), Status::Refused, manner) + "\n" + &explained(refusal)
}

fn explained(refusal: &Refusal) -> String {
    let (first, nothing) = (&refusal.faults[0], String::new());
    let lines = [
        ("where:   ", &first.place),
        ("there:   ", &first.there),
        ("expected:", &refusal.expected),
        ("to do:   ", &refusal.to_do),
        ("perhaps: ", refusal.repair.as_ref().map_or(&nothing, |repair| &repair.says)),
    ];
    let told = lines.iter().filter(|(_, text)| !text.is_empty());
    let mut text: String = told.map(|(title, text)| format!("  {title}  {text}\n")).collect();
    let mut also: Vec<_> =
        refusal.faults[1..].iter().map(|fault| format!("{}: {}", fault.place, fault.there)).collect();
    if refusal.more > 0 {
        also.push(format!("and {} more", refusal.more));
    }
    for (place, line) in also.iter().enumerate() {
        text += &format!("  {}  {line}\n", if place == 0 { "also:    " } else { "         " });
    }
    text
}

/// What the operator's choice of partners was, and what came of it.
pub fn chosen(answer: &Answer) -> Vec<String> {
    let (Some(chosen), [show, rig]) = (&answer.chosen, &answer.sheets[..]) else { return Vec::new() };
    let told = |title: &str, pairs: &[Pair]| {
        let pair = |pair: &Pair| format!("{} -> {}", show.label(pair.0), rig.label(pair.1));
        let told = pairs.iter().map(pair).collect::<Vec<_>>().join("; ");
        (!pairs.is_empty()).then(|| format!("{title}: {told}"))
    };
    let (kept, equal) = (chosen.kept.len(), chosen.kept.len() + chosen.lost.len() + chosen.untried.len());
    let names = format!("Equal names: {kept} of {equal} kept");
    let sentences = [
        told("Pinned", &chosen.pins),
        told("Excluded", &chosen.not),
        (equal > 0).then_some(names),
        told("Not kept", &chosen.lost),
        told("No time to try", &chosen.untried),
    ];
    sentences.into_iter().flatten().collect()
}

fn map(answer: &Answer, images: &[u8]) -> String {
    let cues: Vec<u8> = (1..=u8::try_from(images.len()).expect("orders are at most 120")).collect();
    partners(answer, &cues, images)
}

/// Cues of the show and their partners, a line each.
fn partners(answer: &Answer, cues: &[u8], images: &[u8]) -> String {
    let (show, rig) = (&answer.sheets[0], &answer.sheets[1]);
    let labels: Vec<_> = cues.iter().map(|&cue| show.label(cue.into())).collect();
    let width = labels.iter().map(String::len).max().unwrap_or(0);
    let line = |(label, &image): (&String, &u8)| format!("  {label:width$}  ->  {}\n", rig.label(image.into()));
    labels.iter().zip(images).map(line).collect()
}

/// Why the show does not fit, and the largest part that can be moved.
fn misfit_in_words(answer: &Answer, misfit: &Misfit) -> String {
    let mut text: String = misfit.says.iter().map(|sentence| format!("{sentence}\n")).collect();
    if let Some(largest) = &misfit.largest {
        text += "The partners of what can be moved:\n";
        text += &partners(answer, &largest.elements, &largest.images);
    }
    text
}

fn classes_in_words(answer: &Answer, classes: &[Class]) -> String {
    let mut text = String::new();
    for (number, class) in classes.iter().enumerate() {
        text += &format!("Class {}, of {}:\n", number + 1, count(class.order, "cue"));
        text += &class.sheets.iter().map(|&place| format!("  {}\n", answer.sheets[place - 1].path)).collect::<String>();
    }
    text
}

fn part(answer: &Answer, elements: &[u8]) -> String {
    let width = elements.len().to_string().len();
    let line =
        |(place, &cue): (usize, &u8)| format!("  {:<width$}  is  {}\n", place + 1, answer.sheets[0].label(cue.into()));
    elements.iter().enumerate().map(line).collect()
}

fn landings(answer: &Answer, positions: &[Vec<u8>]) -> String {
    let line = |(label, lands): (&String, &Vec<u8>)| {
        let lands: Vec<_> = lands.iter().map(u8::to_string).collect();
        format!("  {label}  lands at  {}\n", lands.join(" "))
    };
    answer.sheets[0].labels().iter().zip(positions).map(line).collect()
}

/// What came of each rig, a line each.
fn rigs_in_words(answer: &Answer, rigs: &[Rig]) -> String {
    let path = |rig: &Rig| &answer.sheets[rig.sheet - 1].path;
    let width = rigs.iter().map(|rig| path(rig).chars().count()).max().unwrap_or(0);
    let line = |rig: &Rig| {
        let sheet = &answer.sheets[rig.sheet - 1];
        let cues = sheet.order.map_or(String::new(), |order| format!("{}, ", count(order, "cue")));
        format!("  {:width$}  {} ({cues}{} ms)\n", sheet.path, rig_in_words(sheet, rig), rig.milliseconds)
    };
    rigs.iter().map(line).collect()
}

/// What came of a rig.
pub fn rig_in_words(sheet: &Sheet, rig: &Rig) -> String {
    match (rig.outcome, rig.copies, &sheet.refusal) {
        (RigOutcome::Fits, Some(number), _) => {
            format!("fits in {}{}", if rig.more { "more than " } else { "" }, count(number, "place"))
        }
        (RigOutcome::Fits, None, _) => "fits; there was no time to count the places".into(),
        (RigOutcome::None, _, _) => match rig.mirrored {
            Some(true) => "does not fit; read column first it does".into(),
            Some(false) => "does not fit, nor read column first".into(),
            None => "does not fit; there was no time to read it column first".into(),
        },
        (RigOutcome::Stopped, _, _) => "there was no time to tell".into(),
        (RigOutcome::Refused, _, refusal) => {
            let fault = refusal.as_ref().map_or(String::new(), |refusal| {
                let number = refusal.question.map_or(String::new(), |number| format!(" (question {number})"));
                format!("{number}: {}: {}", refusal.faults[0].place, refusal.faults[0].there)
            });
            format!("refused{fault}")
        }
    }
}

/// Cues with commas between, as `--cues` takes them.
fn numbers(cues: &[u8]) -> String {
    cues.iter().map(u8::to_string).collect::<Vec<_>>().join(",")
}

/// What cues settle on: the cue, after how many times, in what rhythm.
fn settlings_in_words(answer: &Answer, settlings: &[Settling]) -> String {
    let sheet = &answer.sheets[0];
    let labels: Vec<_> = settlings.iter().map(|settling| sheet.label(settling.cue)).collect();
    let width = labels.iter().map(String::len).max().unwrap_or(0);
    let line = |(label, settling): (&String, &Settling)| {
        let (on, times) = (sheet.label(settling.settles_on), count(settling.times, "time"));
        let how = match (settling.index, settling.period) {
            (1, 1) => "is settled: repeating it changes nothing".into(),
            (_, 1) => format!("settles on {on} after {times} and stays there"),
            (index, period) => {
                format!("settles on {on} after {times} and again every {period} times; this rhythm begins with time {index}")
            }
        };
        format!("  {label:width$}  {how}\n")
    };
    labels.iter().zip(settlings).map(line).collect()
}

/// What a sheet is.
fn checked(sheet: &Sheet, built: &str, manner: Manner) -> String {
    let what = match (sheet.role, sheet.order) {
        _ if sheet.refusal.is_some() => String::new(),
        (Role::Names, _) => format!("{}: a name sheet of {}.", sheet.path, count(sheet.names.len(), "cue")),
        (_, order) => format!("{}: a linking table of {}{built}.", sheet.path, count(order.unwrap_or(0), "cue")),
    };
    let what = if what.is_empty() { what } else { painted(&what, Status::Found, manner) + "\n" };
    notes(sheet, manner) + &what + &refusals(sheet, manner)
}

/// What came of a sheet that was to be mended.
fn mended(mending: &Mending, manner: Manner) -> String {
    let path = &mending.path;
    let output = mending.output.as_deref().unwrap_or_default();
    let size = format!("{path}: {} of {}.\n", count(mending.rows, "row"), count(mending.columns, "cell"));
    let changes: String = mending.changes.iter().map(|change| format!("  {change}\n")).collect();
    let mut text = match mending.state {
        MendingState::LoadsAsItIs => format!("{path}: loads as it is; nothing to mend.\n"),
        MendingState::Written => format!("{size}{changes}Written: {output}\n"),
        MendingState::AlreadyThere => format!("{size}{changes}Already there: {output}\n"),
        MendingState::WouldBeWritten => format!("{size}{changes}Would be written: {output}\n"),
        MendingState::NotMended => String::new(),
    };
    if let Some(refusal) = &mending.refusal {
        if mending.state != MendingState::NotMended {
            text += "It is no linking table yet. ";
        }
        text += &refused(path, refusal, manner);
    }
    text
}

/// A sentence in the colour of what it says.
fn painted(text: &str, status: Status, manner: Manner) -> String {
    let colour = match status {
        _ if !manner.colours => return text.into(),
        Status::Found => 32,
        Status::None | Status::Stopped => 33,
        Status::Refused | Status::Failed | Status::Usage => 31,
    };
    format!("\u{1B}[1;{colour}m{text}\u{1B}[0m")
}
