//! Which rigs take a show: each is read and searched by itself, on all cores.

use super::classes::in_folder;
use super::Work;
use crate::answer::{Found, Rig, RigOutcome, Role, Sheet};
use crate::arguments::RigsArguments;
use crate::building;
use crate::files;
use crate::input::{self, Source};
use crate::progress::Progress;
use crate::searcher::{Searcher, Told};
use crate::sheet::{open, opened_by, unread};
use crate::status::{Failure, Status};
use crate::words::{count, path_shown};
use std::sync::atomic::{AtomicUsize, Ordering};
use std::sync::Mutex;
use std::thread;
use std::time::{Duration, Instant};
use tickdrizzle::{Table, MOST_COPIES};

/// How long the searches on one rig may take where no time is given.
const PATIENCE: Duration = Duration::from_secs(10);

pub fn run(arguments: &RigsArguments, work: &mut Work) -> Result<(), Failure> {
    work.outputs_are_allowed(None, false)?;
    let source = input::single(&arguments.show)?;
    let sheet = open(&source, Role::Show, work.options.strict)?;
    work.take(&sheet);
    let rigs = sources(arguments, &source, work)?;
    let Some(show) = sheet.table else { return Ok(()) };
    let limit = arguments.timeout.unwrap_or(PATIENCE);
    let line = Progress::counting("looking at rigs", rigs.len(), work.options.quiet);
    let searched = on_all_cores(
        &rigs,
        || Searcher::new(&show),
        |searcher, rig| {
            let searched = search(searcher, rig, work.options.strict, limit);
            line.step();
            searched
        },
    );
    drop(line);
    let mut results = Vec::new();
    for (about, mut rig) in searched {
        work.answer.sheets.push(about);
        rig.sheet = work.answer.sheets.len();
        results.push(rig);
    }
    let (says, status) = summary(&show, &results, limit);
    work.say(says, status);
    work.answer.result = Some(Found::Rigs(results));
    Ok(())
}

/// The sheets of the rigs; of a folder all, in the order of their names, but not the show.
fn sources(arguments: &RigsArguments, show: &Source, work: &mut Work) -> Result<Vec<Source>, Failure> {
    let mut sources = Vec::new();
    for path in &arguments.rigs {
        if files::is_folder(path) {
            sources.extend(in_folder(path, work));
        } else {
            sources.push(Source::new(path));
        }
    }
    input::one_standard(sources.iter().chain([show]))?;
    let all = sources.len();
    sources.retain(|rig| !input::is_same(rig, show));
    if sources.len() < all {
        work.answer.hints.push(format!("Left out: {} (the show itself).", path_shown(&show.given)));
    }
    Ok(sources)
}

/// Does something with each of some things, on all cores, each with a tool of its own; the results in their order.
fn on_all_cores<T: Sync, S, R: Send>(
    things: &[T],
    tool: impl Fn() -> S + Sync,
    work: impl Fn(&mut S, &T) -> R + Sync,
) -> Vec<R> {
    let cores = thread::available_parallelism().map_or(1, usize::from).min(things.len());
    let next = AtomicUsize::new(0);
    let results = Mutex::new(Vec::new());
    thread::scope(|scope| {
        for _ in 0..cores {
            scope.spawn(|| {
                let mut tool = tool();
                while let Some((place, thing)) =
                    Some(next.fetch_add(1, Ordering::Relaxed)).and_then(|place| Some((place, things.get(place)?)))
                {
                    let result = work(&mut tool, thing);
                    results.lock().expect("no thread has failed").push((place, result));
                }
            });
        }
    });
    let mut results = results.into_inner().expect("no thread has failed");
    results.sort_by_key(|(place, _)| *place);
    results.into_iter().map(|(_, result)| result).collect()
}

/// Reads a rig and searches it.
fn search(searcher: &mut Searcher, source: &Source, strict: bool, limit: Duration) -> (Sheet, Rig) {
    let begun = Instant::now();
    let (mut about, table) = match source.bytes() {
        Ok(bytes) => {
            let opened = opened_by(&building::load, source, &bytes, Role::Rig, strict, Vec::new());
            (opened.about, opened.table)
        }
        Err(failure) => (unread(source, Role::Rig, &failure), None),
    };
    // A thousand tables would make the answer long.
    (about.table, about.cells) = (None, None);
    let mut rig =
        Rig { sheet: 0, outcome: RigOutcome::Refused, copies: None, more: false, mirrored: None, milliseconds: 0 };
    if let Some(table) = table {
        rig.outcome = RigOutcome::Stopped;
        for told in searcher.search(&table, limit) {
            match told {
                Told::Fits(fits) => rig.outcome = if fits { RigOutcome::Fits } else { RigOutcome::None },
                Told::Copies(number) => rig.copies = Some(number),
                Told::MoreCopies => (rig.copies, rig.more) = (Some(MOST_COPIES), true),
                Told::Mirrored(fits) => rig.mirrored = Some(fits),
            }
        }
    }
    rig.milliseconds = begun.elapsed().as_millis();
    (about, rig)
}

/// How many rigs take the show. Where any does, that is found; else a search that was stopped or a refused sheet decides.
fn summary(show: &Table, rigs: &[Rig], limit: Duration) -> (String, Status) {
    let number = |outcome: RigOutcome| rigs.iter().filter(|rig| rig.outcome == outcome).count();
    let [fit, refused, stopped] = [RigOutcome::Fits, RigOutcome::Refused, RigOutcome::Stopped].map(number);
    let mirrored = rigs.iter().filter(|rig| rig.mirrored == Some(true)).count();
    let take = if fit == 1 || rigs.len() == 1 { "takes" } else { "take" };
    let (rigs, cues) = (count(rigs.len(), "rig"), count(show.order(), "cue"));
    let mut says = format!("{fit} of {rigs} {take} the show of {cues}");
    let others = [
        (mirrored, format!("{mirrored} would, read column first")),
        (stopped, format!("{stopped} could not be told within {limit:?}")),
        (refused, format!("{refused} refused")),
    ];
    for (number, words) in others {
        if number > 0 {
            says += &format!("; {words}");
        }
    }
    let status = match (fit, stopped, refused) {
        (1.., _, _) => Status::Found,
        (0, 1.., _) => Status::Stopped,
        (0, 0, 1..) => Status::Refused,
        _ => Status::None,
    };
    (says + ".", status)
}
