//! Embeddings of the show's table in the rig's, among partners that the operator may choose: the earliest, the next ones, all, or how
//! many.

use super::{why, Work};
use crate::answer::{Chosen, Found, Offer, Pair, Role};
use crate::arguments::MoveArguments;
use crate::building::generators;
use crate::files;
use crate::input;
use crate::output::is_standard;
use crate::patience::{told_within, within};
use crate::pins::{about_names, equal_names, Pins};
use crate::progress::Progress;
use crate::sheet::{open, opened};
use crate::status::{Failure, Status};
use crate::views::partners;
use crate::words::{count, listed, path_shown};
use std::cell::OnceCell;
use std::path::PathBuf;
use std::time::{Duration, Instant};
use tickdrizzle::{Copies, LimitedSearch, Maps, Table, MOST_COPIES};

/// How long a hint may take.
const HINT_TIME: Duration = Duration::from_secs(1);

/// How long it may take to choose names where no time is given.
const NAMES_TIME: Duration = Duration::from_secs(10);

/// The tables between which maps are looked for.
#[derive(Clone)]
pub struct Search {
    source: Table,
    /// The rig's table, or the turned one where a part of a mirrored rig is looked for.
    target: Table,
    /// Whether reversed isomorphisms are looked for.
    reversed: bool,
    /// What the maps must and must not have.
    pins: Pins,
    /// How the rig's table is read, where it is not as usual.
    reading: Option<&'static str>,
    /// How much time it took to choose names.
    used: Duration,
    /// Whether there is a map without the pins; nothing where there was no time to tell.
    without: OnceCell<Option<bool>>,
}

impl Search {
    pub fn plain(source: &Table, target: &Table) -> Search {
        Search {
            source: source.clone(),
            target: target.clone(),
            reversed: false,
            pins: Pins::default(),
            reading: None,
            used: Duration::ZERO,
            without: OnceCell::new(),
        }
    }

    /// Maps to the rig's table read column first. The library has reversed isomorphisms; a part is looked for in the turned table.
    pub fn mirrored(source: &Table, target: &Table) -> Search {
        let reversed = source.order() == target.order();
        let search = if reversed { Search::plain(source, target) } else { Search::plain(source, &turned(target)) };
        Search { reversed, reading: Some("the rig's table read column first"), ..search }
    }

    /// Maps that keep the pins. The library takes pins for embeddings alone; a reversed isomorphism is one into the turned table.
    fn pinned(self, pins: Pins) -> Search {
        let target = if self.reversed { turned(&self.target) } else { self.target };
        Search { target, reversed: false, pins, ..self }
    }

    /// Maps that also keep the pairs with equal names, one after another as long as there is a map; which of them are kept, which are
    /// lost, and for which there was no time.
    fn preferring(self, pairs: &[Pair], limit: Option<Duration>) -> (Search, [Vec<Pair>; 3]) {
        if pairs.is_empty() {
            return (self, Default::default());
        }
        let (begun, lent) = (Instant::now(), (self.clone(), pairs.to_vec()));
        let limit = limit.map_or(NAMES_TIME, |limit| limit / 2);
        let (told, in_time) = told_within(Some(limit), move |tell| lent.0.keep(&lent.1, tell));
        let those = |is_kept: bool| -> Vec<Pair> {
            pairs.iter().zip(&told).filter(|(_, &told)| told == is_kept).map(|(&pair, _)| pair).collect()
        };
        let (kept, lost) = (those(true), those(false));
        let untried = if in_time { Vec::new() } else { pairs[told.len()..].to_vec() };
        let mut search = Search { used: begun.elapsed(), ..self };
        search.pins.names.clone_from(&kept);
        (search, [kept, lost, untried])
    }

    /// Tells of each pair whether a map has it together with the kept ones before it; nothing where there is no map at all.
    fn keep(mut self, pairs: &[Pair], tell: &dyn Fn(bool) -> bool) {
        let Some(mut images) = self.earliest() else { return };
        for &pair in pairs {
            self.pins.names.push(pair);
            // A map that has the pair already stays the earliest.
            let has_pair = usize::from(images[pair.0 - 1]) == pair.1;
            let found = if has_pair { Some(images.clone()) } else { self.earliest() };
            if !tell(found.is_some()) {
                return;
            }
            match found {
                Some(found) => images = found,
                None => drop(self.pins.names.pop()),
            }
        }
    }

    /// The earliest map.
    fn earliest(&self) -> Option<Vec<u8>> {
        self.maps().next()
    }

    fn maps(&self) -> Maps<'_> {
        if self.reversed {
            self.source.reversed_isomorphisms(&self.target)
        } else if self.pins.is_empty() {
            self.source.embeddings(&self.target)
        } else {
            self.source.embeddings_among(&self.target, |cue, partner| self.pins.allow(Pair(cue, partner)))
        }
    }

    /// What is not as usual, after a comma.
    fn how(&self) -> String {
        let names = self.pins.names.len();
        let names = (names > 0).then(|| format!("{} kept", count(names, "name")));
        let parts = [self.reading.map(String::from), self.pins.called().map(String::from), names];
        let parts: Vec<_> = parts.into_iter().flatten().collect();
        if parts.is_empty() {
            String::new()
        } else {
            format!(", with {}", listed(&parts))
        }
    }

    /// What is left of the time.
    fn left(&self, limit: Option<Duration>) -> Option<Duration> {
        limit.map(|limit| limit.saturating_sub(self.used))
    }

    /// Whether there is a map without the pins; nothing where there was no time to tell.
    fn fits_without(&self) -> Option<bool> {
        let search = Search { pins: Pins::default(), ..self.clone() };
        *self.without.get_or_init(|| within(Some(HINT_TIME), move || search.finds()))
    }

    /// Whether there may be a map without the pins.
    fn pins_matter(&self) -> bool {
        !self.pins.is_empty() && self.fits_without() != Some(false)
    }

    fn limited(&self, limit: u32) -> (LimitedSearch, Option<Vec<u8>>) {
        if self.reversed {
            self.source.reversed_isomorphism_within(&self.target, limit)
        } else {
            self.source.embedding_within(&self.target, limit)
        }
    }

    /// That the show fits.
    pub fn fits(&self) -> String {
        let (cues, go) = (self.source.order(), if self.source.order() == 1 { "goes" } else { "go" });
        let (order, how) = (self.target.order(), self.how());
        format!("The show fits: its {} {go} to {cues} of the rig's {order}{how}.", count(cues, "cue"))
    }

    /// That the show does not fit, and whether it would without the pins.
    pub fn does_not_fit(&self) -> String {
        let (cues, order) = (count(self.source.order(), "cue"), self.target.order());
        let reading = self.reading.map_or(String::new(), |reading| format!(", with {reading}"));
        let none =
            format!("The show does not fit: there is no way to give its {cues} partners among the rig's {order}");
        let Some(pins) = self.pins.called() else { return format!("{none}{reading}.") };
        match self.fits_without() {
            Some(false) => format!("{none}{reading}, with or without {pins}."),
            Some(true) => format!("With {pins} the show does not fit; without them it does{reading}."),
            None => {
                format!("With {pins} the show does not fit{reading}; whether it does without them was not found within {HINT_TIME:?}.")
            }
        }
    }

    /// Whether there is a map.
    pub fn finds(&self) -> bool {
        self.earliest().is_some()
    }

    /// At most so many maps, earliest first, and whether there was time for them.
    fn first(&self, number: usize, limit: Option<Duration>) -> (Vec<Vec<u8>>, bool) {
        let search = self.clone();
        told_within(self.left(limit), move |tell| {
            let _ = search.maps().take(number).all(tell);
        })
    }
}

/// The table with rows for columns.
pub fn turned(table: &Table) -> Table {
    let order = table.order();
    let cells = (0..order * order).map(|place| table.cells()[place % order * order + place / order]).collect();
    let building = generators(table.cells(), order);
    Table::generated(cells, order, &building).expect("a turned table is one, built from the same cues")
}

/// What came of a search; the trials where they were counted.
enum Outcome {
    Found { images: Vec<u8>, trials: Option<u32> },
    None { trials: Option<u32> },
    Stopped { enough: String },
}

pub fn run(arguments: &MoveArguments, work: &mut Work) -> Result<(), Failure> {
    number_is_no_sheet(arguments)?;
    let sheet = arguments.output.as_deref();
    work.outputs_are_allowed(sheet, sheet.is_some_and(partners::is_sheet))?;
    if arguments.partners {
        work.view = partners::page;
    }
    let done = find(arguments, work);
    match (sheet, &work.answer.result) {
        (Some(path), Some(Found::Map { .. })) => work.put(path, partners::sheet(&work.answer).into_bytes()),
        (Some(path), _) if !is_standard(path) => {
            let older = if files::exists(path) { "; what is there is older" } else { "" };
            work.answer.hints.push(format!("{} was not written: there are no partners{older}.", path_shown(path)));
        }
        _ => {}
    }
    done
}

/// Reads the tables, and finds maps or why there are none.
fn find(arguments: &MoveArguments, work: &mut Work) -> Result<(), Failure> {
    let strict = work.options.strict || arguments.csv;
    let paths = &arguments.tables.paths;
    let sources = if arguments.csv { input::strict_pair(paths)? } else { input::pair(paths)? };
    let mut tables = Vec::new();
    for (source, role) in sources.iter().zip([Role::Show, Role::Rig]) {
        let sheet = if arguments.csv {
            opened(source, &source.bytes_or_none(), role, strict, Vec::new())
        } else {
            open(source, role, strict)?
        };
        work.take(&sheet);
        tables.extend(sheet.table);
    }
    let [source, target] = &tables[..] else { return Ok(()) };
    let search = if arguments.mirror { Search::mirrored(source, target) } else { Search::plain(source, target) };
    let line = Progress::start("looking for partners", work.options.quiet);
    let search = choose(search, arguments, work)?;
    let fits_nowhere = match (arguments.all, arguments.next) {
        _ if arguments.count => ways(&search, arguments, work),
        (Some(number), _) => all(&search, number as usize, arguments, work),
        (None, Some(number)) => next(&search, number as usize, arguments, work),
        (None, None) => one(&search, arguments, work),
    };
    drop(line);
    if arguments.mirror && !search.reversed {
        let why = if source.order() == target.order() { "Partners are chosen" } else { "The orders differ" };
        let how = format!("{why}: the rig's table was turned, rows for columns, and searched as usual.");
        work.answer.hints.push(how);
    }
    if !arguments.csv {
        let is_misfit = fits_nowhere && !search.pins_matter();
        if input::is_same(&sources[0], &sources[1]) {
            work.answer.hints.push("The show and the rig are the same file.".into());
        } else if let Some((offer, says)) = is_misfit.then(|| offer(source, target, arguments.mirror)).flatten() {
            work.answer.hints.push(says.into());
            work.answer.offer = Some(offer);
        }
    }
    Ok(())
}

/// Refuses a number of ways that stands apart from its option, where a sheet should be.
fn number_is_no_sheet(arguments: &MoveArguments) -> Result<(), Failure> {
    let option = match (arguments.all, arguments.next) {
        (Some(_), _) => "--all",
        (None, Some(_)) => "--next",
        (None, None) => return Ok(()),
    };
    let is_number =
        |path: &&PathBuf| path.to_str().is_some_and(|text| text.parse::<u32>().is_ok()) && !files::exists(path);
    match arguments.tables.paths.iter().find(is_number) {
        Some(number) => {
            let number = path_shown(number);
            Err(Failure::usage(format!(
                "{number}: there is no such sheet; a number of ways goes after =: {option}={number}"
            )))
        }
        None => Ok(()),
    }
}

/// The search among the partners that the operator chooses, which are told.
fn choose(search: Search, arguments: &MoveArguments, work: &mut Work) -> Result<Search, Failure> {
    if arguments.pin.is_empty() && arguments.not.is_empty() && !arguments.prefer_names {
        return Ok(search);
    }
    let [show, rig] = &work.answer.sheets[..] else { unreachable!("both sheets were read") };
    let pins = Pins::new(&arguments.pin, &arguments.not, show, rig)?;
    let (pairs, several) = if arguments.prefer_names { equal_names(show, rig) } else { Default::default() };
    if arguments.prefer_names {
        work.answer.hints.extend(about_names(&pairs, &several));
    }
    let (given, not) = (pins.pins.clone(), pins.not.clone());
    let (search, [kept, lost, untried]) = search.pinned(pins).preferring(&pairs, arguments.timeout);
    work.answer.chosen = Some(Chosen { pins: given, not, kept, lost, untried });
    Ok(search)
}

/// The earliest map, or why there is none; whether there is none.
fn one(search: &Search, arguments: &MoveArguments, work: &mut Work) -> bool {
    let outcome = earliest(search, arguments);
    work.say(sentence(search, &outcome), status(&outcome));
    let fits_nowhere = matches!(outcome, Outcome::None { .. });
    match outcome {
        Outcome::Found { images, trials } => {
            work.answer.result = Some(Found::Map { images, trials, mirrored: arguments.mirror });
        }
        Outcome::None { .. } if !arguments.csv && !search.pins_matter() => {
            let rig = if search.reversed { turned(&search.target) } else { search.target.clone() };
            let mut misfit = why::smallest(&work.answer.sheets[0], &search.source, &rig, HINT_TIME);
            let is_larger = search.source.order() > rig.order();
            misfit.says.truncate(usize::from(misfit.smallest.is_some() || is_larger));
            if misfit.smallest.is_none() && !misfit.complete {
                let far =
                    format!("Within {HINT_TIME:?} no part without a place was found: tickdrizzle why looks longer.");
                work.answer.hints.push(far);
            }
            work.answer.result = Some(Found::Misfit(misfit));
        }
        _ => {}
    }
    fits_nowhere
}

fn earliest(search: &Search, arguments: &MoveArguments) -> Outcome {
    if let Some(limit) = arguments.limit {
        return match search.limited(limit) {
            (LimitedSearch::Found { trials }, Some(images)) => Outcome::Found { images, trials: Some(trials) },
            (LimitedSearch::None { trials }, _) => Outcome::None { trials: Some(trials) },
            _ => Outcome::Stopped { enough: format!("{} {}", tried(limit), if limit == 1 { "is" } else { "are" }) },
        };
    }
    let (mut maps, in_time) = search.first(1, arguments.timeout);
    match maps.pop() {
        Some(images) => Outcome::Found { images, trials: None },
        None if in_time => Outcome::None { trials: None },
        None => Outcome::Stopped { enough: format!("{:?} is", arguments.timeout.unwrap_or_default()) },
    }
}

/// The map that so many come before; whether there is none at all.
fn next(search: &Search, before: usize, arguments: &MoveArguments, work: &mut Work) -> bool {
    let (mut maps, in_time) = search.first(before + 1, arguments.timeout);
    let found = maps.len();
    if found == before + 1 {
        let come = if before == 1 { "comes" } else { "come" };
        let says = format!("{} This is way {found}: {before} {come} before it.", search.fits());
        work.say(says, Status::Found);
        let images = maps.pop().expect("it is there");
        work.answer.result = Some(Found::Map { images, trials: None, mirrored: arguments.mirror });
    } else if in_time && found == 0 {
        work.say(search.does_not_fit(), Status::None);
    } else if in_time {
        work.say(
            format!("There is no such way: the show fits in {}{}.", count(found, "way"), search.how()),
            Status::None,
        );
    } else {
        work.say(stopped(arguments), Status::Stopped);
    }
    in_time && found == 0
}

/// At most so many maps; whether there is none.
fn all(search: &Search, most: usize, arguments: &MoveArguments, work: &mut Work) -> bool {
    let (mut maps, in_time) = search.first(most + 1, arguments.timeout);
    let more = maps.len() > most;
    maps.truncate(most);
    if maps.is_empty() && !more {
        let outcome = if in_time { search.does_not_fit() } else { stopped(arguments) };
        work.say(outcome, if in_time { Status::None } else { Status::Stopped });
        return in_time;
    }
    let number = count(maps.len(), "way");
    let (says, status) = match (more, in_time) {
        (true, _) => (format!("The show fits in more than {number}{}. The earliest:", search.how()), Status::Found),
        (false, true) => (format!("The show fits in {number}{}:", search.how()), Status::Found),
        (false, false) => {
            let time = arguments.timeout.unwrap_or_default();
            (format!("Stopped: in {time:?} {number} were found, and there may be more:"), Status::Stopped)
        }
    };
    work.say(says, status);
    work.answer.result = Some(Found::Maps { images: maps, complete: in_time && !more });
    false
}

/// How many maps there are, for each copy of the show as many as it has isomorphisms onto itself; whether there is none.
fn ways(search: &Search, arguments: &MoveArguments, work: &mut Work) -> bool {
    if !search.pins.is_empty() {
        return counted(search, arguments, work);
    }
    let lent = search.clone();
    let counted = within(search.left(arguments.timeout), move || {
        if lent.reversed {
            let ways = lent.maps().count();
            return (Copies::Number(usize::from(ways > 0)), ways);
        }
        match lent.source.copies(&lent.target) {
            Copies::Number(0) => (Copies::Number(0), 0),
            copies => (copies, lent.source.isomorphisms(&lent.source).count()),
        }
    });
    let (says, status) = match counted {
        None => (stopped(arguments), Status::Stopped),
        Some((Copies::Number(0), _)) => (search.does_not_fit(), Status::None),
        Some((copies, in_each)) => {
            let (places, more) = match copies {
                Copies::Number(places) => (places, false),
                Copies::More => (MOST_COPIES, true),
            };
            work.answer.result = Some(Found::Ways { places, in_each, more });
            let than = if more { "more than " } else { "" };
            let (ways, places) = (count(places * in_each, "way"), count(places, "place"));
            let says = format!(
                "The show fits in {than}{ways}{}: {than}{places} of the rig, {} in each.",
                search.how(),
                count(in_each, "way")
            );
            (says, Status::Found)
        }
    };
    work.say(says, status);
    status == Status::None
}

/// How many maps there are among chosen partners; whether there is none. Each is walked: of the maps onto one copy only some may be allowed.
fn counted(search: &Search, arguments: &MoveArguments, work: &mut Work) -> bool {
    let lent = search.clone();
    let walked = within(search.left(arguments.timeout), move || lent.maps().take(MOST_COPIES + 1).count());
    let (says, status) = match walked {
        None => (stopped(arguments), Status::Stopped),
        Some(0) => (search.does_not_fit(), Status::None),
        Some(number) => {
            let (number, more) = (number.min(MOST_COPIES), number > MOST_COPIES);
            work.answer.result = Some(Found::Counted { number, more });
            let than = if more { "more than " } else { "" };
            (format!("The show fits in {than}{}{}.", count(number, "way"), search.how()), Status::Found)
        }
    };
    work.say(says, status);
    status == Status::None
}

fn status(outcome: &Outcome) -> Status {
    match outcome {
        Outcome::Found { .. } => Status::Found,
        Outcome::None { .. } => Status::None,
        Outcome::Stopped { .. } => Status::Stopped,
    }
}

fn sentence(search: &Search, outcome: &Outcome) -> String {
    let counted = |trials: &Option<u32>| trials.map_or(String::new(), |trials| format!(" {}.", tried(trials)));
    match outcome {
        Outcome::Found { trials, .. } => search.fits() + &counted(trials),
        Outcome::None { trials } => search.does_not_fit() + &counted(trials),
        Outcome::Stopped { enough } => {
            let option = if enough.contains("trial") { "--limit" } else { "--timeout" };
            format!("Stopped: {enough} not enough to tell. Give a larger {option}, or none.")
        }
    }
}

fn stopped(arguments: &MoveArguments) -> String {
    format!(
        "Stopped: {:?} is not enough to tell. Give a larger --timeout, or none.",
        arguments.timeout.unwrap_or_default()
    )
}

fn tried(trials: u32) -> String {
    count(trials as usize, "trial")
}

/// What fits instead: the other way to read the rig, or the two tables the other way round.
fn offer(source: &Table, target: &Table, is_mirrored: bool) -> Option<(Offer, &'static str)> {
    let (search, offer, says) = if source.order() > target.order() {
        let says = "The rig's table fits in the show's: perhaps the two are the wrong way round.";
        (Search::plain(target, source), Offer::Swap, says)
    } else if is_mirrored {
        let says = "The rig's table read row first fits: leave out --mirror.";
        (Search::plain(source, target), Offer::Plain, says)
    } else {
        let says = "The rig's table read column first fits: see --mirror.";
        (Search::mirrored(source, target), Offer::Mirror, says)
    };
    within(Some(HINT_TIME), move || search.finds()).filter(|&fits| fits).map(|_| (offer, says))
}
