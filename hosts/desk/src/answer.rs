//! What a command answers: one value, of which text, `--json`, `--csv` and `--html` are views.
//!
//! `docs/JSON.md` documents its shape.

use crate::status::{Failure, Status};
use serde::{Deserialize, Serialize};
use tickdrizzle::Table;

/// The shape of the value: raised where a field changes its meaning or goes; new fields may come at any time.
const SHAPE: u32 = 1;

/// What a command answers.
#[derive(Clone, Debug, Serialize)]
pub struct Answer {
    pub shape: u32,
    pub command: &'static str,
    pub status: Status,
    /// The answer in a sentence, or why there is none; empty where each sheet has its own.
    pub says: String,
    /// The sheets that were read, in the order of the command line.
    pub sheets: Vec<Sheet>,
    pub result: Option<Found>,
    /// The operator's choice of partners, where there is one.
    #[serde(flatten)]
    pub chosen: Option<Chosen>,
    pub hints: Vec<String>,
    /// What may be tried instead, where a search has found that it fits.
    pub offer: Option<Offer>,
    /// The files that were written.
    pub written: Vec<String>,
}

/// What may be tried instead.
#[derive(Clone, Copy, Debug, PartialEq, Eq, Serialize)]
#[serde(rename_all = "snake_case")]
pub enum Offer {
    /// The rig's table read column first.
    Mirror,
    /// The rig's table read row first.
    Plain,
    /// The two tables the other way round.
    Swap,
}

/// A sheet that was read.
#[derive(Clone, Debug, Default, Serialize)]
pub struct Sheet {
    pub path: String,
    /// What the sheet is in this command.
    pub role: Role,
    /// The number of cues, where it is a linking table.
    pub order: Option<usize>,
    /// The row and the column of the sheet where the table begins, counted from 1, where it is one.
    pub begins: Option<[usize; 2]>,
    /// The table, row after row, where it is one.
    pub table: Option<Vec<Vec<u8>>>,
    /// The names of the cues, from 1 on; empty where they are not known.
    pub names: Vec<String>,
    /// What was overlooked to read the sheet.
    pub mended: Vec<String>,
    pub refusal: Option<Refusal>,
    /// The name sheet beside it, where there is one.
    pub name_sheet: Option<NameSheet>,
    /// The cells as they stand, where the sheet is refused.
    pub cells: Option<Cells>,
}

#[derive(Clone, Copy, Debug, Default, PartialEq, Eq, Serialize)]
#[serde(rename_all = "snake_case")]
pub enum Role {
    Show,
    Rig,
    #[default]
    Table,
    Names,
}

/// A name sheet that stands beside a table.
#[derive(Clone, Debug, Serialize)]
pub struct NameSheet {
    pub path: String,
    pub mended: Vec<String>,
    pub refusal: Option<Refusal>,
}

/// Why a sheet cannot be used.
#[derive(Clone, Debug, PartialEq, Eq, Serialize)]
pub struct Refusal {
    /// The number of the library's earliest failed question; nothing where the file has no cells to ask about.
    pub question: Option<usize>,
    /// The faults of one kind, the library's first one first, at most ten.
    pub faults: Vec<Fault>,
    /// How many more there are.
    pub more: usize,
    pub expected: String,
    pub to_do: String,
    /// Where links do not fit together, which changes of one cell make it a linking table.
    pub repair: Option<Repair>,
}

/// The changes of one cell that make a table a linking table.
#[derive(Clone, Debug, PartialEq, Eq, Serialize)]
pub struct Repair {
    pub says: String,
    pub changes: Vec<Change>,
    /// Whether every change was tried.
    pub complete: bool,
}

/// A change of a cell, whose row and column in the sheet are counted from 1.
#[derive(Clone, Debug, PartialEq, Eq, Serialize)]
pub struct Change {
    pub row: usize,
    pub column: usize,
    pub there: u8,
    pub instead: u8,
}

/// A fault and its place.
#[derive(Clone, Debug, PartialEq, Eq, Serialize)]
pub struct Fault {
    #[serde(rename = "where")]
    pub place: String,
    /// The cells of the sheet that it is about, row and column, counted from 1.
    pub cells: Vec<[usize; 2]>,
    pub there: String,
}

/// Cells of a sheet, with the row and the column of the first, counted from 1.
#[derive(Clone, Debug, Deserialize, Serialize)]
pub struct Cells {
    pub row: usize,
    pub column: usize,
    pub rows: Vec<Vec<String>>,
}

/// A cue of the show and a partner on the rig.
#[derive(Clone, Copy, Debug, PartialEq, Eq, Serialize)]
pub struct Pair(pub usize, pub usize);

impl std::fmt::Display for Pair {
    fn fmt(&self, formatter: &mut std::fmt::Formatter) -> std::fmt::Result {
        write!(formatter, "{}={}", self.0, self.1)
    }
}

/// The operator's choice of partners.
#[derive(Clone, Debug, Serialize)]
pub struct Chosen {
    /// The pairs that a map was to have, and those that it was not to have.
    pub pins: Vec<Pair>,
    pub not: Vec<Pair>,
    /// Of the pairs with equal names those that are kept, and those that no map has together with the kept ones before them.
    pub kept: Vec<Pair>,
    pub lost: Vec<Pair>,
    /// Those for which there was no time.
    pub untried: Vec<Pair>,
}

/// What was found, by command.
#[derive(Clone, Debug, Serialize)]
#[serde(rename_all = "snake_case")]
pub enum Found {
    /// The image of each cue of the show, in turn; the trials where they were counted; whether the rig's table is read column first.
    Map { images: Vec<u8>, trials: Option<u32>, mirrored: bool },
    /// The earliest maps, and whether they are all.
    Maps { images: Vec<Vec<u8>>, complete: bool },
    /// How many places of the rig the show fits in, up to a number, and in how many ways in each.
    Ways { places: usize, in_each: usize, more: bool },
    /// How many maps the operator's choice leaves, up to a number.
    Counted { number: usize, more: bool },
    /// The classes: the places of their sheets, counted from 1, and their number of cues.
    Classes(Vec<Class>),
    /// A part of a table: the cues that it has there, and its own table.
    Part { elements: Vec<u8>, table: Vec<Vec<u8>> },
    /// The number of copies; `more` says that there are more than that.
    Copies { number: usize, more: bool },
    /// Where each cue lands from each position.
    Positions { degree: usize, positions: Vec<Vec<u8>> },
    /// What came of each sheet that was to be mended.
    Mended(Vec<Mending>),
    /// Why the show does not fit.
    Misfit(Misfit),
    /// What cues settle on when they are repeated.
    Settles(Vec<Settling>),
    /// Cues from which all others are linked.
    Building { cues: Vec<u8> },
    /// What came of each rig.
    Rigs(Vec<Rig>),
}

/// What came of a rig.
#[derive(Clone, Debug, Serialize)]
pub struct Rig {
    /// The place of its sheet, counted from 1.
    pub sheet: usize,
    pub outcome: RigOutcome,
    /// In how many places the show fits, or `more` than that; nothing where it does not, or there was no time to count.
    pub copies: Option<usize>,
    pub more: bool,
    /// Where the show does not fit, whether it does with the rig's table read column first; nothing where there was no time to tell.
    pub mirrored: Option<bool>,
    pub milliseconds: u128,
}

#[derive(Clone, Copy, Debug, PartialEq, Eq, Serialize)]
#[serde(rename_all = "snake_case")]
pub enum RigOutcome {
    Fits,
    None,
    Stopped,
    Refused,
}

/// What a cue settles on when it is repeated.
#[derive(Clone, Debug, Serialize)]
pub struct Settling {
    pub cue: usize,
    /// The one of its repeats that repeating does not change.
    pub settles_on: usize,
    /// After how many times it does so first.
    pub times: usize,
    /// From this number of times on repeats come again, after so many more.
    pub index: usize,
    pub period: usize,
}

/// Why a show does not fit, as far as was looked.
#[derive(Clone, Debug, Serialize)]
pub struct Misfit {
    /// The sentences that tell it.
    pub says: Vec<String>,
    /// A part of the show that has no place on the rig.
    pub smallest: Option<Misfitting>,
    /// The largest part found that has a place; nothing where none was looked for.
    pub largest: Option<Fitting>,
    /// How many parts made by one, two and three cues were searched.
    pub looked: [usize; 3],
    /// Whether every such part was, or all that can be smaller than the one that was found.
    pub complete: bool,
}

/// A part of a show that has no place on the rig.
#[derive(Clone, Debug, Serialize)]
pub struct Misfitting {
    /// The cues that make it.
    pub cues: Vec<u8>,
    /// Its cues in the show.
    pub elements: Vec<u8>,
}

/// A part of a show that has a place on the rig.
#[derive(Clone, Debug, Serialize)]
pub struct Fitting {
    /// The building cues of the show, and those of them that are left out.
    pub generators: Vec<u8>,
    pub without: Vec<u8>,
    /// Its cues in the show, and the partner of each.
    pub elements: Vec<u8>,
    pub images: Vec<u8>,
    /// Whether every part that leaves out one, two or three building cues was looked at.
    pub complete: bool,
}

#[derive(Clone, Debug, Serialize)]
pub struct Class {
    pub order: usize,
    pub sheets: Vec<usize>,
}

/// A sheet that was to be mended.
#[derive(Clone, Debug, Serialize)]
pub struct Mending {
    pub path: String,
    pub rows: usize,
    pub columns: usize,
    /// What was not as it should be; empty where the sheet loads as it is.
    pub changes: Vec<String>,
    /// The mended sheet, where there is one.
    pub output: Option<String>,
    pub state: MendingState,
    /// What is still wrong: the file cannot be mended, or holds no linking table.
    pub refusal: Option<Refusal>,
}

#[derive(Clone, Copy, Debug, PartialEq, Eq, Serialize)]
#[serde(rename_all = "snake_case")]
pub enum MendingState {
    LoadsAsItIs,
    Written,
    AlreadyThere,
    WouldBeWritten,
    NotMended,
}

impl Answer {
    /// An answer of a command that has found nothing yet.
    pub fn new(command: &'static str) -> Answer {
        Answer {
            shape: SHAPE,
            command,
            status: Status::Found,
            says: String::new(),
            sheets: Vec::new(),
            result: None,
            chosen: None,
            hints: Vec::new(),
            offer: None,
            written: Vec::new(),
        }
    }

    /// The answer of a command that failed.
    pub fn failed(self, failure: Failure) -> Answer {
        Answer { status: failure.status, says: failure.message, ..self }
    }

    /// The images of a map, where one was found.
    pub fn images(&self) -> &[u8] {
        match &self.result {
            Some(Found::Map { images, .. }) => images,
            _ => &[],
        }
    }
}

impl Sheet {
    /// The name of a cue.
    pub fn name(&self, cue: usize) -> Option<&str> {
        self.names.get(cue - 1).map(String::as_str)
    }

    /// The cues that a number or a name stands for: several where a name does. A number is no name.
    pub fn cues(&self, text: &str) -> Vec<usize> {
        let (text, all) = (text.trim(), 1..=self.order.unwrap_or(0));
        match text.parse::<usize>() {
            Ok(number) => all.filter(|&cue| cue == number).collect(),
            Err(_) => all.filter(|&cue| self.name(cue).map(str::trim) == Some(text)).collect(),
        }
    }

    /// The one cue that a number or a name stands for.
    pub fn cue(&self, text: &str) -> Option<usize> {
        match self.cues(text)[..] {
            [cue] => Some(cue),
            _ => None,
        }
    }

    /// A cue by number, and by name where it has one.
    pub fn label(&self, cue: usize) -> String {
        match self.name(cue) {
            Some(name) => format!("{cue} \"{name}\""),
            None => cue.to_string(),
        }
    }

    /// The cues by number and name, in a column.
    pub fn labels(&self) -> Vec<String> {
        let labels: Vec<_> = (1..=self.order.unwrap_or(0)).map(|cue| self.label(cue)).collect();
        let width = labels.iter().map(String::len).max().unwrap_or(0);
        labels.into_iter().map(|label| format!("{label:width$}")).collect()
    }
}

/// The rows of a table.
pub fn rows(table: &Table) -> Vec<Vec<u8>> {
    table.cells().chunks(table.order()).map(<[u8]>::to_vec).collect()
}
