//! The subcommands: each makes one answer.

mod check;
mod classes;
mod copies;
mod cues;
mod cut;
mod mend;
pub mod moving;
pub mod open;
mod positions;
mod rigs;
mod settles;
mod why;

use crate::answer::Answer;
use crate::arguments::{Command, Options, Page};
use crate::input;
use crate::output::{self, Output};
use crate::sheet::Opened;
use crate::status::{Failure, Status};
use crate::views::page;
use std::path::{Path, PathBuf};

/// A command at work: its answer so far, what it may read and what it is to write.
pub struct Work<'a> {
    pub options: &'a Options,
    pub answer: Answer,
    /// Files that are never written.
    pub inputs: Vec<PathBuf>,
    pub outputs: Vec<Output>,
    pub html: Option<PathBuf>,
    /// How the page is made.
    pub view: fn(&Answer) -> String,
    pub force: bool,
}

/// What a command has done.
pub struct Done {
    pub answer: Answer,
    /// What goes to standard output instead of the answer.
    pub standard: Option<Vec<u8>>,
    /// The files that were to be written.
    pub outputs: Vec<Output>,
}

/// Runs a command that answers.
pub fn run(command: &Command, options: &Options) -> Done {
    match command {
        Command::Move(arguments) => {
            let paths = &arguments.tables.paths;
            answered("move", options, paths, Some(&arguments.page), |work| moving::run(arguments, work))
        }
        Command::Why(arguments) => {
            answered("why", options, &arguments.tables.paths, None, |work| why::run(arguments, work))
        }
        Command::Check(arguments) => {
            answered("check", options, &arguments.paths, None, |work| check::run(arguments, work))
        }
        Command::Classes(arguments) => {
            let page = Some(&arguments.page);
            answered("classes", options, &arguments.paths, page, |work| classes::run(arguments, work))
        }
        Command::Cut(arguments) => {
            let path = std::slice::from_ref(&arguments.path);
            answered("cut", options, path, Some(&arguments.page), |work| cut::run(arguments, work))
        }
        Command::Copies(arguments) => {
            answered("copies", options, &arguments.tables.paths, None, |work| copies::run(arguments, work))
        }
        Command::Positions(arguments) => {
            let path = std::slice::from_ref(&arguments.path);
            answered("positions", options, path, None, |work| positions::run(arguments, work))
        }
        Command::Rigs(arguments) => {
            let paths = [std::slice::from_ref(&arguments.show), &arguments.rigs].concat();
            answered("rigs", options, &paths, Some(&arguments.page), |work| rigs::run(arguments, work))
        }
        Command::Settles(arguments) => {
            let path = std::slice::from_ref(&arguments.path);
            answered("settles", options, path, None, |work| settles::run(arguments, work))
        }
        Command::Cues(arguments) => {
            let path = std::slice::from_ref(&arguments.path);
            answered("cues", options, path, None, |work| cues::run(arguments, work))
        }
        Command::Mend(arguments) => {
            answered("mend", options, &arguments.paths, None, |work| mend::run(arguments, work))
        }
        Command::Open(_) | Command::Ask | Command::SearchRigs | Command::Completions(_) => {
            unreachable!("commands that have no answer of their own run before")
        }
    }
}

/// Lets a command work, then writes its files: a page is written whatever the answer is, so that no older one stays.
fn answered(
    command: &'static str,
    options: &Options,
    paths: &[PathBuf],
    page: Option<&Page>,
    work: impl FnOnce(&mut Work) -> Result<(), Failure>,
) -> Done {
    let mut at_work = Work {
        options,
        answer: Answer::new(command),
        inputs: input::inputs(paths, matches!(command, "classes" | "rigs")),
        outputs: Vec::new(),
        html: page.and_then(|page| page.html.clone()),
        view: page::page,
        force: page.is_some_and(|page| page.force),
    };
    let done = work(&mut at_work);
    let Work { mut answer, inputs, mut outputs, html, view, force, .. } = at_work;
    if let Err(failure) = done {
        answer = answer.failed(failure);
    }
    if let Some(path) = html {
        outputs.push(Output::new(&path, view(&answer)));
    }
    match output::write(&outputs, &inputs, force) {
        Ok(written) => answer.written.extend(written),
        Err(failure) => answer = Answer::new(command).failed(failure),
    }
    let standard = outputs.iter().find(|output| output::is_standard(&output.path)).map(|output| output.bytes.clone());
    Done { answer, standard, outputs }
}

impl Work<'_> {
    /// Takes a sheet into the answer.
    pub fn take(&mut self, opened: &Opened) {
        self.answer.hints.extend(opened.hints.clone());
        self.answer.sheets.push(opened.about.clone());
        if opened.about.refusal.is_some() {
            self.answer.status = Status::Refused;
        }
    }

    /// Asks whether the page and a sheet may be written, before a search that may take long; where one may not, neither is. Of a sheet that
    /// is there already and may turn out to be the same, that is asked when it is written.
    pub fn outputs_are_allowed(&mut self, sheet: Option<&Path>, may_be_same: bool) -> Result<(), Failure> {
        let allowed = self.ask_outputs(sheet, may_be_same);
        if allowed.is_err() {
            self.html = None;
        }
        allowed
    }

    fn ask_outputs(&self, sheet: Option<&Path>, may_be_same: bool) -> Result<(), Failure> {
        let both = [(sheet, may_be_same), (self.html.as_deref(), false)];
        let both = both.into_iter().filter_map(|(path, may_be_same)| Some((path?, may_be_same)));
        let (standard, files): (Vec<_>, Vec<_>) = both.partition(|(path, _)| output::is_standard(path));
        output::are_distinct(&files.iter().map(|(path, _)| *path).collect::<Vec<_>>())?;
        for (path, may_be_same) in files {
            output::allowed(path, None, &self.inputs, self.force || may_be_same)?;
        }
        if standard.len() + usize::from(self.options.json) > 1 {
            return Err(Failure::usage(
                "standard output takes the answer as JSON, the page or the sheet, not two of them",
            ));
        }
        Ok(())
    }

    /// Says the answer.
    pub fn say(&mut self, says: String, status: Status) {
        (self.answer.says, self.answer.status) = (says, status);
    }

    /// Adds a file that is to be written.
    pub fn put(&mut self, path: &Path, bytes: Vec<u8>) {
        self.outputs.push(Output::new(path, bytes));
    }
}
