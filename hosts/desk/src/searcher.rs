//! A process that searches one rig after another for a show. A call of the library cannot be stopped, but a process can, so a search that takes too
//! long takes nothing from those after it.
//!
//! To it go tables, each as its order and its cells, one byte for each: the show, then rigs. Back come lines, and an empty one where a rig is done.

use crate::building;
use crate::commands::moving::Search;
use crate::patience::told_within;
use crate::signals::{open_no_files, wait_for};
use std::io::{self, ErrorKind, Read, Write};
use std::os::fd::AsFd;
use std::process::{Child, ChildStdin, ChildStdout, Command, Stdio};
use std::time::{Duration, Instant};
use tickdrizzle::{Copies, Table};

/// This program, also where its file has been replaced meanwhile.
pub const PROGRAM: &str = "/proc/self/exe";

/// What is told of a rig, one after another.
#[derive(Clone, Copy, Debug, PartialEq, Eq)]
pub enum Told {
    Fits(bool),
    Copies(usize),
    MoreCopies,
    Mirrored(bool),
}

impl Told {
    fn line(self) -> String {
        match self {
            Told::Fits(fits) => format!("fits {fits}\n"),
            Told::Copies(number) => format!("copies {number}\n"),
            Told::MoreCopies => "more\n".into(),
            Told::Mirrored(fits) => format!("mirrored {fits}\n"),
        }
    }

    fn of(line: &str) -> Option<Told> {
        Some(match line.split_once(' ').unwrap_or((line, "")) {
            ("fits", fits) => Told::Fits(fits.parse().ok()?),
            ("copies", number) => Told::Copies(number.parse().ok()?),
            ("more", "") => Told::MoreCopies,
            ("mirrored", fits) => Told::Mirrored(fits.parse().ok()?),
            _ => return None,
        })
    }
}

/// Tells whether the show fits, then how often, or whether it fits mirrored.
fn search(show: &Table, rig: &Table, tell: &dyn Fn(Told) -> bool) {
    let fits = Search::plain(show, rig).finds();
    tell(Told::Fits(fits));
    tell(match fits.then(|| show.copies(rig)) {
        Some(Copies::Number(number)) => Told::Copies(number),
        Some(Copies::More) => Told::MoreCopies,
        None => Told::Mirrored(Search::mirrored(show, rig).finds()),
    });
}

/// Searches for a show, in a process of its own that is started when it is needed.
pub struct Searcher<'a> {
    show: &'a Table,
    process: Option<Process>,
}

struct Process {
    child: Child,
    input: ChildStdin,
    output: ChildStdout,
    /// What was read and is no whole line yet.
    read: String,
}

impl Drop for Process {
    fn drop(&mut self) {
        let _ = self.child.kill();
        let _ = self.child.wait();
    }
}

impl<'a> Searcher<'a> {
    pub fn new(show: &'a Table) -> Searcher<'a> {
        Searcher { show, process: None }
    }

    /// What is told of a rig within this time. Where no process can be started, as in one that answers for a page, or it was ended from outside, a thread
    /// searches.
    pub fn search(&mut self, rig: &Table, limit: Duration) -> Vec<Told> {
        let mut process = self.process.take().or_else(|| Process::start(self.show).ok());
        let Some(Ok((told, done))) = process.as_mut().map(|process| process.search(rig, limit)) else {
            let lent = (self.show.clone(), rig.clone());
            return told_within(Some(limit), move |tell| search(&lent.0, &lent.1, tell)).0;
        };
        self.process = process.filter(|_| done);
        told
    }
}

impl Process {
    fn start(show: &Table) -> io::Result<Process> {
        let mut command = Command::new(PROGRAM);
        let mut child = command.arg("search-rigs").stdin(Stdio::piped()).stdout(Stdio::piped()).spawn()?;
        let (input, output) = (child.stdin.take(), child.stdout.take());
        let (Some(input), Some(output)) = (input, output) else { return Err(ErrorKind::BrokenPipe.into()) };
        let mut process = Process { child, input, output, read: String::new() };
        process.send(show)?;
        Ok(process)
    }

    fn send(&mut self, table: &Table) -> io::Result<()> {
        let order = u8::try_from(table.order()).expect("orders are at most 120");
        self.input.write_all(&[&[order], table.cells()].concat())
    }

    /// What is told of a rig within this time, and whether it is all.
    fn search(&mut self, rig: &Table, limit: Duration) -> io::Result<(Vec<Told>, bool)> {
        let begun = Instant::now();
        self.send(rig)?;
        let mut told = Vec::new();
        loop {
            while let Some((line, rest)) = self.read.split_once('\n') {
                if line.is_empty() {
                    self.read = rest.into();
                    return Ok((told, true));
                }
                told.push(Told::of(line).ok_or(ErrorKind::InvalidData)?);
                self.read = rest.into();
            }
            let left = limit.saturating_sub(begun.elapsed());
            if wait_for([self.output.as_fd()], left) == [true] {
                self.read_more()?;
            } else if left.is_zero() {
                return Ok((told, false));
            }
        }
    }

    fn read_more(&mut self) -> io::Result<()> {
        let mut buffer = [0; 256];
        let count = self.output.read(&mut buffer)?;
        if count == 0 {
            return Err(ErrorKind::UnexpectedEof.into());
        }
        self.read += &String::from_utf8_lossy(&buffer[..count]);
        Ok(())
    }
}

/// Searches the rigs on standard input, as the process that a searcher starts.
pub fn run() -> io::Result<()> {
    open_no_files();
    let mut input = io::stdin().lock();
    let show = received(&mut input)?.ok_or(ErrorKind::UnexpectedEof)?;
    while let Some(rig) = received(&mut input)? {
        search(&show, &rig, &|told| print(&told.line()).is_ok());
        print("\n")?;
    }
    Ok(())
}

fn print(line: &str) -> io::Result<()> {
    let mut output = io::stdout().lock();
    output.write_all(line.as_bytes())?;
    output.flush()
}

/// The next table, if there is one.
fn received(input: &mut impl Read) -> io::Result<Option<Table>> {
    let mut order = [0];
    if input.read(&mut order)? == 0 {
        return Ok(None);
    }
    let order = usize::from(order[0]);
    let mut cells = vec![0; order * order];
    input.read_exact(&mut cells)?;
    building::table(cells, order).map(Some).map_err(|_| ErrorKind::InvalidData.into())
}
