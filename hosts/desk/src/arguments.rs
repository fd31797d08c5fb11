//! The command line.

use crate::patience::duration;
use clap::{Args, Parser, Subcommand, ValueEnum};
use clap_complete::Shell;
use std::num::ParseIntError;
use std::path::PathBuf;
use std::time::Duration;

const STATUSES: &str = "\
Exit status:
  0   found, or done
  1   none
  2   refused: a sheet cannot be used
  3   stopped: --limit or --timeout was reached
  4   reading or writing failed
  64  the arguments are not understood";

/// Moves a show's cues to another rig, and answers questions about linking tables
///
/// A sheet has a row and a column for each cue, numbered from 1: the cell in row 3, column 5 is the cue that does what cue 3 and then
/// cue 5 do. It is a file as a spreadsheet saves it: .ods, .xlsx (the first sheet, or FILE#Sheet), CSV or other text; - is standard
/// input. Where show.names.csv (or .ods and so on) stands beside show.csv, with the number and the name of each cue, cues are shown by
/// name. No sheet that is read is ever changed.
#[derive(Debug, Parser)]
#[command(name = "tickdrizzle", version, after_help = STATUSES)]
pub struct Arguments {
    #[command(subcommand)]
    pub command: Command,
    #[command(flatten)]
    pub options: Options,
}

/// What every command takes.
#[derive(Clone, Debug, Args)]
pub struct Options {
    /// Prints the answer as JSON, whose shape docs/JSON.md tells
    #[arg(long, global = true)]
    pub json: bool,
    /// Says the answer alone: nothing of what was mended, no hints, no progress
    #[arg(long, short, global = true)]
    pub quiet: bool,
    /// Takes only what the library takes: commas, CR LF and plain digits
    #[arg(long, global = true)]
    pub strict: bool,
    /// When to use colours; auto is on a terminal, where NO_COLOR is not set
    #[arg(long, global = true, value_name = "WHEN", default_value = "auto")]
    pub color: Color,
}

#[derive(Clone, Copy, Debug, PartialEq, Eq, ValueEnum)]
pub enum Color {
    Auto,
    Always,
    Never,
}

/// Where a page goes.
#[derive(Debug, Args)]
pub struct Page {
    /// Writes a page to look at and to print; - is standard output. It is written whatever the answer is
    #[arg(long, value_name = "FILE")]
    pub html: Option<PathBuf>,
    /// Overwrites a file that is already there and is none of the sheets that are read
    #[arg(long)]
    pub force: bool,
}

#[derive(Debug, Subcommand)]
pub enum Command {
    /// Opens all of this as a page in this computer's browser
    #[command(after_help = OPEN_EXAMPLE)]
    Open(OpenArguments),
    /// Finds which cue of the rig each cue of the show becomes
    #[command(after_help = MOVE_EXAMPLE)]
    Move(MoveArguments),
    /// Tells why a show does not fit: the smallest part that has no place, and the largest that can be moved
    #[command(after_help = WHY_EXAMPLE)]
    Why(WhyArguments),
    /// Says of each sheet whether it is a linking table, or what is wrong with it and where
    #[command(after_help = CHECK_EXAMPLE)]
    Check(CheckArguments),
    /// Says which sheets hold the same table but for the numbering
    #[command(after_help = CLASSES_EXAMPLE)]
    Classes(ClassesArguments),
    /// Cuts out the smallest part of a table that holds the chosen cues and all that they link to
    #[command(after_help = CUT_EXAMPLE)]
    Cut(CutArguments),
    /// Counts the different places of the rig that the show fits in
    #[command(after_help = COPIES_EXAMPLE)]
    Copies(CopiesArguments),
    /// Tells how few rest positions can carry a table, and where each cue then lands
    #[command(after_help = POSITIONS_EXAMPLE)]
    Positions(PositionsArguments),
    /// Tells which of many rigs take a show
    #[command(after_help = RIGS_EXAMPLE)]
    Rigs(RigsArguments),
    /// Tells which cue a repeated cue settles on, after how many times, and in what rhythm
    #[command(after_help = SETTLES_EXAMPLE)]
    Settles(SettlesArguments),
    /// Finds a short list of building cues, from which all others are linked
    #[command(after_help = CUES_EXAMPLE)]
    Cues(CuesArguments),
    /// Writes a sheet as clean CSV beside the original, for other programs
    #[command(after_help = MEND_EXAMPLE)]
    Mend(MendArguments),
    /// Answers one question of the page: docs/JSON.md tells how it is asked on standard input
    #[command(hide = true)]
    Ask,
    /// Searches rigs for a show, for `rigs`
    #[command(hide = true)]
    SearchRigs,
    /// Prints what completes the arguments in bash, zsh or fish
    #[command(after_help = COMPLETIONS_EXAMPLE)]
    Completions(CompletionsArguments),
}

const MOVE_EXAMPLE: &str = "\
Example: the show in examples/found/source.csv, the rig in examples/found/target.csv
  $ tickdrizzle move examples/found
  The show fits: its 2 cues go to 2 of the rig's 4.
    1  ->  2
    2  ->  3";

#[derive(Debug, Args)]
pub struct MoveArguments {
    #[command(flatten)]
    pub tables: Tables,
    /// Prints what the program recue prints, to the byte; takes only what recue takes
    #[arg(long, conflicts_with_all = ["html", "json"])]
    pub csv: bool,
    /// Searches as the paper does, which is slower, and gives up after so many trials; says how many it took
    #[arg(long, value_name = "TRIALS", conflicts_with = "timeout")]
    pub limit: Option<u32>,
    /// Gives up after this time, such as 10s, 2m or 500ms
    #[arg(long, value_name = "TIME", value_parser = duration)]
    pub timeout: Option<Duration>,
    /// Reads the rig's table column first, as some firms give it
    #[arg(long, conflicts_with = "csv")]
    pub mirror: bool,
    /// Gives a cue of the show this partner, each by number or name; may be given again
    #[arg(long, value_name = "CUE=PARTNER", value_parser = pair, conflicts_with_all = ["csv", "limit"])]
    pub pin: Vec<String>,
    /// Keeps a cue of the show from this partner, each by number or name; may be given again
    #[arg(long, value_name = "CUE=PARTNER", value_parser = pair, conflicts_with_all = ["csv", "limit"])]
    pub not: Vec<String>,
    /// Pins cues whose names are equal on both sheets, one after another as long as the show fits
    #[arg(long, conflicts_with_all = ["csv", "limit"])]
    pub prefer_names: bool,
    /// Finds the way after the earliest, or the one that so many come before
    #[arg(long, value_name = "NUMBER", num_args = 0..=1, require_equals = true, default_missing_value = "1", conflicts_with_all = ["csv", "limit"])]
    pub next: Option<u32>,
    /// Finds all ways, at most so many; 20 where no number is given
    #[arg(
        long,
        value_name = "NUMBER",
        num_args = 0..=1,
        require_equals = true,
        default_missing_value = "20",
        conflicts_with_all = ["csv", "limit", "next", "html", "output"]
    )]
    pub all: Option<u32>,
    /// Counts the ways
    #[arg(long, conflicts_with_all = ["csv", "limit", "next", "all", "html", "output"])]
    pub count: bool,
    /// Writes the partners as a sheet, in CSV: number, name, the partner's number and name
    #[arg(long, short, value_name = "FILE", conflicts_with = "csv")]
    pub output: Option<PathBuf>,
    /// Makes the page of --html a list of partners to print, with boxes to tick
    #[arg(long, requires = "html")]
    pub partners: bool,
    #[command(flatten)]
    pub page: Page,
}

/// The show's table and the rig's.
#[derive(Debug, Args)]
pub struct Tables {
    /// A folder with the show as source and the rig as target (.csv, .ods, .xlsx, .tsv, .tab or .txt), or these two sheets
    #[arg(value_name = "FOLDER or SHOW RIG", required = true, num_args = 1..=2)]
    pub paths: Vec<PathBuf>,
}

const WHY_EXAMPLE: &str = "\
Example:
  $ tickdrizzle why examples/none
  The show does not fit: there is no way to give its 2 cues partners among the rig's 4.
  Each smaller part that one, two or three cues make has a place (2 parts); the whole show has none.
  Without cue 1, 1 of 2 cues can be moved.
  More cannot, where one, two or three of its building cues (1, 2) are left out.
  What is said of parts is certain; what to leave out is a suggestion.
  The partners of what can be moved:
    2  ->  1";

#[derive(Debug, Args)]
pub struct WhyArguments {
    #[command(flatten)]
    pub tables: Tables,
    /// How long each search may take, such as 1m; 10s where no time is given
    #[arg(long, value_name = "TIME", value_parser = duration)]
    pub timeout: Option<Duration>,
}

const CHECK_EXAMPLE: &str = "\
Example:
  $ tickdrizzle check examples/found/source.csv
  examples/found/source.csv: a linking table of 2 cues.";

#[derive(Debug, Args)]
pub struct CheckArguments {
    /// Sheets, or a folder with the show as source and the rig as target
    #[arg(value_name = "SHEET or FOLDER", required = true)]
    pub paths: Vec<PathBuf>,
    /// The cues that the sheet is built from, with commas between: fewer links are looked at then, and the answer is the same
    #[arg(long, value_name = "NUMBERS", value_delimiter = ',', value_parser = cue)]
    pub cues: Vec<usize>,
}

const CLASSES_EXAMPLE: &str = "\
Example: the first and the last sheet differ in the numbering alone
  $ tickdrizzle classes examples/classes/01.csv examples/classes/02.csv examples/classes/03.csv
  2 classes in 3 sheets.
  Class 1, of 4 cues:
    examples/classes/01.csv
    examples/classes/03.csv
  Class 2, of 4 cues:
    examples/classes/02.csv";

#[derive(Debug, Args)]
pub struct ClassesArguments {
    /// A folder, whose sheets are taken in the order of their names, or sheets in any order
    #[arg(value_name = "FOLDER or SHEETS", required = true)]
    pub paths: Vec<PathBuf>,
    /// Counts a table and its mirrored one, read column first, as the same
    #[arg(long, conflicts_with = "csv")]
    pub mirror: bool,
    /// Prints what the program classes prints, to the byte; takes only what that takes: 01.csv, 02.csv and so on, up to 50.csv
    #[arg(long, conflicts_with_all = ["html", "json"])]
    pub csv: bool,
    #[command(flatten)]
    pub page: Page,
}

const CUT_EXAMPLE: &str = "\
Example: the part of the rig that its cue 3 makes, written to act.csv
  $ tickdrizzle cut examples/found/target.csv --cues 3 --output act.csv
  The part has 2 of the 4 cues:
    1  is  2
    2  is  3
  Written: act.csv";

#[derive(Debug, Args)]
pub struct CutArguments {
    /// A sheet, or a folder whose show is meant
    #[arg(value_name = "SHEET or FOLDER")]
    pub path: PathBuf,
    /// The chosen cues, with commas between
    #[arg(long, value_name = "NUMBERS", value_delimiter = ',', value_parser = cue, required = true)]
    pub cues: Vec<usize>,
    /// Writes the part as a sheet of its own, in CSV, and its names beside it
    #[arg(long, short, value_name = "FILE")]
    pub output: Option<PathBuf>,
    #[command(flatten)]
    pub page: Page,
}

/// Two cues with = between, whose numbers or names the sheets tell.
fn pair(text: &str) -> Result<String, String> {
    let is_pair = text.contains('=');
    is_pair.then(|| text.into()).ok_or_else(|| "give a cue of the show, = and a cue of the rig, such as 4=34".into())
}

/// The number of a cue, with or without blanks around it.
fn cue(text: &str) -> Result<usize, ParseIntError> {
    text.trim().parse()
}

const COPIES_EXAMPLE: &str = "\
Example:
  $ tickdrizzle copies examples/found
  The show fits in 1 place of the rig: 2 of its 4 cues, whichever show cue goes to which.";

#[derive(Debug, Args)]
pub struct CopiesArguments {
    #[command(flatten)]
    pub tables: Tables,
    /// Gives up after this time, such as 10s, 2m or 500ms
    #[arg(long, value_name = "TIME", value_parser = duration)]
    pub timeout: Option<Duration>,
}

const POSITIONS_EXAMPLE: &str = "\
Example:
  $ tickdrizzle positions examples/found/source.csv
  2 rest positions carry the 2 cues, and fewer do not. Where each lands from positions 1 to 2:
    1  lands at  1 2
    2  lands at  2 1";

#[derive(Debug, Args)]
pub struct PositionsArguments {
    /// A sheet, or a folder whose show is meant
    #[arg(value_name = "SHEET or FOLDER")]
    pub path: PathBuf,
}

const RIGS_EXAMPLE: &str = "\
Example:
  $ tickdrizzle rigs examples/found/source.csv examples/found/target.csv examples/none/source.csv
  1 of 2 rigs takes the show of 2 cues.
    examples/found/target.csv  fits in 1 place (4 cues, 0 ms)
    examples/none/source.csv   does not fit, nor read column first (2 cues, 0 ms)";

#[derive(Debug, Args)]
pub struct RigsArguments {
    /// The show's sheet, or a folder whose show is meant
    #[arg(value_name = "SHOW")]
    pub show: PathBuf,
    /// The rigs' sheets, or folders, whose sheets are taken in the order of their names
    #[arg(value_name = "RIG", required = true)]
    pub rigs: Vec<PathBuf>,
    /// How long the searches on one rig may take, such as 1m; 10s where no time is given
    #[arg(long, value_name = "TIME", value_parser = duration)]
    pub timeout: Option<Duration>,
    /// Prints a record for each rig, as CSV
    #[arg(long, conflicts_with_all = ["html", "json"])]
    pub csv: bool,
    #[command(flatten)]
    pub page: Page,
}

const SETTLES_EXAMPLE: &str = "\
Example:
  $ tickdrizzle settles examples/found/source.csv
  What each of the 2 cues settles on when it is repeated:
    1  is settled: repeating it changes nothing
    2  settles on 1 after 2 times and again every 2 times; this rhythm begins with time 1";

#[derive(Debug, Args)]
pub struct SettlesArguments {
    /// A sheet, or a folder whose show is meant
    #[arg(value_name = "SHEET or FOLDER")]
    pub path: PathBuf,
    /// The cues, by number or by name; all where none is given
    #[arg(value_name = "CUE")]
    pub cues: Vec<String>,
}

const CUES_EXAMPLE: &str = "\
Example:
  $ tickdrizzle cues examples/found/target.csv
  2 cues build all 4; none of them can be left out, but a shorter list of others may do:
    1
    3
  For the shorter check: --cues 1,3";

#[derive(Debug, Args)]
pub struct CuesArguments {
    /// A sheet, or a folder whose show is meant
    #[arg(value_name = "SHEET or FOLDER")]
    pub path: PathBuf,
}

const MEND_EXAMPLE: &str = "\
Example: a sheet that a spreadsheet saved with semicolons
  $ tickdrizzle mend show.csv
  show.csv: 31 rows of 31 cells.
    rows end in LF
    semicolons between the cells
  Written: show.mended.csv";

#[derive(Debug, Args)]
pub struct MendArguments {
    /// Sheets, or a folder with the show as source, the rig as target and their name sheets
    #[arg(value_name = "SHEET or FOLDER", required = true)]
    pub paths: Vec<PathBuf>,
    /// Says what would change and writes nothing
    #[arg(long)]
    pub dry_run: bool,
    /// Overwrites a mended sheet that is already there
    #[arg(long, visible_alias = "replace")]
    pub force: bool,
}

const OPEN_EXAMPLE: &str = "\
Example: the address has a new port and a new token each time
  $ tickdrizzle open
  The page is at http://127.0.0.1:40417/3f6c0d4a9be1f2877d0e5b1c64a8f935/
  It ends a minute after its page is closed, or by Ctrl-C.";

#[derive(Debug, Args)]
pub struct OpenArguments {
    /// Prints the address and opens no browser
    #[arg(long)]
    pub no_browser: bool,
    /// The port to listen on, on 127.0.0.1; a free one where none is given
    #[arg(long, value_name = "NUMBER", default_value = "0", hide_default_value = true)]
    pub port: u16,
}

const COMPLETIONS_EXAMPLE: &str = "\
Example: for bash, from the next login on
  $ tickdrizzle completions bash > ~/.local/share/bash-completion/completions/tickdrizzle";

#[derive(Debug, Args)]
pub struct CompletionsArguments {
    /// The shell
    pub shell: Shell,
}
