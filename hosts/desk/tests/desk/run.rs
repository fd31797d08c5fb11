//! Running the program, and folders for what it reads and writes.

use std::fs;
use std::path::{Path, PathBuf};
use std::process::{Command, Stdio};

/// What came of a run.
#[derive(Debug, PartialEq, Eq)]
pub struct Outcome {
    pub output: String,
    pub errors: String,
    pub status: i32,
}

/// The root of the repository.
pub fn root() -> PathBuf {
    Path::new(env!("CARGO_MANIFEST_DIR")).join("../..")
}

/// The program, to be run in a folder.
pub fn program(folder: &Path, arguments: &[&str]) -> Command {
    let mut command = Command::new(env!("CARGO_BIN_EXE_tickdrizzle"));
    command.current_dir(folder).args(arguments).stdin(Stdio::null());
    command
}

/// Runs the program in a folder.
pub fn run_in(folder: &Path, arguments: &[&str]) -> Outcome {
    let done = program(folder, arguments).output().expect("the program runs");
    let text = |bytes| String::from_utf8(bytes).expect("the program writes text");
    Outcome {
        output: text(done.stdout),
        errors: text(done.stderr),
        status: done.status.code().expect("it ends by itself"),
    }
}

/// Runs the program in the root of the repository.
pub fn run(arguments: &[&str]) -> Outcome {
    run_in(&root(), arguments)
}

/// An answer: nothing is said on standard error.
pub fn answer(output: &str, status: i32) -> Outcome {
    Outcome { output: output.into(), errors: String::new(), status }
}

/// A failure: nothing is said on standard output.
pub fn failure(errors: &str, status: i32) -> Outcome {
    Outcome { output: String::new(), errors: errors.into(), status }
}

/// An empty folder of this name.
pub fn folder(name: &str) -> PathBuf {
    let folder = Path::new(env!("CARGO_TARGET_TMPDIR")).join(name);
    let _ = fs::remove_dir_all(&folder);
    fs::create_dir_all(&folder).expect("folders can be made");
    folder
}

/// Writes a file.
pub fn put(folder: &Path, name: &str, bytes: impl AsRef<[u8]>) {
    fs::write(folder.join(name), bytes).expect("files can be written");
}

/// The names of what is in a folder.
pub fn names(folder: &Path) -> Vec<String> {
    let entries = fs::read_dir(folder).expect("the folder is there");
    let mut names: Vec<_> = entries
        .map(|entry| entry.expect("it can be read").file_name().into_string().expect("names are text"))
        .collect();
    names.sort();
    names
}

/// The sheet of a table with so many rows and columns and one number in each cell.
pub fn constant(order: usize, cell: usize) -> String {
    let row = vec![cell.to_string(); order].join(",") + "\r\n";
    row.repeat(order)
}

/// The sheet of a table that holds a graph: the product of two points is the last element but one where an edge joins them, and
/// else the last. The edges look random, so that searches between such tables take long.
pub fn graph(points: usize, seed: u64) -> String {
    let order = points + 2;
    let is_edge =
        |i: usize, j: usize| i != j && i.max(j) < points && coin(seed << 20 | (i.min(j) << 10 | i.max(j)) as u64);
    let cell = |i: usize, j: usize| (order - usize::from(is_edge(i, j))).to_string();
    let row = |i: usize| (0..order).map(|j| cell(i, j)).collect::<Vec<_>>().join(",") + "\r\n";
    (0..order).map(row).collect()
}

/// Heads or tails, always the same for the same number.
fn coin(number: u64) -> bool {
    let mixed = number.wrapping_mul(0x9E37_79B9_7F4A_7C15);
    (mixed ^ mixed >> 30).wrapping_mul(0xBF58_476D_1CE4_E5B9) >> 63 == 1
}
