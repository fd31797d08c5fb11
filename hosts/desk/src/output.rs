//! Writing files: whole or not at all, and never over what a user made. Where the files were sent, none is written: the reply takes them.

use crate::files;
use crate::signals::uninterrupted;
use crate::status::Failure;
use crate::words::path_shown;
use std::fs::{self, File, Metadata, OpenOptions};
use std::io::{self, Write};
use std::os::fd::AsFd;
use std::os::unix::fs::MetadataExt;
use std::path::{Path, PathBuf};

/// What every page has near its front, so that it may be replaced by a later one.
pub const MARK: &str = "<meta name=\"generator\" content=\"tickdrizzle\">";

/// The mark stands within so many bytes.
const MARK_WITHIN: u64 = 1024;

/// A file to be written.
pub struct Output {
    pub path: PathBuf,
    pub bytes: Vec<u8>,
}

impl Output {
    pub fn new(path: &Path, bytes: impl Into<Vec<u8>>) -> Output {
        Output { path: path.to_owned(), bytes: bytes.into() }
    }
}

/// What stands for standard output in place of a path.
pub const STANDARD: &str = "-";

/// Whether a path stands for standard output.
pub fn is_standard(path: &Path) -> bool {
    path == Path::new(STANDARD)
}

/// Asks whether a file may be written: it must be no input, and must not be there, unless it was made by this program, holds these bytes
/// already, or `force` is set.
pub fn allowed(path: &Path, bytes: Option<&[u8]>, inputs: &[PathBuf], force: bool) -> Result<(), Failure> {
    if files::are_sent() {
        return Ok(());
    }
    let Ok(data) = path.metadata() else {
        return match path.symlink_metadata() {
            Ok(_) => Err(refused(path, "it is a link to nowhere")),
            Err(_) if folder_of(path).is_dir() => Ok(()),
            Err(_) => Err(Failure::writing(path, &io::ErrorKind::NotFound.into())),
        };
    };
    if is_input(&data, inputs) {
        return Err(refused(
            path,
            "it is one of the sheets that are read, and these are never changed; choose another name",
        ));
    }
    if data.is_dir() {
        return Err(refused(path, "it is a folder"));
    }
    let may_go = force || !data.is_file() || is_page(path) || bytes.is_some_and(|bytes| holds(path, bytes));
    if may_go {
        Ok(())
    } else {
        Err(refused(path, "it is already there and may be yours; choose another name, or use --force"))
    }
}

fn refused(path: &Path, why: &str) -> Failure {
    Failure::file(path, &format!("not written: {why}"))
}

/// Whether a file is one of the inputs, by whatever path, standard input included.
fn is_input(data: &Metadata, inputs: &[PathBuf]) -> bool {
    let same = |other: &Metadata| (other.dev(), other.ino()) == (data.dev(), data.ino());
    let standard = io::stdin().as_fd().try_clone_to_owned().map(File::from).and_then(|file| file.metadata());
    inputs.iter().filter_map(|input| input.metadata().ok()).any(|input| same(&input))
        || data.is_file() && standard.is_ok_and(|input| same(&input))
}

/// Whether a file is a page of this program.
fn is_page(path: &Path) -> bool {
    let front = files::read(path, MARK_WITHIN).unwrap_or_default();
    front.windows(MARK.len()).any(|part| part == MARK.as_bytes())
}

/// Whether a file holds these bytes.
pub fn holds(path: &Path, bytes: &[u8]) -> bool {
    files::read(path, bytes.len() as u64 + 1).is_ok_and(|there| there == bytes)
}

/// Writes files, where all of them may be written. What goes to standard output is left to the caller.
pub fn write(outputs: &[Output], inputs: &[PathBuf], force: bool) -> Result<Vec<String>, Failure> {
    let written: Vec<_> = outputs.iter().filter(|output| !is_standard(&output.path)).collect();
    are_distinct(&written.iter().map(|output| output.path.as_path()).collect::<Vec<_>>())?;
    for output in &written {
        allowed(&output.path, Some(&output.bytes), inputs, force)?;
    }
    for output in written.iter().filter(|_| !files::are_sent()) {
        let special = output.path.metadata().is_ok_and(|data| !data.is_file());
        let done = if special { write_straight(output) } else { uninterrupted(|| write_whole(output)) };
        done.map_err(|error| Failure::writing(&output.path, &error))?;
    }
    Ok(written.iter().map(|output| path_shown(&output.path)).collect())
}

/// Refuses two outputs that go to one file.
pub fn are_distinct(paths: &[&Path]) -> Result<(), Failure> {
    let files: Vec<_> = paths.iter().map(|path| resolved(path)).collect();
    match (1..files.len()).find(|&place| files[..place].contains(&files[place])) {
        Some(place) => Err(Failure::usage(format!("{}: two outputs cannot go to one file", path_shown(paths[place])))),
        None => Ok(()),
    }
}

/// The file that a path leads to.
fn resolved(path: &Path) -> PathBuf {
    if files::are_sent() {
        return path.to_owned();
    }
    path.canonicalize().unwrap_or_else(|_| match (folder_of(path).canonicalize(), path.file_name()) {
        (Ok(folder), Some(name)) => folder.join(name),
        _ => path.to_owned(),
    })
}

/// The folder that a file is in.
fn folder_of(path: &Path) -> &Path {
    path.parent().filter(|parent| !parent.as_os_str().is_empty()).unwrap_or(Path::new("."))
}

/// Devices and pipes take the bytes as they come.
fn write_straight(output: &Output) -> io::Result<()> {
    OpenOptions::new().write(true).open(&output.path)?.write_all(&output.bytes)
}

/// Writes beside the file, then puts the new one in its place.
fn write_whole(output: &Output) -> io::Result<()> {
    let path = resolved(&output.path);
    let name = path.file_name().ok_or_else(|| io::Error::new(io::ErrorKind::InvalidInput, "this names no file"))?;
    let beside = path.with_file_name(format!(".{}.{}", name.to_string_lossy(), std::process::id()));
    let mut file = OpenOptions::new().write(true).create_new(true).open(&beside)?;
    let done = file.write_all(&output.bytes).and_then(|()| fs::rename(&beside, &path));
    if done.is_err() {
        let _ = fs::remove_file(&beside);
    }
    done
}
