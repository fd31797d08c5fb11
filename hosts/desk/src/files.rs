//! The files that this process sees: the computer's, or, once `see_only` was called, those that were sent to it and no others.

use std::collections::BTreeMap;
use std::fs::{self, File};
use std::io::{self, ErrorKind, Read};
use std::path::{Path, PathBuf};
use std::sync::OnceLock;

static SENT: OnceLock<BTreeMap<PathBuf, Vec<u8>>> = OnceLock::new();

/// From now on this process sees these files, and none of the computer's.
pub fn see_only(sent: BTreeMap<PathBuf, Vec<u8>>) {
    SENT.set(sent).expect("files are sent once");
}

/// Whether the files were sent to this process.
pub fn are_sent() -> bool {
    SENT.get().is_some()
}

pub fn is_file(path: &Path) -> bool {
    SENT.get().map_or_else(|| path.is_file(), |sent| sent.contains_key(path))
}

/// Whether a path is that of a folder. What was sent has none.
pub fn is_folder(path: &Path) -> bool {
    SENT.get().is_none() && path.is_dir()
}

/// Whether a path is that of a folder, or why it is that of nothing.
pub fn find(path: &Path) -> io::Result<bool> {
    match SENT.get() {
        None => path.metadata().map(|data| data.is_dir()),
        Some(sent) if sent.contains_key(path) => Ok(false),
        Some(_) => Err(ErrorKind::NotFound.into()),
    }
}

pub fn exists(path: &Path) -> bool {
    SENT.get().map_or_else(|| path.exists(), |sent| sent.contains_key(path))
}

/// Whether a file can be opened, or a folder in its place.
pub fn opens(path: &Path) -> bool {
    SENT.get().map_or_else(|| File::open(path).is_ok(), |sent| sent.contains_key(path))
}

/// The file that a path leads to.
pub fn resolved(path: &Path) -> Option<PathBuf> {
    match SENT.get() {
        None => path.canonicalize().ok(),
        Some(sent) => sent.contains_key(path).then(|| path.to_owned()),
    }
}

/// The files of a folder.
pub fn of_folder(folder: &Path) -> Vec<PathBuf> {
    if are_sent() {
        return Vec::new();
    }
    let entries = fs::read_dir(folder).into_iter().flatten().flatten();
    entries.map(|entry| entry.path()).filter(|path| path.is_file()).collect()
}

/// The first bytes of a file, at most so many.
pub fn read(path: &Path, most: u64) -> io::Result<Vec<u8>> {
    match SENT.get() {
        None => read_front(File::open(path)?, most),
        Some(sent) => read_front(&sent.get(path).ok_or(ErrorKind::NotFound)?[..], most),
    }
}

/// The first bytes of standard input, at most so many. Where files were sent, it has brought them and holds no sheet.
pub fn read_standard(most: u64) -> io::Result<Vec<u8>> {
    if are_sent() {
        return Err(ErrorKind::NotFound.into());
    }
    read_front(io::stdin().lock(), most)
}

fn read_front(input: impl Read, most: u64) -> io::Result<Vec<u8>> {
    let mut bytes = Vec::new();
    input.take(most).read_to_end(&mut bytes)?;
    Ok(bytes)
}
