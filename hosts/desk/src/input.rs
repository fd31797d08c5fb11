//! The files that a command reads: paths, standard input, sheets of workbooks, folders. They are opened for reading only.

use crate::files;
use crate::names::{is_name_sheet, name_sheets};
use crate::reader::table;
use crate::status::{Failure, Status};
use crate::words::{path_shown, visible};
use std::ffi::OsStr;
use std::os::unix::ffi::OsStrExt;
use std::path::{Path, PathBuf};

/// A longer file is not read: a table has less than 60,000 bytes as text, and a workbook of one some hundred thousand.
const MOST_BYTES: u64 = 1 << 24;

/// The endings of files that may hold a table.
pub const ENDINGS: [&str; 6] = ["csv", "ods", "xlsx", "tsv", "tab", "txt"];

/// A file to be read, or standard input; of a workbook perhaps a sheet.
#[derive(Clone, Debug, PartialEq, Eq)]
pub struct Source {
    /// As it was given.
    pub given: PathBuf,
    /// The file; nothing for standard input.
    pub file: Option<PathBuf>,
    pub sheet: Option<String>,
}

impl Source {
    /// What an argument names: `-`, a file, or a sheet of one as `FILE#Sheet`.
    pub fn new(given: &Path) -> Source {
        let source =
            |file: Option<&Path>, sheet| Source { given: given.to_owned(), file: file.map(Path::to_owned), sheet };
        let bytes = given.as_os_str().as_bytes();
        // The name of a file and that of a sheet may have the sign too.
        let signs = (0..bytes.len()).rev().filter(|&place| bytes[place] == b'#');
        let mut parts = signs.map(|place| (Path::new(OsStr::from_bytes(&bytes[..place])), &bytes[place + 1..]));
        match parts.find(|(file, _)| !files::exists(given) && files::is_file(file)) {
            _ if bytes == b"-" => source(None, None),
            Some((file, sheet)) => source(Some(file), Some(String::from_utf8_lossy(sheet).into_owned())),
            None => source(Some(given), None),
        }
    }

    pub fn bytes(&self) -> Result<Vec<u8>, Failure> {
        let read = match &self.file {
            Some(file) => files::read(file, MOST_BYTES + 1),
            None => files::read_standard(MOST_BYTES + 1),
        };
        let bytes = read.map_err(|error| Failure::reading(&self.given, &error))?;
        if bytes.len() as u64 > MOST_BYTES {
            return Err(Failure::file(&self.given, "reading failed: the file is too long for a sheet"));
        }
        Ok(bytes)
    }

    /// The bytes as the proved programs see them: a file that cannot be read counts as empty.
    pub fn bytes_or_none(&self) -> Vec<u8> {
        self.bytes().unwrap_or_default()
    }
}

/// The files that paths name and that a command may read, with their name sheets. Of a folder these are its show and its rig, or all
/// sheets.
pub fn inputs(paths: &[PathBuf], all: bool) -> Vec<PathBuf> {
    let mut found = Vec::new();
    for path in paths {
        if !files::is_folder(path) {
            found.extend(Source::new(path).file);
        } else if all {
            found.extend(sheets(path));
        } else {
            found.extend(["source", "target"].iter().flat_map(|stem| with_endings(&path.join(stem))));
        }
    }
    let names: Vec<_> = found.iter().flat_map(|file| name_sheets(file)).collect();
    [found, names].concat()
}

/// The files of a folder that may hold a table, in the order of their names.
pub fn sheets(folder: &Path) -> Vec<PathBuf> {
    let has_ending = |path: &PathBuf| {
        let ending = path.extension().unwrap_or_default().to_string_lossy().to_lowercase();
        ENDINGS.contains(&&*ending) && !is_name_sheet(path)
    };
    let mut sheets: Vec<_> = files::of_folder(folder).into_iter().filter(has_ending).collect();
    sheets.sort();
    sheets
}

/// Whether two sources are one sheet of one file.
pub fn is_same(one: &Source, other: &Source) -> bool {
    let file = |source: &Source| source.file.as_ref().and_then(|file| files::resolved(file));
    one.sheet == other.sheet && file(one).is_some() && file(one) == file(other)
}

/// The show's sheet and the rig's, from a folder or two paths.
pub fn pair(paths: &[PathBuf]) -> Result<[Source; 2], Failure> {
    match paths {
        [folder] => {
            let folder = folder_of(folder)?;
            Ok([in_folder(folder, "source", "show")?, in_folder(folder, "target", "rig")?])
        }
        [source, target] => {
            let both = [Source::new(source), Source::new(target)];
            one_standard(&both)?;
            Ok(both)
        }
        _ => Err(Failure::usage("give a folder or two sheets")),
    }
}

/// The sheets that the proved program reads of a folder, or two paths.
pub fn strict_pair(paths: &[PathBuf]) -> Result<[Source; 2], Failure> {
    match paths {
        [folder] => {
            let folder = folder_of(folder)?;
            Ok(["source.csv", "target.csv"].map(|name| Source::new(&folder.join(name))))
        }
        _ => pair(paths),
    }
}

/// The path, where it is a folder.
fn folder_of(path: &Path) -> Result<&Path, Failure> {
    match files::find(path) {
        Err(error) => Err(Failure::reading(path, &error)),
        Ok(true) => Ok(path),
        Ok(false) => {
            Err(Failure::usage(format!("{}: this is one sheet; give its folder, or both sheets", path_shown(path))))
        }
    }
}

/// The sheet that a path names: itself, or a folder's show.
pub fn single(path: &Path) -> Result<Source, Failure> {
    if files::is_folder(path) {
        in_folder(path, "source", "show")
    } else {
        Ok(Source::new(path))
    }
}

/// The sheets that paths name: a folder stands for its show and its rig.
pub fn each(paths: &[PathBuf]) -> Result<Vec<Source>, Failure> {
    let mut sources = Vec::new();
    for path in paths {
        if files::is_folder(path) {
            sources.push(in_folder(path, "source", "show")?);
            sources.push(in_folder(path, "target", "rig")?);
        } else {
            sources.push(Source::new(path));
        }
    }
    one_standard(&sources)?;
    Ok(sources)
}

/// The files that paths name.
pub fn each_file(paths: &[PathBuf]) -> Result<Vec<Source>, Failure> {
    let sources: Vec<_> = paths.iter().map(|path| Source::new(path)).collect();
    one_standard(&sources)?;
    Ok(sources)
}

/// Standard input can be read once.
pub fn one_standard<'a>(sources: impl IntoIterator<Item = &'a Source>) -> Result<(), Failure> {
    if sources.into_iter().filter(|source| source.file.is_none()).count() > 1 {
        return Err(Failure::usage("standard input (-) is one sheet; give the others as files"));
    }
    Ok(())
}

/// The sheet of a folder with this name and any ending. Where there are several they must hold the same table.
fn in_folder(folder: &Path, stem: &str, what: &str) -> Result<Source, Failure> {
    let found = with_endings(&folder.join(stem));
    match &found[..] {
        [] => Err(Failure::file(folder, &missing(folder, stem, what))),
        [one] => Ok(Source::new(one)),
        [first, others @ ..] => {
            let text =
                |path: &Path| table::read(&Source::new(path).bytes().ok()?, None).ok().map(|reading| reading.text);
            let same = text(first).filter(|one| others.iter().all(|other| text(other).as_ref() == Some(one)));
            match same {
                Some(_) => Ok(Source::new(first)),
                None => Err(Failure {
                    message: format!(
                        "{}: the {what} is there more than once, and not with the same table: {}; take away what is old, or give both sheets",
                        path_shown(folder),
                        found.iter().map(|path| name_of(path)).collect::<Vec<_>>().join(", ")
                    ),
                    status: Status::Refused,
                }),
            }
        }
    }
}

/// The files of a name with each of the endings that are there.
pub fn with_endings(stem: &Path) -> Vec<PathBuf> {
    ENDINGS.iter().map(|ending| with_ending(stem, ending)).filter(|path| files::is_file(path)).collect()
}

/// The path with an ending more, whatever bytes it has.
pub fn with_ending(path: &Path, ending: &str) -> PathBuf {
    let mut longer = path.as_os_str().to_owned();
    longer.push(".");
    longer.push(ending);
    longer.into()
}

/// What a folder has instead of a sheet, and what may be meant.
fn missing(folder: &Path, stem: &str, what: &str) -> String {
    let names = names_in(folder);
    let there =
        if names.is_empty() { "The folder has no file.".into() } else { format!("There are: {}.", names.join(", ")) };
    let near: Vec<_> = names.iter().filter(|name| is_near(name, stem)).map(|name| format!("\"{name}\"")).collect();
    let hint = match near.len() {
        0 => "Give both sheets, or rename them.".into(),
        _ => format!("Perhaps {} is meant: rename it, or give both sheets.", near.join(" or ")),
    };
    format!("there is no {what}: {stem}.csv, .ods, .xlsx, .tsv, .tab or .txt. {there} {hint}")
}

/// The names of a folder's files, at most twenty, in order.
fn names_in(folder: &Path) -> Vec<String> {
    const MOST: usize = 20;
    let mut names: Vec<_> = files::of_folder(folder).iter().map(|path| name_of(path)).collect();
    names.sort();
    if names.len() > MOST {
        let more = names.len() - MOST;
        names.truncate(MOST);
        names.push(format!("and {more} more"));
    }
    names
}

pub fn name_of(path: &Path) -> String {
    visible(&path.file_name().unwrap_or_default().to_string_lossy())
}

/// Whether a file's name is like a sheet's: `Source.CSV`, `source.csv.csv`, `sorce.ods`.
fn is_near(name: &str, stem: &str) -> bool {
    let lower = name.to_lowercase();
    let front = lower.split('.').next().unwrap_or_default();
    !lower.contains(".names.") && !lower.contains(".mended.") && (lower.starts_with(stem) || distance(front, stem) <= 2)
}

/// How many letters must be put in, taken away or changed.
fn distance(one: &str, other: &str) -> usize {
    let other: Vec<char> = other.chars().collect();
    let mut row: Vec<usize> = (0..=other.len()).collect();
    for (place, letter) in one.chars().enumerate() {
        let mut before = row[0];
        row[0] = place + 1;
        for column in 0..other.len() {
            let changed = before + usize::from(other[column] != letter);
            before = row[column + 1];
            row[column + 1] = changed.min(before + 1).min(row[column] + 1);
        }
    }
    row[other.len()]
}

#[cfg(test)]
mod tests {
    use super::*;

    #[test]
    fn near_names() {
        for name in ["Source.CSV", "source.csv.csv", "sorce.ods", "sources.csv", "SOURCE"] {
            assert!(is_near(name, "source"), "{name}");
        }
        for name in ["target.csv", "source.names.csv", "source.mended.csv", "show.csv"] {
            assert!(!is_near(name, "source"), "{name}");
        }
    }
}
