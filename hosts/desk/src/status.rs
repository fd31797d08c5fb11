//! How a run ends: its exit status, and what is said where it fails.

use crate::words::{error_words, path_shown};
use serde::Serialize;
use std::io;
use std::path::Path;

/// The exit statuses, as the manual has them.
#[derive(Clone, Copy, Debug, PartialEq, Eq, Serialize)]
#[serde(rename_all = "snake_case")]
pub enum Status {
    Found = 0,
    None = 1,
    Refused = 2,
    Stopped = 3,
    Failed = 4,
    Usage = 64,
}

/// Why a command has no answer.
#[derive(Clone, Debug)]
pub struct Failure {
    pub message: String,
    pub status: Status,
}

impl Failure {
    /// A file that could not be read or written.
    pub fn file(path: &Path, words: &str) -> Failure {
        Failure { message: format!("{}: {words}", path_shown(path)), status: Status::Failed }
    }

    /// A file that the system would not read.
    pub fn reading(path: &Path, error: &io::Error) -> Failure {
        Failure::file(path, &format!("reading failed: {}", error_words(error)))
    }

    /// A file that the system would not write.
    pub fn writing(path: &Path, error: &io::Error) -> Failure {
        let words = match error.kind() {
            io::ErrorKind::NotFound => "there is no such folder".into(),
            _ => error_words(error),
        };
        Failure::file(path, &format!("writing failed: {words}"))
    }

    /// Arguments that do not say what to do.
    pub fn usage(message: impl Into<String>) -> Failure {
        Failure { message: message.into(), status: Status::Usage }
    }
}
