//! Numbers, places, paths and cells in words.

use crate::reader::grid::letters;
use std::fmt::Write;
use std::path::Path;
use std::time::{SystemTime, UNIX_EPOCH};

/// A longer text is shown cut.
const LONGEST_SHOWN: usize = 40;

/// The place of a cell, counted from 1, as operators count and as spreadsheets say it: row 8, column 12 (L8).
pub fn row_and_column(row: usize, column: usize) -> String {
    format!("row {row}, column {column} ({}{row})", letters(column - 1))
}

/// A number of things.
pub fn count(number: usize, thing: &str) -> String {
    format!("{number} {thing}{}", if number == 1 { "" } else { "s" })
}

/// Things one after another, with "and" before the last.
pub fn listed(things: &[String]) -> String {
    match things {
        [] => String::new(),
        [one] => one.clone(),
        [front @ .., last] => format!("{} and {last}", front.join(", ")),
    }
}

/// The day, as year, month and day, by universal time; `SOURCE_DATE_EPOCH` stands for another time, in seconds.
pub fn today() -> String {
    let now = SystemTime::now().duration_since(UNIX_EPOCH).map_or(0, |time| time.as_secs());
    let given = std::env::var("SOURCE_DATE_EPOCH").ok().and_then(|seconds| seconds.parse().ok());
    date(given.unwrap_or(now) / (24 * 60 * 60))
}

/// The date so many days after the first of January 1970.
fn date(mut days: u64) -> String {
    let is_leap = |year: u64| year % 4 == 0 && (year % 100 != 0 || year % 400 == 0);
    let mut year = 1970;
    while days >= 365 + u64::from(is_leap(year)) {
        days -= 365 + u64::from(is_leap(year));
        year += 1;
    }
    let mut month = 0;
    let lengths = [31, 28 + u64::from(is_leap(year)), 31, 30, 31, 30, 31, 31, 30, 31, 30, 31];
    while days >= lengths[month] {
        days -= lengths[month];
        month += 1;
    }
    format!("{year}-{:02}-{:02}", month + 1, days + 1)
}

/// A text between quote marks, cut where it is long, with characters that would not show or would move others written by number.
pub fn shown(text: &str) -> String {
    let length = text.chars().count();
    let front: String = text.chars().take(LONGEST_SHOWN).collect();
    if length > LONGEST_SHOWN {
        format!("\"{}…\" ({length} characters)", visible(&front))
    } else {
        format!("\"{}\"", visible(&front))
    }
}

/// A path as it is told.
pub fn path_shown(path: &Path) -> String {
    visible(&path.display().to_string())
}

/// A text whose control characters and marks of direction are written by number.
pub fn visible(text: &str) -> String {
    let mut seen = String::new();
    for character in text.chars() {
        if is_unseen(character) {
            let _ = write!(seen, "\\u{{{:X}}}", u32::from(character));
        } else {
            seen.push(character);
        }
    }
    seen
}

/// Control characters, marks of direction, characters without width, and breaks of lines and paragraphs.
fn is_unseen(character: char) -> bool {
    character.is_control()
        || matches!(character, '\u{AD}' | '\u{61C}' | '\u{180E}' | '\u{200B}'..='\u{200F}' | '\u{2028}'..='\u{202E}')
        || matches!(character, '\u{2060}'..='\u{206F}' | '\u{FEFF}' | '\u{FFF9}'..='\u{FFFB}' | '\u{E0000}'..='\u{E007F}')
}

/// A path as it is typed at a prompt.
pub fn typed(path: &Path) -> String {
    let text = path.display().to_string();
    if !text.is_empty() && text.chars().all(|character| character.is_alphanumeric() || "._-/".contains(character)) {
        text
    } else {
        format!("'{}'", visible(&text).replace('\'', "'\\''"))
    }
}

/// An error of the system in words, without its number.
pub fn error_words(error: &std::io::Error) -> String {
    match error.kind() {
        std::io::ErrorKind::NotFound => "there is no such file".into(),
        std::io::ErrorKind::PermissionDenied => "permission is denied".into(),
        _ => {
            let text = error.to_string();
            text.split(" (os error").next().unwrap_or_default().to_lowercase()
        }
    }
}

#[cfg(test)]
mod tests {
    use super::*;

    #[test]
    fn days_as_dates() {
        let told = [0, 58, 59, 789, 790, 19_782, 20_773].map(date);
        let dates = ["1970-01-01", "1970-02-28", "1970-03-01", "1972-02-29", "1972-03-01", "2024-02-29", "2026-11-16"];
        assert_eq!(told, dates);
    }

    #[test]
    fn what_does_not_show_is_written_by_number() {
        assert_eq!(shown("a\u{1B}[31m\u{202E}b"), "\"a\\u{1B}[31m\\u{202E}b\"");
        assert_eq!(shown(&"x".repeat(41)), format!("\"{}…\" (41 characters)", "x".repeat(40)));
        assert_eq!(typed(Path::new("act 1's.csv")), "'act 1'\\''s.csv'");
    }
}
