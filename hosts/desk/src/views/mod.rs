//! Views of an answer: words, records of the proved programs, JSON, pages.

pub mod page;
pub mod partners;
pub mod records;
pub mod text;

use crate::answer::Answer;

/// The answer as JSON, one value and a line break.
pub fn json(answer: &Answer) -> String {
    serde_json::to_string(answer).expect("an answer has numbers, texts and lists alone") + "\n"
}
