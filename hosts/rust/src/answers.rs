//! What the calls answer, and how it is read from the sixteen numbers.
//!
//! A number that no call answers is a fault of the archive and panics.

use crate::abi::Answer;
use std::error::Error;
use std::fmt;

/// The table that a refusal names, in a call with two tables.
#[derive(Clone, Copy, Debug, PartialEq, Eq, Hash)]
pub enum Side {
    /// The table that is mapped.
    Source,
    /// The table that it is mapped to.
    Target,
}

/// A question that a call asks, with what is said where the answer is "no". Later versions may ask more.
#[derive(Clone, Copy, Debug, PartialEq, Eq, Hash)]
#[non_exhaustive]
pub enum Question {
    /// 1: is the order 1 to 120?
    Order,
    /// 2: are there exactly n × n cells?
    CellCount,
    /// 3: is every cell 1 to n?
    CellRange {
        /// The first cell that is not, counted from 1.
        cell: usize,
    },
    /// 4: is (i·j)·k = i·(j·k) for all i, j, k? The first that fail.
    Associativity {
        /// The first element.
        i: usize,
        /// The second element.
        j: usize,
        /// The third element.
        k: usize,
    },
    /// 5: has the map exactly one byte for each source element?
    MapLength,
    /// 6: has the scratch buffer at least a bit for each pair, source order × target order / 8 bytes rounded up?
    ScratchLength,
    /// 7: is the element 1 to n?
    Element,
    /// 8: is the degree 1 to 3?
    Degree,
    /// 9: has the buffer room for the table of transformations?
    TableRoom,
    /// 20: is the text 1 to 57,720 bytes long?
    TextLength,
    /// 21: is every byte a digit, a comma or part of a CR LF pair?
    TextByte {
        /// The first other byte's place, counted from 0.
        place: usize,
    },
    /// 23: is each field 1 to 3 bytes long? Asked after 24.
    FieldLength,
    /// 24: is its first byte other than 0? An empty field has none.
    FieldStart,
    /// 25: is it at most 120?
    FieldRange,
    /// 26: are there as many records as the first has fields, each with that many?
    Square,
    /// 27: has each buffer room for what is loaded?
    CellRoom,
    /// 28: has the buffer room for the text?
    TextRoom,
    /// 40: is the sheet one or more records of two fields?
    Sheet {
        /// The offending place, counted from 0: the length of the longest beginning that some sheet starts with.
        place: usize,
    },
    /// 41: is the name 1 to 40 bytes from 20 to 7E?
    Name {
        /// The place of its record or in the list of lengths, counted from 1.
        place: usize,
    },
    /// 42: is the number the next and at most 120?
    NameNumber {
        /// The record's place, counted from 1. Saving asks whether there are 1 to 120 lengths, and says 0.
        place: usize,
    },
    /// 50: is every entry of the list 1 to n?
    Generator,
    /// 51: does the list generate all n elements? An empty one generates none.
    Generation,
    /// 60: is the list not empty and every entry 1 to n?
    Chosen,
    /// 61: has the buffer room for the cells of the part?
    PartRoom,
    /// 62: has the buffer room for the elements of the part?
    ElementsRoom,
    /// 70: have the pairs at least a bit for each pair, source order × target order / 8 bytes rounded up?
    PairsLength,
    /// 80: has the buffer room for three positions of each element?
    PositionRoom,
}

impl Question {
    /// The question's number.
    #[must_use]
    pub fn number(self) -> u64 {
        match self {
            Question::Order => 1,
            Question::CellCount => 2,
            Question::CellRange { .. } => 3,
            Question::Associativity { .. } => 4,
            Question::MapLength => 5,
            Question::ScratchLength => 6,
            Question::Element => 7,
            Question::Degree => 8,
            Question::TableRoom => 9,
            Question::TextLength => 20,
            Question::TextByte { .. } => 21,
            Question::FieldLength => 23,
            Question::FieldStart => 24,
            Question::FieldRange => 25,
            Question::Square => 26,
            Question::CellRoom => 27,
            Question::TextRoom => 28,
            Question::Sheet { .. } => 40,
            Question::Name { .. } => 41,
            Question::NameNumber { .. } => 42,
            Question::Generator => 50,
            Question::Generation => 51,
            Question::Chosen => 60,
            Question::PartRoom => 61,
            Question::ElementsRoom => 62,
            Question::PairsLength => 70,
            Question::PositionRoom => 80,
        }
    }

    fn decode(answer: &Answer) -> Question {
        match answer[0] {
            1 => Question::Order,
            2 => Question::CellCount,
            3 => Question::CellRange { cell: number(answer, 2) },
            4 => Question::Associativity { i: number(answer, 2), j: number(answer, 3), k: number(answer, 4) },
            5 => Question::MapLength,
            6 => Question::ScratchLength,
            7 => Question::Element,
            8 => Question::Degree,
            9 => Question::TableRoom,
            20 => Question::TextLength,
            21 => Question::TextByte { place: number(answer, 2) },
            23 => Question::FieldLength,
            24 => Question::FieldStart,
            25 => Question::FieldRange,
            26 => Question::Square,
            27 => Question::CellRoom,
            28 => Question::TextRoom,
            40 => Question::Sheet { place: number(answer, 2) },
            41 => Question::Name { place: number(answer, 2) },
            42 => Question::NameNumber { place: number(answer, 2) },
            50 => Question::Generator,
            51 => Question::Generation,
            60 => Question::Chosen,
            61 => Question::PartRoom,
            62 => Question::ElementsRoom,
            70 => Question::PairsLength,
            80 => Question::PositionRoom,
            other => panic!("no question has the number {other}"),
        }
    }
}

/// The earliest question that failed, with the table that it is about where the call has two.
///
/// It is displayed as a sentence, also by `{:?}`, so that a `main` that returns it prints the sentence:
///
/// ```
/// let refusal = tickdrizzle::Table::new(vec![1, 2, 2, 3], 2).unwrap_err();
/// assert_eq!(refusal.to_string(), "cell 4 is no element of the table (question 3)");
/// assert_eq!(format!("{refusal:?}"), refusal.to_string());
/// ```
#[derive(Clone, Copy, PartialEq, Eq, Hash)]
pub struct Refusal {
    /// The side, for questions 1 to 4 of a map check or a search.
    pub side: Option<Side>,
    /// The question.
    pub question: Question,
}

impl Refusal {
    pub(crate) fn decode(answer: &Answer) -> Option<Refusal> {
        if answer[0] == 0 {
            return None;
        }
        let side = match answer[1] {
            0 => None,
            1 => Some(Side::Source),
            2 => Some(Side::Target),
            other => panic!("no side has the number {other}"),
        };
        Some(Refusal { side, question: Question::decode(answer) })
    }
}

impl fmt::Display for Question {
    fn fmt(&self, formatter: &mut fmt::Formatter<'_>) -> fmt::Result {
        match self {
            Question::Order => write!(formatter, "the order is not 1 to 120"),
            Question::CellCount => write!(formatter, "there are not exactly order × order cells"),
            Question::CellRange { cell } => write!(formatter, "cell {cell} is no element of the table"),
            Question::Associativity { i, j, k } => write!(formatter, "({i}·{j})·{k} is not {i}·({j}·{k})"),
            Question::MapLength => write!(formatter, "the map does not have exactly one byte for each source element"),
            Question::ScratchLength => {
                write!(formatter, "the scratch buffer does not have a bit for each pair of elements")
            }
            Question::Element => write!(formatter, "the element is not in the table"),
            Question::Degree => write!(formatter, "the degree is not 1 to 3"),
            Question::TableRoom => write!(formatter, "the buffer has no room for the table of transformations"),
            Question::TextLength => write!(formatter, "the text is not 1 to 57,720 bytes long"),
            Question::TextByte { place } => {
                write!(formatter, "byte {place} is not a digit, a comma or part of a CR LF pair")
            }
            Question::FieldLength => write!(formatter, "a field is empty or has more than three digits"),
            Question::FieldStart => write!(formatter, "a field starts with 0"),
            Question::FieldRange => write!(formatter, "a field is above 120"),
            Question::Square => {
                write!(formatter, "there are not as many records as the first has fields, each with that many")
            }
            Question::CellRoom => write!(formatter, "the buffer has no room for the cells"),
            Question::TextRoom => write!(formatter, "the buffer has no room for the text"),
            Question::Sheet { place } => {
                write!(formatter, "after {place} bytes the text is no longer a sheet of two fields a record")
            }
            Question::Name { place } => write!(formatter, "name {place} is not 1 to 40 bytes from 20 to 7E"),
            Question::NameNumber { place: 0 } => write!(formatter, "there are not 1 to 120 names"),
            Question::NameNumber { place } => {
                write!(formatter, "the number of record {place} is not the next, or above 120")
            }
            Question::Generator => write!(formatter, "an entry of the list is no element of the table"),
            Question::Generation => write!(formatter, "the list does not generate all elements"),
            Question::Chosen => write!(formatter, "the list is empty, or an entry is no element of the table"),
            Question::PartRoom => write!(formatter, "the buffer has no room for the cells of the part"),
            Question::ElementsRoom => write!(formatter, "the buffer has no room for the elements of the part"),
            Question::PairsLength => write!(formatter, "the pairs do not have a bit for each pair of elements"),
            Question::PositionRoom => write!(formatter, "the buffer has no room for three positions of each element"),
        }
    }
}

impl fmt::Display for Refusal {
    fn fmt(&self, formatter: &mut fmt::Formatter<'_>) -> fmt::Result {
        let side = match self.side {
            None => "",
            Some(Side::Source) => "the source: ",
            Some(Side::Target) => "the target: ",
        };
        write!(formatter, "{side}{} (question {})", self.question, self.question.number())
    }
}

impl fmt::Debug for Refusal {
    fn fmt(&self, formatter: &mut fmt::Formatter<'_>) -> fmt::Result {
        fmt::Display::fmt(self, formatter)
    }
}

impl Error for Refusal {}

/// Index, period and idempotent power of an element.
#[derive(Clone, Copy, Debug, PartialEq, Eq)]
pub struct IndexPeriod {
    /// The least p ≥ 1 for which some later power equals power p.
    pub index: usize,
    /// The least r ≥ 1 for which power p + r equals power p.
    pub period: usize,
    /// The one power that is its own square.
    pub idempotent: usize,
}

impl IndexPeriod {
    pub(crate) fn decode(answer: &Answer) -> IndexPeriod {
        IndexPeriod { index: number(answer, 2), period: number(answer, 3), idempotent: number(answer, 4) }
    }
}

/// The profile of an element. Every isomorphism keeps its counts, and takes its idempotent power to that of the image.
#[derive(Clone, Copy, Debug, PartialEq, Eq)]
pub struct Profile {
    /// The index.
    pub index: usize,
    /// The period.
    pub period: usize,
    /// The one power that is its own square.
    pub idempotent: usize,
    /// How often the element stands in the whole table.
    pub frequency: usize,
    /// How often it stands on the diagonal.
    pub diagonal: usize,
    /// How often it stands in its row.
    pub row: usize,
    /// How often it stands in its column.
    pub column: usize,
    /// How many elements, itself included, it commutes with.
    pub commuting: usize,
}

impl Profile {
    pub(crate) fn decode(answer: &Answer) -> Profile {
        Profile {
            index: number(answer, 2),
            period: number(answer, 3),
            idempotent: number(answer, 4),
            frequency: number(answer, 5),
            diagonal: number(answer, 6),
            row: number(answer, 7),
            column: number(answer, 8),
            commuting: number(answer, 9),
        }
    }
}

/// What a map check says: that the map is an embedding, or the earliest fault.
#[derive(Clone, Copy, Debug, PartialEq, Eq)]
pub enum MapCheck {
    /// The map is an embedding.
    Holds,
    /// An image is no target element.
    Outside {
        /// The first element with such an image.
        element: usize,
    },
    /// Two elements, i < j, have one image.
    EqualImages {
        /// The first element.
        i: usize,
        /// The second element.
        j: usize,
    },
    /// The image of i·j is not the product of their images.
    WrongProduct {
        /// The first factor.
        i: usize,
        /// The second factor.
        j: usize,
    },
}

impl MapCheck {
    pub(crate) fn decode(answer: &Answer) -> MapCheck {
        match answer[2] {
            0 => MapCheck::Holds,
            1 => MapCheck::Outside { element: number(answer, 3) },
            2 => MapCheck::EqualImages { i: number(answer, 3), j: number(answer, 4) },
            3 => MapCheck::WrongProduct { i: number(answer, 3), j: number(answer, 4) },
            other => panic!("no outcome of a map check has the number {other}"),
        }
    }
}

/// What a search says.
#[derive(Clone, Copy, Debug, PartialEq, Eq)]
pub enum Search {
    /// The map buffer holds the map.
    Found,
    /// There is no such map.
    None,
}

impl Search {
    pub(crate) fn decode(answer: &Answer) -> Search {
        match answer[2] {
            0 => Search::None,
            1 => Search::Found,
            other => panic!("no outcome of a search has the number {other}"),
        }
    }
}

/// What a search with a limit says.
#[derive(Clone, Copy, Debug, PartialEq, Eq)]
pub enum LimitedSearch {
    /// The map buffer holds the map, after this exact number of trials.
    Found {
        /// The trials up to the map, its last one included.
        trials: u32,
    },
    /// There is no such map, which this exact number of trials shows.
    None {
        /// The trials of the whole search.
        trials: u32,
    },
    /// More trials are needed than the limit.
    Stopped,
}

impl LimitedSearch {
    pub(crate) fn decode(answer: &Answer) -> LimitedSearch {
        let trials = || u32::try_from(answer[3]).expect("no more trials than the limit");
        match answer[2] {
            0 => LimitedSearch::None { trials: trials() },
            1 => LimitedSearch::Found { trials: trials() },
            2 => LimitedSearch::Stopped,
            other => panic!("no outcome of a search with a limit has the number {other}"),
        }
    }
}

/// What a count of copies says.
#[derive(Clone, Copy, Debug, PartialEq, Eq)]
pub enum Copies {
    /// There are so many, at most 65,535.
    Number(usize),
    /// There are more.
    More,
}

impl Copies {
    pub(crate) fn decode(answer: &Answer) -> Copies {
        match answer[2] {
            0 => Copies::Number(number(answer, 3)),
            1 => Copies::More,
            other => panic!("no outcome of a count has the number {other}"),
        }
    }
}

/// The size that a call gives: an order, a length or a number of names.
pub(crate) fn size(answer: &Answer) -> usize {
    number(answer, 2)
}

/// The degree that a call gives; 0 stands for none.
pub(crate) fn degree(answer: &Answer) -> Option<usize> {
    Some(number(answer, 2)).filter(|&degree| degree > 0)
}

fn number(answer: &Answer, place: usize) -> usize {
    usize::try_from(answer[place]).expect("the answer fits this machine")
}
