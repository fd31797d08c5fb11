//! A call with all that is lent to it, and three ways to make it: by the archive, by the wrapper, by the reference.

use crate::random::Random;
use crate::reference::{self, Ask, Kind};
use crate::sheets;
use std::fmt;
use std::ops::{Deref, DerefMut};
use tickdrizzle::abi::{self, Answer};
use tickdrizzle::{Copies, IndexPeriod, LimitedSearch, MapCheck, Profile, Question, Refusal, Search, Side};

/// Random bytes before a lent buffer and after it, which no call may touch.
const GUARD: usize = 16;

/// A lent buffer between its guards.
#[derive(Clone, PartialEq)]
pub struct Lent {
    bytes: Vec<u8>,
}

impl Lent {
    pub fn new(random: &mut Random, content: &[u8]) -> Lent {
        Lent { bytes: [&random.bytes(GUARD), content, &random.bytes(GUARD)].concat() }
    }

    /// A buffer of random bytes.
    pub fn random(random: &mut Random, length: usize) -> Lent {
        Lent { bytes: random.bytes(length + 2 * GUARD) }
    }
}

impl Deref for Lent {
    type Target = [u8];

    fn deref(&self) -> &[u8] {
        &self.bytes[GUARD..self.bytes.len() - GUARD]
    }
}

impl DerefMut for Lent {
    fn deref_mut(&mut self) -> &mut [u8] {
        let end = self.bytes.len() - GUARD;
        &mut self.bytes[GUARD..end]
    }
}

impl fmt::Debug for Lent {
    fn fmt(&self, formatter: &mut fmt::Formatter<'_>) -> fmt::Result {
        write!(formatter, "{:?}", &**self)
    }
}

/// Cells and the order that they are said to have.
#[derive(Clone, Debug, PartialEq)]
pub struct LentTable {
    pub cells: Lent,
    pub order: usize,
}

impl LentTable {
    fn parts(&self) -> (&[u8], usize) {
        (&self.cells, self.order)
    }
}

#[derive(Clone, Debug, PartialEq)]
pub enum Call {
    CheckTable { table: LentTable },
    IndexPeriod { table: LentTable, element: usize },
    Profile { table: LentTable, element: usize },
    CheckMap { source: LentTable, target: LentTable, map: Lent },
    CheckGenerated { table: LentTable, generators: Lent },
    Subsemigroup { table: LentTable, chosen: Lent, part: Lent, elements: Lent },
    Search { kind: Kind, ask: Ask, source: LentTable, target: LentTable, map: Lent, scratch: Lent },
    LimitedSearch { kind: Kind, source: LentTable, target: LentTable, map: Lent, scratch: Lent, limit: u32 },
    SearchAmong { ask: Ask, source: LentTable, target: LentTable, pairs: Lent, map: Lent, scratch: Lent },
    Transformations { degree: usize, cells: Lent },
    Load { text: Lent, cells: Lent },
    Save { table: LentTable, text: Lent },
    LeastDegree { table: LentTable, positions: Lent },
    LoadNames { text: Lent, names: Lent, lengths: Lent },
    SaveNames { names: Lent, lengths: Lent, text: Lent },
    Copies { source: LentTable, target: LentTable, scratch: Lent },
}

/// The functions' names, in the order of the header.
pub const FUNCTIONS: [&str; 24] = [
    "check_table",
    "index_period",
    "profile",
    "check_map",
    "check_generated",
    "subsemigroup",
    "first_embedding",
    "next_embedding",
    "first_isomorphism",
    "next_isomorphism",
    "first_reversed_isomorphism",
    "next_reversed_isomorphism",
    "first_embedding_within",
    "first_isomorphism_within",
    "first_reversed_isomorphism_within",
    "first_embedding_among",
    "next_embedding_among",
    "transformations",
    "load",
    "save",
    "least_degree",
    "load_names",
    "save_names",
    "copies",
];

/// An argument of a call.
pub enum Argument<'a> {
    Read(&'a [u8]),
    Written(&'a mut [u8]),
    Number(usize),
}

impl Call {
    /// The arguments in the order of the header.
    pub fn arguments(&mut self) -> Vec<Argument<'_>> {
        use Argument::{Number, Read, Written};
        fn table(table: &LentTable) -> [Argument<'_>; 2] {
            [Read(&table.cells), Number(table.order)]
        }
        let tables = |source, target| table(source).into_iter().chain(table(target));
        match self {
            Call::CheckTable { table: lent } => table(lent).into(),
            Call::IndexPeriod { table: lent, element } | Call::Profile { table: lent, element } => {
                table(lent).into_iter().chain([Number(*element)]).collect()
            }
            Call::CheckMap { source, target, map } => tables(source, target).chain([Read(map)]).collect(),
            Call::CheckGenerated { table: lent, generators } => {
                table(lent).into_iter().chain([Read(generators)]).collect()
            }
            Call::Subsemigroup { table: lent, chosen, part, elements } => {
                table(lent).into_iter().chain([Read(chosen), Written(part), Written(elements)]).collect()
            }
            Call::Search { source, target, map, scratch, .. } => {
                tables(source, target).chain([Written(map), Written(scratch)]).collect()
            }
            Call::LimitedSearch { source, target, map, scratch, limit, .. } => {
                tables(source, target).chain([Written(map), Written(scratch), Number(*limit as usize)]).collect()
            }
            Call::SearchAmong { source, target, pairs, map, scratch, .. } => {
                tables(source, target).chain([Read(pairs), Written(map), Written(scratch)]).collect()
            }
            Call::Transformations { degree, cells } => vec![Number(*degree), Written(cells)],
            Call::Load { text, cells } => vec![Read(text), Written(cells)],
            Call::Save { table: lent, text } => table(lent).into_iter().chain([Written(text)]).collect(),
            Call::LeastDegree { table: lent, positions } => {
                table(lent).into_iter().chain([Written(positions)]).collect()
            }
            Call::LoadNames { text, names, lengths } => vec![Read(text), Written(names), Written(lengths)],
            Call::SaveNames { names, lengths, text } => vec![Read(names), Read(lengths), Written(text)],
            Call::Copies { source, target, scratch } => tables(source, target).chain([Written(scratch)]).collect(),
        }
    }

    pub fn function(&self) -> &'static str {
        match self {
            Call::CheckTable { .. } => "check_table",
            Call::IndexPeriod { .. } => "index_period",
            Call::Profile { .. } => "profile",
            Call::CheckMap { .. } => "check_map",
            Call::CheckGenerated { .. } => "check_generated",
            Call::Subsemigroup { .. } => "subsemigroup",
            Call::Search { kind: Kind::Embedding, ask: Ask::First, .. } => "first_embedding",
            Call::Search { kind: Kind::Embedding, ask: Ask::Next, .. } => "next_embedding",
            Call::Search { kind: Kind::Isomorphism, ask: Ask::First, .. } => "first_isomorphism",
            Call::Search { kind: Kind::Isomorphism, ask: Ask::Next, .. } => "next_isomorphism",
            Call::Search { kind: Kind::Reversed, ask: Ask::First, .. } => "first_reversed_isomorphism",
            Call::Search { kind: Kind::Reversed, ask: Ask::Next, .. } => "next_reversed_isomorphism",
            Call::LimitedSearch { kind: Kind::Embedding, .. } => "first_embedding_within",
            Call::LimitedSearch { kind: Kind::Isomorphism, .. } => "first_isomorphism_within",
            Call::LimitedSearch { kind: Kind::Reversed, .. } => "first_reversed_isomorphism_within",
            Call::SearchAmong { ask: Ask::First, .. } => "first_embedding_among",
            Call::SearchAmong { ask: Ask::Next, .. } => "next_embedding_among",
            Call::Transformations { .. } => "transformations",
            Call::Load { .. } => "load",
            Call::Save { .. } => "save",
            Call::LeastDegree { .. } => "least_degree",
            Call::LoadNames { .. } => "load_names",
            Call::SaveNames { .. } => "save_names",
            Call::Copies { .. } => "copies",
        }
    }

    /// Makes the call by the archive; the answer holds random numbers before.
    pub fn by_archive(&mut self, random: &mut Random) -> Answer {
        let mut answer = [(); abi::ANSWERS].map(|()| random.number());
        match self {
            Call::CheckTable { table } => abi::check_table(&table.cells, table.order, &mut answer),
            Call::IndexPeriod { table, element } => {
                abi::index_period(&table.cells, table.order, *element, &mut answer);
            }
            Call::Profile { table, element } => abi::profile(&table.cells, table.order, *element, &mut answer),
            Call::CheckMap { source, target, map } => {
                abi::check_map(&source.cells, source.order, &target.cells, target.order, map, &mut answer);
            }
            Call::CheckGenerated { table, generators } => {
                abi::check_generated(&table.cells, table.order, generators, &mut answer);
            }
            Call::Subsemigroup { table, chosen, part, elements } => {
                abi::subsemigroup(&table.cells, table.order, chosen, part, elements, &mut answer);
            }
            Call::Search { kind, ask, source, target, map, scratch } => {
                let search = match (kind, ask) {
                    (Kind::Embedding, Ask::First) => abi::first_embedding,
                    (Kind::Embedding, Ask::Next) => abi::next_embedding,
                    (Kind::Isomorphism, Ask::First) => abi::first_isomorphism,
                    (Kind::Isomorphism, Ask::Next) => abi::next_isomorphism,
                    (Kind::Reversed, Ask::First) => abi::first_reversed_isomorphism,
                    (Kind::Reversed, Ask::Next) => abi::next_reversed_isomorphism,
                };
                search(&source.cells, source.order, &target.cells, target.order, map, scratch, &mut answer);
            }
            Call::LimitedSearch { kind, source, target, map, scratch, limit } => {
                let search = match kind {
                    Kind::Embedding => abi::first_embedding_within,
                    Kind::Isomorphism => abi::first_isomorphism_within,
                    Kind::Reversed => abi::first_reversed_isomorphism_within,
                };
                search(&source.cells, source.order, &target.cells, target.order, map, scratch, *limit, &mut answer);
            }
            Call::SearchAmong { ask, source, target, pairs, map, scratch } => {
                let search = match ask {
                    Ask::First => abi::first_embedding_among,
                    Ask::Next => abi::next_embedding_among,
                };
                search(&source.cells, source.order, &target.cells, target.order, pairs, map, scratch, &mut answer);
            }
            Call::Transformations { degree, cells } => abi::transformations(*degree, cells, &mut answer),
            Call::Load { text, cells } => abi::load(text, cells, &mut answer),
            Call::Save { table, text } => abi::save(&table.cells, table.order, text, &mut answer),
            Call::LeastDegree { table, positions } => {
                abi::least_degree(&table.cells, table.order, positions, &mut answer);
            }
            Call::LoadNames { text, names, lengths } => abi::load_names(text, names, lengths, &mut answer),
            Call::SaveNames { names, lengths, text } => abi::save_names(names, lengths, text, &mut answer),
            Call::Copies { source, target, scratch } => {
                abi::copies(&source.cells, source.order, &target.cells, target.order, scratch, &mut answer);
            }
        }
        answer
    }

    /// Makes the call by the wrapper and puts what it says into numbers again.
    pub fn by_wrapper(&mut self) -> Answer {
        match self {
            Call::CheckTable { table } => encoded(tickdrizzle::check_table(&table.cells, table.order), |()| vec![]),
            Call::IndexPeriod { table, element } => {
                let answer = tickdrizzle::index_period(&table.cells, table.order, *element);
                encoded(answer, powers_values)
            }
            Call::Profile { table, element } => {
                let answer = tickdrizzle::profile(&table.cells, table.order, *element);
                encoded(answer, profile_values)
            }
            Call::CheckMap { source, target, map } => {
                let answer = tickdrizzle::check_map(&source.cells, source.order, &target.cells, target.order, map);
                encoded(answer, check_values)
            }
            Call::CheckGenerated { table, generators } => {
                encoded(tickdrizzle::check_generated(&table.cells, table.order, generators), |()| vec![])
            }
            Call::Subsemigroup { table, chosen, part, elements } => {
                let answer = tickdrizzle::subsemigroup(&table.cells, table.order, chosen, part, elements);
                encoded(answer, |order| vec![order])
            }
            Call::Search { kind, ask, source, target, map, scratch } => {
                let search = match (kind, ask) {
                    (Kind::Embedding, Ask::First) => tickdrizzle::first_embedding,
                    (Kind::Embedding, Ask::Next) => tickdrizzle::next_embedding,
                    (Kind::Isomorphism, Ask::First) => tickdrizzle::first_isomorphism,
                    (Kind::Isomorphism, Ask::Next) => tickdrizzle::next_isomorphism,
                    (Kind::Reversed, Ask::First) => tickdrizzle::first_reversed_isomorphism,
                    (Kind::Reversed, Ask::Next) => tickdrizzle::next_reversed_isomorphism,
                };
                let answer = search(&source.cells, source.order, &target.cells, target.order, map, scratch);
                encoded(answer, |answer| vec![usize::from(answer == Search::Found)])
            }
            Call::LimitedSearch { kind, source, target, map, scratch, limit } => {
                let search = match kind {
                    Kind::Embedding => tickdrizzle::first_embedding_within,
                    Kind::Isomorphism => tickdrizzle::first_isomorphism_within,
                    Kind::Reversed => tickdrizzle::first_reversed_isomorphism_within,
                };
                let answer = search(&source.cells, source.order, &target.cells, target.order, map, scratch, *limit);
                encoded(answer, limited_values)
            }
            Call::SearchAmong { ask, source, target, pairs, map, scratch } => {
                let search = match ask {
                    Ask::First => tickdrizzle::first_embedding_among,
                    Ask::Next => tickdrizzle::next_embedding_among,
                };
                let answer = search(&source.cells, source.order, &target.cells, target.order, pairs, map, scratch);
                encoded(answer, |answer| vec![usize::from(answer == Search::Found)])
            }
            Call::Transformations { degree, cells } => {
                encoded(tickdrizzle::transformations(*degree, cells), |order| vec![order])
            }
            Call::Load { text, cells } => encoded(tickdrizzle::load(text, cells), |order| vec![order]),
            Call::Save { table, text } => {
                encoded(tickdrizzle::save(&table.cells, table.order, text), |length| vec![length])
            }
            Call::LeastDegree { table, positions } => {
                let answer = tickdrizzle::least_degree(&table.cells, table.order, positions);
                encoded(answer, |degree| vec![degree.unwrap_or(0)])
            }
            Call::LoadNames { text, names, lengths } => {
                encoded(tickdrizzle::load_names(text, names, lengths), |count| vec![count])
            }
            Call::SaveNames { names, lengths, text } => {
                encoded(tickdrizzle::save_names(names, lengths, text), |length| vec![length])
            }
            Call::Copies { source, target, scratch } => {
                let answer = tickdrizzle::copies(&source.cells, source.order, &target.cells, target.order, scratch);
                encoded(answer, copies_values)
            }
        }
    }

    /// Makes the call by the reference.
    pub fn by_reference(&mut self) -> Answer {
        match self {
            Call::CheckTable { table } => reference::check_table(&table.cells, table.order),
            Call::IndexPeriod { table, element } => reference::index_period(&table.cells, table.order, *element),
            Call::Profile { table, element } => reference::profile(&table.cells, table.order, *element),
            Call::CheckMap { source, target, map } => {
                reference::check_map(&source.cells, source.order, &target.cells, target.order, map)
            }
            Call::CheckGenerated { table, generators } => {
                reference::check_generated(&table.cells, table.order, generators)
            }
            Call::Subsemigroup { table, chosen, part, elements } => {
                reference::subsemigroup(&table.cells, table.order, chosen, part, elements)
            }
            Call::Search { kind, ask, source, target, map, scratch } => {
                reference::search(*kind, *ask, source.parts(), target.parts(), map, scratch)
            }
            Call::LimitedSearch { kind, source, target, map, scratch, limit } => {
                reference::limited_search(*kind, source.parts(), target.parts(), map, scratch, *limit)
            }
            Call::SearchAmong { ask, source, target, pairs, map, scratch } => {
                reference::search_among(*ask, source.parts(), target.parts(), pairs, map, scratch)
            }
            Call::Transformations { degree, cells } => reference::transformations(*degree, cells),
            Call::Load { text, cells } => reference::load(text, cells),
            Call::Save { table, text } => reference::save(&table.cells, table.order, text),
            Call::LeastDegree { table, positions } => reference::least_degree(&table.cells, table.order, positions),
            Call::LoadNames { text, names, lengths } => sheets::load(text, names, lengths),
            Call::SaveNames { names, lengths, text } => sheets::save(names, lengths, text),
            Call::Copies { source, target, scratch } => {
                reference::copies(&source.cells, source.order, &target.cells, target.order, scratch)
            }
        }
    }
}

/// The numbers of what the wrapper says.
pub fn encoded<T>(says: Result<T, Refusal>, values: impl FnOnce(T) -> Vec<usize>) -> Answer {
    let (number, side, values) = match says {
        Ok(says) => (0, 0, values(says)),
        Err(Refusal { side, question }) => {
            let side = side.map_or(0, |side| if side == Side::Source { 1 } else { 2 });
            (question.number(), side, question_values(question))
        }
    };
    let mut answer = [0; abi::ANSWERS];
    answer[0] = number;
    answer[1] = side;
    for (place, value) in values.into_iter().enumerate() {
        answer[2 + place] = value as u64;
    }
    answer
}

fn question_values(question: Question) -> Vec<usize> {
    match question {
        Question::CellRange { cell } => vec![cell],
        Question::Associativity { i, j, k } => vec![i, j, k],
        Question::TextByte { place } => vec![place],
        Question::Sheet { place } | Question::Name { place } | Question::NameNumber { place } => vec![place],
        _ => vec![],
    }
}

pub fn powers_values(powers: IndexPeriod) -> Vec<usize> {
    vec![powers.index, powers.period, powers.idempotent]
}

pub fn profile_values(p: Profile) -> Vec<usize> {
    vec![p.index, p.period, p.idempotent, p.frequency, p.diagonal, p.row, p.column, p.commuting]
}

pub fn limited_values(search: LimitedSearch) -> Vec<usize> {
    match search {
        LimitedSearch::None { trials } => vec![0, trials as usize],
        LimitedSearch::Found { trials } => vec![1, trials as usize],
        LimitedSearch::Stopped => vec![2],
    }
}

pub fn copies_values(copies: Copies) -> Vec<usize> {
    match copies {
        Copies::Number(number) => vec![0, number],
        Copies::More => vec![1],
    }
}

pub fn check_values(check: MapCheck) -> Vec<usize> {
    match check {
        MapCheck::Holds => vec![0],
        MapCheck::Outside { element } => vec![1, element],
        MapCheck::EqualImages { i, j } => vec![2, i, j],
        MapCheck::WrongProduct { i, j } => vec![3, i, j],
    }
}
