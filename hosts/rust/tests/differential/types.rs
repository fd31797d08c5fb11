//! Calls made by `Table` and `Names`, which have buffers of their own.

use crate::calls::{self, Call, LentTable};
use crate::reference::{Ask, Kind};
use tickdrizzle::abi::Answer;
use tickdrizzle::{Maps, Names, Refusal, Side, Table};

/// The questions about buffers, which `Table` and `Names` never fail.
const ABOUT_BUFFERS: [u64; 8] = [6, 9, 27, 28, 61, 62, 70, 80];

/// The maps of a walk up to which a later one is looked for.
const MOST_MAPS: usize = 50;

/// The values of an answer, and what stands at the front of each buffer that is written.
type Said = (Vec<usize>, Vec<Vec<u8>>);

/// What `Table` or `Names` say of a call, as its answer, and the front of each buffer that it writes. Nothing where they cannot make
/// the call, or where only they or only the call ask the question that fails.
pub fn made(call: &Call, expected: &Answer) -> Option<(Answer, Vec<Vec<u8>>)> {
    if ABOUT_BUFFERS.contains(&expected[0]) {
        return None;
    }
    let said = said(call)?;
    let fronts = said.as_ref().map_or(vec![], |(_, fronts)| fronts.clone());
    Some((calls::encoded(said, |(values, _)| values), fronts))
}

fn said(call: &Call) -> Option<Result<Said, Refusal>> {
    Some(match call {
        Call::CheckTable { table } => lent(table).map(|_| values(vec![])),
        Call::IndexPeriod { table, element } => lent(table)
            .and_then(|table| table.index_period(*element))
            .map(|powers| values(calls::powers_values(powers))),
        Call::Profile { table, element } => {
            lent(table).and_then(|table| table.profile(*element)).map(|profile| values(calls::profile_values(profile)))
        }
        Call::CheckGenerated { table, generators } => {
            Table::generated(table.cells.to_vec(), table.order, generators).map(|_| values(vec![]))
        }
        Call::Subsemigroup { table, chosen, .. } => lent(table)
            .and_then(|table| table.part(chosen))
            .map(|part| (vec![part.table.order()], vec![part.table.cells().to_vec(), part.elements])),
        Call::LeastDegree { table, .. } => lent(table).map(|table| {
            let positions = table.positions().unwrap_or_default();
            (vec![table.degree().unwrap_or(0)], vec![positions.concat()])
        }),
        Call::CheckMap { source, target, map } => pair(source, target)
            .and_then(|(source, target)| source.check_map(&target, map))
            .map(|check| values(calls::check_values(check))),
        Call::Copies { source, target, .. } => {
            pair(source, target).map(|(source, target)| values(calls::copies_values(source.copies(&target))))
        }
        Call::Search { .. } | Call::LimitedSearch { .. } | Call::SearchAmong { .. } => return searched(call),
        Call::Transformations { degree, .. } => Table::transformations(*degree).map(whole),
        // The calls do not ask whether these cells are a table.
        Call::Load { text, .. } => unless(&[3, 4], Table::load(text))?.map(whole),
        Call::Save { table, .. } => {
            unless(&[4], lent(table))?.map(|table| (vec![table.text().len()], vec![table.text()]))
        }
        Call::LoadNames { text, .. } => Names::load(text).map(|names| {
            let lengths = names.iter().map(|name| u8::try_from(name.len()).expect("a name is short"));
            (vec![names.iter().len()], vec![names.iter().collect::<String>().into_bytes(), lengths.collect()])
        }),
        Call::SaveNames { names, lengths, .. } => {
            Names::new(pieces(names, lengths)?).map(|names| (vec![names.text().len()], vec![names.text()]))
        }
    })
}

fn values(values: Vec<usize>) -> Said {
    (values, vec![])
}

fn whole(table: Table) -> Said {
    (vec![table.order()], vec![table.cells().to_vec()])
}

fn lent(table: &LentTable) -> Result<Table, Refusal> {
    Table::new(table.cells.to_vec(), table.order)
}

/// Both tables of a call, a refusal with its side.
fn pair(source: &LentTable, target: &LentTable) -> Result<(Table, Table), Refusal> {
    let sided = |side| move |refusal| Refusal { side: Some(side), ..refusal };
    Ok((lent(source).map_err(sided(Side::Source))?, lent(target).map_err(sided(Side::Target))?))
}

/// What is said, unless one of these questions fails.
fn unless<T>(questions: &[u64], said: Result<T, Refusal>) -> Option<Result<T, Refusal>> {
    let asked = said.as_ref().is_err_and(|refusal| questions.contains(&refusal.question.number()));
    (!asked).then_some(said)
}

/// The names that stand one after another; nothing where there are too few bytes, or where they are no text.
fn pieces(names: &[u8], lengths: &[u8]) -> Option<Vec<String>> {
    let mut rest = std::str::from_utf8(names).ok()?;
    let mut pieces = Vec::new();
    for &length in lengths {
        let (name, others) = rest.split_at_checked(usize::from(length))?;
        pieces.push(name.to_string());
        rest = others;
    }
    Some(pieces)
}

/// A search, of tables alone: the map buffer must have a byte for each element.
fn searched(call: &Call) -> Option<Result<Said, Refusal>> {
    let (Call::Search { source, target, map, .. }
    | Call::LimitedSearch { source, target, map, .. }
    | Call::SearchAmong { source, target, map, .. }) = call
    else {
        unreachable!("the call is a search")
    };
    let tables = match pair(source, target) {
        Err(refusal) => return Some(Err(refusal)),
        Ok((source, _)) if map.len() != source.order() => return None,
        Ok(tables) => tables,
    };
    found(call, &tables.0, &tables.1).map(Ok)
}

fn found(call: &Call, source: &Table, target: &Table) -> Option<Said> {
    let (maps, ask, list) = match call {
        Call::Search { kind, ask, map, .. } => match kind {
            Kind::Embedding => (source.embeddings(target), ask, map),
            Kind::Isomorphism => (source.isomorphisms(target), ask, map),
            Kind::Reversed => (source.reversed_isomorphisms(target), ask, map),
        },
        Call::SearchAmong { ask, pairs, map, .. } => {
            if 8 * pairs.len() < source.order() * target.order() {
                return None;
            }
            let is_marked = |i: usize, j: usize| {
                let k = (i - 1) * target.order() + (j - 1);
                pairs[k / 8] >> (k % 8) & 1 == 1
            };
            (source.embeddings_among(target, is_marked), ask, map)
        }
        Call::LimitedSearch { kind, limit, .. } => {
            let (said, map) = match kind {
                Kind::Embedding => source.embedding_within(target, *limit),
                Kind::Isomorphism => source.isomorphism_within(target, *limit),
                Kind::Reversed => source.reversed_isomorphism_within(target, *limit),
            };
            return Some((calls::limited_values(said), vec![map.unwrap_or_default()]));
        }
        _ => unreachable!("the call is a search"),
    };
    let map = earliest(maps, (*ask == Ask::Next).then_some(list))?;
    Some((vec![usize::from(map.is_some())], vec![map.unwrap_or_default()]))
}

/// The first map of a walk, or the first that is later than a list; nothing where too many come before it.
fn earliest(maps: Maps<'_>, after: Option<&[u8]>) -> Option<Option<Vec<u8>>> {
    for (passed, map) in maps.enumerate() {
        if after.is_none_or(|list| map[..] > *list) {
            return Some(Some(map));
        }
        if passed == MOST_MAPS {
            return None;
        }
    }
    Some(None)
}
