//! Parts of a show: the smallest part that has no place on a rig, and the largest that has one.
//!
//! Each part is the library's, by `subsemigroup`, and so is each answer, by `first_embedding`; here they are only chosen and put in order.

use crate::building::generators;
use std::collections::HashSet;
use tickdrizzle::{Part, Table};

/// Parts are made by at most so many cues, or leave out at most so many building cues.
pub const MOST_CUES: usize = 3;

/// What a look for the smallest part tells.
pub enum Look {
    /// A part made by so many cues has a place.
    Fits { cues: usize },
    /// A part has none.
    Misfit { cues: Vec<u8>, elements: Vec<u8> },
}

/// What a look for the largest part tells: a part that has a place, larger than what was told before.
pub struct Rest {
    pub without: Vec<u8>,
    pub elements: Vec<u8>,
    pub images: Vec<u8>,
}

/// Looks for the smallest part of the show that has no place on the rig: of parts made by one cue, then by two, then by three; of each kind
/// first those made by building cues. The last part that is told is the smallest; the whole show is no part.
pub fn smallest_misfit(show: &Table, rig: &Table, tell: &dyn Fn(Look) -> bool) {
    let mut search = Search { show, rig, fitting: HashSet::new(), tell };
    let (all, building) = (elements(show), generators(show.cells(), show.order()));
    for size in 1..=MOST_CUES {
        let found = search.first_misfit(&building, size, show.order());
        let smaller = search.first_misfit(&all, size, found.unwrap_or(show.order()));
        if found.or(smaller).is_some() {
            return;
        }
    }
}

struct Search<'a> {
    show: &'a Table,
    rig: &'a Table,
    /// The parts that have a place, by their elements.
    fitting: HashSet<Vec<u8>>,
    tell: &'a dyn Fn(Look) -> bool,
}

impl Search<'_> {
    /// The order of the smallest part, made by so many of these elements and below this order, that has no place.
    fn first_misfit(&mut self, among: &[u8], size: usize, below: usize) -> Option<usize> {
        let mut made: Vec<(usize, Vec<u8>, Vec<u8>)> = Vec::new();
        let mut seen = HashSet::new();
        for cues in choices(among, size) {
            let elements = part(self.show, &cues).elements;
            if elements.len() < below && !self.fitting.contains(&elements) && seen.insert(elements.clone()) {
                made.push((elements.len(), cues, elements));
            }
        }
        made.sort();
        for (order, cues, elements) in made {
            if part(self.show, &cues).table.embeddings(self.rig).next().is_none() {
                (self.tell)(Look::Misfit { cues, elements });
                return Some(order);
            }
            self.fitting.insert(elements);
            if !(self.tell)(Look::Fits { cues: size }) {
                return None;
            }
        }
        None
    }
}

/// Looks for the largest part of the show that has a place on the rig, among the parts that all building cues but one, two or three make.
/// The last part that is told is the largest.
pub fn largest_fit(show: &Table, rig: &Table, building: &[u8], tell: &dyn Fn(Rest) -> bool) {
    let mut largest = 0;
    for size in 1..=MOST_CUES.min(building.len().saturating_sub(1)) {
        let rest = |without: Vec<u8>| {
            let kept: Vec<u8> = building.iter().copied().filter(|cue| !without.contains(cue)).collect();
            (without, part(show, &kept))
        };
        let mut rests: Vec<(Vec<u8>, Part)> = choices(building, size).map(rest).collect();
        rests.sort_by_key(|(_, part)| std::cmp::Reverse(part.elements.len()));
        for (without, part) in rests {
            if part.elements.len() <= largest {
                break;
            }
            if let Some(images) = part.table.embeddings(rig).next() {
                largest = part.elements.len();
                if !tell(Rest { without, elements: part.elements, images }) {
                    return;
                }
            }
        }
    }
}

fn elements(table: &Table) -> Vec<u8> {
    (1..=u8::try_from(table.order()).expect("orders are at most 120")).collect()
}

fn part(table: &Table, cues: &[u8]) -> Part {
    table.part(cues).expect("elements of a table make a part")
}

/// Every choice of so many elements of a list, in the order of the list.
pub fn choices(list: &[u8], size: usize) -> Box<dyn Iterator<Item = Vec<u8>> + '_> {
    if size == 0 {
        return Box::new(std::iter::once(Vec::new()));
    }
    Box::new(list.iter().enumerate().flat_map(move |(place, &first)| {
        choices(&list[place + 1..], size - 1).map(move |rest| [&[first], &rest[..]].concat())
    }))
}

#[cfg(test)]
mod tests {
    use super::*;

    #[test]
    fn choices_in_order() {
        let pairs: Vec<_> = choices(&[1, 2, 3], 2).collect();
        assert_eq!(pairs, [[1, 2], [1, 3], [2, 3]]);
        assert_eq!((choices(&[1, 2, 3, 4, 5], 3).count(), choices(&[1], 2).count()), (10, 0));
    }
}
