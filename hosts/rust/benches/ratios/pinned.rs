//! Searches among given pairs in which some elements are pinned: each of these may go to one image only, and all other
//! pairs are marked.

use crate::families::{names, renamed, Numbers};
use crate::tables::Table;
use crate::{millis, sample, Family};
use std::hint::black_box;
use std::time::Duration;
use tickdrizzle::Search;

/// How many elements are pinned at most, and how often for each number of them.
const MOST_PINS: usize = 5;
const TIMES: usize = 8;
/// Of so many calls of one search the least time counts.
const CALLS: usize = 3;
const UNPINNED_CALLS: usize = 60;

/// Prints a row for each of the families: `first_embedding`; with all pairs marked, as a ratio to it; and the longest search
/// with pins that found an embedding and that found none. One to five elements are pinned, eight times each: once to their
/// images under an embedding, if there is one, and once to images drawn from their candidates.
pub fn time(families: &[Family]) {
    println!("\n| {:<60} | first, ms | all pairs | pinned, found | pinned, none |", "first_embedding_among");
    println!("|:{:-<60}-|----------:|----------:|--------------:|-------------:|", "");
    let mut numbers = Numbers::new(2);
    for Family { name, source, target } in families {
        let (first, all) = unpinned(source, target);
        let ratio = all.as_secs_f64() / first.as_secs_f64();
        let longest = longest(source, target, &mut numbers).map(|time| time.map_or_else(String::new, millis));
        println!("| {name:<60} | {:>9} | {ratio:>9.2} | {:>13} | {:>12} |", millis(first), longest[0], longest[1]);
    }
}

/// How long `first_embedding` takes, and the same with all pairs marked: the two take turns.
fn unpinned(source: &Table, target: &Table) -> (Duration, Duration) {
    let (m, n) = (source.order, target.order);
    let size = tickdrizzle::scratch_size(m, n);
    let (mut map, mut scratch, pairs) = (vec![0; m], vec![0; size], vec![255; size]);
    let (mut first, mut all) = (Duration::MAX, Duration::MAX);
    for _ in 0..UNPINNED_CALLS {
        let cells = black_box(&source.cells);
        let call = &mut || tickdrizzle::first_embedding(cells, m, &target.cells, n, &mut map, &mut scratch);
        first = first.min(sample(1, call));
        let call =
            &mut || tickdrizzle::first_embedding_among(cells, m, &target.cells, n, &pairs, &mut map, &mut scratch);
        all = all.min(sample(1, call));
    }
    (first, all)
}

/// The longest search with pins that found an embedding, and the longest that found none.
fn longest(source: &Table, target: &Table, numbers: &mut Numbers) -> [Option<Duration>; 2] {
    let mut longest = [None; 2];
    for count in (1..=MOST_PINS.min(source.order)).flat_map(|count| [count; TIMES]) {
        let pinned = &names(source.order, numbers)[..count];
        for images in [embedding(source, target, numbers), drawn(source, target, numbers)].into_iter().flatten() {
            let pins: Vec<(usize, usize)> = pinned.iter().map(|&i| (i, images[i])).collect();
            let (found, time) = search(source, target, &pins);
            let kind = &mut longest[usize::from(!found)];
            *kind = (*kind).max(Some(time));
        }
    }
    longest
}

/// The images under the first embedding between the tables numbered anew at random, counted from 0.
fn embedding(source: &Table, target: &Table, numbers: &mut Numbers) -> Option<Vec<usize>> {
    let (m, n) = (source.order, target.order);
    let (from, to) = (names(m, numbers), names(n, numbers));
    let (old, new) = (renamed(source, &from), renamed(target, &to));
    let (mut map, mut scratch) = (vec![0; m], vec![0; tickdrizzle::scratch_size(m, n)]);
    let search = tickdrizzle::first_embedding(&old.cells, m, &new.cells, n, &mut map, &mut scratch);
    let named = |y: u8| to.iter().position(|&name| name + 1 == usize::from(y)).expect("each element has a name");
    (search == Ok(Search::Found)).then(|| from.iter().map(|&name| named(map[name])).collect())
}

/// An image for each element, drawn from its candidates; none where an element has no candidate.
fn drawn(source: &Table, target: &Table, numbers: &mut Numbers) -> Option<Vec<usize>> {
    let (m, n) = (source.order, target.order);
    let (mut map, mut scratch) = (vec![0; m], vec![0; tickdrizzle::scratch_size(m, n)]);
    tickdrizzle::first_embedding(&source.cells, m, &target.cells, n, &mut map, &mut scratch).ok()?;
    let marked = |pair: usize| scratch[pair / 8] >> (pair % 8) & 1 == 1;
    let candidates = |i: usize| (0..n).filter(|j| marked(i * n + j)).collect::<Vec<usize>>();
    (0..m).map(candidates).map(|all| (!all.is_empty()).then(|| all[numbers.below(all.len())])).collect()
}

/// Whether there is an embedding with these pins, and how long the search for the first takes.
fn search(source: &Table, target: &Table, pins: &[(usize, usize)]) -> (bool, Duration) {
    let (m, n) = (source.order, target.order);
    let size = tickdrizzle::scratch_size(m, n);
    let (mut map, mut scratch, mut pairs) = (vec![0; m], vec![0; size], vec![255; size]);
    for &(i, image) in pins {
        for pair in (0..n).filter(|&j| j != image).map(|j| i * n + j) {
            pairs[pair / 8] &= !(1 << (pair % 8));
        }
    }
    let mut answer = None;
    let mut call = || {
        let source = black_box(&source.cells);
        answer = tickdrizzle::first_embedding_among(source, m, &target.cells, n, &pairs, &mut map, &mut scratch).ok();
    };
    let time = (0..CALLS).map(|_| sample(1, &mut call)).min().unwrap_or(Duration::MAX);
    (answer == Some(Search::Found), time)
}
