//! Null tables in 3-nilpotent ones, made with a fixed seed: all elements of the source but its zero can be exchanged, and a
//! search that tried every arrangement of them would not end.

use crate::families::{shuffled, three_nilpotent, Numbers};
use crate::tables::{null, table, Table};
use crate::{millis, sample, FEWEST_SAMPLES};
use std::hint::black_box;
use std::time::Duration;
use tickdrizzle::Search;

/// How many random pairs of tables.
const MANY: usize = 400;
/// Of so many calls of one search the least time counts.
const CALLS: usize = 3;
/// The longest that a search may take.
const BAR: Duration = Duration::from_millis(50);

/// Pairs of factors whose products, in either order, are one element; every other product is zero. A null part has at most
/// one factor of each pair.
fn paired(pairs: usize) -> Table {
    let (product, zero) = (2 * pairs, 2 * pairs + 1);
    let partners = |i: usize, j: usize| i < product && j < product && i / 2 == j / 2 && i != j;
    table(zero + 1, |i, j| if partners(i, j) { product } else { zero })
}

/// Prints how long searches for a null table take: in tables of pairs, where there is none, one row each; and in random
/// tables the median, the ninth decile and the longest.
pub fn time() {
    println!("\n| {:<76} | answer | library, ms |", "null tables in 3-nilpotent ones, first_embedding");
    println!("|:{:-<76}-|:-------|------------:|", "");
    for pairs in [5, 6, 7, 8] {
        let (said, least) = search(&null(pairs + 3), &paired(pairs), FEWEST_SAMPLES);
        row(&format!("null table of order {} in {pairs} pairs of factors", pairs + 3), said, least);
    }
    let mut numbers = Numbers::new(3);
    let mut times: Vec<(Duration, Search, String)> = (0..MANY).map(|_| random(&mut numbers)).collect();
    times.sort_by_key(|(time, ..)| *time);
    for (rank, place) in [("median", MANY / 2), ("ninth decile", MANY * 9 / 10), ("longest", MANY - 1)] {
        let (time, said, name) = &times[place];
        row(&format!("{rank} of {MANY}: {name}"), *said, *time);
    }
    let over = times.iter().filter(|(time, ..)| *time > BAR).count();
    println!(
        "\nOf {MANY} null tables of 5 to 40 elements in random 3-nilpotent ones, {over} took more than {} ms.",
        BAR.as_millis()
    );
}

/// A null table of 5 to 40 elements in a random 3-nilpotent table that is larger, of at most 120.
fn random(numbers: &mut Numbers) -> (Duration, Search, String) {
    let m = 5 + numbers.below(36);
    let n = m + 1 + numbers.below(120 - m);
    let products = 1 + numbers.below((n - 2).min(40));
    let target = shuffled(&three_nilpotent(n - 1 - products, products, numbers), numbers);
    let (said, least) = search(&shuffled(&null(m), numbers), &target, CALLS);
    (least, said, format!("null table of order {m} in order {n}, {products} products"))
}

/// What the search answers, and its least time of some calls.
fn search(source: &Table, target: &Table, calls: usize) -> (Search, Duration) {
    let (m, n) = (source.order, target.order);
    let (mut map, mut scratch) = (vec![0; m], vec![0; tickdrizzle::scratch_size(m, n)]);
    let mut call =
        || tickdrizzle::first_embedding(black_box(&source.cells), m, &target.cells, n, &mut map, &mut scratch);
    let said = call().expect("the tables are accepted");
    let least = (0..calls).map(|_| sample(1, &mut call)).min().unwrap_or(Duration::MAX);
    (said, least)
}

fn row(name: &str, said: Search, time: Duration) {
    let said = if said == Search::Found { "found" } else { "none" };
    println!("| {name:<76} | {said:<6} | {:>11} |", millis(time));
}
