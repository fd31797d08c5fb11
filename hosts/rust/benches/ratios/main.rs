//! Times the proved library beside plain Rust of the same method, on the same inputs in one run, and prints the ratios.
//!
//! Each time is that of whole calls through the safe wrapper, questions and all, on buffers that are not cleared between
//! calls. The two take turns; a sample is as many calls as take some milliseconds, and the least of the samples counts.

mod families;
mod pinned;
mod plain;
mod real;
mod tables;
mod twins;

use families::{
    brandt, elementary_group, form_group, generated, part, rees, shuffled, three_nilpotent, two_squares, Numbers,
};
use std::fmt::Debug;
use std::hint::black_box;
use std::time::{Duration, Instant};
use tables::{
    chain, cyclic_group, dihedral_group, left_zero, nilpotent, null, rectangular_band, relabelled, turned, two_group,
    unions, Table,
};
use tickdrizzle::Copies;

const FEWEST_SAMPLES: usize = 9;
const MOST_SAMPLES: usize = 60;
const LEAST_SAMPLE: Duration = Duration::from_millis(2);
/// How long a row takes, unless its fewest samples take longer.
const ROW: Duration = Duration::from_secs(3);

fn main() {
    println!("| {:<82} | proved, µs | plain, µs | ratio |", "call");
    println!("|:{:-<82}-|-----------:|----------:|------:|", "");
    time_tables();
    let beside_full = time_lists();
    time_elements();
    time_map_checks();
    time_embeddings();
    time_isomorphisms();
    time_transformations();
    time_texts();
    println!("\n{beside_full}");
    time_reversed();
    time_copies();
    time_families();
    twins::time();
    real::time();
}

/// Times a call by the library and by plain Rust, after a look whether they answer the same, and prints a row; the
/// library's time in microseconds.
fn row<T: PartialEq + Debug>(name: &str, mut proved: impl FnMut() -> T, mut plain: impl FnMut() -> T) -> f64 {
    assert_eq!(proved(), plain(), "{name}");
    let calls = calls_of_a_sample(&mut plain);
    let (mut least_proved, mut least_plain) = (Duration::MAX, Duration::MAX);
    let start = Instant::now();
    for samples in 0..MOST_SAMPLES {
        if samples >= FEWEST_SAMPLES && start.elapsed() > ROW {
            break;
        }
        least_proved = least_proved.min(sample(calls, &mut proved));
        least_plain = least_plain.min(sample(calls, &mut plain));
    }
    let micros = |sample: Duration| sample.as_secs_f64() * 1e6 / f64::from(calls);
    let (proved, plain) = (micros(least_proved), micros(least_plain));
    println!("| {name:<82} | {proved:>10.2} | {plain:>9.2} | {:>5.2} |", proved / plain);
    proved
}

fn sample<T>(calls: u32, call: &mut impl FnMut() -> T) -> Duration {
    let start = Instant::now();
    for _ in 0..calls {
        black_box(call());
    }
    start.elapsed()
}

fn calls_of_a_sample<T>(call: &mut impl FnMut() -> T) -> u32 {
    let mut calls = 1;
    while sample(calls, call) < LEAST_SAMPLE {
        calls *= 2;
    }
    calls
}

fn time_tables() {
    for order in [30, 60, 120] {
        let Table { cells, order } = cyclic_group(order);
        row(
            &format!("check_table, cyclic group of order {order}"),
            || tickdrizzle::check_table(black_box(&cells), order),
            || plain::check_table(black_box(&cells), order),
        );
    }
}

/// Calls with a list of elements, on the dihedral group of order 120; the library's times beside that of its full check.
fn time_lists() -> String {
    let Table { cells, order } = dihedral_group(60);
    let full = row(
        "check_table, dihedral group of order 120",
        || tickdrizzle::check_table(black_box(&cells), order),
        || plain::check_table(black_box(&cells), order),
    );
    let mut beside = format!("Of the time of the full check, dihedral group of order 120, {full:.2} µs:");
    for generators in [&[2, 61][..], &[2, 61, 3, 4, 5, 6, 7, 8, 9, 10]] {
        let name = format!("check_generated, {} generators", generators.len());
        let time = row(
            &format!("{name}, dihedral group of order 120"),
            || tickdrizzle::check_generated(black_box(&cells), order, generators),
            || plain::check_generated(black_box(&cells), order, generators),
        );
        beside += &format!(" {name}: {:.3};", time / full);
    }
    let (mut part, mut elements) = (vec![0; order * order], vec![0; order]);
    let (mut other_part, mut other_elements) = (part.clone(), elements.clone());
    let time = row(
        "subsemigroup, 2 generators of the dihedral group of order 120",
        || tickdrizzle::subsemigroup(black_box(&cells), order, &[2, 61], &mut part, &mut elements),
        || plain::subsemigroup(black_box(&cells), order, &[2, 61], &mut other_part, &mut other_elements),
    );
    assert_eq!((part, elements), (other_part, other_elements));
    beside + &format!(" subsemigroup, 2 generators: {:.3}.", time / full)
}

fn time_elements() {
    let trivial = cyclic_group(1);
    let transformations = transformations();
    for (name, Table { cells, order }) in
        [("order 1", trivial), ("degree 3", transformations), ("cyclic group of order 120", cyclic_group(120))]
    {
        row(
            &format!("index_period of all elements, {name}"),
            || all(order, |element| tickdrizzle::index_period(black_box(&cells), order, element)),
            || all(order, |element| plain::index_period(black_box(&cells), order, element)),
        );
        row(
            &format!("profile of all elements, {name}"),
            || all(order, |element| tickdrizzle::profile(black_box(&cells), order, element)),
            || all(order, |element| plain::profile(black_box(&cells), order, element)),
        );
    }
}

/// What a call answers for the last element, after it was made for every element.
fn all<T>(order: usize, call: impl Fn(usize) -> T) -> T {
    (1..order).for_each(|element| drop(black_box(call(element))));
    call(order)
}

fn transformations() -> Table {
    let mut cells = vec![0; 729];
    let order = tickdrizzle::transformations(3, &mut cells).expect("three is a degree");
    Table { order, cells }
}

fn time_map_checks() {
    let Table { cells, order } = cyclic_group(120);
    let identity: Vec<u8> = (1..=120).collect();
    row(
        "check_map, identity of a cyclic group of order 120",
        || tickdrizzle::check_map(black_box(&cells), order, &cells, order, &identity),
        || plain::check_map(black_box(&cells), order, &cells, order, &identity),
    );
}

type ProvedSearch =
    fn(&[u8], usize, &[u8], usize, &mut [u8], &mut [u8]) -> Result<tickdrizzle::Search, tickdrizzle::Refusal>;
type LimitedSearch = fn(
    &[u8],
    usize,
    &[u8],
    usize,
    &mut [u8],
    &mut [u8],
    u32,
) -> Result<tickdrizzle::LimitedSearch, tickdrizzle::Refusal>;
type PlainSearch = fn(&plain::Lent, &mut [u8], &mut [u8]) -> Result<tickdrizzle::Search, tickdrizzle::Refusal>;

/// The searches for the first map of a kind.
struct Searches {
    name: &'static str,
    proved: ProvedSearch,
    limited: LimitedSearch,
    plain: PlainSearch,
}

/// Two rows for a search from one table to another: without a limit, named with its trials, which the search with a limit
/// counts; and within just these trials. Plain Rust beside both makes the paper's search.
fn time_search(searches: &Searches, name: &str, source: &Table, target: &Table) {
    let (m, n) = (source.order, target.order);
    let lent = plain::Lent { source: &source.cells, source_order: m, target: &target.cells, target_order: n };
    let (mut map, mut scratch) = (vec![0; m], vec![0; tickdrizzle::scratch_size(m, n)]);
    let (mut other_map, mut other_scratch) = (map.clone(), scratch.clone());
    let mut within = |limit| {
        let answer = (searches.limited)(black_box(&source.cells), m, &target.cells, n, &mut map, &mut scratch, limit);
        (answer.expect("the tables are accepted"), map.clone())
    };
    let mut beside = || {
        let search = (searches.plain)(black_box(&lent), &mut other_map, &mut other_scratch);
        (search.expect("the tables are accepted"), other_map.clone())
    };
    let (said, trials) = match within(u32::MAX).0 {
        tickdrizzle::LimitedSearch::Found { trials } => (tickdrizzle::Search::Found, trials),
        tickdrizzle::LimitedSearch::None { trials } => (tickdrizzle::Search::None, trials),
        tickdrizzle::LimitedSearch::Stopped => panic!("{name} needs more trials than any limit"),
    };
    let name = format!("{}, {name}: {trials} trials", searches.name);
    row(&format!("{name}, within these"), || (said, within(black_box(trials)).1), &mut beside);
    let proved = || {
        let search = (searches.proved)(black_box(&source.cells), m, &target.cells, n, &mut map, &mut scratch);
        (search.expect("the tables are accepted"), map.clone())
    };
    row(&name, proved, &mut beside);
}

/// A table of an example of the repository.
fn example(text: &[u8]) -> Table {
    let mut cells = vec![0; tickdrizzle::MOST_CELLS];
    let order = tickdrizzle::load(text, &mut cells).expect("the example loads");
    cells.truncate(order * order);
    Table { order, cells }
}

/// A trial is an unused candidate that is tried as the image of an element.
fn time_embeddings() {
    let searches = Searches {
        name: "first_embedding",
        proved: tickdrizzle::first_embedding,
        limited: tickdrizzle::first_embedding_within,
        plain: plain::first_embedding,
    };
    let time = |name: &str, source: &Table, target: &Table| time_search(&searches, name, source, target);
    let part = example(include_bytes!("../../../../examples/touring/source.csv"));
    let whole = example(include_bytes!("../../../../examples/touring/target.csv"));
    time("group of order 2 in degree 3", &cyclic_group(2), &transformations());
    time("left zeros, 60 in 120", &left_zero(60), &left_zero(120));
    time("chain of 120 onto itself", &chain(120), &chain(120));
    time("null table of order 120 onto itself", &null(120), &null(120));
    let band = relabelled(&rectangular_band(4, 5));
    time("rectangular band 4 by 5 in 8 by 15", &band, &rectangular_band(8, 15));
    time("examples/touring, 31 in 59", &part, &whole);
    time("chain of 7 in unions of 5 points, none", &chain(7), &unions(5));
    time("chain of 8 in unions of 6 points, none", &chain(8), &unions(6));
    let (band, narrow) = (rectangular_band(3, 3), rectangular_band(2, 20));
    time("rectangular band 3 by 3 in 2 by 20, none", &band, &narrow);
}

fn time_isomorphisms() {
    let searches = Searches {
        name: "first_isomorphism",
        proved: tickdrizzle::first_isomorphism,
        limited: tickdrizzle::first_isomorphism_within,
        plain: plain::first_isomorphism,
    };
    let time = |name: &str, source: &Table, target: &Table| time_search(&searches, name, source, target);
    let copy = |name: &str, table: &Table| time(name, &relabelled(table), table);
    copy("degree 3, relabelled", &transformations());
    time("null table of order 120 onto itself", &null(120), &null(120));
    copy("rectangular band 10 by 12, relabelled", &rectangular_band(10, 12));
    copy("cyclic group of order 120, relabelled", &cyclic_group(120));
    copy("unions of 6 points, relabelled", &unions(6));
    let sums = nilpotent(8, 8, |i, j| (i + j) % 8);
    let exclusive_ors = nilpotent(8, 8, |i, j| i ^ j);
    time("nilpotent of order 17, none", &sums, &exclusive_ors);
}

/// Reversed isomorphisms beside plain ones onto the turned target, which make the same search.
fn time_reversed() {
    println!("\n| {:<82} | reversed µs | plain, µs | ratio |", "call");
    println!("|:{:-<82}-|-----------:|----------:|------:|", "");
    for order in [1, 2, 3, 6, 12, 60, 120] {
        time_turned(&format!("left zeros of order {order}"), &left_zero(order));
    }
    time_turned("degree 3", &transformations());
    for corners in [3, 6, 15, 16] {
        time_turned(&format!("dihedral group of order {}", 2 * corners), &dihedral_group(corners));
    }
}

/// A row without a limit, and one with a limit of a million trials.
fn time_turned(name: &str, target: &Table) {
    let n = target.order;
    let across = turned(target);
    let source = relabelled(&across);
    let (mut map, mut scratch) = (vec![0; n], vec![0; tickdrizzle::scratch_size(n, n)]);
    let (mut other_map, mut other_scratch) = (map.clone(), scratch.clone());
    row(
        &format!("first_reversed_isomorphism, {name}"),
        || {
            let cells = black_box(&source.cells);
            tickdrizzle::first_reversed_isomorphism(cells, n, &target.cells, n, &mut map, &mut scratch)
        },
        || {
            let cells = black_box(&source.cells);
            tickdrizzle::first_isomorphism(cells, n, &across.cells, n, &mut other_map, &mut other_scratch)
        },
    );
    assert_eq!((&map, &scratch), (&other_map, &other_scratch), "{name}");
    let limit = 1_000_000;
    row(
        &format!("first_reversed_isomorphism_within, {name}"),
        || {
            let cells = black_box(&source.cells);
            let target = &target.cells;
            tickdrizzle::first_reversed_isomorphism_within(cells, n, target, n, &mut map, &mut scratch, limit)
        },
        || {
            let cells = black_box(&source.cells);
            let target = &across.cells;
            tickdrizzle::first_isomorphism_within(cells, n, target, n, &mut other_map, &mut other_scratch, limit)
        },
    );
    assert_eq!((map, scratch), (other_map, other_scratch), "{name}");
}

fn time_transformations() {
    let (mut cells, mut other) = ([0; 729], [0; 729]);
    row(
        "transformations, degree 3",
        || (tickdrizzle::transformations(black_box(3), &mut cells), cells),
        || (plain::transformations(black_box(3), &mut other), other),
    );
}

fn time_texts() {
    let Table { cells, order } = cyclic_group(120);
    let (mut text, mut other) = (vec![0; 57_720], vec![0; 57_720]);
    row(
        "save, order 120",
        || tickdrizzle::save(black_box(&cells), order, &mut text),
        || plain::save(black_box(&cells), order, &mut other),
    );
    let length = tickdrizzle::save(&cells, order, &mut text).expect("the table can be saved");
    assert_eq!(text, other);
    let (mut cells, mut other) = (vec![0; 14_400], vec![0; 14_400]);
    row(
        "load, order 120",
        || tickdrizzle::load(black_box(&text[..length]), &mut cells),
        || plain::load(black_box(&text[..length]), &mut other),
    );
    assert_eq!(cells, other);
}

/// The longest that a count of copies may take: "more" is said no later.
const COPIES_BAR: Duration = Duration::from_millis(250);

/// Counts of copies, by the library alone: plain counting of all embeddings would not end. Each is held to the bar.
fn time_copies() {
    println!("\n| {:<60} | copies | proved, ms |", "copies");
    println!("|:{:-<60}-|-------:|-----------:|", "");
    let degree_2 = {
        let mut cells = vec![0; 16];
        let order = tickdrizzle::transformations(2, &mut cells).expect("two is a degree");
        Table { order, cells }
    };
    count_copies("null table, 60 in 120", &null(60), &null(120), Copies::More);
    count_copies("null table, 119 in 120", &null(119), &null(120), Copies::Number(119));
    count_copies("null table, 120 onto itself", &null(120), &null(120), Copies::Number(1));
    count_copies("null table, 120 in a chain of 120", &null(120), &chain(120), Copies::Number(0));
    count_copies("null table, 59 in 60", &null(59), &null(60), Copies::Number(59));
    count_copies("left zeros, 60 in 120", &left_zero(60), &left_zero(120), Copies::More);
    count_copies("left zeros, 120 onto itself", &left_zero(120), &left_zero(120), Copies::Number(1));
    count_copies("left zeros, 5 in 20", &left_zero(5), &left_zero(20), Copies::Number(15_504));
    count_copies("chain, 60 in 120", &chain(60), &chain(120), Copies::More);
    count_copies("chain, 98 in 100", &chain(98), &chain(100), Copies::Number(4950));
    count_copies("chain, 10 in 20", &chain(10), &chain(20), Copies::More);
    count_copies("chain, 5 in 20", &chain(5), &chain(20), Copies::Number(15_504));
    count_copies(
        "rectangular band, 5 by 6 in 10 by 12",
        &rectangular_band(5, 6),
        &rectangular_band(10, 12),
        Copies::More,
    );
    let numbers = &mut Numbers::new(1);
    let (band, wider) = (shuffled(&rectangular_band(5, 6), numbers), shuffled(&rectangular_band(10, 12), numbers));
    count_copies("rectangular band, 5 by 6 in 10 by 12, relabelled", &band, &wider, Copies::More);
    let (links, longer) = (shuffled(&chain(98), numbers), shuffled(&chain(100), numbers));
    count_copies("chain, 98 in 100, relabelled", &links, &longer, Copies::Number(4950));
    let (one, another) = (three_nilpotent(18, 8, numbers), three_nilpotent(18, 8, numbers));
    count_copies("3-nilpotent, order 27 in another", &one, &another, Copies::Number(0));
    let large = three_nilpotent(90, 19, numbers);
    count_copies("3-nilpotent, order 110 in the cyclic group of 120", &large, &cyclic_group(120), Copies::Number(0));
    let small = three_nilpotent(18, 4, numbers);
    count_copies("3-nilpotent, order 23 in the cyclic group of 23", &small, &cyclic_group(23), Copies::Number(0));
    count_copies("Z2 x Z2 in Z2 to the fifth", &two_group(2), &two_group(5), Copies::Number(155));
    count_copies("degree 2 in degree 3", &degree_2, &transformations(), Copies::Number(12));
}

fn count_copies(name: &str, source: &Table, target: &Table, expected: Copies) {
    let mut scratch = vec![0; source.order * target.order];
    let start = Instant::now();
    let said = tickdrizzle::copies(&source.cells, source.order, &target.cells, target.order, &mut scratch);
    let time = start.elapsed();
    assert_eq!(said, Ok(expected), "{name}");
    assert!(time < COPIES_BAR, "{name}: {time:?}");
    let number = match expected {
        Copies::Number(number) => number.to_string(),
        Copies::More => "more".to_string(),
    };
    println!("| {name:<60} | {number:>6} | {:>10.2} |", time.as_secs_f64() * 1e3);
}

/// How many trials the paper's search may make beside the library.
const MOST_TRIALS: u64 = 1_000_000;

/// The tables of a search for embeddings.
pub struct Family {
    name: String,
    source: Table,
    target: Table,
}

/// What makes the families, and those searched for embeddings so far.
struct Families {
    numbers: Numbers,
    embeddings: Vec<Family>,
}

/// Searches that the paper's test alone does not settle, or late: the library beside the paper's search with a limit.
fn time_families() {
    println!("\n| {:<76} | answer | library, ms | paper's search, ms |", "call");
    println!("|:{:-<76}-|:-------|------------:|-------------------:|", "");
    let mut families = Families { numbers: Numbers::new(1), embeddings: Vec::new() };
    time_chains_and_bands(&mut families);
    time_groups(&mut families);
    for size in [5, 7, 10] {
        onto(&format!("Brandt semigroup of order {}", size * size + 1), &brandt(size), &mut families);
    }
    for (rows, columns, group) in [(3, 4, 3), (5, 4, 6), (6, 10, 2), (3, 4, 10)] {
        let name = format!("Rees matrix semigroup, {rows} by {columns} over {group}");
        let table = rees(rows, columns, group, &mut families.numbers);
        onto(&name, &table, &mut families);
    }
    for (factors, products) in [(20, 9), (40, 19), (100, 19), (118, 1)] {
        let name = format!("3-nilpotent, {factors} factors, {products} products");
        let table = three_nilpotent(factors, products, &mut families.numbers);
        onto(&name, &table, &mut families);
    }
    for (points, generators) in [(4, 2), (4, 3), (5, 2), (5, 3), (6, 2), (6, 3)] {
        let whole = generated(points, generators, &mut families.numbers);
        let name = format!("{generators} transformations of {points} points generate {}", whole.order);
        onto(&name, &whole, &mut families);
        let chosen: Vec<usize> = (0..3).map(|_| families.numbers.below(whole.order)).collect();
        let some = part(&whole, &chosen);
        into(&format!("a part of order {} of these", some.order), &some, &whole, &mut families);
    }
    pinned::time(&families.embeddings);
}

fn time_chains_and_bands(families: &mut Families) {
    for order in [30, 60, 120] {
        onto(&format!("chain of {order}"), &chain(order), families);
    }
    into("chain of 30 in 60", &chain(30), &chain(60), families);
    into("chain of 60 in 120", &chain(60), &chain(120), families);
    into("rectangular band 8 by 8 in 10 by 12", &rectangular_band(8, 8), &rectangular_band(10, 12), families);
    into("rectangular band 10 by 10 in 9 by 13", &rectangular_band(10, 10), &rectangular_band(9, 13), families);
}

/// Forms of groups with as many elements of each profile that are not isomorphic.
const EQUAL_PROFILES: [([usize; 9], [usize; 9]); 2] = [
    ([3, 6, 1, 7, 4, 3, 3, 1, 5], [6, 2, 7, 1, 1, 4, 5, 5, 6]),
    ([0, 7, 4, 2, 6, 1, 5, 7, 6], [2, 5, 0, 1, 3, 4, 2, 3, 4]),
];

fn time_groups(families: &mut Families) {
    for order in [16, 60, 120] {
        onto(&format!("cyclic group of order {order}"), &cyclic_group(order), families);
        onto(&format!("dihedral group of order {order}"), &dihedral_group(order / 2), families);
    }
    for rank in [4, 5, 6] {
        onto(&format!("elementary abelian group of order {}", 1 << rank), &elementary_group(rank), families);
    }
    into("elementary abelian group of order 16 in D4 × D4", &elementary_group(4), &two_squares(), families);
    into("elementary abelian group of order 32 in D4 × D4", &elementary_group(5), &two_squares(), families);
    for (one, other) in EQUAL_PROFILES {
        let name = "two groups of order 64 with equal profiles";
        isomorphic(name, &form_group(one), &form_group(other), families);
    }
}

/// A table onto itself, relabelled at random: the first embedding and the first isomorphism.
fn onto(name: &str, table: &Table, families: &mut Families) {
    into(&format!("{name}, onto itself"), table, table, families);
    isomorphic(&format!("{name}, onto itself"), table, table, families);
}

fn into(name: &str, source: &Table, target: &Table, families: &mut Families) {
    let (source, target) = (shuffled(source, &mut families.numbers), shuffled(target, &mut families.numbers));
    family_row(&format!("first_embedding, {name}"), false, &source, &target);
    families.embeddings.push(Family { name: name.to_owned(), source, target });
}

fn isomorphic(name: &str, source: &Table, target: &Table, families: &mut Families) {
    let (source, target) = (shuffled(source, &mut families.numbers), shuffled(target, &mut families.numbers));
    family_row(&format!("first_isomorphism, {name}"), true, &source, &target);
}

/// A time in milliseconds, as it is printed.
fn millis(time: Duration) -> String {
    format!("{:.2}", time.as_secs_f64() * 1e3)
}

/// A row: the least of some calls of the library, and the paper's search with a limit.
fn family_row(name: &str, isomorphisms: bool, source: &Table, target: &Table) {
    let (m, n) = (source.order, target.order);
    let (mut map, mut scratch) = (vec![0; m], vec![0; m * n]);
    let call = if isomorphisms { tickdrizzle::first_isomorphism } else { tickdrizzle::first_embedding };
    let mut answer = None;
    let mut search = || answer = call(black_box(&source.cells), m, &target.cells, n, &mut map, &mut scratch).ok();
    let least = (0..FEWEST_SAMPLES).map(|_| sample(1, &mut search)).min().unwrap_or(Duration::MAX);
    let lent = plain::Lent { source: &source.cells, source_order: m, target: &target.cells, target_order: n };
    let (mut other_map, mut other_scratch) = (vec![0; m], vec![0; m * n]);
    let start = Instant::now();
    let settled = plain::settled(isomorphisms, MOST_TRIALS, &lent, &mut other_map, &mut other_scratch);
    let beside = if settled { millis(start.elapsed()) } else { "stopped".to_owned() };
    let said = if answer == Some(tickdrizzle::Search::Found) { "found" } else { "none" };
    assert!(!settled || said == "none" || map == other_map, "{name}");
    println!("| {name:<76} | {said:<6} | {:>11} | {beside:>18} |", millis(least));
}
