//! How long counts of copies take: families at every order, relabelled, and random pairs from a seed. Prints the longest
//! and how many are above the bars. Times are processor times, so other work on the machine counts little.

#[path = "../ratios/families.rs"]
#[allow(dead_code)]
mod families;
#[path = "../ratios/tables.rs"]
#[allow(dead_code)]
mod tables;

use families::{
    brandt, direct_product, elementary_group, form_group, generated, part, rees, shuffled, three_nilpotent, Numbers,
};
use std::time::Duration;
use tables::{chain, cyclic_group, dihedral_group, left_zero, null, rectangular_band, turned, unions, Table};
use tickdrizzle::Copies;

const ORDER: usize = 120;
const FAMILY_BAR: Duration = Duration::from_millis(250);
const PAIR_BAR: Duration = Duration::from_secs(1);

fn main() {
    let words: Vec<u64> = std::env::args().skip(1).filter_map(|word| word.parse().ok()).collect();
    let pairs = words.first().copied().unwrap_or(2000);
    let seed = words.get(1).copied().unwrap_or(1);
    draw_pairs(pairs, seed, &mut Numbers::new(seed));
    sweep_families(&mut Numbers::new(seed));
}

/// A count and how long it took.
struct Counted {
    copies: Copies,
    time: Duration,
}

fn count(source: &Table, target: &Table) -> Counted {
    let mut scratch = vec![0; source.order * target.order];
    let start = processor_time();
    let copies = tickdrizzle::copies(&source.cells, source.order, &target.cells, target.order, &mut scratch)
        .expect("both are tables");
    Counted { copies, time: processor_time() - start }
}

/// How long this thread has run.
fn processor_time() -> Duration {
    let text = std::fs::read_to_string("/proc/thread-self/schedstat").expect("Linux tells how long a thread has run");
    let nanoseconds = text.split(' ').next().and_then(|field| field.parse().ok()).expect("its first field is a number");
    Duration::from_nanos(nanoseconds)
}

fn said(copies: Copies) -> String {
    match copies {
        Copies::Number(number) => number.to_string(),
        Copies::More => "more".to_string(),
    }
}

/// Each family at every order below that of its largest target, in order and relabelled.
fn sweep_families(numbers: &mut Numbers) {
    println!("\n| {:<64} | copies | longest, ms | at source order |", "family");
    println!("|:{:-<64}-|-------:|------------:|----------------:|", "");
    let every = 1..ORDER;
    sweep("null tables in that of order 120", every.clone().map(null), &null(ORDER));
    sweep("left zeros in those of order 120", every.clone().map(left_zero), &left_zero(ORDER));
    sweep(
        "right zeros in those of order 120",
        every.clone().map(|n| turned(&left_zero(n))),
        &turned(&left_zero(ORDER)),
    );
    sweep("chains in that of order 120", every.clone().map(chain), &chain(ORDER));
    sweep("chains in that of order 100", (1..100).map(chain), &chain(100));
    sweep("cyclic groups in that of order 120", every.clone().map(cyclic_group), &cyclic_group(ORDER));
    sweep("unions of points in those of 6", (1..6).map(unions), &unions(6));
    sweep("elementary groups in that of rank 6", (1..6).map(elementary_group), &elementary_group(6));
    let bands = || (1..=10).flat_map(move |i| (1..=12).map(move |j| rectangular_band(i, j)));
    sweep("rectangular bands in that of 10 by 12", bands(), &rectangular_band(10, 12));
    let flat = (1..60).map(|columns| rectangular_band(2, columns));
    sweep("rectangular bands of 2 rows in that of 2 by 60", flat, &rectangular_band(2, 60));
    sweep("dihedral groups in that of order 120", (1..60).map(dihedral_group), &dihedral_group(60));
    sweep("Brandt semigroups in that of order 101", (1..10).map(brandt), &brandt(10));
    let wholes = [
        ("parts of a Rees matrix semigroup, 3 by 4 over 10", rees(3, 4, 10, numbers)),
        ("parts of a 3-nilpotent table of order 120", three_nilpotent(60, 59, numbers)),
        ("parts of what 3 transformations of 5 points generate", generated(5, 3, numbers)),
    ];
    for (name, whole) in wholes {
        let parts: Vec<Table> = (1..whole.order).map(|many| part(&whole, &chosen(many, &whole, numbers))).collect();
        sweep(name, parts.into_iter(), &whole);
    }
    let apart = |tables: Vec<Table>, numbers: &mut Numbers| -> Vec<Table> {
        tables.iter().map(|table| shuffled(table, numbers)).collect()
    };
    let shuffles: [(&str, Vec<Table>, Table); 4] = [
        ("null tables in that of order 120, relabelled", every.clone().map(null).collect(), null(ORDER)),
        ("chains in that of order 120, relabelled", every.map(chain).collect(), chain(ORDER)),
        ("chains in that of order 100, relabelled", (1..100).map(chain).collect(), chain(100)),
        ("rectangular bands in that of 10 by 12, relabelled", bands().collect(), rectangular_band(10, 12)),
    ];
    for (name, sources, target) in shuffles {
        let target = shuffled(&target, numbers);
        sweep(name, apart(sources, numbers).into_iter(), &target);
    }
}

fn sweep(name: &str, sources: impl Iterator<Item = Table>, target: &Table) {
    let counts = sources.map(|source| (source.order, count(&source, target)));
    let (order, longest) = counts.max_by_key(|(_, counted)| counted.time).expect("there is a source");
    let over = if longest.time > FAMILY_BAR { " above the bar" } else { "" };
    println!(
        "| {name:<64} | {:>6} | {:>11.1} | {order:>15} |{over}",
        said(longest.copies),
        longest.time.as_secs_f64() * 1e3
    );
}

/// Random pairs: groups, bands, nilpotents, parts of transformations, products; half of the sources a part of the target,
/// all sources and half of the targets relabelled.
fn draw_pairs(pairs: u64, seed: u64, numbers: &mut Numbers) {
    let mut longest: Vec<(Duration, String)> = Vec::new();
    let (mut quick, mut slow) = (0, 0);
    for number in 0..pairs {
        let (name, whole) = drawn(numbers);
        let (kind, source) = if numbers.below(2) == 0 {
            let many = 1 + numbers.below(whole.order);
            ("a part".to_string(), part(&whole, &chosen(many, &whole, numbers)))
        } else {
            drawn(numbers)
        };
        let source = shuffled(&source, numbers);
        let target = if numbers.below(2) == 0 { shuffled(&whole, numbers) } else { whole };
        let counted = count(&source, &target);
        quick += u64::from(counted.time <= FAMILY_BAR);
        slow += u64::from(counted.time > PAIR_BAR);
        let told = format!(
            "pair {number}: {kind} of order {} in {name} of order {}: {} copies, {:.3} s",
            source.order,
            target.order,
            said(counted.copies),
            counted.time.as_secs_f64()
        );
        if counted.time > PAIR_BAR {
            println!("{told}");
        }
        longest.push((counted.time, told));
        longest.sort_by_key(|(time, _)| std::cmp::Reverse(*time));
        longest.truncate(10);
    }
    println!("\n{pairs} random pairs, seed {seed}: {quick} within 0.25 s, {slow} above 1 s. The longest:");
    for (_, told) in longest {
        println!("{told}");
    }
}

/// Some elements of a table, counted from 0 and perhaps several times.
fn chosen(many: usize, table: &Table, numbers: &mut Numbers) -> Vec<usize> {
    (0..many).map(|_| numbers.below(table.order)).collect()
}

/// A table of some family, of order at most 120.
fn drawn(numbers: &mut Numbers) -> (String, Table) {
    let (name, table) = match numbers.below(12) {
        0 => ("a cyclic group", cyclic_group(1 + numbers.below(ORDER))),
        1 => ("a dihedral group", dihedral_group(1 + numbers.below(ORDER / 2))),
        2 => ("an elementary group", elementary_group(1 + numbers.below(6))),
        3 => ("a group of order 64", form_group(std::array::from_fn(|_| numbers.below(8)))),
        4 => {
            let rows = 1 + numbers.below(12);
            ("a rectangular band", rectangular_band(rows, 1 + numbers.below(ORDER / rows)))
        }
        5 => ("a chain", chain(1 + numbers.below(ORDER))),
        6 => ("a null table", null(1 + numbers.below(ORDER))),
        7 => {
            let factors = 2 + numbers.below(80);
            ("a 3-nilpotent table", three_nilpotent(factors, 1 + numbers.below(ORDER - factors - 1), numbers))
        }
        8 => ("a Brandt semigroup", brandt(1 + numbers.below(10))),
        9 => {
            let (rows, columns) = (1 + numbers.below(5), 1 + numbers.below(5));
            ("a Rees matrix semigroup", rees(rows, columns, 1 + numbers.below(ORDER / rows / columns), numbers))
        }
        10 => {
            let points = 4 + numbers.below(3);
            ("transformations", generated(points, 2 + numbers.below(3), numbers))
        }
        _ => {
            let a = small(numbers);
            let most = ORDER / a.order;
            let b = loop {
                let b = small(numbers);
                if b.order <= most {
                    break b;
                }
            };
            ("a direct product", direct_product(&a, &b))
        }
    };
    (name.to_string(), table)
}

/// A small factor of a product.
fn small(numbers: &mut Numbers) -> Table {
    match numbers.below(6) {
        0 => cyclic_group(1 + numbers.below(11)),
        1 => chain(1 + numbers.below(11)),
        2 => null(1 + numbers.below(11)),
        3 => left_zero(1 + numbers.below(11)),
        4 => unions(1 + numbers.below(3)),
        _ => three_nilpotent(2 + numbers.below(3), 1 + numbers.below(4), numbers),
    }
}
