//! Cuts out of all transformations of three points the part that each two of them generate, a thread for each first one, and
//! prints how many different parts there are of each order: parts

use std::collections::{BTreeMap, BTreeSet};
use std::thread;
use tickdrizzle::{Refusal, Table};

fn main() -> Result<(), Refusal> {
    let all = &Table::transformations(3)?;
    let mut parts = BTreeSet::new();
    thread::scope(|scope| {
        let threads: Vec<_> = elements(all).map(|first| scope.spawn(move || cut(all, first))).collect();
        for thread in threads {
            parts.extend(thread.join().expect("no thread panics")?);
        }
        Ok(())
    })?;
    let mut orders = BTreeMap::new();
    for part in &parts {
        *orders.entry(part.len()).or_insert(0) += 1;
    }
    for (order, count) in orders {
        println!("order {order}: {count}");
    }
    println!("{} in all", parts.len());
    Ok(())
}

fn elements(table: &Table) -> impl Iterator<Item = u8> {
    1..=u8::try_from(table.order()).expect("a table has at most 120 elements")
}

/// The elements of the parts that an element generates with each other one.
fn cut(all: &Table, first: u8) -> Result<Vec<Vec<u8>>, Refusal> {
    elements(all).map(|second| Ok(all.part(&[first, second])?.elements)).collect()
}
