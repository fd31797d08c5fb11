//! Counts the semigroups of order 1 to 3: as tables, up to isomorphism, and up to isomorphism or reversed isomorphism: census
//! The three columns are the beginnings of A023814, A027851 and A001423 in the On-Line Encyclopedia of Integer Sequences.

use tickdrizzle::Table;

fn main() {
    println!("order tables isomorphic or-reversed");
    for order in 1..=3 {
        let tables = tables(order);
        let isomorphic = |a: &Table, b: &Table| a.isomorphisms(b).next().is_some();
        let reversed = |a: &Table, b: &Table| a.reversed_isomorphisms(b).next().is_some();
        let classes = representatives(&tables, isomorphic);
        let either = representatives(&tables, |a, b| isomorphic(a, b) || reversed(a, b));
        println!("{order:>5} {:>6} {:>10} {:>11}", tables.len(), classes, either);
    }
}

/// All tables of an order.
fn tables(order: usize) -> Vec<Table> {
    let count = order.pow(u32::try_from(order * order).expect("the order is small"));
    (0..count).filter_map(|number| Table::new(cells(number, order), order).ok()).collect()
}

/// The cells that the digits of a number are, to the base of the order.
fn cells(number: usize, order: usize) -> Vec<u8> {
    let digits = std::iter::successors(Some(number), |rest| Some(rest / order)).map(|rest| rest % order + 1);
    digits.take(order * order).map(|digit| u8::try_from(digit).expect("the order is small")).collect()
}

/// How many classes the tables fall into.
fn representatives(tables: &[Table], same: impl Fn(&Table, &Table) -> bool) -> usize {
    let mut first: Vec<&Table> = Vec::new();
    for table in tables {
        if !first.iter().any(|other| same(other, table)) {
            first.push(table);
        }
    }
    first.len()
}
