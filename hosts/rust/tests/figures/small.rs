//! Every accepted table of a small order, filled cell by cell.

use crate::tables::Table;

/// All accepted tables of an order. A triple is looked at as soon as its cells are filled; the library has the last word.
pub fn accepted(order: usize) -> Vec<Table> {
    let mut tables = Vec::new();
    fill(&mut vec![0; order * order], order, 0, &mut tables);
    tables
}

fn fill(cells: &mut Vec<u8>, order: usize, place: usize, tables: &mut Vec<Table>) {
    if place == cells.len() {
        if tickdrizzle::check_table(cells, order).is_ok() {
            tables.push(Table { cells: cells.clone(), order });
        }
        return;
    }
    for product in 1..=order {
        cells[place] = product as u8;
        if triples_agree(cells, order) {
            fill(cells, order, place + 1, tables);
        }
    }
    cells[place] = 0;
}

/// Whether no triple fails whose cells are all filled; a cell of 0 is not filled yet.
fn triples_agree(cells: &[u8], order: usize) -> bool {
    let times = |i: usize, j: usize| match (i, j) {
        (0, _) | (_, 0) => 0,
        _ => usize::from(cells[(i - 1) * order + (j - 1)]),
    };
    let all = 1..=order;
    let fails = |i: usize, j: usize, k: usize| {
        let (left, right) = (times(times(i, j), k), times(i, times(j, k)));
        left != 0 && right != 0 && left != right
    };
    !all.clone().any(|i| all.clone().any(|j| all.clone().any(|k| fails(i, j, k))))
}
