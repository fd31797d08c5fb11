//! Which change of one cell makes a table a linking table, where question 4 fails.
//!
//! Such a change is in one of the cells that the failing triple looks up, or the triple would still fail; so every change of one cell is
//! tried where every value in these cells is. Each table is checked by the library, given cues that build it, which is quicker.

use crate::answer::{Change, Repair};
use crate::building::generators;
use crate::patience::told_within;
use crate::words::{count, row_and_column};
use std::time::Duration;
use tickdrizzle::{check_generated, check_table, Question};

/// How long the changes may be tried.
const PATIENCE: Duration = Duration::from_secs(1);

/// The changes that repair a table, in cells given by row and column, counted from 1; the sheet's rows and columns before the table are
/// counted in.
pub fn of(cells: &[u8], order: usize, suspects: &[(usize, usize)], (top, left): (usize, usize)) -> Repair {
    let (lent, tried) = (cells.to_vec(), suspects.to_vec());
    let (told, complete) = told_within(Some(PATIENCE), move |tell| try_all(lent, order, &tried, tell));
    let change = |(row, column, instead): (usize, usize, u8)| {
        let there = cells[(row - 1) * order + (column - 1)];
        Change { row: top + row, column: left + column, there, instead }
    };
    let changes: Vec<_> = told.into_iter().map(change).collect();
    Repair { says: sentence(&changes, complete), changes, complete }
}

fn sentence(changes: &[Change], complete: bool) -> String {
    match changes {
        _ if !complete => {
            format!("the changes of one cell that would repair the table were not all tried within {PATIENCE:?}")
        }
        [] => "more than one cell: no change of one cell makes it a linking table".into(),
        [change] => format!(
            "{}: {} should perhaps be {}; then the table is a linking table, and no other change of one cell does that",
            row_and_column(change.row, change.column),
            change.there,
            change.instead
        ),
        _ => {
            let cells =
                1 + changes.windows(2).filter(|two| (two[0].row, two[0].column) != (two[1].row, two[1].column)).count();
            format!(
                "not clear: each of {} of one cell, in {} of these cells, makes it a linking table",
                count(changes.len(), "change"),
                cells
            )
        }
    }
}

/// Tells each change of a suspect that gives a linking table.
fn try_all(mut cells: Vec<u8>, order: usize, suspects: &[(usize, usize)], tell: &dyn Fn((usize, usize, u8)) -> bool) {
    let building = generators(&cells, order);
    for &(row, column) in suspects {
        let place = (row - 1) * order + (column - 1);
        let there = cells[place];
        for instead in (1..=u8::try_from(order).expect("orders are at most 120")).filter(|&value| value != there) {
            cells[place] = instead;
            if is_table(&cells, order, &building) && !tell((row, column, instead)) {
                return;
            }
        }
        cells[place] = there;
    }
}

/// Whether cells are a linking table. The building cues are those of a table that differs in a cell; where they do not build this one,
/// the library checks it without them.
fn is_table(cells: &[u8], order: usize, building: &[u8]) -> bool {
    match check_generated(cells, order, building) {
        Err(refusal) if refusal.question == Question::Generation => check_table(cells, order).is_ok(),
        checked => checked.is_ok(),
    }
}
