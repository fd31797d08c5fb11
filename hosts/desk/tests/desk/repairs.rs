//! Which change of one cell repairs a table: whole outputs, and a hundred random tables with a wrong cell against a plain search.

use crate::plain::is_associative;
use crate::random::{of_maps, sheet, Random};
use crate::run::{answer, folder, put, run_in};
use serde_json::{json, Value};
use std::fs;

#[test]
fn one_change() {
    let here = folder("repair");
    // The table of a group of three, with 1·2 = 3 in place of 2, below a heading.
    let wrong = "a,b,c\n1,3,3\n2,3,1\n3,1,2\n";
    put(&here, "wrong.csv", wrong);
    let words = "wrong.csv: mended on reading: rows end in LF; row 1 looks like a heading: left out.\n\
                 wrong.csv: refused (question 4).\n  \
                 where:     cues 1, 2, 2\n  there:     1·2 = 3, 3·2 = 1; 2·2 = 3, 1·3 = 3\n  \
                 expected:  the same cue both ways: (1·2)·2 = 1·(2·2)\n  \
                 to do:     one of these cells is wrong: row 2, column 2 (B2); row 4, column 2 (B4); row 3, column 2 (B3); row 2, column 3 (C2)\n  \
                 perhaps:   row 2, column 2 (B2): 3 should perhaps be 2; then the table is a linking table, and no other change of \
                 one cell does that\n";
    assert_eq!(run_in(&here, &["check", "wrong.csv"]), answer(words, 2));
    assert_eq!(fs::read_to_string(here.join("wrong.csv")).expect("it is there"), wrong);
}

#[test]
fn several_changes_and_none() {
    let here = folder("repair-several");
    put(&here, "several.csv", "2,1\r\n1,1\r\n");
    let head = "several.csv: refused (question 4).\n  where:     cues 1, 1, 2\n  there:     1·1 = 2, 2·2 = 1; 1·2 = 1, 1·1 = 2\n  \
                expected:  the same cue both ways: (1·1)·2 = 1·(1·2)\n  \
                to do:     one of these cells is wrong: row 1, column 1 (A1); row 2, column 2 (B2); row 1, column 2 (B1)\n  \
                perhaps:   not clear: each of 2 changes of one cell, in 2 of these cells, makes it a linking table\n";
    assert_eq!(run_in(&here, &["check", "several.csv"]), answer(head, 2));
    put(&here, "none.csv", "2,3,1\r\n3,3,3\r\n1,1,2\r\n");
    let none = run_in(&here, &["check", "none.csv"]).output;
    let perhaps = "  perhaps:   more than one cell: no change of one cell makes it a linking table\n";
    assert!(none.ends_with(perhaps), "{none}");
}

#[test]
fn a_hundred_wrong_cells() {
    let here = folder("repairs-random");
    let mut random = Random::new(4);
    let (mut tried, mut alone) = (0, 0);
    while tried < 100 {
        let mut table = of_maps(&mut random, 8);
        let order = table.len();
        for _ in 0..=random.below(2) {
            table[random.below(order)][random.below(order)] =
                u8::try_from(1 + random.below(order)).expect("orders are small");
        }
        if is_associative(&table) {
            continue;
        }
        tried += 1;
        put(&here, "wrong.csv", sheet(&table));
        let outcome = run_in(&here, &["check", "wrong.csv", "--json"]);
        let told: Value = serde_json::from_str(&outcome.output).expect("it is JSON");
        let repair = &told["sheets"][0]["refusal"]["repair"];
        assert_eq!(repair["complete"], true);
        let mut changes = repair["changes"].as_array().expect("it is a list").clone();
        changes.sort_by_key(|change| ["row", "column", "instead"].map(|field| change[field].as_u64()));
        let mut expected = Vec::new();
        for row in 0..order {
            for column in 0..order {
                let there = table[row][column];
                for instead in 1..=u8::try_from(order).expect("orders are small") {
                    table[row][column] = instead;
                    if is_associative(&table) {
                        expected
                            .push(json!({"row": row + 1, "column": column + 1, "there": there, "instead": instead}));
                    }
                }
                table[row][column] = there;
            }
        }
        alone += usize::from(expected.len() == 1);
        assert_eq!(changes, expected, "{table:?}");
    }
    assert!(alone >= 20, "{alone}");
}
