//! Building cues, the shorter check, and what repeated cues settle on.

use crate::run::{answer, folder, put, run, run_in};
use serde_json::{json, Value};

#[test]
fn a_list_of_building_cues() {
    let words = "2 cues build all 4; none of them can be left out, but a shorter list of others may do:\n  1\n  3\n\
                 For the shorter check: --cues 1,3\n";
    assert_eq!(run(&["cues", "examples/found/target.csv"]), answer(words, 0));
    let here = folder("cues");
    put(&here, "one.csv", "2,3,1\r\n3,1,2\r\n1,2,3\r\n");
    put(&here, "one.names.csv", "1,go\r\n2,\"go, go\"\r\n3,stay\r\n");
    let one = "1 cue builds all 3:\n  1 \"go\"\nFor the shorter check: --cues 1\n";
    assert_eq!(run_in(&here, &["cues", "one.csv"]), answer(one, 0));
}

#[test]
fn the_shorter_check() {
    let words = "examples/found/target.csv: a linking table of 4 cues, built from 1,3.\n";
    assert_eq!(run(&["check", "examples/found/target.csv", "--cues", "1,3"]), answer(words, 0));
    let not_all = "examples/found/target.csv: refused (question 51).\n  where:     --cues\n  \
                   there:     cues from which 2 of 4 are linked; the first that is not is cue 1\n  \
                   expected:  cues from which all others are linked\n  \
                   to do:     add cues to the list; this finds one: tickdrizzle cues examples/found/target.csv\n";
    for cues in ["3", "3,3"] {
        assert_eq!(run(&["check", "examples/found/target.csv", "--cues", cues]), answer(not_all, 2));
    }
    let outside = "examples/found/target.csv: refused (question 50).\n  where:     --cues\n  \
                   there:     300, which the table does not have\n  expected:  cues of this table, 1 to 4\n  \
                   to do:     choose cues that the table has\n";
    assert_eq!(run(&["check", "examples/found/target.csv", "--cues", "1,300"]), answer(outside, 2));
    let here = folder("shorter-check");
    put(&here, "wrong.csv", "2,1\r\n1,1\r\n");
    let full = run_in(&here, &["check", "wrong.csv"]);
    assert_eq!((run_in(&here, &["check", "wrong.csv", "--cues", "1"]), full.status), (full, 2));
}

#[test]
fn what_cues_settle_on() {
    let words =
        "What each of the 2 cues settles on when it is repeated:\n  1  is settled: repeating it changes nothing\n  \
                 2  settles on 1 after 2 times and again every 2 times; this rhythm begins with time 1\n";
    assert_eq!(run(&["settles", "examples/found/source.csv"]), answer(words, 0));
    let here = folder("settles");
    // Cue 1 twice is 2, three times 3, four times 2 again, and so on.
    put(&here, "four.csv", "2,3,2\r\n3,2,3\r\n2,3,2\r\n");
    put(&here, "four.names.csv", "1,go\r\n2,up\r\n3,down\r\n");
    let some = "What each of the 2 chosen cues settles on when it is repeated:\n  \
                1 \"go\"  settles on 2 \"up\" after 2 times and again every 2 times; this rhythm begins with time 2\n  \
                2 \"up\"  is settled: repeating it changes nothing\n";
    assert_eq!(run_in(&here, &["settles", "four.csv", "go", "2"]), answer(some, 0));
    let other = "four.csv: refused (question 7).\n  where:     cue 1 of the arguments\n  there:     \"away\"\n  \
                 expected:  a cue of this table, 1 to 3, or its name\n  to do:     choose cues that the table has\n";
    assert_eq!(run_in(&here, &["settles", "four.csv", "away"]), answer(other, 2));
    let told: Value =
        serde_json::from_str(&run_in(&here, &["settles", "four.csv", "1", "--json"]).output).expect("it is JSON");
    assert_eq!(told["result"], json!({"settles": [{"cue": 1, "settles_on": 2, "times": 2, "index": 2, "period": 2}]}));
}

#[test]
fn a_cue_that_settles_late() {
    let here = folder("settles-late");
    // 1, then 2, then 3 for good.
    put(&here, "late.csv", "2,3,3\r\n3,3,3\r\n3,3,3\r\n");
    let words =
        "What the 1 chosen cue settles on when it is repeated:\n  1  settles on 3 after 3 times and stays there\n";
    assert_eq!(run_in(&here, &["settles", "late.csv", "1"]), answer(words, 0));
}
