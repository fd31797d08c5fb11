//! What every command takes: `--json`, `--quiet`, `--color`; completions.

use crate::run::{answer, failure, folder, program, put, run, run_in};
use serde_json::{json, Value};

/// The fields that every answer has, in their order.
const FIELDS: &str = "{\"shape\":1,\"command\":\"";

fn json(arguments: &[&str], status: i32) -> Value {
    let outcome = run(&[arguments, &["--json"]].concat());
    assert_eq!((outcome.errors.as_str(), outcome.status), ("", status), "{arguments:?}");
    assert!(outcome.output.starts_with(FIELDS) && outcome.output.ends_with("}\n"), "{}", outcome.output);
    let value: Value = serde_json::from_str(&outcome.output).expect("it is JSON");
    let fields: Vec<_> = value.as_object().expect("it is an object").keys().cloned().collect();
    assert_eq!(fields, ["command", "hints", "offer", "result", "says", "shape", "sheets", "status", "written"]);
    value
}

#[test]
fn every_answer_as_json() {
    let found = json(&["move", "examples/named"], 0);
    assert_eq!(
        found,
        json!({
            "shape": 1,
            "command": "move",
            "status": "found",
            "says": "The show fits: its 2 cues go to 2 of the rig's 4.",
            "sheets": [
                {
                    "path": "examples/named/source.csv", "role": "show", "order": 2, "begins": [1, 1], "table": [[1, 2], [2, 1]],
                    "names": ["hold", "second link, up"], "mended": [], "refusal": null, "cells": null,
                    "name_sheet": {"path": "examples/named/source.names.csv", "mended": [], "refusal": null}
                },
                {
                    "path": "examples/named/target.csv", "role": "rig", "order": 4, "begins": [1, 1],
                    "table": [[1, 1, 4, 4], [1, 2, 3, 4], [1, 3, 2, 4], [1, 4, 1, 4]],
                    "names": found["sheets"][1]["names"], "mended": [], "refusal": null, "cells": null,
                    "name_sheet": {"path": "examples/named/target.names.csv", "mended": [], "refusal": null}
                }
            ],
            "result": {"map": {"images": [2, 3], "trials": null, "mirrored": false}},
            "hints": [],
            "offer": null,
            "written": []
        })
    );
    assert_eq!(json(&["move", "examples/none"], 1)["status"], "none");
    assert_eq!(json(&["move", "examples/found", "--limit", "1"], 3)["status"], "stopped");
    let refused = json(&["move", "examples/refused"], 2);
    assert_eq!(refused["status"], "refused");
    assert_eq!(
        refused["sheets"][1]["refusal"],
        json!({
            "question": 3,
            "faults": [{"where": "row 1, column 2 (B1)", "cells": [[1, 2]], "there": "\"3\""}],
            "more": 0,
            "expected": "a cue of this table, 1 to 2",
            "to_do": "correct the cell",
            "repair": null
        })
    );
    assert_eq!(refused["sheets"][1]["cells"]["rows"][0], json!(["1", "3"]));
    let classes = json(&["classes", "examples/classes"], 2);
    let expected = json!({"classes": [{"order": 4, "sheets": [1, 3]}, {"order": 4, "sheets": [2, 5]}, {"order": 3, "sheets": [6]}]});
    assert_eq!(classes["result"], expected);
    let part = json(&["cut", "examples/found/target.csv", "--cues", "3"], 0);
    assert_eq!(part["result"], json!({"part": {"elements": [2, 3], "table": [[1, 2], [2, 1]]}}));
    assert_eq!(json(&["copies", "examples/found"], 0)["result"], json!({"copies": {"number": 1, "more": false}}));
    let positions = json(&["positions", "examples/found"], 0);
    assert_eq!(positions["result"], json!({"positions": {"degree": 2, "positions": [[1, 2], [2, 1]]}}));
    assert_eq!(json(&["check", "examples/found"], 0)["result"], Value::Null);
    let mended = json(&["mend", "--dry-run", "hosts/desk/tests/sheets/excel-tabs.txt"], 0);
    assert_eq!(mended["result"]["mended"][0]["state"], "would_be_written");
    let failed = json(&["move", "nowhere"], 4);
    assert_eq!(
        (&failed["status"], &failed["says"]),
        (&json!("failed"), &json!("nowhere: reading failed: there is no such file"))
    );
}

#[test]
fn quiet_is_the_answer_alone() {
    let here = folder("quiet");
    put(&here, "one.csv", "1\n");
    let words = "The show fits: its 1 cue goes to 1 of the rig's 1.\n  1  ->  1\n";
    assert_eq!(run_in(&here, &["move", "--quiet", "one.csv", "one.csv"]), answer(words, 0));
    let loud = format!(
        "one.csv: mended on reading: rows end in LF.\n{}{words}Note: The show and the rig are the same file.\n",
        "one.csv: mended on reading: rows end in LF.\n"
    );
    assert_eq!(run_in(&here, &["move", "one.csv", "one.csv"]), answer(&loud, 0));
}

#[test]
fn colours() {
    let plain = run(&["check", "examples/found/source.csv"]).output;
    assert!(!plain.contains('\u{1B}'));
    let coloured = "\u{1B}[1;32mexamples/found/source.csv: a linking table of 2 cues.\u{1B}[0m\n";
    assert_eq!(run(&["check", "--color", "always", "examples/found/source.csv"]), answer(coloured, 0));
    for (when, no_color, expected) in
        [("auto", "", true), ("auto", "1", false), ("never", "", false), ("always", "1", true)]
    {
        // `script` runs the program on a terminal of its own.
        let line = format!("'{}' check --color {when} examples/found/source.csv", env!("CARGO_BIN_EXE_tickdrizzle"));
        let mut command = std::process::Command::new("script");
        let done = command
            .args(["-qec", &line, "/dev/null"])
            .env("NO_COLOR", no_color)
            .current_dir(crate::run::root())
            .output();
        let output = String::from_utf8_lossy(&done.expect("script runs").stdout).into_owned();
        assert_eq!(output.contains('\u{1B}'), expected, "{when} {no_color:?}: {output}");
    }
}

#[test]
fn completions_for_each_shell() {
    for (shell, mark) in [("bash", "complete -F"), ("zsh", "#compdef tickdrizzle"), ("fish", "complete -c tickdrizzle")]
    {
        let outcome = run(&["completions", shell]);
        assert_eq!((outcome.errors.as_str(), outcome.status), ("", 0));
        assert!(outcome.output.contains(mark), "{shell}");
        for command in ["move", "check", "classes", "cut", "copies", "positions", "mend"] {
            assert!(outcome.output.contains(command), "{shell} {command}");
        }
        assert!(!outcome.output.contains("search-rigs"), "{shell} offers what people do not give");
    }
    assert_eq!(run(&["completions", "tcsh"]).status, 64);
    let checked = program(&crate::run::root(), &["completions", "bash"]).output().expect("the program runs").stdout;
    let here = folder("completions");
    put(&here, "tickdrizzle.bash", checked);
    let done = std::process::Command::new("bash").args(["-n", "tickdrizzle.bash"]).current_dir(&here).output();
    assert!(done.expect("bash runs").status.success());
}

#[test]
fn limits_are_told_in_the_help() {
    let help = run(&["move", "--help"]).output.split_whitespace().collect::<Vec<_>>().join(" ");
    let limit = "Searches as the paper does, which is slower, and gives up after so many trials; says how many it took";
    assert!(help.contains(limit), "{help}");
    let both = run(&["move", "--limit", "1", "--timeout", "1s", "examples/found"]);
    assert_eq!((both.output.as_str(), both.status), ("", 64));
    assert_ne!(both, failure("", 64));
    let wrong =
        "error: Invalid value '1,5s' for '--timeout <TIME>': this is no time: give one such as 10s, 2m or 500ms\n\n\
                 For more information try '--help'\n";
    assert_eq!(run(&["move", "--timeout", "1,5s", "examples/found"]), failure(wrong, 64));
}

#[test]
fn standard_output_takes_one_thing() {
    let words = "standard output takes the answer as JSON, the page or the sheet, not two of them";
    let found = ["move", "examples/found"];
    let cut = ["cut", "examples/found", "--cues", "1"];
    for arguments in [
        &[&found[..], &["--html", "-", "--output", "-"]].concat(),
        &[&cut[..], &["--html", "-", "--output", "-"]].concat(),
    ] {
        assert_eq!(run(arguments), failure(&format!("tickdrizzle: {words}\n"), 64));
    }
    for arguments in [
        &[&found[..], &["--html", "-"]].concat(),
        &[&found[..], &["--output", "-"]].concat(),
        &[&cut[..], &["--output", "-"]].concat(),
        &vec!["classes", "examples/classes", "--html", "-"],
        &vec!["rigs", "examples/found", "examples/classes", "--html", "-"],
        &vec!["mend", "-"],
    ] {
        let told = json(arguments, 64);
        assert_eq!((&told["status"], &told["says"]), (&json!("usage"), &json!(words)), "{arguments:?}");
    }
}
