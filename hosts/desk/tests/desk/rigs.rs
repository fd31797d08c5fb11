//! Which rigs take a show.

use crate::plain::fits;
use crate::random::{of_maps, sheet, Random};
use crate::run::{failure, folder, graph, put, run_in, Outcome};
use serde_json::Value;
use std::fs;
use std::path::PathBuf;

/// A folder with a show whose first cue decides, and rigs of every outcome.
fn rigs(name: &str) -> PathBuf {
    let here = folder(name);
    put(&here, "show.csv", "1,1\r\n2,2\r\n");
    fs::create_dir(here.join("rigs")).expect("folders can be made");
    put(&here, "rigs/a.csv", "1,1,1\r\n2,2,2\r\n3,3,3\r\n");
    put(&here, "rigs/b.csv", "1,2\n1,2\n");
    put(&here, "rigs/c.csv", "1,2\r\n2,1\r\n");
    put(&here, "rigs/d.csv", "1,3\r\n1,1\r\n");
    put(&here, "rigs/e.ods", "no workbook");
    put(&here, "rigs/answer.csv", "found,2,2\r\n");
    here
}

/// The output with every time in milliseconds written as 0.
fn timeless(outcome: Outcome) -> Outcome {
    let mut output = String::new();
    for line in outcome.output.lines() {
        let line = match line.strip_suffix(" ms)") {
            Some(front) => format!("{} 0 ms)", front.trim_end_matches(|c: char| c.is_ascii_digit()).trim_end())
                .replace("( 0", "(0"),
            None => line.to_owned(),
        };
        output += &(line + "\n");
    }
    Outcome { output, ..outcome }
}

#[test]
fn a_line_for_each_rig() {
    let here = rigs("rigs");
    let words = "rigs/b.csv: mended on reading: rows end in LF.\n\
                 1 of 6 rigs takes the show of 2 cues; 1 would, read column first; 3 refused.\n  \
                 rigs/a.csv   fits in 3 places (3 cues, 0 ms)\n  \
                 rigs/b.csv   does not fit; read column first it does (2 cues, 0 ms)\n  \
                 rigs/c.csv   does not fit, nor read column first (2 cues, 0 ms)\n  \
                 rigs/d.csv   refused (question 3): row 1, column 2 (B1): \"3\" (0 ms)\n  \
                 rigs/e.ods   refused (question 21): row 1, column 1 (A1): \"no workbook\" (0 ms)\n  \
                 nowhere.csv  refused: the whole file: reading failed: there is no such file (0 ms)\n\
                 Note: Left out: answer.csv (answers of this program and mended copies).\n\
                 Note: Left out: show.csv (the show itself).\n";
    let told = timeless(run_in(&here, &["rigs", "show.csv", "rigs", "nowhere.csv", "show.csv"]));
    assert_eq!((told.output.as_str(), told.errors.as_str(), told.status), (words, "", 0));
    let none = run_in(&here, &["rigs", "show.csv", "rigs/b.csv", "rigs/c.csv", "--quiet"]);
    assert_eq!(
        (none.output.lines().next(), none.status),
        (Some("0 of 2 rigs take the show of 2 cues; 1 would, read column first."), 1)
    );
    assert_eq!(run_in(&here, &["rigs", "show.csv", "rigs/d.csv"]).status, 2);
    let twice = "tickdrizzle: standard input (-) is one sheet; give the others as files\n";
    assert_eq!(run_in(&here, &["rigs", "-", "-"]), failure(twice, 64));
}

#[test]
fn records_and_pages() {
    let here = rigs("rigs-csv");
    let told = run_in(&here, &["rigs", "--csv", "--quiet", "show.csv", "rigs"]);
    let records: Vec<_> = told.output.split("\r\n").map(|line| line.rsplit_once(',').unwrap_or_default().0).collect();
    let expected = [
        "rig,outcome,cues,places,mirrored",
        "rigs/a.csv,fits,3,3,",
        "rigs/b.csv,none,2,,fits",
        "rigs/c.csv,none,2,,none",
        "rigs/d.csv,refused,,,",
        "rigs/e.ods,refused,,,",
        "",
    ];
    assert_eq!((&records[..], told.status), (&expected[..], 0));
    assert_eq!(run_in(&here, &["rigs", "show.csv", "rigs", "--html", "rigs.html"]).status, 0);
    let page = fs::read_to_string(here.join("rigs.html")).expect("it was written");
    assert!(page.contains("<tr class=\"fits\"><th scope=\"row\">rigs/a.csv<td>3<td>fits in 3 places<td>"), "{page}");
    let onto = run_in(&here, &["rigs", "show.csv", "rigs", "--html", "rigs/c.csv", "--force"]);
    assert_eq!((onto.status, fs::read(here.join("rigs/c.csv")).expect("it is there")), (4, b"1,2\r\n2,1\r\n".to_vec()));
}

#[test]
fn a_rig_that_takes_too_long_stops_no_other() {
    let here = folder("rigs-long");
    put(&here, "show.csv", graph(50, 1));
    put(&here, "long.csv", graph(110, 2));
    put(&here, "same.csv", graph(50, 1));
    let told = timeless(run_in(&here, &["rigs", "show.csv", "long.csv", "same.csv", "--timeout", "2s"]));
    let head = "1 of 2 rigs takes the show of 52 cues; 1 could not be told within 2s.\n";
    assert!(told.output.starts_with(head), "{}", told.output);
    assert_eq!(told.status, 0);
}

#[test]
fn as_a_plain_search_says() {
    let here = folder("rigs-random");
    let mut random = Random::new(6);
    let show = of_maps(&mut random, 5);
    put(&here, "show.csv", sheet(&show));
    let rigs: Vec<_> = (0..40).map(|_| of_maps(&mut random, 12)).collect();
    fs::create_dir(here.join("rigs")).expect("folders can be made");
    for (place, rig) in rigs.iter().enumerate() {
        put(&here, &format!("rigs/{place:02}.csv"), sheet(rig));
    }
    let told: Value =
        serde_json::from_str(&run_in(&here, &["rigs", "show.csv", "rigs", "--json"]).output).expect("it is JSON");
    let all: Vec<u8> = (1..=u8::try_from(show.len()).expect("it is small")).collect();
    for (place, rig) in rigs.iter().enumerate() {
        let turned: Vec<Vec<u8>> = (0..rig.len()).map(|j| rig.iter().map(|row| row[j]).collect()).collect();
        let found = &told["result"]["rigs"][place];
        assert_eq!(found["sheet"], place + 2);
        if fits(&show, &all, rig) {
            assert_eq!(found["outcome"], "fits");
        } else {
            assert_eq!((&found["outcome"], &found["mirrored"]), (&"none".into(), &fits(&show, &all, &turned).into()));
        }
    }
}

#[test]
fn searches_that_take_too_long_take_nothing_from_later_ones() {
    let here = folder("rigs-later");
    put(&here, "show.csv", graph(50, 1));
    fs::create_dir(here.join("rigs")).expect("folders can be made");
    for rig in 1..=6 {
        put(&here, &format!("rigs/{rig}.csv"), graph(110, 2));
    }
    put(&here, "rigs/itself.csv", graph(50, 1));
    let told = run_in(&here, &["rigs", "show.csv", "rigs", "--timeout", "300ms", "--quiet"]);
    let says = "1 of 7 rigs takes the show of 52 cues; 6 could not be told within 300ms.";
    assert_eq!((told.output.lines().next(), told.errors.as_str(), told.status), (Some(says), "", 0));
}
