//! Why a show does not fit: whole outputs, and a hundred random shows and rigs against a plain search.

use crate::plain::{choices, closure, fits, keeps, Table};
use crate::random::{of_maps, sheet, Random};
use crate::run::{answer, folder, graph, put, run, run_in};
use serde_json::Value;
use std::path::Path;

#[test]
fn a_reason_in_words() {
    let none = "The show does not fit: there is no way to give its 2 cues partners among the rig's 4.\n\
                Each smaller part that one, two or three cues make has a place (2 parts); the whole show has none.\n\
                Without cue 1, 1 of 2 cues can be moved.\nMore cannot, where one, two or three of its building cues (1, 2) are left out.\n\
                What is said of parts is certain; what to leave out is a suggestion.\n\
                The partners of what can be moved:\n  2  ->  1\n";
    assert_eq!(run(&["why", "examples/none"]), answer(none, 1));
    let found =
        "The show fits: its 2 cues go to 2 of the rig's 4. There is nothing to explain.\n  1  ->  2\n  2  ->  3\n";
    assert_eq!(run(&["why", "examples/found"]), answer(found, 0));
    assert_eq!(run(&["why", "examples/refused"]).status, 2);
}

/// A show of two cues that change places, as the rig has none, with a cue beside them that does nothing; named.
fn with_a_change(name: &str) -> std::path::PathBuf {
    let here = folder(name);
    put(&here, "source.csv", "1,2,3\r\n2,1,3\r\n3,3,3\r\n");
    put(&here, "source.names.csv", "1,stay\r\n2,change\r\n3,dark\r\n");
    put(&here, "target.csv", "1,1,1\r\n1,2,2\r\n1,2,3\r\n");
    here
}

#[test]
fn a_cue_without_a_place() {
    let here = with_a_change("reason");
    let head = "The show does not fit: there is no way to give its 3 cues partners among the rig's 3.\n";
    let reason = "Cue 2 \"change\" with what it links to (2 cues: 1, 2) already has no place on this rig.\n";
    assert_eq!(run_in(&here, &["move", "."]), answer(&format!("{head}{reason}"), 1));
    assert_eq!(run_in(&here, &["move", "--csv", "."]), answer("none,3,3\r\n", 1));
    let rest = "Each smaller part that one cue makes has one.\n\
                Without cue 2 \"change\", 1 of 3 cues can be moved.\nMore cannot, where one, two or three of its building cues (2, 3) are left out.\n\
                What is said of parts is certain; what to leave out is a suggestion.\n\
                The partners of what can be moved:\n  3 \"dark\"  ->  1\n";
    assert_eq!(run_in(&here, &["why", "."]), answer(&format!("{head}{reason}{rest}"), 1));
    assert_eq!(run_in(&here, &["move", ".", "--html", "none.html"]).status, 1);
    let page = std::fs::read_to_string(here.join("none.html")).expect("it was written");
    assert!(page.contains(
        "<p>Cue 2 &quot;change&quot; with what it links to (2 cues: 1, 2) already has no place on this rig.</p>"
    ));
}

#[test]
fn one_cue_that_makes_the_whole_show() {
    let here = folder("reason-whole");
    put(&here, "source.csv", "2,1\r\n1,2\r\n");
    put(&here, "target.csv", "1\r\n");
    let words = "The show does not fit: there is no way to give its 2 cues partners among the rig's 1.\n\
                 The show has more cues than the rig.\n\
                 Each smaller part that one, two or three cues make has a place (1 part); the whole show has none.\n\
                 Cue 1 makes the whole show: no part is left without it.\n\
                 What is said of parts is certain; what to leave out is a suggestion.\n";
    assert_eq!(run_in(&here, &["why", "."]), answer(words, 1));
    let moved = "The show does not fit: there is no way to give its 2 cues partners among the rig's 1.\n\
                 The show has more cues than the rig.\n";
    assert!(run_in(&here, &["move", "."]).output.starts_with(moved));
}

#[test]
fn a_search_that_takes_too_long() {
    let here = folder("reason-long");
    put(&here, "source.csv", graph(50, 1));
    put(&here, "target.csv", graph(110, 2));
    let told = run_in(&here, &["why", ".", "--timeout", "300ms"]);
    let lines: Vec<_> = told.output.lines().collect();
    let [stopped, looked] = lines[..] else { panic!("{}", told.output) };
    assert_eq!(stopped, "Stopped: 300ms for each search is not enough to tell. Give a larger --timeout.");
    assert!(looked.starts_with("Within 300ms no part without a place was found ("), "{looked}");
    assert!(looked.ends_with(" looked at)."), "{looked}");
    assert_eq!((told.errors.as_str(), told.status), ("", 3));
}

fn numbers(value: &Value) -> Vec<u8> {
    let list = value.as_array().expect("it is a list");
    list.iter().map(|number| u8::try_from(number.as_u64().expect("it is a number")).expect("it is small")).collect()
}

#[test]
fn a_hundred_random_shows_that_do_not_fit() {
    let here = folder("reasons-random");
    let mut random = Random::new(42);
    let (mut misfits, mut with_part, mut with_rest) = (0, 0, 0);
    for run in 0.. {
        let (show, rig) = (of_maps(&mut random, 9), of_maps(&mut random, 14));
        put(&here, "source.csv", sheet(&show));
        put(&here, "target.csv", sheet(&rig));
        if let Some((part, rest)) = explained(&here, &show, &rig, run) {
            misfits += 1;
            with_part += usize::from(part);
            with_rest += usize::from(rest);
        }
        if misfits == 100 {
            break;
        }
    }
    // Reasons of each kind were among them.
    assert!(with_part >= 30 && with_rest >= 30, "{with_part} {with_rest}");
}

/// Asks why, and checks the answer; where the show does not fit, whether a part without a place was told, and one that can be moved.
fn explained(here: &Path, show: &Table, rig: &Table, run: usize) -> Option<(bool, bool)> {
    let outcome = run_in(here, &["why", ".", "--json", "--timeout", "5m"]);
    let told: Value = serde_json::from_str(&outcome.output).expect("it is JSON");
    let all: Vec<u8> = (1..=u8::try_from(show.len()).expect("it is small")).collect();
    if fits(show, &all, rig) {
        assert_eq!(told["status"], "found", "run {run}");
        assert!(keeps(show, &all, rig, &numbers(&told["result"]["map"]["images"])), "run {run}");
        return None;
    }
    assert_eq!(told["status"], "none", "run {run}");
    let misfit = &told["result"]["misfit"];
    assert_eq!(misfit["complete"], true, "run {run}");
    let made = |cues: &Vec<u8>| closure(show, cues);
    let is_proper = |part: &Vec<u8>| part.len() < show.len();
    // The smallest misfits by the number of cues that make them.
    let misfits = |size: usize| -> Option<usize> {
        let parts = choices(&all, size).iter().map(made).filter(is_proper).collect::<Vec<_>>();
        parts.iter().filter(|part| !fits(show, part, rig)).map(Vec::len).min()
    };
    let expected = (1..=3).find_map(|size| misfits(size).map(|order| (size, order)));
    let smallest = &misfit["smallest"];
    assert_eq!(smallest.is_null(), expected.is_none(), "run {run}");
    if let Some(expected) = expected {
        let (cues, elements) = (numbers(&smallest["cues"]), numbers(&smallest["elements"]));
        assert_eq!((cues.len(), elements.len()), expected, "run {run}");
        assert_eq!(made(&cues), elements, "run {run}");
        assert!(!fits(show, &elements, rig), "run {run}");
    }
    let cues = run_in(here, &["cues", "source.csv", "--json"]);
    let cues: Value = serde_json::from_str(&cues.output).expect("it is JSON");
    let generators = numbers(&cues["result"]["building"]["cues"]);
    largest_is_right(&misfit["largest"], &generators, show, rig, run);
    Some((expected.is_some(), !misfit["largest"].is_null()))
}

/// Checks the largest part that can be moved, or that there is none, among the parts that are left without one, two or three generators.
fn largest_is_right(largest: &Value, generators: &[u8], show: &Table, rig: &Table, run: usize) {
    let rest = |without: &Vec<u8>| {
        let kept: Vec<u8> = generators.iter().copied().filter(|cue| !without.contains(cue)).collect();
        closure(show, &kept)
    };
    assert_eq!(closure(show, generators).len(), show.len(), "run {run}");
    assert!(generators.iter().all(|&cue| rest(&vec![cue]).len() < show.len()), "run {run}");
    let sizes = 1..generators.len().min(4);
    let rests = sizes.flat_map(|size| choices(generators, size)).map(|without| rest(&without));
    let most = rests.filter(|part| fits(show, part, rig)).map(|part| part.len()).max();
    if largest.is_null() {
        assert_eq!(most, None, "run {run}");
        return;
    }
    assert_eq!(largest["complete"], true, "run {run}");
    let [told, without, elements, images] =
        ["generators", "without", "elements", "images"].map(|field| numbers(&largest[field]));
    assert_eq!(told, generators, "run {run}");
    assert_eq!(rest(&without), elements, "run {run}");
    assert!(keeps(show, &elements, rig, &images), "run {run}");
    assert_eq!(most, Some(elements.len()), "run {run}");
}
