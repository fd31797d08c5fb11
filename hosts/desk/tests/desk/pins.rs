//! Partners that the operator chooses: pins, exclusions, equal names.

use crate::plain::{maps, Table};
use crate::random::{of_maps, sheet, Random};
use crate::run::{answer, failure, folder, graph, put, root, run, run_in};
use serde_json::{json, Value};
use std::path::PathBuf;

/// A show of two cues and a rig of three, in which the second of a pair decides: any two different partners do.
fn three(name: &str) -> PathBuf {
    let here = folder(name);
    put(&here, "source.csv", "1,2\r\n1,2\r\n");
    put(&here, "source.names.csv", "1,go\r\n2,a=b\r\n");
    put(&here, "target.csv", "1,2,3\r\n1,2,3\r\n1,2,3\r\n");
    put(&here, "target.names.csv", "1,stop\r\n2,a=b\r\n3,go\r\n");
    here
}

#[test]
fn pins_by_number_and_name() {
    let here = three("pins");
    let pinned = "The show fits: its 2 cues go to 2 of the rig's 3, with these pins.\n\
                  Pinned: 1 \"go\" -> 2 \"a=b\"\n  1 \"go\"   ->  2 \"a=b\"\n  2 \"a=b\"  ->  1 \"stop\"\n";
    for pin in ["1=2", "go=2", " go = a=b ", "1=a=b"] {
        assert_eq!(run_in(&here, &["move", ".", "--pin", pin]), answer(pinned, 0), "{pin}");
    }
    let excluded = "The show fits: its 2 cues go to 2 of the rig's 3, with these exclusions.\n\
                    Excluded: 2 \"a=b\" -> 2 \"a=b\"; 1 \"go\" -> 1 \"stop\"\n  1 \"go\"   ->  2 \"a=b\"\n  2 \"a=b\"  ->  1 \"stop\"\n";
    assert_eq!(run_in(&here, &["move", ".", "--not", "a=b=a=b", "--not", "go=stop"]), answer(excluded, 0));
    let both = "The show fits: its 2 cues go to 2 of the rig's 3, with these pins and exclusions.\n\
                Pinned: 2 \"a=b\" -> 3 \"go\"\nExcluded: 1 \"go\" -> 1 \"stop\"\n  1 \"go\"   ->  2 \"a=b\"\n  2 \"a=b\"  ->  3 \"go\"\n";
    assert_eq!(run_in(&here, &["move", ".", "--pin", "2=3", "--not", "1=1", "--pin", "2=go"]), answer(both, 0));
}

#[test]
fn the_examples_of_the_document() {
    let document = std::fs::read_to_string(root().join("docs/OPERATORS.md")).expect("it is there");
    let (_, section) = document.split_once("## Choosing partners\n").expect("it has the section");
    let (section, _) = section.split_once("\n## ").expect("it has others");
    let shown = |command: &str, arguments: &[&str]| {
        let output = run(arguments).output;
        let lines: String = output.lines().map(|line| format!("    {line}\n")).collect();
        assert!(section.contains(&format!("    $ tickdrizzle {command}\n{lines}\n")), "{output}");
    };
    let named = ["move", "examples/named"];
    let both = [&named[..], &["--pin", "hold=stay", "--not", "2=4"]].concat();
    shown("move examples/named --pin hold=stay --not 2=4", &both);
    let none = [&named[..], &["--pin", "hold=both left"]].concat();
    shown("move examples/named --pin \"hold=both left\"", &none);
}

#[test]
fn the_other_ways_among_pins() {
    let here = three("pins-ways");
    let next = "The show fits: its 2 cues go to 2 of the rig's 3, with these pins. This is way 2: 1 comes before it.\n\
                Pinned: 1 \"go\" -> 2 \"a=b\"\n  1 \"go\"   ->  2 \"a=b\"\n  2 \"a=b\"  ->  3 \"go\"\n";
    assert_eq!(run_in(&here, &["move", ".", "--pin", "1=2", "--next"]), answer(next, 0));
    let last = "There is no such way: the show fits in 2 ways, with these pins.\nPinned: 1 \"go\" -> 2 \"a=b\"\n";
    assert_eq!(run_in(&here, &["move", ".", "--pin", "1=2", "--next=2"]), answer(last, 1));
    let all = "The show fits in 2 ways, with these pins:\nPinned: 1 \"go\" -> 2 \"a=b\"\n\
               Way 1:\n  1 \"go\"   ->  2 \"a=b\"\n  2 \"a=b\"  ->  1 \"stop\"\n\
               Way 2:\n  1 \"go\"   ->  2 \"a=b\"\n  2 \"a=b\"  ->  3 \"go\"\n";
    assert_eq!(run_in(&here, &["move", ".", "--pin", "1=2", "--all=2"]), answer(all, 0));
    let count = "The show fits in 4 ways, with these exclusions.\nExcluded: 1 \"go\" -> 2 \"a=b\"\n";
    assert_eq!(run_in(&here, &["move", ".", "--not", "1=2", "--count"]), answer(count, 0));
}

#[test]
fn pins_that_leave_nothing() {
    let words = "With these pins the show does not fit; without them it does.\nPinned: 1 -> 1\n";
    for option in [&[][..], &["--next"], &["--all"], &["--count"]] {
        let arguments = [&["move", "examples/found", "--pin", "1=1"], option].concat();
        assert_eq!(run(&arguments), answer(words, 1), "{option:?}");
    }
    let excluded = "With these exclusions the show does not fit; without them it does.\nExcluded: 2 -> 3\n";
    assert_eq!(run(&["move", "examples/found", "--not", "2=3"]), answer(excluded, 1));
    let neither = "The show does not fit: there is no way to give its 2 cues partners among the rig's 4, with or without these pins.\n\
                   Pinned: 1 -> 1\nNote: The rig's table read column first fits: see --mirror.\n";
    assert_eq!(run(&["move", "examples/none", "--pin", "1=1"]), answer(neither, 1));
}

#[test]
fn pins_that_cannot_be() {
    let here = three("pins-wrong");
    let usage = |arguments: &[&str], words: &str| {
        let arguments = [&["move", "."], arguments].concat();
        assert_eq!(run_in(&here, &arguments), failure(&format!("tickdrizzle: {words}\n"), 64), "{arguments:?}");
    };
    usage(&["--pin", "3=1"], "--pin \"3=1\": there is no cue 3; the show has cues 1 to 2");
    usage(&["--not", "1=0"], "--not \"1=0\": there is no cue 0; the rig has cues 1 to 3");
    let names = "the rig has cues 1 to 3: 1 \"stop\", 2 \"a=b\" and 3 \"go\"";
    usage(&["--pin", "go=gone"], &format!("--pin \"go=gone\": no cue of the rig is named \"gone\"; {names}"));
    let two = "--pin 1=2 and --pin 1=3 contradict each other: cue 1 \"go\" of the show gets one partner";
    usage(&["--pin", "1=2", "--pin", "go=go"], two);
    let same = "--pin 1=2 and --pin 2=2 contradict each other: cue 2 \"a=b\" of the rig is the partner of one cue";
    usage(&["--pin", "1=2", "--pin", "2=2"], same);
    usage(&["--not", "1=2", "--pin", "1=2"], "--pin 1=2 and --not 1=2 contradict each other");
    let left = "cue 1 \"go\" of the show has no partner left: --pin and --not exclude all";
    usage(&["--pin", "2=1", "--not", "1=2", "--not", "1=3"], left);
    put(&here, "target.names.csv", "1,go\r\n2,a=b\r\n3,go\r\n");
    usage(&["--pin", "1=go"], "--pin \"1=go\": the name \"go\" stands on cues 1 and 3 of the rig: give a number");
    put(&here, "source.names.csv", "1,a\r\n2,a=b\r\n");
    put(&here, "target.names.csv", "1,b=c\r\n2,c\r\n3,go\r\n");
    usage(&["--pin", "a=b=c"], "--pin \"a=b=c\": it can be read in more than one way: give numbers");
    let none =
        "tickdrizzle: --pin \"go=1\": no cue of the show is named \"go\"; the show has cues 1 to 2, without names\n";
    assert_eq!(run(&["move", "examples/found", "--pin", "go=1"]), failure(none, 64));
    for other in [&["--pin", "4"][..], &["--pin", "1=1", "--csv"], &["--prefer-names", "--limit", "9"]] {
        let told = run(&[&["move", "examples/found"], other].concat());
        assert_eq!((told.output.as_str(), told.status), ("", 64), "{other:?}");
        assert!(told.errors.contains(other[0]), "{}", told.errors);
    }
}

#[test]
fn equal_names_are_kept_as_long_as_it_fits() {
    let here = three("names");
    let both = "The show fits: its 2 cues go to 2 of the rig's 3, with 2 names kept.\nEqual names: 2 of 2 kept\n  \
                1 \"go\"   ->  3 \"go\"\n  2 \"a=b\"  ->  2 \"a=b\"\n";
    assert_eq!(run_in(&here, &["move", ".", "--prefer-names"]), answer(both, 0));
    let pinned = "The show fits: its 2 cues go to 2 of the rig's 3, with these pins and 1 name kept.\nPinned: 1 \"go\" -> 1 \"stop\"\n\
                  Equal names: 1 of 2 kept\nNot kept: 1 \"go\" -> 3 \"go\"\n  1 \"go\"   ->  1 \"stop\"\n  2 \"a=b\"  ->  2 \"a=b\"\n";
    assert_eq!(run_in(&here, &["move", ".", "--prefer-names", "--pin", "1=1"]), answer(pinned, 0));
    let told = run_in(&here, &["move", ".", "--prefer-names", "--pin", "1=1", "--not", "2=3", "--json"]);
    let told: Value = serde_json::from_str(&told.output).expect("it is JSON");
    let chosen = ["pins", "not", "kept", "lost"].map(|field| &told[field]);
    assert_eq!(chosen, [&json!([[1, 1]]), &json!([[2, 3]]), &json!([[2, 2]]), &json!([[1, 3]])]);
    assert_eq!(told["result"]["map"]["images"], json!([1, 2]));
    let told = run_in(&here, &["move", ".", "--not", "2=3", "--count", "--json"]);
    let told: Value = serde_json::from_str(&told.output).expect("it is JSON");
    assert_eq!(told["result"], json!({"counted": {"number": 4, "more": false}}));
    put(&here, "target.names.csv", "1,go\r\n2,a=b\r\n3,go\r\n");
    let several = "The show fits: its 2 cues go to 2 of the rig's 3, with 1 name kept.\nEqual names: 1 of 1 kept\n  \
                   1 \"go\"   ->  1 \"go\"\n  2 \"a=b\"  ->  2 \"a=b\"\n\
                   Note: Passed over by --prefer-names: \"go\", on several cues of a sheet.\n";
    assert_eq!(run_in(&here, &["move", ".", "--prefer-names"]), answer(several, 0));
    let none = "The show fits: its 2 cues go to 2 of the rig's 4.\n  1  ->  2\n  2  ->  3\n\
                Note: No name stands on both sheets: --prefer-names changes nothing.\n";
    assert_eq!(run(&["move", "examples/found", "--prefer-names"]), answer(none, 0));
}

#[test]
fn pins_on_a_rig_read_column_first() {
    let here = folder("pins-mirror");
    put(&here, "first.csv", "1,1\r\n2,2\r\n");
    put(&here, "second.csv", "1,2\r\n1,2\r\n");
    let words =
        "The show fits: its 2 cues go to 2 of the rig's 2, with the rig's table read column first and these pins.\n\
                 Pinned: 1 -> 2\n  1  ->  2\n  2  ->  1\n\
                 Note: Partners are chosen: the rig's table was turned, rows for columns, and searched as usual.\n";
    assert_eq!(run_in(&here, &["move", "first.csv", "second.csv", "--mirror", "--pin", "1=2"]), answer(words, 0));
}

#[test]
fn pins_within_a_time() {
    let here = folder("pins-time");
    put(&here, "source.csv", graph(50, 1));
    put(&here, "target.csv", graph(110, 2));
    let stopped = "Stopped: 300ms is not enough to tell. Give a larger --timeout, or none.\n";
    for option in ["--all", "--count", "--next", "--prefer-names"] {
        let told = run_in(&here, &["move", ".", "--not", "1=1", option, "--timeout", "300ms", "--quiet"]);
        assert_eq!(told, answer(&format!("{stopped}Excluded: 1 -> 1\n"), 3), "{option}");
    }
    let unknown = "With these pins the show does not fit; whether it does without them was not found within 1s.\nPinned: 1 -> 112\n";
    assert_eq!(run_in(&here, &["move", ".", "--pin", "1=112"]), answer(unknown, 1));
    put(&here, "source.names.csv", "1,go\r\n");
    put(&here, "target.names.csv", "1,stop\r\n2,go\r\n");
    let told = run_in(&here, &["move", ".", "--prefer-names", "--timeout", "300ms", "--quiet"]);
    let words = "Equal names: 0 of 1 kept\nNo time to try: 1 \"go\" -> 2 \"go\"\n";
    assert_eq!(told, answer(&format!("{stopped}{words}"), 3));
}

#[test]
fn pins_on_a_page() {
    let here = three("pins-page");
    let page = run_in(&here, &["move", ".", "--pin", "1=2", "--html", "-"]).output;
    assert!(
        page.contains(", with these pins.</p>\n<p>Pinned: 1 &quot;go&quot; -&gt; 2 &quot;a=b&quot;</p>\n"),
        "{page}"
    );
}

/// Those of some maps that have the pins and none of the other pairs.
fn allowed(maps: &[Vec<u8>], pins: &[[u8; 2]], not: &[[u8; 2]]) -> Vec<Vec<u8>> {
    let has = |map: &[u8], pair: &[u8; 2]| map[usize::from(pair[0]) - 1] == pair[1];
    let is_allowed = |map: &&Vec<u8>| pins.iter().all(|pair| has(map, pair)) && !not.iter().any(|pair| has(map, pair));
    maps.iter().filter(is_allowed).cloned().collect()
}

#[test]
fn the_earliest_of_all_lists() {
    let here = folder("pins-random");
    let mut random = Random::new(11);
    let (mut found, mut none) = (0, 0);
    for _ in 0..40 {
        let (show, rig, any) = loop {
            let (show, rig) = (of_maps(&mut random, 4), of_maps(&mut random, 9));
            let any = maps(&show, &rig);
            if any.len() > 1 {
                break (show, rig, any);
            }
        };
        put(&here, "source.csv", sheet(&show));
        put(&here, "target.csv", sheet(&rig));
        let mut cue = |table: &Table| u8::try_from(random.below(table.len()) + 1).expect("it is small");
        let mut pins = vec![[cue(&show), cue(&rig)]];
        let other = [cue(&show), cue(&rig)];
        let mut not: Vec<_> = (0..3).map(|_| [cue(&show), cue(&rig)]).collect();
        // Half of the first pins are those of a map.
        if random.below(2) == 0 {
            pins[0][1] = any[random.below(any.len())][usize::from(pins[0][0]) - 1];
        }
        if random.below(3) == 0 && other[0] != pins[0][0] && other[1] != pins[0][1] {
            pins.push(other);
        }
        not.retain(|pair| !pins.contains(pair));
        let option = |name: &str, pair: &[u8; 2]| format!("--{name}={}={}", pair[0], pair[1]);
        let mut arguments = vec!["move".into(), ".".into(), "--json".into()];
        arguments.extend(pins.iter().map(|pair| option("pin", pair)));
        arguments.extend(not.iter().map(|pair| option("not", pair)));
        let told = |more: &[&str]| -> Value {
            let arguments: Vec<_> = arguments.iter().map(String::as_str).chain(more.iter().copied()).collect();
            serde_json::from_str(&run_in(&here, &arguments).output).expect("it is JSON")
        };
        let maps = allowed(&any, &pins, &not);
        let one = told(&[]);
        if one["status"] == "usage" {
            assert!(maps.is_empty() && one["says"].as_str().is_some_and(|says| says.contains("no partner left")));
            continue;
        }
        assert_eq!(one["result"]["map"]["images"], maps.first().map_or(Value::Null, |map| json!(map)));
        assert_eq!(one["status"], if maps.is_empty() { "none" } else { "found" });
        let all = told(&["--all=100000"]);
        assert_eq!(all["result"]["maps"]["images"], if maps.is_empty() { Value::Null } else { json!(maps) });
        let counted = told(&["--count"]);
        assert_eq!(counted["result"]["counted"]["number"].as_u64().unwrap_or(0), maps.len() as u64);
        found += usize::from(!maps.is_empty());
        none += usize::from(maps.is_empty());
    }
    assert!(found >= 10 && none >= 10, "{found} found, {none} without");
}

#[test]
fn names_are_kept_one_after_another() {
    let here = folder("names-random");
    let mut random = Random::new(13);
    let mut lost_in_all = 0;
    for _ in 0..40 {
        let (show, rig) = (of_maps(&mut random, 4), of_maps(&mut random, 9));
        put(&here, "source.csv", sheet(&show));
        put(&here, "target.csv", sheet(&rig));
        let mut names: Vec<usize> = (1..=rig.len()).collect();
        for place in (1..names.len()).rev() {
            names.swap(place, random.below(place + 1));
        }
        let name_sheet = |names: &[usize]| -> String {
            names.iter().enumerate().map(|(place, name)| format!("{},cue {name}\r\n", place + 1)).collect()
        };
        put(&here, "source.names.csv", name_sheet(&(1..=show.len()).collect::<Vec<_>>()));
        put(&here, "target.names.csv", name_sheet(&names));
        let (mut kept, mut lost) = (Vec::new(), Vec::new());
        let mut maps = maps(&show, &rig);
        let cues = if maps.is_empty() { 0 } else { show.len() };
        for cue in 1..=cues {
            let Some(place) = names.iter().position(|&name| name == cue) else { continue };
            let pair = [cue, place + 1].map(|number| u8::try_from(number).expect("it is small"));
            let left = allowed(&maps, &[pair], &[]);
            if left.is_empty() {
                lost.push(pair);
            } else {
                kept.push(pair);
                maps = left;
            }
        }
        let told: Value = serde_json::from_str(&run_in(&here, &["move", ".", "--prefer-names", "--json"]).output)
            .expect("it is JSON");
        assert_eq!([&told["kept"], &told["lost"]], [&json!(kept), &json!(lost)]);
        assert_eq!(told["result"]["map"]["images"], maps.first().map_or(Value::Null, |map| json!(map)));
        lost_in_all += lost.len();
    }
    assert!(lost_in_all >= 5, "{lost_in_all} lost");
}
