//! The server of the page, asked as browsers and as others ask. What it must never do: end, answer strangers, take memory without
//! bounds, read or write a file of the computer.

use crate::random::Random;
use crate::run::{folder, graph, names, program, put, root, run};
use crate::workbooks::{numbers, ods, xlsx};
use serde_json::{json, Value};
use std::fs;
use std::io::{BufRead, BufReader, Read, Write};
use std::net::{Shutdown, TcpStream};
use std::path::PathBuf;
use std::process::{Child, Stdio};
use std::sync::atomic::{AtomicUsize, Ordering};
use std::thread;
use std::time::{Duration, Instant};

/// What the server itself may take of memory, in thousands of bytes.
const MOST_MEMORY: usize = 96 << 10;

/// How many bad requests are made where the environment does not say it.
const FEW: usize = 2000;

/// A server that runs in an empty folder.
struct Served {
    child: Child,
    folder: PathBuf,
    host: String,
    token: String,
}

impl Served {
    fn new(name: &str) -> Served {
        let folder = folder(name);
        let mut command = program(&folder, &["open", "--no-browser", "--quiet"]);
        let mut child = command.stdout(Stdio::piped()).spawn().expect("the program runs");
        let mut address = String::new();
        BufReader::new(child.stdout.take().expect("it is piped")).read_line(&mut address).expect("it says its address");
        let (host, token) =
            address.trim().strip_prefix("http://").and_then(|rest| rest.split_once('/')).expect("an address");
        let token = token.trim_end_matches('/').to_owned();
        Served { host: host.into(), token, child, folder }
    }

    fn connect(&self) -> TcpStream {
        let stream = TcpStream::connect(&self.host).expect("it listens");
        stream.set_read_timeout(Some(Duration::from_secs(30))).expect("a time can be set");
        stream
    }

    /// The reply to some bytes: its status, or 0 where the connection is closed without one, and the whole text.
    fn raw(&self, bytes: &[u8]) -> (u16, String) {
        let mut stream = self.connect();
        let _ = stream.write_all(bytes);
        let mut reply = Vec::new();
        let _ = stream.read_to_end(&mut reply);
        let text = String::from_utf8_lossy(&reply).into_owned();
        let status = text.split(' ').nth(1).and_then(|status| status.parse().ok()).unwrap_or(0);
        (status, text)
    }

    fn get(&self, path: &str) -> (u16, String) {
        self.raw(format!("GET /{}/{path} HTTP/1.1\r\nHost: {}\r\n\r\n", self.token, self.host).as_bytes())
    }

    /// The head of a question with a body of this length.
    fn head(&self, length: usize) -> String {
        let Served { host, token, .. } = self;
        format!(
            "POST /{token}/ask HTTP/1.1\r\nHost: {host}\r\nOrigin: http://{host}\r\nContent-Length: {length}\r\n\r\n"
        )
    }

    fn post(&self, body: &str) -> (u16, String) {
        self.raw((self.head(body.len()) + body).as_bytes())
    }

    /// The reply to a question.
    fn ask(&self, question: &Value) -> Value {
        let (status, text) = self.post(&question.to_string());
        assert_eq!(status, 200, "{text}");
        serde_json::from_str(text.split_once("\r\n\r\n").expect("a reply has a body").1).expect("it is JSON")
    }

    /// It still answers, within bounds of memory and threads.
    fn is_well(&self) {
        assert_eq!(self.get("").0, 200);
        let status = fs::read_to_string(format!("/proc/{}/status", self.child.id())).expect("it still runs");
        let number = |name: &str| -> usize {
            let line = status.lines().find(|line| line.starts_with(name)).expect("the system counts it");
            line.split_whitespace().nth(1).and_then(|number| number.parse().ok()).expect("it is a number")
        };
        assert!(number("VmHWM:") <= MOST_MEMORY, "{status}");
        assert!(number("Threads:") <= 70, "{status}");
        assert!(names(&self.folder).is_empty());
    }

    /// How many processes answer questions for it.
    fn answering(&self) -> usize {
        let entries = fs::read_dir("/proc").expect("the system lists processes").flatten();
        let parent = format!(") S {} ", self.child.id());
        let running = format!(") R {} ", self.child.id());
        let stats = entries.filter_map(|entry| fs::read_to_string(entry.path().join("stat")).ok());
        stats.filter(|stat| stat.contains(&parent) || stat.contains(&running)).count()
    }
}

impl Drop for Served {
    fn drop(&mut self) {
        let _ = self.child.kill();
        let _ = self.child.wait();
    }
}

/// A file of the repository as it is sent.
fn sent(path: &str) -> Value {
    let bytes = fs::read(root().join(path)).expect("the file is there");
    json!({ "name": path, "base64": base64(&bytes) })
}

fn base64(bytes: &[u8]) -> String {
    const DIGITS: &[u8; 64] = b"ABCDEFGHIJKLMNOPQRSTUVWXYZabcdefghijklmnopqrstuvwxyz0123456789+/";
    let group = |three: &[u8]| {
        let held = three.iter().fold(0u32, |held, &byte| held << 8 | u32::from(byte)) << (8 * (3 - three.len()));
        let digit = |place: usize| char::from(DIGITS[(held >> (18 - 6 * place)) as usize & 63]);
        (0..4).map(|place| if place <= three.len() { digit(place) } else { '=' }).collect::<String>()
    };
    bytes.chunks(3).map(group).collect()
}

#[test]
fn the_page_and_all_that_it_loads_are_served_with_a_strict_policy() {
    let served = Served::new("served-page");
    let (status, page) = served.get("");
    assert_eq!(status, 200);
    assert!(page.contains("Content-Security-Policy: default-src 'none'; script-src 'self'; style-src 'self'; "));
    for header in ["X-Content-Type-Options: nosniff", "Referrer-Policy: no-referrer", "Cache-Control: no-store"] {
        assert!(page.contains(header));
    }
    let body = page.split_once("\r\n\r\n").expect("a reply has a body").1;
    let handlers =
        body.split(" on").skip(1).filter(|rest| rest.trim_start_matches(char::is_alphabetic).starts_with('='));
    assert!(
        !body.contains("<style") && !body.contains("style=") && !body.contains("<script>"),
        "nothing stands inline"
    );
    assert_eq!(handlers.count(), 0);
    let named = page.split(['"']).skip(1).step_by(2).filter(|text| text.ends_with(".css") || text.ends_with(".js"));
    let named: Vec<_> = named.collect();
    assert!(named.len() >= 2, "{page}");
    for file in named {
        let (status, text) = served.get(file);
        assert_eq!(status, 200, "{file}");
        assert!(text.contains(if file.ends_with("css") { "text/css" } else { "text/javascript" }));
        for import in text.lines().filter(|line| line.starts_with("import ")) {
            let path = import.split('\'').nth(1).expect("it names a file").trim_start_matches("./");
            assert_eq!(served.get(path).0, 200, "{path}");
        }
    }
    for path in ["nothing", "../Cargo.toml", "..", "/etc/passwd", "page.css/", "%2e%2e/"] {
        assert_eq!(served.get(path).0, 404, "{path}");
    }
    served.is_well();
}

#[test]
fn strangers_are_refused() {
    let served = Served::new("served-strangers");
    let Served { host, token, .. } = &served;
    let body = "{\"arguments\":[\"--version\"]}";
    let post = |path: &str, headers: &str| {
        let length = body.len();
        served.raw(format!("POST {path} HTTP/1.1\r\n{headers}Content-Length: {length}\r\n\r\n{body}").as_bytes()).0
    };
    let (ask, own) = (format!("/{token}/ask"), format!("Host: {host}\r\nOrigin: http://{host}\r\n"));
    assert_eq!(post(&ask, &own), 200);
    for path in ["/ask", "/", &format!("/{}/ask", "0".repeat(32)), &format!("/{token}0/ask"), &ask.to_uppercase()] {
        assert_eq!(post(path, &own), 403, "{path}");
    }
    for headers in [
        String::new(),
        format!("Host: {host}\r\n"),
        format!("Origin: http://{host}\r\n"),
        format!("Host: {host}\r\nOrigin: null\r\n"),
        format!("Host: {host}\r\nOrigin: http://evil.example\r\n"),
        format!("Host: evil.example\r\nOrigin: http://{host}\r\n"),
        "Host: evil.example\r\nOrigin: http://evil.example\r\n".into(),
        format!("Host: localhost\r\n{own}"),
        format!("{own}Origin: http://evil.example\r\n"),
    ] {
        assert_eq!(post(&ask, &headers), 403, "{headers}");
    }
    let get = |headers: &str| served.raw(format!("GET /{token}/ HTTP/1.1\r\n{headers}\r\n").as_bytes()).0;
    assert_eq!([get(&own), get(&format!("Host: {host}\r\n")), get("")], [200, 200, 403]);
    served.is_well();
}

#[test]
fn what_is_too_long_or_no_request_is_turned_away() {
    let served = Served::new("served-long");
    let Served { host, token, .. } = &served;
    let head = format!("Host: {host}\r\nOrigin: http://{host}\r\n");
    let post = |headers: &str| served.raw(format!("POST /{token}/ask HTTP/1.1\r\n{head}{headers}\r\n").as_bytes()).0;
    assert_eq!(post(""), 411);
    assert_eq!(post("Content-Length: x\r\n"), 411);
    assert_eq!(post("Content-Length: 2\r\nContent-Length: 2\r\n"), 411);
    assert_eq!(post("Content-Length: 2\r\nTransfer-Encoding: chunked\r\n"), 411);
    assert_eq!(post("Content-Length: 16777217\r\n"), 413);
    assert_eq!(post("Content-Length: 99999999999999999999\r\n"), 411);
    assert_eq!(post(&format!("X: {}\r\n", "x".repeat(17 << 10))), 431);
    assert_eq!(served.raw(format!("GET /{}", "x".repeat(1 << 20)).as_bytes()).0, 431);
    for junk in [
        "\r\n\r\n",
        "GET\r\n\r\n",
        "GET / HTTP/3.0\r\n\r\n",
        "GET / HTTP/1.1\r\nno header\r\n\r\n",
        "\0\r\n\r\n",
        "é\r\n\r\n",
    ] {
        assert_eq!(served.raw(junk.as_bytes()).0, 400, "{junk:?}");
    }
    let long = json!({ "name": "a.csv", "base64": base64(&vec![b'1'; (2 << 20) + 1]) });
    let (status, text) = served.post(&json!({ "arguments": ["check", "a.csv"], "files": [long] }).to_string());
    assert!(status == 400 && text.ends_with("\"a.csv\": the file is too long for a sheet\n"), "{status} {text}");
    for (question, why) in [
        ("", "this is no question"),
        ("[]", "this is no question"),
        ("{\"arguments\":[\"check\"],\"files\":[{\"name\":\"a\"}]}", "give its bytes as base64, or its cells"),
        ("{\"arguments\":[],\"files\":[{\"name\":\"a\",\"base64\":\"x\"}]}", "this is no base64"),
        (
            "{\"arguments\":[],\"files\":[{\"name\":\"a\",\"base64\":\"\"},{\"name\":\"a\",\"base64\":\"\"}]}",
            "two files have this name",
        ),
        (
            "{\"arguments\":[],\"files\":[{\"name\":\"a\",\"cells\":{\"row\":0,\"column\":1,\"rows\":[]}}]}",
            "such a place",
        ),
        (
            "{\"arguments\":[],\"files\":[{\"name\":\"a\",\"cells\":{\"row\":1,\"column\":999999999,\"rows\":[]}}]}",
            "such a place",
        ),
    ] {
        let (status, text) = served.post(question);
        assert!(status == 400 && text.contains(why), "{question}: {status} {text}");
    }
    served.is_well();
}

#[test]
fn answers_are_those_of_the_command_line() {
    let served = Served::new("served-answers");
    let pair = ["examples/named/source.csv", "examples/named/target.csv"];
    let both = |command: &'static str, more: &[&'static str]| [&[command], &pair[..], more].concat();
    for arguments in [
        both("move", &[]),
        both("move", &["--next"]),
        both("move", &["--pin", "1=1", "--mirror"]),
        both("move", &["--pin", "1=9"]),
        both("move", &["--count"]),
        both("copies", &[]),
        both("why", &[]),
        both("classes", &[]),
        vec!["cut", pair[1], "--cues", "3"],
        vec!["settles", pair[1]],
        vec!["cues", pair[1]],
        vec!["positions", pair[0]],
        vec!["check", "examples/refused/source.csv", "examples/named/source.names.csv"],
    ] {
        let files = [
            &pair[..],
            &["examples/refused/source.csv", "examples/named/source.names.csv", "examples/named/target.names.csv"],
        ];
        let files: Vec<Value> = files.concat().into_iter().map(sent).collect();
        let reply = served.ask(&json!({ "arguments": arguments, "files": files }));
        let told = run(&[&arguments[..], &["--json"]].concat());
        let told: Value = serde_json::from_str(&told.output).expect("it is JSON");
        assert_eq!(reply["answer"], told, "{arguments:?}");
        let words = run(&arguments);
        assert_eq!(reply["printed"], words.output + &words.errors, "{arguments:?}");
    }
}

#[test]
fn the_sheets_of_a_workbook_are_named_and_the_one_that_is_asked_for_is_read() {
    let served = Served::new("served-workbook");
    let (one, two) = (numbers(&[vec![1]]), numbers(&[vec![1, 2], vec![2, 1]]));
    for (name, bytes) in
        [("book.ods", ods(&[("Hall", &one), ("Act 2", &two)])), ("book.xlsx", xlsx(&[("Hall", &one), ("Act 2", &two)]))]
    {
        let file = json!({ "name": name, "base64": base64(&bytes) });
        for (sheet, rows) in
            [("", json!([["1"]])), ("#Hall", json!([["1"]])), ("#Act 2", json!([["1", "2"], ["2", "1"]]))]
        {
            let reply = served.ask(&json!({ "arguments": ["check", format!("{name}{sheet}")], "files": [file] }));
            let cells = json!({ "row": 1, "column": 1, "rows": rows });
            assert_eq!(
                reply["read"],
                json!([{ "name": name, "sheets": ["Hall", "Act 2"], "cells": cells }]),
                "{sheet}"
            );
            assert_eq!(reply["answer"]["sheets"][0]["path"], format!("{name}{sheet}"));
        }
        let none = served.ask(&json!({ "arguments": ["check", format!("{name}#Act 3")], "files": [file] }));
        assert_eq!((&none["answer"]["status"], &none["read"][0]["cells"]), (&json!("refused"), &Value::Null));
    }
    let text = json!({ "name": "a.csv", "base64": base64(b"1\r\n") });
    let reply = served.ask(&json!({ "arguments": ["check", "a.csv"], "files": [text] }));
    assert_eq!(reply["read"][0]["sheets"], json!([]));
}

#[test]
fn no_file_of_the_computer_is_read_or_written() {
    let served = Served::new("served-files");
    let passwd = fs::canonicalize("/etc/passwd").expect("it is there").display().to_string();
    for arguments in [
        &["check", &passwd][..],
        &["check", "/proc/self/exe"],
        &["check", "-"],
        &["classes", "/etc"],
        &["move", "."],
        &["rigs", "a.csv", &passwd],
        &["mend", "../../../Cargo.toml"],
    ] {
        let reply =
            served.ask(&json!({ "arguments": arguments, "files": [{ "name": "a.csv", "base64": base64(b"1\r\n") }] }));
        let text = reply.to_string();
        assert!(text.contains("there is no such file") && !text.contains("root:"), "{arguments:?}: {text}");
    }
    let here = folder("served-outputs");
    let path = here.join("part.csv").display().to_string();
    let question = json!({
        "arguments": ["cut", "a.csv", "--cues", "1", "--output", path, "--html", "part.html"],
        "files": [{ "name": "a.csv", "base64": base64(b"1\r\n") }],
    });
    let reply = served.ask(&question);
    let written: Vec<_> =
        reply["files"].as_array().expect("it has files").iter().map(|file| file["name"].clone()).collect();
    assert_eq!(written, [json!(path), json!("part.html")]);
    assert!(names(&here).is_empty());
    for arguments in [&["open"][..], &["ask"], &["completions", "bash"]] {
        assert_eq!(served.ask(&json!({ "arguments": arguments }))["answer"]["status"], "usage", "{arguments:?}");
    }
    served.is_well();
}

/// A question whose search takes very long.
fn long_question() -> String {
    let here = folder("served-search");
    put(&here, "a.csv", graph(20, 1));
    put(&here, "b.csv", graph(118, 2));
    let file = |name: &str| json!({ "name": name, "base64": base64(&fs::read(here.join(name)).expect("it is there")) });
    json!({ "arguments": ["move", "a.csv", "b.csv"], "files": [file("a.csv"), file("b.csv")] }).to_string()
}

#[test]
fn a_search_ends_with_its_connection() {
    let served = Served::new("served-stop");
    let question = long_question();
    let stay = |number: usize| {
        let end = Instant::now() + Duration::from_secs(20);
        while served.answering() != number {
            assert!(Instant::now() < end, "{} processes", served.answering());
            thread::sleep(Duration::from_millis(20));
        }
    };
    let asked: Vec<_> = (0..4)
        .map(|_| {
            let mut stream = served.connect();
            stream.write_all((served.head(question.len()) + &question).as_bytes()).expect("it is taken");
            stream
        })
        .collect();
    stay(4);
    thread::sleep(Duration::from_millis(300));
    stay(4);
    assert_eq!(served.post(&question).0, 503);
    drop(asked);
    stay(0);
    assert_eq!(served.ask(&json!({ "arguments": ["--version"] }))["answer"]["says"], "tickdrizzle 1.0.0\n");
}

#[test]
fn it_ends_a_minute_after_its_page_was_closed() {
    let mut served = Served::new("served-end");
    let mut page = served.connect();
    let head = format!("GET /{}/present HTTP/1.1\r\nHost: {}\r\n\r\n", served.token, served.host);
    page.write_all(head.as_bytes()).expect("it is taken");
    let mut front = [0; 15];
    page.read_exact(&mut front).expect("it is answered");
    assert_eq!(&front, b"HTTP/1.1 200 OK");
    thread::sleep(Duration::from_secs(2));
    let closed = Instant::now();
    drop(page);
    let status = loop {
        match served.child.try_wait().expect("it can be waited for") {
            Some(status) => break status,
            None => thread::sleep(Duration::from_millis(200)),
        }
        assert!(closed.elapsed() < Duration::from_secs(70));
    };
    assert!(status.success() && closed.elapsed() >= Duration::from_secs(59), "{status} {:?}", closed.elapsed());
}

#[test]
fn slow_requests_are_cut_off_and_block_nobody() {
    let served = Served::new("served-slow");
    let begun = Instant::now();
    let mut slow: Vec<_> = (0..50).map(|_| served.connect()).collect();
    while begun.elapsed() < Duration::from_secs(7) {
        slow.iter_mut().for_each(|stream| drop(stream.write_all(b"x")));
        assert_eq!(served.get("").0, 200);
        thread::sleep(Duration::from_millis(200));
    }
    for stream in &mut slow {
        let mut rest = Vec::new();
        let _ = stream.read_to_end(&mut rest);
        assert!(rest.is_empty());
    }
    // More than are served at once: those that are too many are closed, and soon there is room again.
    let many: Vec<_> = (0..200).map(|_| served.connect()).collect();
    thread::sleep(Duration::from_secs(6));
    served.is_well();
    drop(many);
}

/// A request as nobody should make it.
fn bad_request(served: &Served, random: &mut Random) -> Vec<u8> {
    let question =
        "{\"arguments\":[\"check\",\"a.csv\"],\"files\":[{\"name\":\"a.csv\",\"base64\":\"MSwyDQoyLDENCg==\"}]}";
    let mut bytes = match random.below(12) {
        0 => (0..random.below(3000)).map(|_| random.below(256) as u8).collect(),
        1 => format!("GET /{} HTTP/1.1\r\nHost: {}\r\n\r\n", "a/".repeat(random.below(100)), served.host).into_bytes(),
        2 => format!(
            "GET /{}/ HTTP/1.1\r\nHost: {}\r\nX: {}\r\n\r\n",
            served.token,
            served.host,
            "x".repeat(random.below(40_000))
        )
        .into_bytes(),
        3 => (served.head(random.below(1 << 30)) + question).into_bytes(),
        4 => (served.head(random.below(200)) + question).into_bytes(),
        5 => (served.head(usize::MAX) + question).into_bytes(),
        6 => {
            let length = random.below(1 << 18);
            let mut bytes = served.head(length).into_bytes();
            bytes.resize(bytes.len() + length, b'[');
            bytes
        }
        7 => format!("GET /{}/present HTTP/1.1\r\nHost: {}\r\n\r\n", served.token, served.host).into_bytes(),
        8 => "\r\n".repeat(random.below(20_000)).into_bytes(),
        _ => (served.head(question.len()) + question).into_bytes(),
    };
    for _ in 0..random.below(4) {
        let place = random.below(bytes.len() + 1);
        match random.below(3) {
            0 => bytes.truncate(place),
            1 if place < bytes.len() => bytes[place] = random.below(256) as u8,
            _ => drop(bytes.splice(place..place, [random.below(256) as u8])),
        }
    }
    bytes
}

#[test]
fn bad_requests_never_end_it() {
    let number = |name: &str| std::env::var(name).ok().and_then(|text| text.parse::<usize>().ok());
    let (requests, seed) = (number("TICKDRIZZLE_REQUESTS").unwrap_or(FEW), number("TICKDRIZZLE_SEED").unwrap_or(1));
    let served = Served::new("served-bad");
    let (made, answered) = (AtomicUsize::new(0), AtomicUsize::new(0));
    thread::scope(|scope| {
        for thread in 0..4 {
            let (served, made, answered) = (&served, &made, &answered);
            scope.spawn(move || {
                let mut random = Random::new((seed * 4 + thread) as u64);
                let mut held = Vec::new();
                while made.fetch_add(1, Ordering::Relaxed) < requests {
                    let Ok(mut stream) = TcpStream::connect(&served.host) else { continue };
                    let _ = stream.set_read_timeout(Some(Duration::from_secs(10)));
                    let _ = stream.write_all(&bad_request(served, &mut random));
                    match random.below(20) {
                        // Some are cut off, some stay for a while without a word.
                        0..=5 => drop(stream.shutdown(Shutdown::Both)),
                        6 => held.push(stream),
                        _ => {
                            let _ = stream.shutdown(Shutdown::Write);
                            let mut reply = Vec::new();
                            let _ = stream.read_to_end(&mut reply);
                            answered.fetch_add(usize::from(reply.starts_with(b"HTTP/1.")), Ordering::Relaxed);
                        }
                    }
                    if held.len() > 8 {
                        held.remove(0);
                    }
                }
            });
        }
    });
    let answered = answered.into_inner();
    println!("{requests} bad requests, {answered} answered");
    assert!(answered > requests / 4);
    served.is_well();
    assert_eq!(served.ask(&json!({ "arguments": ["--version"] }))["answer"]["says"], "tickdrizzle 1.0.0\n");
}
