//! Calls by the Python package: a process that is handed a call in a line and answers with a line.

use crate::calls::{Argument, Call};
use std::env;
use std::io::{BufRead, BufReader, Write};
use std::process::{Child, ChildStdin, ChildStdout, Command, Stdio};
use tickdrizzle::abi::{Answer, ANSWERS};

/// One call in so many is made by Python, which takes longer.
pub const ONE_IN: usize = 8;

pub struct Python {
    process: Child,
    calls: ChildStdin,
    answers: BufReader<ChildStdout>,
}

impl Python {
    /// Starts the program that `DIFFERENTIAL_PYTHON` names, if it does.
    pub fn start() -> Option<Python> {
        let program = env::var_os("DIFFERENTIAL_PYTHON")?;
        let mut process = Command::new(program)
            .stdin(Stdio::piped())
            .stdout(Stdio::piped())
            .spawn()
            .expect("the program that DIFFERENTIAL_PYTHON names can be run");
        let calls = process.stdin.take().expect("its input is piped");
        let answers = BufReader::new(process.stdout.take().expect("its output is piped"));
        Some(Python { process, calls, answers })
    }

    /// Makes a call: its name and arguments in a line; back come the numbers, and every buffer that is lent to be written.
    pub fn make(&mut self, call: &mut Call) -> Answer {
        let mut line = call.function().to_string();
        for argument in call.arguments() {
            let (kind, word) = match argument {
                Argument::Read(bytes) => ('r', hexadecimal(bytes)),
                Argument::Written(bytes) => ('w', hexadecimal(bytes)),
                Argument::Number(number) => ('n', number.to_string()),
            };
            line.extend([" ", &kind.to_string(), &word]);
        }
        line.push('\n');
        self.calls.write_all(line.as_bytes()).expect("Python reads calls");
        let mut said = String::new();
        self.answers.read_line(&mut said).expect("Python answers");
        let mut words = said.split_whitespace();
        let answer = [(); ANSWERS].map(|()| words.next().and_then(|word| word.parse().ok()).expect("a number"));
        for argument in call.arguments() {
            if let Argument::Written(bytes) = argument {
                let word = words.next().expect("a buffer").strip_prefix('w').expect("a buffer");
                bytes.copy_from_slice(&decoded(word));
            }
        }
        answer
    }

    /// Ends the process, which compares what its own `Table` and `Names` say; whether they agree.
    pub fn end(mut self) -> bool {
        drop(self.calls);
        self.process.wait().is_ok_and(|status| status.success())
    }
}

fn hexadecimal(bytes: &[u8]) -> String {
    bytes.iter().map(|byte| format!("{byte:02x}")).collect()
}

fn decoded(word: &str) -> Vec<u8> {
    let digits: Vec<u8> = word.chars().map(|digit| digit.to_digit(16).expect("a digit") as u8).collect();
    digits.chunks(2).map(|pair| 16 * pair[0] + pair[1]).collect()
}
