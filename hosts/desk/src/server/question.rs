//! A question, answered by a process of its own: a call of the library cannot be stopped, but a process can.

use super::http::has_left;
use crate::searcher::PROGRAM;
use crate::signals::wait_for;
use std::io::{Read, Write};
use std::net::TcpStream;
use std::os::fd::AsFd;
use std::process::{Child, Command, Stdio};
use std::time::{Duration, Instant};

/// A question that takes longer is stopped.
const PATIENCE: Duration = Duration::from_secs(600);

/// A longer reply is not taken.
const MOST_REPLIED: usize = 32 << 20;

/// What came of a question.
pub enum Outcome {
    Replied(Vec<u8>),
    /// It was not understood.
    Refused(String),
    TooLong,
    Failed,
    /// Nobody waits for the reply.
    Left,
}

/// A process that is ended with this value.
struct Ended(Child);

impl Drop for Ended {
    fn drop(&mut self) {
        let _ = self.0.kill();
        let _ = self.0.wait();
    }
}

/// Asks, for as long as the connection stays open.
pub fn ask(question: &[u8], asker: &TcpStream) -> Outcome {
    let mut command = Command::new(PROGRAM);
    command.arg("ask").stdin(Stdio::piped()).stdout(Stdio::piped()).stderr(Stdio::piped());
    let Ok(mut child) = command.spawn().map(Ended) else { return Outcome::Failed };
    // A process that ends early takes no more; what it says tells why.
    if let Some(mut input) = child.0.stdin.take() {
        let _ = input.write_all(question);
    }
    let (Some(mut output), Some(errors)) = (child.0.stdout.take(), child.0.stderr.take()) else {
        return Outcome::Failed;
    };
    let (begun, mut reply, mut buffer) = (Instant::now(), Vec::new(), [0; 16 << 10]);
    loop {
        let left = PATIENCE.saturating_sub(begun.elapsed());
        match wait_for([output.as_fd(), asker.as_fd()], left) {
            [true, _] => match output.read(&mut buffer) {
                Ok(0) => break,
                Ok(count) if reply.len() + count <= MOST_REPLIED => reply.extend(&buffer[..count]),
                _ => return Outcome::Failed,
            },
            [false, true] => return Outcome::Left,
            [false, false] if left.is_zero() => return Outcome::TooLong,
            [false, false] => {}
        }
    }
    if has_left(asker, Duration::ZERO) {
        return Outcome::Left;
    }
    match child.0.wait().ok().and_then(|status| status.code()) {
        Some(0) => Outcome::Replied(reply),
        Some(64) => {
            let mut why = String::new();
            let _ = errors.take(1024).read_to_string(&mut why);
            Outcome::Refused(why.trim_start_matches("tickdrizzle: ").trim().into())
        }
        _ => Outcome::Failed,
    }
}
