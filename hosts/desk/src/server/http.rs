//! A request of a connection, read within bounds, and its reply.
//!
//! `tiny_http` knows the form of headers and replies. Its own server is not used: docs/DECISIONS.md says why.

use crate::signals::wait_for;
use std::io::{self, Cursor, ErrorKind, Read, Write};
use std::net::{Shutdown, TcpStream};
use std::os::fd::AsFd;
use std::time::{Duration, Instant};
use tiny_http::{HTTPVersion, Header, Response};

/// The longest request line with headers. Browsers send about a thousand bytes.
const LONGEST_HEAD: usize = 16 << 10;

/// After a reply, so many bytes that still come are passed over, for so long: closing at once might lose the reply.
const MOST_PASSED: usize = 64 << 10;
const LONGEST_PASSED: Duration = Duration::from_millis(200);

/// How often a page that is held open is looked at.
const BREATH: Duration = Duration::from_secs(20);

/// What every reply has: nothing but what this server sends is loaded, run, framed, kept or told to others.
const ALWAYS: [(&str, &str); 7] = [
    (
        "Content-Security-Policy",
        "default-src 'none'; script-src 'self'; style-src 'self'; img-src 'self'; connect-src 'self'; base-uri 'none'; form-action 'none'; \
         frame-ancestors 'none'",
    ),
    ("X-Content-Type-Options", "nosniff"),
    ("Referrer-Policy", "no-referrer"),
    ("Cache-Control", "no-store"),
    ("Cross-Origin-Opener-Policy", "same-origin"),
    ("Cross-Origin-Resource-Policy", "same-origin"),
    ("Permissions-Policy", "camera=(), geolocation=(), microphone=(), usb=()"),
];

/// A request line and its headers.
#[derive(Debug)]
pub struct Head {
    pub method: String,
    pub path: String,
    pub headers: Vec<Header>,
}

impl Head {
    /// The head that some bytes are, where they have the form of one.
    fn new(bytes: &[u8]) -> Option<Head> {
        let text = std::str::from_utf8(bytes).ok().filter(|text| text.is_ascii())?;
        let mut lines = text.split("\r\n");
        let mut words = lines.next()?.split(' ');
        let (method, path, version) = (words.next()?, words.next()?, words.next()?);
        let is_known = matches!(version, "HTTP/1.0" | "HTTP/1.1") && words.next().is_none();
        let headers = lines.filter(|line| !line.is_empty()).map(|line| line.parse().ok());
        let headers: Option<Vec<Header>> = headers.collect();
        Some(Head { method: method.into(), path: path.into(), headers: headers.filter(|_| is_known)? })
    }

    /// The values of a header.
    pub fn values(&self, name: &'static str) -> Vec<&str> {
        self.headers.iter().filter(|header| header.field.equiv(name)).map(|header| header.value.as_str()).collect()
    }
}

/// What is replied.
pub struct Reply {
    status: u16,
    kind: &'static str,
    body: Vec<u8>,
    location: Option<String>,
}

impl Reply {
    pub fn new(kind: &'static str, body: impl Into<Vec<u8>>) -> Reply {
        Reply { status: 200, kind, body: body.into(), location: None }
    }

    pub fn json(body: Vec<u8>) -> Reply {
        Reply::new("application/json", body)
    }

    pub fn words(status: u16, words: &str) -> Reply {
        Reply { status, ..Reply::new("text/plain; charset=utf-8", format!("{words}\n")) }
    }

    /// Leads to another address.
    pub fn elsewhere(address: String) -> Reply {
        Reply { location: Some(address), ..Reply::words(303, "The page is elsewhere.") }
    }

    pub fn refused(why: &str) -> Reply {
        Reply::words(403, why)
    }

    pub fn missing() -> Reply {
        Reply::words(404, "There is nothing here.")
    }

    pub fn busy() -> Reply {
        Reply::words(503, "Too much is asked at once: try again.")
    }
}

/// Why there is no request: what is replied, or nothing where nobody waits for it.
type Unread = Option<Reply>;

/// A connection, of which one request is read. Reading and writing end with the time that they are given.
pub struct Connection {
    stream: TcpStream,
    deadline: Instant,
    /// What was read and belongs to the body.
    rest: Vec<u8>,
}

impl Connection {
    pub fn new(stream: TcpStream, limit: Duration) -> io::Result<Connection> {
        stream.set_nodelay(true)?;
        Ok(Connection { stream, deadline: Instant::now() + limit, rest: Vec::new() })
    }

    pub fn stream(&self) -> &TcpStream {
        &self.stream
    }

    /// Reads the head of the request.
    pub fn head(&mut self) -> Result<Head, Unread> {
        let (mut bytes, mut buffer) = (Vec::new(), [0; 2048]);
        loop {
            let seen = bytes.len().saturating_sub(3);
            let count = self.read(&mut buffer).map_err(|_| None)?;
            bytes.extend(&buffer[..count]);
            let end = bytes[seen..].windows(4).position(|end| end == b"\r\n\r\n").map(|end| seen + end);
            if let Some(end) = end.filter(|end| *end <= LONGEST_HEAD) {
                self.rest = bytes[end + 4..].to_vec();
                return Head::new(&bytes[..end]).ok_or_else(|| Some(Reply::words(400, "This is no request.")));
            }
            if count == 0 {
                return Err(None);
            }
            if bytes.len() > LONGEST_HEAD {
                return Err(Some(Reply::words(431, "The head of the request is too long.")));
            }
        }
    }

    /// Reads the body, whose length must be given.
    pub fn body(&mut self, head: &Head, most: usize) -> Result<Vec<u8>, Unread> {
        let length = match head.values("Content-Length")[..] {
            [length] if head.values("Transfer-Encoding").is_empty() => length.parse::<usize>().ok(),
            _ => None,
        };
        let Some(length) = length else { return Err(Some(Reply::words(411, "The length of the body is missing."))) };
        if length > most {
            return Err(Some(Reply::words(413, "This is too much at once: at most 16 MB can be sent.")));
        }
        let mut body = std::mem::take(&mut self.rest);
        body.truncate(length);
        let mut buffer = [0; 16 << 10];
        while body.len() < length {
            let wanted = buffer.len().min(length - body.len());
            match self.read(&mut buffer[..wanted]) {
                Ok(count @ 1..) => body.extend(&buffer[..count]),
                _ => return Err(None),
            }
        }
        Ok(body)
    }

    /// Sends a reply within this time, and closes the connection.
    pub fn send(&mut self, reply: Reply, limit: Duration) {
        self.deadline = Instant::now() + limit;
        let mut bytes = Vec::new();
        let (length, mut headers) = (reply.body.len(), headers(reply.kind));
        headers.extend(reply.location.and_then(|address| Header::from_bytes("Location", address).ok()));
        let response = Response::new(reply.status.into(), headers, Cursor::new(reply.body), Some(length), None);
        // In the older version a connection serves one request.
        let printed = response.raw_print(&mut bytes, HTTPVersion(1, 0), &[], false, None);
        if printed.and_then(|()| self.write_all(&bytes)).is_ok() {
            let _ = self.stream.shutdown(Shutdown::Write);
            self.pass_over();
        }
    }

    /// Passes over what still comes, for a while.
    fn pass_over(&mut self) {
        self.deadline = Instant::now() + LONGEST_PASSED;
        let (mut passed, mut buffer) = (0, [0; 4096]);
        while let Ok(count @ 1..) = self.read(&mut buffer) {
            passed += count;
            if passed > MOST_PASSED {
                return;
            }
        }
    }

    /// Begins a reply that goes on while the other side stays, and returns once it has left.
    pub fn hold(&mut self) {
        let breaths = Breaths { stream: &self.stream };
        let response = Response::new(200.into(), headers("text/event-stream"), breaths, None, None);
        let _ = self.stream.set_write_timeout(Some(BREATH));
        let _ = response.raw_print(&self.stream, HTTPVersion(1, 1), &[], false, None);
    }

    /// What is left of the time.
    fn left(&self) -> io::Result<Duration> {
        let left = self.deadline.saturating_duration_since(Instant::now());
        if left.is_zero() {
            Err(ErrorKind::TimedOut.into())
        } else {
            Ok(left)
        }
    }
}

impl Read for Connection {
    fn read(&mut self, buffer: &mut [u8]) -> io::Result<usize> {
        self.stream.set_read_timeout(Some(self.left()?))?;
        self.stream.read(buffer)
    }
}

impl Write for Connection {
    fn write(&mut self, bytes: &[u8]) -> io::Result<usize> {
        self.stream.set_write_timeout(Some(self.left()?))?;
        self.stream.write(bytes)
    }

    fn flush(&mut self) -> io::Result<()> {
        self.stream.flush()
    }
}

/// What a held connection reads from: it ends once the other side has left.
struct Breaths<'a> {
    stream: &'a TcpStream,
}

impl Read for Breaths<'_> {
    fn read(&mut self, _: &mut [u8]) -> io::Result<usize> {
        while !has_left(self.stream, BREATH) {}
        Ok(0)
    }
}

/// Whether the other side closes the connection, or sends what it should not, within this time.
pub fn has_left(stream: &TcpStream, limit: Duration) -> bool {
    wait_for([stream.as_fd()], limit)[0]
}

fn headers(kind: &str) -> Vec<Header> {
    let pairs = ALWAYS.into_iter().chain([("Content-Type", kind), ("Server", "tickdrizzle")]);
    pairs.map(|(name, value)| Header::from_bytes(name, value).expect("headers are plain text")).collect()
}
