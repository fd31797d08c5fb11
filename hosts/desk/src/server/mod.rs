//! The page of `tickdrizzle open`, served to this computer alone.
//!
//! One request is read from each connection, within bounds of time and length; what it asks is answered by a process of its own.

mod gate;
mod http;
mod pages;
mod presence;
mod question;

use crate::asked::MOST_ASKED;
use crate::signals::wait_for;
use gate::{Gate, Pass};
use http::{Connection, Head, Reply};
use presence::Presence;
use question::Outcome;
use std::io;
use std::net::{Ipv4Addr, TcpListener, TcpStream};
use std::os::fd::AsFd;
use std::sync::atomic::{AtomicUsize, Ordering};
use std::sync::Arc;
use std::thread;
use std::time::Duration;

/// More connections at once are closed unread. A browser opens six.
const MOST_CONNECTIONS: usize = 64;

/// More questions at once are turned away. A page asks one after another.
const MOST_QUESTIONS: usize = 4;

/// More open pages are turned away.
const MOST_PAGES: usize = 16;

/// How long a request may take to come, and its reply to be taken.
const PATIENCE: Duration = Duration::from_secs(5);

/// A thread reads a request and copies bytes; it calls nothing deep.
const STACK: usize = 256 << 10;

/// How often is looked whether the page is still open.
const LOOK: Duration = Duration::from_millis(500);

/// A server that listens on a port of its own.
pub struct Server {
    listener: TcpListener,
    gate: Gate,
    presence: Presence,
    connections: Counter,
    questions: Counter,
    pages: Counter,
}

impl Server {
    /// Listens on 127.0.0.1, on this port or, for 0, on a free one.
    pub fn new(port: u16) -> io::Result<Server> {
        let listener = TcpListener::bind((Ipv4Addr::LOCALHOST, port))?;
        let gate = Gate::new(listener.local_addr()?.port())?;
        Ok(Server {
            listener,
            gate,
            presence: Presence::new(),
            connections: Counter::new(MOST_CONNECTIONS),
            questions: Counter::new(MOST_QUESTIONS),
            pages: Counter::new(MOST_PAGES),
        })
    }

    /// The address of the page.
    pub fn address(&self) -> String {
        self.gate.address()
    }

    /// An address that leads to the page once.
    pub fn once(&self) -> String {
        self.gate.once()
    }

    /// Serves until the page has been closed for a while.
    pub fn serve(self) {
        let server = Arc::new(self);
        while !server.presence.is_over() {
            if !wait_for([server.listener.as_fd()], LOOK)[0] {
                continue;
            }
            match server.listener.accept() {
                Ok((stream, _)) => Server::take(&server, stream),
                // Such as too many open files: others are closed meanwhile.
                Err(_) => thread::sleep(LOOK),
            }
        }
    }

    /// Answers a connection in a thread of its own; one too many is closed.
    fn take(server: &Arc<Server>, stream: TcpStream) {
        if let Some(held) = server.connections.hold() {
            let lent = Arc::clone(server);
            let answer = move || {
                lent.answer(stream);
                drop(held);
            };
            // Where no thread can be had, the connection is closed too.
            let _ = thread::Builder::new().stack_size(STACK).spawn(answer);
        }
    }

    /// Reads a request and replies. Whatever comes, the connection is closed then.
    fn answer(&self, stream: TcpStream) {
        let Ok(mut connection) = Connection::new(stream, PATIENCE) else { return };
        let reply = match connection.head() {
            Ok(head) => match self.gate.pass(&head) {
                Ok(Pass::Path(path)) => self.reply(&path, &head, &mut connection),
                Ok(Pass::Address) => Some(Reply::elsewhere(self.address())),
                Err(why) => Some(Reply::refused(why)),
            },
            Err(refused) => refused,
        };
        if let Some(reply) = reply {
            connection.send(reply, PATIENCE);
        }
    }

    /// What is replied to a request that has the token; nothing where nobody waits for it.
    fn reply(&self, path: &str, head: &Head, connection: &mut Connection) -> Option<Reply> {
        match (head.method.as_str(), path) {
            ("GET", "present") => self.present(connection),
            ("GET", _) => Some(pages::page(path).unwrap_or_else(Reply::missing)),
            ("POST", "ask") => self.ask(head, connection),
            _ => Some(Reply::missing()),
        }
    }

    /// Holds the connection of an open page until it is closed.
    fn present(&self, connection: &mut Connection) -> Option<Reply> {
        let Some(_held) = self.pages.hold() else { return Some(Reply::busy()) };
        let _here = self.presence.enter();
        connection.hold();
        None
    }

    /// Has a question answered.
    fn ask(&self, head: &Head, connection: &mut Connection) -> Option<Reply> {
        let Some(_held) = self.questions.hold() else { return Some(Reply::busy()) };
        let body = match connection.body(head, MOST_ASKED) {
            Ok(body) => body,
            Err(refused) => return refused,
        };
        match question::ask(&body, connection.stream()) {
            Outcome::Replied(json) => Some(Reply::json(json)),
            Outcome::Refused(why) => Some(Reply::words(400, &why)),
            Outcome::TooLong => Some(Reply::words(504, "This took too long and was stopped.")),
            Outcome::Failed => Some(Reply::words(500, "This question ended without an answer.")),
            Outcome::Left => None,
        }
    }
}

/// Counts what is held at once, up to a number.
struct Counter {
    held: Arc<AtomicUsize>,
    most: usize,
}

/// One that is held, until it is dropped.
struct Held(Arc<AtomicUsize>);

impl Counter {
    fn new(most: usize) -> Counter {
        Counter { held: Arc::new(AtomicUsize::new(0)), most }
    }

    /// One more, where there may be.
    fn hold(&self) -> Option<Held> {
        let held = Held(Arc::clone(&self.held));
        let before = self.held.fetch_add(1, Ordering::SeqCst);
        (before < self.most).then_some(held)
    }
}

impl Drop for Held {
    fn drop(&mut self) {
        self.0.fetch_sub(1, Ordering::SeqCst);
    }
}

#[cfg(test)]
mod tests {
    use super::*;

    #[test]
    fn so_many_are_held_and_no_more() {
        let counter = Counter::new(2);
        let (one, two) = (counter.hold(), counter.hold());
        assert!(one.is_some() && two.is_some() && counter.hold().is_none() && counter.hold().is_none());
        drop(one);
        let three = counter.hold();
        assert!(three.is_some() && counter.hold().is_none());
    }
}
