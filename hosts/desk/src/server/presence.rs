//! Whether a page is open. Each open page holds a connection, which the browser closes with it.

use std::sync::{Arc, Mutex};
use std::time::{Duration, Instant};

/// So long after its page was closed the server ends: a page that is loaded again is closed for a moment.
const AFTER: Duration = Duration::from_secs(60);

/// So long the first page may take to come.
const BEFORE: Duration = Duration::from_secs(600);

#[derive(Clone)]
pub struct Presence(Arc<Mutex<State>>);

struct State {
    open: usize,
    /// Where none is open, when the server ends.
    end: Instant,
}

/// A page that is open, until it is dropped.
pub struct Here(Presence);

impl Presence {
    pub fn new() -> Presence {
        Presence(Arc::new(Mutex::new(State { open: 0, end: Instant::now() + BEFORE })))
    }

    /// A page was opened.
    pub fn enter(&self) -> Here {
        self.change(|state| state.open += 1);
        Here(self.clone())
    }

    /// Whether no page has been open for long enough.
    pub fn is_over(&self) -> bool {
        self.change(|state| state.open == 0 && state.end <= Instant::now())
    }

    fn change<T>(&self, work: impl FnOnce(&mut State) -> T) -> T {
        work(&mut self.0.lock().expect("no thread fails while it counts"))
    }
}

impl Drop for Here {
    fn drop(&mut self) {
        self.0.change(|state| {
            state.open -= 1;
            state.end = Instant::now() + AFTER;
        });
    }
}

#[cfg(test)]
mod tests {
    use super::*;

    #[test]
    fn it_is_over_once_the_last_page_has_been_closed_for_a_while() {
        let presence = Presence::new();
        let pass = |time: Duration| presence.change(|state| state.end -= time);
        pass(BEFORE - Duration::from_secs(1));
        assert!(!presence.is_over());
        let (one, other) = (presence.enter(), presence.enter());
        pass(BEFORE);
        drop(one);
        pass(AFTER);
        assert!(!presence.is_over());
        drop(other);
        pass(AFTER - Duration::from_secs(1));
        assert!(!presence.is_over());
        pass(Duration::from_secs(1));
        assert!(presence.is_over());
    }
}
