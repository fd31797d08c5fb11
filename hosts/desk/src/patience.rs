//! Work that people wait for no longer than they like.

use std::sync::mpsc::{self, RecvTimeoutError};
use std::thread;
use std::time::{Duration, Instant};

/// Does the work in a thread of its own; nothing where it takes longer. The thread then ends with the program.
pub fn within<T: Send + 'static>(limit: Option<Duration>, work: impl FnOnce() -> T + Send + 'static) -> Option<T> {
    let Some(limit) = limit else { return Some(work()) };
    let (done, told) = mpsc::channel();
    thread::spawn(move || done.send(work()));
    told.recv_timeout(limit).ok()
}

/// Does work that tells one thing after another, in a thread of its own: what was told within the limit, and whether the work had ended by
/// then. Telling says whether somebody still listens.
pub fn told_within<T: Send + 'static>(
    limit: Option<Duration>,
    work: impl FnOnce(&dyn Fn(T) -> bool) + Send + 'static,
) -> (Vec<T>, bool) {
    let (teller, told) = mpsc::channel();
    let begun = Instant::now();
    thread::spawn(move || {
        work(&|thing| teller.send(Some(thing)).is_ok());
        let _ = teller.send(None);
    });
    let mut things = Vec::new();
    loop {
        let next = match limit.map(|limit| limit.checked_sub(begun.elapsed())) {
            None => told.recv().map_err(|_| RecvTimeoutError::Disconnected),
            Some(Some(left)) => told.recv_timeout(left),
            Some(None) => Err(RecvTimeoutError::Timeout),
        };
        match next {
            Ok(Some(thing)) => things.push(thing),
            Ok(None) => return (things, true),
            Err(RecvTimeoutError::Timeout) => return (things, false),
            Err(RecvTimeoutError::Disconnected) => panic!("the work has failed"),
        }
    }
}

/// A time as people write it: `10s`, `2m`, `1.5h`, `500ms`, or seconds without a unit.
pub fn duration(text: &str) -> Result<Duration, String> {
    let text = text.trim();
    let end = text.find(|character: char| character.is_ascii_alphabetic()).unwrap_or(text.len());
    let (number, unit) = text.split_at(end);
    let seconds = match unit {
        "ms" => 0.001,
        "" | "s" => 1.0,
        "m" | "min" => 60.0,
        "h" => 3600.0,
        _ => return Err(format!("{unit} is no unit of time: use ms, s, m or h")),
    };
    let number = number.trim().parse().ok().filter(|number: &f64| *number > 0.0);
    let time = number.and_then(|number| Duration::try_from_secs_f64(number * seconds).ok());
    time.ok_or_else(|| "this is no time: give one such as 10s, 2m or 500ms".into())
}

#[cfg(test)]
mod tests {
    use super::*;

    #[test]
    fn times_as_people_write_them() {
        for (text, milliseconds) in [("10s", 10_000), ("2m", 120_000), ("500ms", 500), ("1.5", 1500), ("1h", 3_600_000)]
        {
            assert_eq!(duration(text), Ok(Duration::from_millis(milliseconds)));
        }
        for text in ["", "s", "0", "10d", "-1s", "1,5s", "1e400", "nan"] {
            assert!(duration(text).is_err(), "{text}");
        }
    }

    #[test]
    fn what_was_told_in_time() {
        assert_eq!(told_within(None, |tell| assert!(tell(1) && tell(2))), (vec![1, 2], true));
        let slow = |tell: &dyn Fn(i32) -> bool| {
            tell(1);
            thread::sleep(Duration::from_secs(2));
            tell(2);
        };
        assert_eq!(told_within(Some(Duration::from_secs(1)), slow), (vec![1], false));
    }

    #[test]
    fn work_that_takes_too_long_has_no_answer() {
        assert_eq!(within(None, || 1), Some(1));
        assert_eq!(within(Some(Duration::from_secs(60)), || 1), Some(1));
        assert_eq!(within(Some(Duration::from_millis(1)), || thread::sleep(Duration::from_secs(1))), None);
    }
}
