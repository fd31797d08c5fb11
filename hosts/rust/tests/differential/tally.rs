//! Counts of the calls made, and their tables.

use crate::calls::{Call, FUNCTIONS};
use std::collections::{BTreeMap, BTreeSet};
use tickdrizzle::abi::Answer;

/// The numbers of the questions.
const QUESTIONS: [u64; 27] =
    [1, 2, 3, 4, 5, 6, 7, 8, 9, 20, 21, 23, 24, 25, 26, 27, 28, 40, 41, 42, 50, 51, 60, 61, 62, 70, 80];

#[derive(Clone, Copy, PartialEq, Eq, PartialOrd, Ord)]
enum Outcome {
    Answered,
    Nothing,
    Stopped,
    Refused(u64),
}

/// A way to make a call: by the archive's sixteen numbers, by the functions that take slices, by `Table` and `Names`, by the Python
/// package.
#[derive(Clone, Copy, Debug, PartialEq, Eq, PartialOrd, Ord)]
pub enum Way {
    Archive,
    Wrapper,
    Types,
    Python,
}

#[derive(Default)]
pub struct Tally {
    counts: BTreeMap<(&'static str, &'static str, Outcome), u64>,
    ways: BTreeMap<(Way, &'static str), u64>,
    pub calls: u64,
    pub walks: u64,
    pub differences: u64,
}

impl Tally {
    pub fn count(&mut self, call: &Call, family: &'static str, answer: &Answer) {
        let outcome = match (answer[0], call) {
            (
                0,
                Call::Search { .. } | Call::SearchAmong { .. } | Call::LimitedSearch { .. } | Call::LeastDegree { .. },
            ) if answer[2] == 0 => Outcome::Nothing,
            (0, Call::LimitedSearch { .. }) if answer[2] == 2 => Outcome::Stopped,
            (0, _) => Outcome::Answered,
            (number, _) => Outcome::Refused(number),
        };
        *self.counts.entry((call.function(), family, outcome)).or_default() += 1;
        self.calls += 1;
    }

    pub fn count_way(&mut self, way: Way, function: &'static str) {
        *self.ways.entry((way, function)).or_default() += 1;
    }

    /// Whether a call of the function was made in this way.
    pub fn is_made(&self, way: Way, function: &'static str) -> bool {
        self.ways.contains_key(&(way, function))
    }

    fn sum(&self, of: impl Fn(&str, &str, Outcome) -> bool) -> u64 {
        let counted = self.counts.iter().filter(|((function, family, outcome), _)| of(function, family, *outcome));
        counted.map(|(_, count)| count).sum()
    }

    /// Prints the counts; whether every function was called in each of these ways.
    pub fn print(&self, ways: &[Way]) -> bool {
        self.print_outcomes();
        println!();
        self.print_families();
        println!();
        self.print_ways(ways);
        println!("\n{} calls, {} walks, {} differences", self.calls, self.walks, self.differences);
        ways.iter().all(|way| FUNCTIONS.iter().all(|name| self.is_made(*way, name)))
    }

    /// A row for each function: the calls made in each way.
    fn print_ways(&self, ways: &[Way]) {
        print!("{:<34}", "made by");
        for way in ways {
            print!("{:>9}", format!("{way:?}"));
        }
        println!();
        for name in FUNCTIONS {
            print!("{name:<34}");
            for way in ways {
                print!("{:>9}", self.ways.get(&(*way, name)).unwrap_or(&0));
            }
            println!();
        }
    }

    /// A row for each function: calls, answered or found, none, stopped, refused by each question.
    fn print_outcomes(&self) {
        print!("{:<34}{:>8} {:>8} {:>7} {:>7}", "function", "calls", "answered", "none", "stopped");
        for question in QUESTIONS {
            print!("{question:>7}");
        }
        println!();
        for name in FUNCTIONS {
            let calls = self.sum(|function, _, _| function == name);
            let count = |wanted| self.sum(|function, _, outcome| function == name && outcome == wanted);
            print!("{name:<34}{calls:>8} {:>8}", count(Outcome::Answered));
            print!(" {:>7} {:>7}", count(Outcome::Nothing), count(Outcome::Stopped));
            for question in QUESTIONS {
                print!("{:>7}", count(Outcome::Refused(question)));
            }
            println!();
        }
    }

    /// A row for each family of inputs, a column for each function.
    fn print_families(&self) {
        let families: BTreeSet<&str> = self.counts.keys().map(|(_, family, _)| *family).collect();
        print!("{:<19}", "family");
        for name in FUNCTIONS {
            print!("  {name}");
        }
        println!();
        for wanted in families {
            print!("{wanted:<19}");
            for name in FUNCTIONS {
                let calls = self.sum(|function, family, _| function == name && family == wanted);
                print!("{calls:>width$}", width = name.len() + 2);
            }
            println!();
        }
    }
}
