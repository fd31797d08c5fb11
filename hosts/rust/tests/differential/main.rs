//! Compares the library with an independent implementation, the whole answer and every byte of every buffer, on every
//! small table, every short name sheet and CALLS random inputs: differential [CALLS] [SEED]. Prints the counts; fails where there is any
//! difference. Where `DIFFERENTIAL_PYTHON` names a program, some of the calls are made by it.

mod calls;
mod families;
mod inputs;
mod names;
mod python;
mod random;
mod reference;
mod sheets;
mod tally;
mod types;

use calls::{Argument, Call, Lent, LentTable};
use families::Semigroup;
use inputs::Input;
use python::Python;
use random::Random;
use reference::{Ask, Kind, Pair, Table, KINDS};
use std::process::ExitCode;
use std::time::{SystemTime, UNIX_EPOCH};
use tally::{Tally, Way};
use tickdrizzle::abi::Answer;
use tickdrizzle::scratch_size;

const CALLS_BY_DEFAULT: u64 = 100_000;

/// The family of all tables of order 1 to 3.
const SMALL: &str = "order 1 to 3";

/// The trials up to which the reference counts.
const MOST_TRIALS: u32 = 20_000;

const MAT5: [u8; 25] = [1, 1, 1, 1, 1, 1, 2, 3, 2, 3, 1, 1, 1, 2, 3, 1, 4, 5, 4, 5, 1, 1, 1, 4, 5];

fn main() -> ExitCode {
    let Some((calls, seed)) = arguments() else {
        eprintln!("usage: differential [CALLS] [SEED]");
        return ExitCode::from(64);
    };
    println!("seed {seed}");
    let mut comparison = Comparison { random: Random::new(seed), tally: Tally::default(), python: Python::start() };
    comparison.small_tables();
    comparison.scratch_lengths();
    comparison.all_transformations();
    comparison.small_sheets();
    comparison.written_sheets();
    let enough = comparison.tally.calls + calls;
    while comparison.tally.calls < enough {
        comparison.some_calls();
    }
    let ways = comparison.ways();
    let python_agrees = comparison.python.take().is_none_or(Python::end);
    let complete = comparison.tally.print(&ways);
    println!("seed {seed}");
    ExitCode::from(u8::from(!python_agrees || !complete || comparison.tally.differences > 0))
}

/// The calls and the seed; nothing where an argument is no number or there are more.
fn arguments() -> Option<(u64, u64)> {
    let numbers = std::env::args().skip(1).map(|argument| argument.parse().ok()).collect::<Option<Vec<u64>>>()?;
    match numbers[..] {
        [] => Some((CALLS_BY_DEFAULT, seed_of_the_clock())),
        [calls] => Some((calls, seed_of_the_clock())),
        [calls, seed] => Some((calls, seed)),
        _ => None,
    }
}

fn seed_of_the_clock() -> u64 {
    SystemTime::now().duration_since(UNIX_EPOCH).map_or(1, |time| time.as_secs())
}

struct Comparison {
    random: Random,
    tally: Tally,
    python: Option<Python>,
}

impl Comparison {
    /// Makes a call by the library and by the reference and compares what they say and leave; what the reference says.
    fn compare(&mut self, call: &mut Call, family: &'static str) -> Answer {
        let before = call.clone();
        let expected = call.by_reference();
        let mut other = before.clone();
        let way = self.way(before.function());
        let answer = match (way, &mut self.python) {
            (Way::Python, Some(python)) => python.make(&mut other),
            (Way::Archive, _) => other.by_archive(&mut self.random),
            _ => other.by_wrapper(),
        };
        self.tally.count(&before, family, &expected);
        self.tally.count_way(way, before.function());
        if answer != expected || other != *call {
            self.tally.differences += 1;
            println!("difference in {} by {way:?}\n  lent: {before:?}", before.function());
            println!("  library says {answer:?} and leaves {other:?}\n  expected     {expected:?} and {call:?}");
        }
        if !self.tally.is_made(Way::Types, before.function()) || self.random.one_in(2) {
            self.compare_types(&before, &expected, call);
        }
        expected
    }

    /// Makes a call a second time by `Table` or `Names`, where they can make it, and compares what they say with the expected
    /// answer, and what they hand back with the front of each buffer after the call.
    fn compare_types(&mut self, before: &Call, expected: &Answer, after: &mut Call) {
        let Some((answer, fronts)) = types::made(before, expected) else { return };
        self.tally.count_way(Way::Types, before.function());
        let written = after.arguments().into_iter().filter_map(|argument| match argument {
            Argument::Written(bytes) => Some(bytes),
            _ => None,
        });
        if answer != *expected || !written.zip(&fronts).all(|(bytes, front)| bytes.starts_with(front)) {
            self.tally.differences += 1;
            println!("difference in {} by Types\n  lent: {before:?}", before.function());
            println!("  they say {answer:?} and hand back {fronts:?}\n  expected {expected:?} and {after:?}");
        }
    }

    /// The ways in which calls are made here.
    fn ways(&self) -> Vec<Way> {
        let ways = [Way::Archive, Way::Wrapper, Way::Types, Way::Python];
        ways.into_iter().filter(|way| *way != Way::Python || self.python.is_some()).collect()
    }

    /// A way to make a call of a function: one that it was not made by yet, or any.
    fn way(&mut self, function: &'static str) -> Way {
        let mut others = self.ways().into_iter().filter(|way| *way != Way::Types);
        if let Some(way) = others.find(|way| !self.tally.is_made(*way, function)) {
            return way;
        }
        match self.random.below(2 * python::ONE_IN) {
            0..=1 if self.python.is_some() => Way::Python,
            number if number % 2 == 0 => Way::Archive,
            _ => Way::Wrapper,
        }
    }

    /// Every table of order 1 to 3, with every short list as its generators. Of the accepted ones every element, what every
    /// short list generates, the least degree, the text, and between every two of them the first and the next map of each kind,
    /// with the candidates, and a map check. What every short list generates in mat5, and its least degree.
    fn small_tables(&mut self) {
        let all = (1..=3)
            .flat_map(|order| reference::lists(order * order, order).into_iter().map(move |cells| (cells, order)));
        let mut accepted = Vec::new();
        for (cells, order) in all {
            let table = LentTable { cells: Lent::new(&mut self.random, &cells), order };
            let answer = self.compare(&mut Call::CheckTable { table: table.clone() }, SMALL);
            self.short_checks(&table);
            if answer[0] == 0 {
                accepted.push(table);
            }
        }
        for source in &accepted {
            for element in 1..=source.order {
                self.compare(&mut Call::IndexPeriod { table: source.clone(), element }, SMALL);
                self.compare(&mut Call::Profile { table: source.clone(), element }, SMALL);
            }
            self.short_parts(source, SMALL);
            self.least_degrees(source, SMALL);
            self.small_text(source);
            for target in &accepted {
                self.small_maps(source, target);
                self.small_among(source, target);
                self.around_trials(source, target, SMALL);
                let length = scratch_size(source.order, target.order);
                self.copies(source, target, length, SMALL);
            }
        }
        let mat5 = LentTable { cells: Lent::new(&mut self.random, &MAT5), order: 5 };
        self.short_parts(&mat5, "mat5");
        self.around_trials(&mat5, &mat5, "mat5");
        self.least_degrees(&mat5, "mat5");
        self.copies_in_transformations(&mat5);
    }

    /// One and right in the table of all transformations of two points, mat5 in that of three.
    fn copies_in_transformations(&mut self, mat5: &LentTable) {
        for (cells, order, degree) in [(&[1][..], 1, 2), (&[1, 2, 1, 2][..], 2, 2), (&mat5.cells[..], 5, 3)] {
            let mut table = vec![0; 729];
            let size = tickdrizzle::transformations(degree, &mut table).expect("the buffer has room");
            let source = LentTable { cells: Lent::new(&mut self.random, cells), order };
            let target = LentTable { cells: Lent::new(&mut self.random, &table[..size * size]), order: size };
            self.copies(&source, &target, scratch_size(order, size), "in transformations");
        }
    }

    /// The number of copies, with so much scratch.
    fn copies(&mut self, source: &LentTable, target: &LentTable, scratch_length: usize, family: &'static str) {
        let scratch = Lent::random(&mut self.random, scratch_length);
        let (source, target) = (source.clone(), target.clone());
        self.compare(&mut Call::Copies { source, target, scratch }, family);
    }

    /// The check by generators, with every short list.
    fn short_checks(&mut self, table: &LentTable) {
        for list in short_lists(table.order) {
            let generators = Lent::new(&mut self.random, &list);
            self.compare(&mut Call::CheckGenerated { table: table.clone(), generators }, SMALL);
        }
    }

    /// What every short list generates, with each buffer a byte too short, exactly long enough, and longer.
    fn short_parts(&mut self, table: &LentTable, family: &'static str) {
        for list in short_lists(table.order) {
            let members = reference::generated(&table.cells, table.order, &list).len();
            for part_length in lengths(members * members) {
                for elements_length in lengths(members) {
                    let chosen = Lent::new(&mut self.random, &list);
                    let part = Lent::random(&mut self.random, part_length);
                    let elements = Lent::random(&mut self.random, elements_length);
                    self.compare(&mut Call::Subsemigroup { table: table.clone(), chosen, part, elements }, family);
                }
            }
        }
    }

    /// The least degree, with a position buffer a byte too short, exactly long enough, and longer.
    fn least_degrees(&mut self, table: &LentTable, family: &'static str) {
        for length in lengths(3 * table.order) {
            let positions = Lent::random(&mut self.random, length);
            self.compare(&mut Call::LeastDegree { table: table.clone(), positions }, family);
        }
    }

    /// The text of a table, saved and loaded, with a buffer a byte too short, exactly long enough, and longer.
    fn small_text(&mut self, table: &LentTable) {
        let saved = reference::text_of(&table.cells, table.order);
        for length in lengths(saved.len()) {
            let text = Lent::random(&mut self.random, length);
            self.compare(&mut Call::Save { table: table.clone(), text }, SMALL);
        }
        for length in lengths(table.cells.len()) {
            let text = Lent::new(&mut self.random, saved.as_bytes());
            let cells = Lent::random(&mut self.random, length);
            self.compare(&mut Call::Load { text, cells }, SMALL);
        }
    }

    /// The tables of all transformations, and the degrees beside them, with buffers around the lengths that are asked for.
    fn all_transformations(&mut self) {
        for degree in [0, 1, 2, 3, 4, usize::MAX] {
            for length in [1, 16, 729].into_iter().flat_map(lengths) {
                let cells = Lent::random(&mut self.random, length);
                self.compare(&mut Call::Transformations { degree, cells }, "transformations");
            }
        }
    }

    /// The first map of each kind, and the one after a list; a check of any list.
    fn small_maps(&mut self, source: &LentTable, target: &LentTable) {
        let map = inputs::map(&mut self.random, source.order, target.order);
        self.compare(&mut Call::CheckMap { source: source.clone(), target: target.clone(), map }, SMALL);
        for kind in KINDS {
            for ask in [Ask::First, Ask::Next] {
                let list: Vec<u8> = (0..source.order).map(|_| self.random.below(target.order + 1) as u8).collect();
                let map = Lent::new(&mut self.random, &list);
                let scratch = Lent::random(&mut self.random, scratch_size(source.order, target.order));
                let (source, target) = (source.clone(), target.clone());
                self.compare(&mut Call::Search { kind, ask, source, target, map, scratch }, SMALL);
            }
        }
    }

    /// The first embedding among pairs of each kind, and the one after a list.
    fn small_among(&mut self, source: &LentTable, target: &LentTable) {
        for ask in [Ask::First, Ask::Next] {
            let map = inputs::map(&mut self.random, source.order, target.order);
            self.among(ask, source.clone(), target.clone(), map, SMALL);
        }
    }

    /// A search among given pairs; the call after it.
    fn among(&mut self, ask: Ask, source: LentTable, target: LentTable, map: Lent, family: &'static str) -> Call {
        let pairs = inputs::pairs(&mut self.random, source.order, target.order);
        let scratch = self.scratch(source.order, target.order);
        let mut call = Call::SearchAmong { ask, source, target, pairs, map, scratch };
        self.compare(&mut call, family);
        call
    }

    /// Some searches among given pairs between two tables, on one map buffer.
    fn searches_among(&mut self) {
        let (source, target) = if self.random.one_in(8) { self.small_in_large() } else { self.pair(8) };
        let mut map = inputs::map(&mut self.random, source.table.order, target.table.order);
        for _ in 0..self.random.within(1, 4) {
            let ask = self.random.pick(&[Ask::First, Ask::Next]);
            let call = self.among(ask, source.table.clone(), target.table.clone(), map, source.family);
            map = map_of(call);
        }
    }

    /// Searches with 1, 7, 8, 9 and 14,400 pairs over scratch bytes of 255: a byte too few, exactly enough, and more.
    fn scratch_lengths(&mut self) {
        for (m, n) in [(1, 1), (1, 7), (7, 1), (2, 4), (4, 2), (3, 3), (120, 120)] {
            let source = inputs::lend(&mut self.random, &families::null_of_order(m));
            let target = inputs::lend(&mut self.random, &families::null_of_order(n));
            for length in lengths(scratch_size(m, n)) {
                for kind in KINDS {
                    let map = Lent::random(&mut self.random, m);
                    let scratch = Lent::new(&mut self.random, &vec![255; length]);
                    let (source, target) = (source.table.clone(), target.table.clone());
                    self.compare(
                        &mut Call::Search { kind, ask: Ask::First, source, target, map, scratch },
                        "scratch of 255",
                    );
                }
            }
        }
    }

    /// The searches with a limit: one below the exact number of trials, at it, one above it, and the least and the greatest.
    /// Where more are needed than the reference counts, a limit below that.
    fn around_trials(&mut self, source: &LentTable, target: &LentTable, family: &'static str) {
        let Some(pair) = accepted(source, target) else { return };
        for kind in KINDS {
            let limits = match pair.counted(kind, MOST_TRIALS) {
                Some((_, trials)) => vec![trials.saturating_sub(1), trials, trials + 1, 0, u32::MAX],
                None => vec![self.random.below(MOST_TRIALS as usize) as u32],
            };
            for limit in limits {
                let map = Lent::random(&mut self.random, source.order);
                let scratch = Lent::random(&mut self.random, source.order * target.order);
                let (source, target) = (source.clone(), target.clone());
                self.compare(&mut Call::LimitedSearch { kind, source, target, map, scratch, limit }, family);
            }
        }
    }

    /// A search with a limit that is refused at times, on any pair of tables.
    fn limited_search(&mut self) {
        let (source, target) = match self.random.below(20) {
            0 => self.small_in_large(),
            1 => self.easy_pair(),
            _ => self.pair(8),
        };
        self.around_trials(&source.table, &target.table, source.family);
        let kind = self.random.pick(&KINDS);
        let map = inputs::map(&mut self.random, source.table.order, target.table.order);
        let scratch = self.scratch(source.table.order, target.table.order);
        let limit = self.random.below(200) as u32;
        let (family, source, target) = (source.family, source.table, target.table);
        self.compare(&mut Call::LimitedSearch { kind, source, target, map, scratch, limit }, family);
    }

    /// Calls of one kind.
    fn some_calls(&mut self) {
        match self.random.below(56) {
            0..=10 => self.one_table(),
            11..=13 => self.lists(),
            14..=15 => self.map_check(),
            16..=21 => self.searches(),
            22 if self.random.one_in(8) => self.isomorphism_walk(),
            22..=23 => self.walk(),
            24..=26 => self.transformations(),
            27..=33 => self.load(),
            34..=39 => self.save(),
            40..=42 => self.limited_search(),
            43..=44 => self.least_degree(),
            45..=48 => self.load_names(),
            49..=51 => self.save_names(),
            52..=54 => self.searches_among(),
            _ => self.name_rounds(),
        }
    }

    fn one_table(&mut self) {
        let size = inputs::any_size(&mut self.random);
        let Input { table, family } = inputs::table(&mut self.random, size);
        let element = inputs::element(&mut self.random, table.order);
        let mut call = match self.random.below(3) {
            0 => Call::CheckTable { table },
            1 => Call::IndexPeriod { table, element },
            _ => Call::Profile { table, element },
        };
        self.compare(&mut call, family);
    }

    /// A table with a list of its elements.
    fn lists(&mut self) {
        let size = inputs::any_size(&mut self.random);
        let Input { table, family } = inputs::table(&mut self.random, size);
        let list = inputs::chosen(&mut self.random, table.order);
        let mut call = if self.random.one_in(2) {
            Call::CheckGenerated { table, generators: list }
        } else {
            self.subsemigroup(table, list)
        };
        self.compare(&mut call, family);
    }

    /// Buffers of lengths around those that are asked for.
    fn subsemigroup(&mut self, table: LentTable, chosen: Lent) -> Call {
        let members = reference::generated(&table.cells, table.order, &chosen).len();
        let part_length = inputs::length(&mut self.random, members * members);
        let elements_length = inputs::length(&mut self.random, members);
        let part = Lent::random(&mut self.random, part_length);
        let elements = Lent::random(&mut self.random, elements_length);
        Call::Subsemigroup { table, chosen, part, elements }
    }

    fn map_check(&mut self) {
        let size = inputs::any_size(&mut self.random);
        let (source, target) = self.pair(size);
        let map = inputs::map(&mut self.random, source.table.order, target.table.order);
        let mut call = Call::CheckMap { source: source.table, target: target.table, map };
        self.compare(&mut call, source.family);
    }

    /// Two tables: a semigroup with itself, a relabelled copy, at times turned, a part of it, an unrelated one, or one that
    /// is refused.
    fn pair(&mut self, greatest: usize) -> (Input, Input) {
        let random = &mut self.random;
        let target = families::any(random, greatest);
        let source = match random.below(10) {
            0..=1 => target.clone(),
            2 => families::relabelled(random, &target),
            3 => families::turned(random, &target),
            4..=5 => families::part(random, &target),
            6..=7 => families::any(random, greatest),
            8 => return (inputs::table(random, greatest), inputs::lend(random, &target)),
            _ => return (inputs::lend(random, &target), inputs::table(random, greatest)),
        };
        (inputs::lend(random, &source), inputs::lend(random, &target))
    }

    /// Some searches between two tables, on one map buffer: mostly small tables, at times larger ones.
    fn searches(&mut self) {
        let (source, target) = match self.random.below(240) {
            0..=1 => self.late_pair(),
            2..=7 => self.small_in_large(),
            8..=19 => self.easy_pair(),
            _ => self.pair(8),
        };
        if source.table.order <= 6 {
            let size = scratch_size(source.table.order.min(120), target.table.order.min(120));
            let length = inputs::length(&mut self.random, size);
            self.copies(&source.table, &target.table, length, source.family);
        }
        let mut map = inputs::map(&mut self.random, source.table.order, target.table.order);
        for _ in 0..self.random.within(1, 4) {
            let call = self.search(source.table.clone(), target.table.clone(), map, source.family);
            map = map_of(call);
            self.check_of(&source, &target, &map);
            if self.random.one_in(2) {
                map = inputs::map(&mut self.random, source.table.order, target.table.order);
            }
        }
    }

    fn late_pair(&mut self) -> (Input, Input) {
        let (source, target) = families::late(&mut self.random);
        (inputs::lend(&mut self.random, &source), inputs::lend(&mut self.random, &target))
    }

    fn small_in_large(&mut self) -> (Input, Input) {
        let (source, target) = (families::any(&mut self.random, 4), families::any(&mut self.random, 27));
        (inputs::lend(&mut self.random, &source), inputs::lend(&mut self.random, &target))
    }

    fn easy_pair(&mut self) -> (Input, Input) {
        let source = families::easy(&mut self.random);
        let target = if self.random.one_in(2) { source.clone() } else { families::easy(&mut self.random) };
        (inputs::lend(&mut self.random, &source), inputs::lend(&mut self.random, &target))
    }

    /// Any of the searches; the call after it.
    fn search(&mut self, source: LentTable, target: LentTable, map: Lent, family: &'static str) -> Call {
        let kind = self.random.pick(&KINDS);
        let ask = self.random.pick(&[Ask::First, Ask::Next]);
        let scratch = self.scratch(source.order, target.order);
        let mut call = Call::Search { kind, ask, source, target, map, scratch };
        self.compare(&mut call, family);
        call
    }

    /// A scratch buffer for two orders, of a length around the one that is asked for.
    fn scratch(&mut self, source_order: usize, target_order: usize) -> Lent {
        let length = inputs::length(&mut self.random, scratch_size(source_order.min(120), target_order.min(120)));
        Lent::random(&mut self.random, length)
    }

    /// A map check of what a search left, with a byte changed at times.
    fn check_of(&mut self, source: &Input, target: &Input, map: &Lent) {
        let mut map = map.clone();
        if !map.is_empty() && self.random.one_in(2) {
            let place = self.random.below(map.len());
            map[place] = self.random.below(target.table.order.min(120) + 2) as u8;
        }
        let mut call = Call::CheckMap { source: source.table.clone(), target: target.table.clone(), map };
        self.compare(&mut call, source.family);
    }

    /// A walk: next calls on one map buffer that starts as zeros, refused ones between them, held to the full list.
    fn walk(&mut self) {
        let kind = self.random.pick(&KINDS);
        let (source, target) = self.walk_pair(kind);
        let full_list = full_list(kind, &source, &target);
        let (source, target) = (inputs::lend(&mut self.random, &source), inputs::lend(&mut self.random, &target));
        let mut map = Lent::new(&mut self.random, &vec![0; source.table.order]);
        for made in 0..self.random.below(full_list.len() + 4) {
            if self.random.one_in(4) {
                map = self.refused_step(kind, &source.table, &target.table, map);
            }
            map = self.walk_step(kind, &source, &target, map, full_list.get(made));
        }
        self.tally.walks += 1;
    }

    /// A walk through the isomorphisms of a semigroup of order up to 12 onto a relabelled copy, or its first forty steps.
    fn isomorphism_walk(&mut self) {
        let greatest = self.random.within(6, 12);
        let target = families::any(&mut self.random, greatest);
        let source = families::relabelled(&mut self.random, &target);
        let (source, target) = (inputs::lend(&mut self.random, &source), inputs::lend(&mut self.random, &target));
        let mut map = Lent::new(&mut self.random, &vec![0; source.table.order]);
        for _ in 0..40 {
            let scratch = Lent::random(&mut self.random, source.table.order * target.table.order);
            let (from, to) = (source.table.clone(), target.table.clone());
            let kind = Kind::Isomorphism;
            let mut call = Call::Search { kind, ask: Ask::Next, source: from, target: to, map, scratch };
            let answer = self.compare(&mut call, source.family);
            map = map_of(call);
            if answer[2] == 0 {
                break;
            }
        }
        self.tally.walks += 1;
    }

    /// The next call of a walk that is not refused, held to the entry of the full list that it must find, if any; the map
    /// after it.
    fn walk_step(&mut self, kind: Kind, source: &Input, target: &Input, map: Lent, entry: Option<&Vec<u8>>) -> Lent {
        let expected = entry.map_or_else(|| map.to_vec(), Vec::clone);
        let length = scratch_size(source.table.order, target.table.order) + self.random.below(3);
        let scratch = Lent::random(&mut self.random, length);
        let (from, to) = (source.table.clone(), target.table.clone());
        let mut call = Call::Search { kind, ask: Ask::Next, source: from, target: to, map, scratch };
        let answer = self.compare(&mut call, source.family);
        let left = map_of(call);
        if answer[0] != 0 || answer[2] != u64::from(entry.is_some()) || left[..] != expected {
            self.tally.differences += 1;
            println!("walk of {kind:?} from {:?} to {:?}", source.table, target.table);
            println!("  says {answer:?} and leaves {left:?}; the full list has {entry:?} there");
        }
        left
    }

    /// Two semigroups so small that all lists of images can be tried.
    fn walk_pair(&mut self, kind: Kind) -> (Semigroup, Semigroup) {
        let random = &mut self.random;
        let greatest = random.pick(&[3, 4, 5]);
        let target = families::any(random, greatest);
        let source = match (random.below(4), kind) {
            (0, _) => target.clone(),
            (1, Kind::Embedding) => families::part(random, &target),
            (2, Kind::Embedding) => families::any(random, greatest),
            (_, Kind::Reversed) => families::turned(random, &target),
            _ => families::relabelled(random, &target),
        };
        (source, target)
    }

    /// A call of a walk that lends other cells, another order or too short a scratch buffer and is refused; the map after.
    fn refused_step(&mut self, kind: Kind, source: &LentTable, target: &LentTable, map: Lent) -> Lent {
        let (mut source, mut target) = (source.clone(), target.clone());
        let other = inputs::table(&mut self.random, 5).table;
        let mut scratch_length = scratch_size(source.order, target.order);
        match self.random.below(4) {
            0 => source = other,
            1 => target = other,
            2 => source.order = self.random.pick(&[0, 121, usize::MAX]),
            _ => scratch_length -= 1,
        }
        let scratch = Lent::random(&mut self.random, scratch_length);
        let mut call = Call::Search { kind, ask: Ask::Next, source, target, map: map.clone(), scratch };
        if call.clone().by_reference()[0] == 0 {
            return map;
        }
        self.compare(&mut call, "refused in a walk");
        map_of(call)
    }

    fn transformations(&mut self) {
        let degree = self.random.pick(&[0, 1, 1, 2, 2, 2, 3, 3, 3, 4, 27, usize::MAX]);
        let limit = self.random.pick(&[1, 16, 729]);
        let length = inputs::length(&mut self.random, limit);
        let cells = Lent::random(&mut self.random, length);
        self.compare(&mut Call::Transformations { degree, cells }, "transformations");
    }

    fn load(&mut self) {
        let (text, family) = inputs::text(&mut self.random);
        let first_record = text.split(|&byte| byte == b'\r').next().unwrap_or(&[]);
        let order = first_record.split(|&byte| byte == b',').count();
        let length = inputs::length(&mut self.random, order.min(121).pow(2));
        let cells = Lent::random(&mut self.random, length);
        self.compare(&mut Call::Load { text, cells }, family);
    }

    fn save(&mut self) {
        let size = inputs::any_size(&mut self.random);
        let Input { table, family } = inputs::table(&mut self.random, size);
        let limit = reference::text_of(&table.cells, table.order.clamp(1, 121)).len();
        let length = inputs::length(&mut self.random, limit);
        let text = Lent::random(&mut self.random, length);
        self.compare(&mut Call::Save { table, text }, family);
    }

    /// Small tables, parts of the transformations of three points among them, and larger ones that are soon settled.
    fn least_degree(&mut self) {
        let Input { table, family } = match self.random.below(8) {
            0..=3 => self.part_of_degree_three(),
            4 => {
                let easy = families::easy(&mut self.random);
                inputs::lend(&mut self.random, &easy)
            }
            _ => inputs::table(&mut self.random, 5),
        };
        let length = inputs::length(&mut self.random, 3 * table.order.min(120));
        let positions = Lent::random(&mut self.random, length);
        self.compare(&mut Call::LeastDegree { table, positions }, family);
    }

    fn part_of_degree_three(&mut self) -> Input {
        let mut part = families::part_of_transformations(&mut self.random, 8);
        if self.random.one_in(2) {
            part = families::relabelled(&mut self.random, &part);
        }
        inputs::lend(&mut self.random, &part)
    }
}

/// All lists of up to two entries from 0 to n + 1: elements, and the two numbers beside them.
fn short_lists(order: usize) -> Vec<Vec<u8>> {
    let from_one = (0..=2).flat_map(|length| reference::lists(length, order + 2));
    from_one.map(|list| list.iter().map(|entry| entry - 1).collect()).collect()
}

/// A byte less than what is asked for, that, and more.
fn lengths(limit: usize) -> [usize; 3] {
    [limit.saturating_sub(1), limit, limit + 5]
}

/// The map buffer of a search.
fn map_of(call: Call) -> Lent {
    match call {
        Call::Search { map, .. } | Call::SearchAmong { map, .. } => map,
        _ => unreachable!("only searches are asked for their map"),
    }
}

/// Two tables that are accepted.
fn accepted<'a>(source: &'a LentTable, target: &'a LentTable) -> Option<Pair<'a>> {
    let source = Table::new(&source.cells, source.order)?;
    let target = Table::new(&target.cells, target.order)?;
    Some(Pair { source, target })
}

/// The full list of maps between two semigroups.
fn full_list(kind: Kind, source: &Semigroup, target: &Semigroup) -> Vec<Vec<u8>> {
    let source = Table::new(&source.cells, source.order).expect("the families are semigroups");
    let target = Table::new(&target.cells, target.order).expect("the families are semigroups");
    Pair { source, target }.full_list(kind)
}
