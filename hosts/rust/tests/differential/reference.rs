//! The calls written again, from the text of the rules and from nothing of the library: questions asked one after the
//! other, least numbers found by trying numbers from below, maps found by trying lists.

use std::collections::BTreeSet;
use tickdrizzle::abi::{Answer, ANSWERS};

/// The first question that failed: its number, the side it names or 0, the values said with it.
pub struct No {
    number: u64,
    side: u64,
    values: Vec<u64>,
}

/// What a call says: its values, or the first "no".
pub type Says = Result<Vec<u64>, No>;

pub fn no(number: u64, values: &[usize]) -> No {
    No { number, side: 0, values: numbers(values) }
}

pub fn ask(yes: bool, number: u64) -> Result<(), No> {
    if yes {
        Ok(())
    } else {
        Err(no(number, &[]))
    }
}

pub fn numbers(values: &[usize]) -> Vec<u64> {
    values.iter().map(|&value| value as u64).collect()
}

/// The numbers of an answer.
pub fn answer(says: Says) -> Answer {
    let (number, side, values) = match says {
        Ok(values) => (0, 0, values),
        Err(no) => (no.number, no.side, no.values),
    };
    let mut answer = [0; ANSWERS];
    answer[0] = number;
    answer[1] = side;
    answer[2..2 + values.len()].copy_from_slice(&values);
    answer
}

/// The places of the row and column counts in a profile.
const ROW: usize = 4;
const COLUMN: usize = 5;

pub fn write_front(buffer: &mut [u8], bytes: &[u8]) {
    buffer[..bytes.len()].copy_from_slice(bytes);
}

/// An accepted table.
#[derive(Clone, Copy)]
pub struct Table<'a> {
    cells: &'a [u8],
    pub order: usize,
}

impl<'a> Table<'a> {
    /// Asks questions 1 to 3.
    fn filled(cells: &'a [u8], order: usize) -> Result<Table<'a>, No> {
        ask((1..=120).contains(&order), 1)?;
        ask(cells.len() == order * order, 2)?;
        let outside = |&cell: &u8| !(1..=order).contains(&usize::from(cell));
        match cells.iter().position(outside) {
            Some(place) => Err(no(3, &[place + 1])),
            None => Ok(Table { cells, order }),
        }
    }

    /// Asks questions 1 to 4.
    fn accepted(cells: &'a [u8], order: usize) -> Result<Table<'a>, No> {
        let table = Table::filled(cells, order)?;
        for i in table.elements() {
            for j in table.elements() {
                for k in table.elements() {
                    if table.product(table.product(i, j), k) != table.product(i, table.product(j, k)) {
                        return Err(no(4, &[i, j, k]));
                    }
                }
            }
        }
        Ok(table)
    }

    /// The table with these cells where every question about it passes.
    pub fn new(cells: &'a [u8], order: usize) -> Option<Table<'a>> {
        Table::accepted(cells, order).ok()
    }

    fn elements(&self) -> std::ops::RangeInclusive<usize> {
        1..=self.order
    }

    fn product(&self, i: usize, j: usize) -> usize {
        usize::from(self.cells[(i - 1) * self.order + (j - 1)])
    }

    /// Powers 1 to n + 1 of an element, the first at place 0.
    fn powers(&self, element: usize) -> Vec<usize> {
        let mut powers = vec![element];
        for exponent in 1..=self.order {
            powers.push(self.product(powers[exponent - 1], element));
        }
        powers
    }

    /// Index and period: the first index for which some period will do, with the least period.
    fn index_period(&self, element: usize) -> [usize; 2] {
        let powers = self.powers(element);
        for index in 1..=self.order {
            for period in 1..=self.order + 1 - index {
                if powers[index + period - 1] == powers[index - 1] {
                    return [index, period];
                }
            }
        }
        unreachable!("of n + 1 powers two are equal")
    }

    /// The power that is its own square, by trying one after another.
    fn idempotent_power(&self, element: usize) -> usize {
        let idempotent = |&power: &usize| self.product(power, power) == power;
        self.powers(element).into_iter().find(idempotent).expect("some power is its own square")
    }

    fn count(&self, element: usize, places: impl Fn(usize, usize) -> bool) -> usize {
        let mut count = 0;
        for i in self.elements() {
            for j in self.elements() {
                if places(i, j) && self.product(i, j) == element {
                    count += 1;
                }
            }
        }
        count
    }

    /// The counts of a profile, index and period first; those of row and column at their places.
    fn profile(&self, element: usize) -> [usize; 7] {
        let [index, period] = self.index_period(element);
        [
            index,
            period,
            self.count(element, |_, _| true),
            self.count(element, |i, j| i == j),
            self.count(element, |i, _| i == element),
            self.count(element, |_, j| j == element),
            self.elements().filter(|&b| self.product(element, b) == self.product(b, element)).count(),
        ]
    }
}

pub fn check_table(cells: &[u8], order: usize) -> Answer {
    answer(Table::accepted(cells, order).map(|_| vec![]))
}

/// Asks question 7 after those about the table.
fn element_of(cells: &[u8], order: usize, element: usize) -> Result<Table<'_>, No> {
    let table = Table::accepted(cells, order)?;
    ask((1..=order).contains(&element), 7)?;
    Ok(table)
}

pub fn index_period(cells: &[u8], order: usize, element: usize) -> Answer {
    answer(element_of(cells, order, element).map(|table| settling(&table, element, &table.index_period(element))))
}

pub fn profile(cells: &[u8], order: usize, element: usize) -> Answer {
    answer(element_of(cells, order, element).map(|table| settling(&table, element, &table.profile(element))))
}

/// Counts that start with index and period, as they are said: with the idempotent power after these two.
fn settling(table: &Table, element: usize, counts: &[usize]) -> Vec<u64> {
    let mut values = counts.to_vec();
    values.insert(2, table.idempotent_power(element));
    numbers(&values)
}

impl Table<'_> {
    /// The elements that a list generates, in rising order: a pass over all products of members after the other, until one
    /// adds nothing.
    fn generated(&self, list: &[u8]) -> Vec<usize> {
        let mut members: Vec<usize> = list.iter().map(|&entry| usize::from(entry)).collect();
        loop {
            members.sort_unstable();
            members.dedup();
            let mut products = Vec::new();
            for &x in &members {
                products.extend(members.iter().map(|&y| self.product(x, y)));
            }
            if products.iter().all(|product| members.contains(product)) {
                return members;
            }
            members.extend(products);
        }
    }

    /// Whether every entry of a list is an element.
    fn holds(&self, list: &[u8]) -> bool {
        list.iter().all(|&entry| self.elements().contains(&usize::from(entry)))
    }
}

pub fn check_generated(cells: &[u8], order: usize, generators: &[u8]) -> Answer {
    answer(Table::filled(cells, order).and_then(|table| {
        ask(table.holds(generators), 50)?;
        ask(table.generated(generators).len() == order, 51)?;
        for i in table.elements() {
            for j in table.elements().filter(|&j| generators.contains(&(j as u8))) {
                for k in table.elements() {
                    if table.product(table.product(i, j), k) != table.product(i, table.product(j, k)) {
                        return Err(no(4, &[i, j, k]));
                    }
                }
            }
        }
        Ok(vec![])
    }))
}

/// What a list of elements generates in an accepted table; nothing where there is a wrong entry or no such table.
pub fn generated(cells: &[u8], order: usize, list: &[u8]) -> Vec<usize> {
    let table = Table::new(cells, order).filter(|table| table.holds(list));
    table.map_or(vec![], |table| table.generated(list))
}

pub fn subsemigroup(cells: &[u8], order: usize, chosen: &[u8], part: &mut [u8], elements: &mut [u8]) -> Answer {
    answer(Table::accepted(cells, order).and_then(|table| {
        ask(!chosen.is_empty() && table.holds(chosen), 60)?;
        let members = table.generated(chosen);
        ask(part.len() >= members.len() * members.len(), 61)?;
        ask(elements.len() >= members.len(), 62)?;
        let number = |x: usize| 1 + members.iter().filter(|&&member| member < x).count();
        let mut products = Vec::new();
        for &x in &members {
            products.extend(members.iter().map(|&y| number(table.product(x, y)) as u8));
        }
        write_front(part, &products);
        write_front(elements, &members.iter().map(|&member| member as u8).collect::<Vec<_>>());
        Ok(numbers(&[members.len()]))
    }))
}

/// Embeddings, isomorphisms or reversed isomorphisms.
#[derive(Clone, Copy, Debug, PartialEq, Eq)]
pub enum Kind {
    Embedding,
    Isomorphism,
    Reversed,
}

pub const KINDS: [Kind; 3] = [Kind::Embedding, Kind::Isomorphism, Kind::Reversed];

impl Kind {
    /// What an element and its candidates have in common.
    fn invariants(self, table: &Table, element: usize) -> Vec<usize> {
        match self {
            Kind::Embedding => table.index_period(element).to_vec(),
            Kind::Isomorphism | Kind::Reversed => table.profile(element).to_vec(),
        }
    }

    /// The same of a target element, with row and column counts exchanged for reversed maps.
    fn target_invariants(self, table: &Table, element: usize) -> Vec<usize> {
        let mut invariants = self.invariants(table, element);
        if self == Kind::Reversed {
            invariants.swap(ROW, COLUMN);
        }
        invariants
    }
}

/// The first map, or the next one after the list in the map buffer.
#[derive(Clone, Copy, Debug, PartialEq, Eq)]
pub enum Ask {
    First,
    Next,
}

/// The two accepted tables of a map.
pub struct Pair<'a> {
    pub source: Table<'a>,
    pub target: Table<'a>,
}

impl<'a> Pair<'a> {
    /// Asks the source's questions, then the target's.
    fn accepted(source: &'a [u8], source_order: usize, target: &'a [u8], target_order: usize) -> Result<Pair<'a>, No> {
        let source = Table::accepted(source, source_order).map_err(|no| No { side: 1, ..no })?;
        let target = Table::accepted(target, target_order).map_err(|no| No { side: 2, ..no })?;
        Ok(Pair { source, target })
    }

    /// Whether the image of i·j is the product of the images; for reversed maps, with the image of j first.
    fn keeps_product(&self, kind: Kind, map: &[u8], i: usize, j: usize) -> bool {
        let image = |element: usize| usize::from(map[element - 1]);
        let (first, second) = if kind == Kind::Reversed { (j, i) } else { (i, j) };
        image(self.source.product(i, j)) == self.target.product(image(first), image(second))
    }

    /// The earliest fault of a map, in the numbers of an answer; 0 alone where it is one to one and keeps the products.
    fn check(&self, kind: Kind, map: &[u8]) -> Vec<usize> {
        for i in self.source.elements() {
            if !self.target.elements().contains(&usize::from(map[i - 1])) {
                return vec![1, i];
            }
        }
        for i in self.source.elements() {
            for j in i + 1..=self.source.order {
                if map[i - 1] == map[j - 1] {
                    return vec![2, i, j];
                }
            }
        }
        for i in self.source.elements() {
            for j in self.source.elements() {
                if !self.keeps_product(kind, map, i, j) {
                    return vec![3, i, j];
                }
            }
        }
        vec![0]
    }

    fn is_map(&self, kind: Kind, map: &[u8]) -> bool {
        let fits = kind == Kind::Embedding || self.source.order == self.target.order;
        fits && self.check(kind, map) == [0]
    }

    /// The full list of a kind, by trying every list of images in list order; for small orders.
    pub fn full_list(&self, kind: Kind) -> Vec<Vec<u8>> {
        let lists = lists(self.source.order, self.target.order);
        lists.into_iter().filter(|list| self.is_map(kind, list)).collect()
    }

    /// The earliest map of a kind, or the earliest later than a list.
    fn earliest(&self, kind: Kind, after: Option<&[u8]>) -> Option<Vec<u8>> {
        let (m, n) = (self.source.order, self.target.order);
        if m > n || (kind != Kind::Embedding && m != n) {
            return None;
        }
        self.extended(kind, &mut Vec::new(), after, &|_, _| true)
    }

    /// The earliest map of a kind that starts with these images. A start is given up where two of its images are equal, where
    /// it breaks a product of its own elements, where an element may not go to its image, or where it is earlier than the start
    /// of the list to come after.
    fn extended(
        &self,
        kind: Kind,
        start: &mut Vec<u8>,
        after: Option<&[u8]>,
        allowed: &dyn Fn(usize, usize) -> bool,
    ) -> Option<Vec<u8>> {
        let placed = start.len();
        if after.is_some_and(|list| *start.as_slice() < list[..placed]) {
            return None;
        }
        if placed == self.source.order {
            return (after != Some(start)).then(|| start.clone());
        }
        for image in self.target.elements() {
            let image = image as u8;
            if start.contains(&image) || !allowed(placed + 1, usize::from(image)) {
                continue;
            }
            start.push(image);
            if self.keeps_last(kind, start) {
                if let Some(map) = self.extended(kind, start, after, allowed) {
                    return Some(map);
                }
            }
            start.pop();
        }
        None
    }

    /// Whether the placed pairs with the last element in them, as factor or product, keep their product where it is
    /// placed.
    fn keeps_last(&self, kind: Kind, start: &[u8]) -> bool {
        let last = start.len();
        (1..=last).all(|i| {
            (1..=last).all(|j| {
                let product = self.source.product(i, j);
                let concerns_last = i == last || j == last || product == last;
                !concerns_last || product > last || self.keeps_product(kind, start, i, j)
            })
        })
    }

    /// The first map of a kind and the trials up to it, or all trials where there is none; nothing where more than `most`
    /// are needed. The list of images counts up like a number, its last entry first; an entry above the greatest image
    /// goes, and the one before it counts on.
    pub fn counted(&self, kind: Kind, most: u32) -> Option<(Option<Vec<u8>>, u32)> {
        let (m, n) = (self.source.order, self.target.order);
        if m > n || (kind != Kind::Embedding && m != n) {
            return Some((None, 0));
        }
        let of_source: Vec<_> = self.source.elements().map(|i| kind.invariants(&self.source, i)).collect();
        let of_target: Vec<_> = self.target.elements().map(|j| kind.target_invariants(&self.target, j)).collect();
        let (mut images, mut trials) = (vec![0], 0);
        while let Some(last) = images.pop() {
            let candidates =
                (usize::from(last) + 1..=n).filter(|image| of_source[images.len()] == of_target[image - 1]);
            let unused = candidates.map(|image| image as u8).find(|image| !images.contains(image));
            let Some(image) = unused else { continue };
            if trials == most {
                return None;
            }
            trials += 1;
            images.push(image);
            if self.passes(kind, &images) {
                if images.len() == m {
                    return Some((Some(images), trials));
                }
                images.push(0);
            }
        }
        Some((None, trials))
    }

    /// Whether each product inside a list of images agrees, and each product outside it has its target product unused.
    fn passes(&self, kind: Kind, images: &[u8]) -> bool {
        let placed = 1..=images.len();
        placed.clone().all(|i| {
            placed.clone().all(|j| {
                let (first, second) = if kind == Kind::Reversed { (j, i) } else { (i, j) };
                let image = self.target.product(usize::from(images[first - 1]), usize::from(images[second - 1])) as u8;
                match images.get(self.source.product(i, j) - 1) {
                    Some(inside) => *inside == image,
                    None => !images.contains(&image),
                }
            })
        })
    }

    /// The scratch bytes: a 1 for each candidate, pair after pair, the first in the lowest bit of the first byte.
    fn candidates(&self, kind: Kind) -> Vec<u8> {
        let of_target: Vec<_> = self.target.elements().map(|j| kind.target_invariants(&self.target, j)).collect();
        let mut marks = Vec::new();
        for i in self.source.elements() {
            let of_source = kind.invariants(&self.source, i);
            marks.extend(of_target.iter().map(|of_target| of_source == *of_target));
        }
        let byte = |eight: &[bool]| eight.iter().rev().fold(0, |byte, &mark| byte << 1 | u8::from(mark));
        marks.chunks(8).map(byte).collect()
    }
}

/// All lists of `length` entries from 1 to `greatest`, in list order.
pub fn lists(length: usize, greatest: usize) -> Vec<Vec<u8>> {
    if length == 0 {
        return vec![vec![]];
    }
    let shorter = lists(length - 1, greatest);
    let mut all = Vec::new();
    for first in 1..=greatest {
        all.extend(shorter.iter().map(|rest| [&[first as u8], rest.as_slice()].concat()));
    }
    all
}

pub fn check_map(source: &[u8], source_order: usize, target: &[u8], target_order: usize, map: &[u8]) -> Answer {
    answer(Pair::accepted(source, source_order, target, target_order).and_then(|pair| {
        ask(map.len() == source_order, 5)?;
        Ok(numbers(&pair.check(Kind::Embedding, map)))
    }))
}

/// What every search asks, and the candidates that it writes.
fn marked<'a>(
    kind: Kind,
    source: (&'a [u8], usize),
    target: (&'a [u8], usize),
    map: &[u8],
    scratch: &mut [u8],
) -> Result<Pair<'a>, No> {
    let pair = Pair::accepted(source.0, source.1, target.0, target.1)?;
    ask(map.len() == source.1, 5)?;
    ask(8 * scratch.len() >= source.1 * target.1, 6)?;
    write_front(scratch, &pair.candidates(kind));
    Ok(pair)
}

/// A search of any kind, for the first or the next map.
pub fn search(
    kind: Kind,
    asked: Ask,
    source: (&[u8], usize),
    target: (&[u8], usize),
    map: &mut [u8],
    scratch: &mut [u8],
) -> Answer {
    answer(marked(kind, source, target, map, scratch).map(|pair| {
        let after = (asked == Ask::Next).then_some(&*map);
        let found = pair.earliest(kind, after);
        if let Some(found) = &found {
            write_front(map, found);
        }
        vec![u64::from(found.is_some())]
    }))
}

/// A search for the first or the next embedding among given pairs.
pub fn search_among(
    asked: Ask,
    source: (&[u8], usize),
    target: (&[u8], usize),
    pairs: &[u8],
    map: &mut [u8],
    scratch: &mut [u8],
) -> Answer {
    answer(Pair::accepted(source.0, source.1, target.0, target.1).and_then(|pair| {
        ask(map.len() == source.1, 5)?;
        ask(8 * scratch.len() >= source.1 * target.1, 6)?;
        ask(8 * pairs.len() >= source.1 * target.1, 70)?;
        let kept: Vec<u8> =
            pair.candidates(Kind::Embedding).iter().zip(pairs).map(|(mark, pair)| mark & pair).collect();
        write_front(scratch, &kept);
        let allowed = |i: usize, j: usize| {
            let place = (i - 1) * target.1 + (j - 1);
            pairs[place / 8] & (1 << (place % 8)) != 0
        };
        let after = (asked == Ask::Next).then_some(&*map);
        let found = pair.extended(Kind::Embedding, &mut Vec::new(), after, &allowed);
        if let Some(found) = &found {
            write_front(map, found);
        }
        Ok(vec![u64::from(found.is_some())])
    }))
}

/// A search of either kind for the first map, with a limit.
pub fn limited_search(
    kind: Kind,
    source: (&[u8], usize),
    target: (&[u8], usize),
    map: &mut [u8],
    scratch: &mut [u8],
    limit: u32,
) -> Answer {
    answer(marked(kind, source, target, map, scratch).map(|pair| match pair.counted(kind, limit) {
        None => vec![2],
        Some((None, trials)) => vec![0, trials.into()],
        Some((Some(found), trials)) => {
            write_front(map, &found);
            vec![1, trials.into()]
        }
    }))
}

/// The number of image sets among all embeddings, which are found one after another; at most 65,535, or more.
pub fn copies(source: &[u8], source_order: usize, target: &[u8], target_order: usize, scratch: &mut [u8]) -> Answer {
    answer(Pair::accepted(source, source_order, target, target_order).and_then(|pair| {
        let candidates = pair.candidates(Kind::Embedding);
        ask(scratch.len() >= candidates.len(), 6)?;
        write_front(scratch, &candidates);
        let mut sets = BTreeSet::new();
        let mut last = None;
        while let Some(map) = pair.earliest(Kind::Embedding, last.as_deref()) {
            sets.insert(map.iter().copied().collect::<BTreeSet<u8>>());
            last = Some(map);
        }
        Ok(if sets.len() > 65_535 { numbers(&[1]) } else { numbers(&[0, sets.len()]) })
    }))
}

pub fn transformations(degree: usize, cells: &mut [u8]) -> Answer {
    answer((|| {
        ask((1..=3).contains(&degree), 8)?;
        let all = lists(degree, degree);
        ask(cells.len() >= all.len() * all.len(), 9)?;
        let mut products = Vec::new();
        for s in &all {
            for t in &all {
                let s_then_t: Vec<u8> = s.iter().map(|&point| t[usize::from(point) - 1]).collect();
                let place = all.iter().position(|list| *list == s_then_t).expect("a composite is a transformation");
                products.push(place as u8 + 1);
            }
        }
        write_front(cells, &products);
        Ok(numbers(&[all.len()]))
    })())
}

/// Whether the byte at a place is a digit, a comma or part of a CR LF pair.
fn is_allowed(text: &[u8], place: usize) -> bool {
    match text[place] {
        b'0'..=b'9' | b',' => true,
        b'\r' => text.get(place + 1) == Some(&b'\n'),
        b'\n' => place > 0 && text[place - 1] == b'\r',
        _ => false,
    }
}

/// The number in a field, after questions 24, 23 and 25.
fn field_value(field: &str) -> Result<u8, No> {
    ask(!field.starts_with('0'), 24)?;
    ask((1..=3).contains(&field.len()), 23)?;
    let value: usize = field.parse().expect("a field has digits only");
    ask(value <= 120, 25)?;
    Ok(value as u8)
}

/// Order and cells of a text, after questions 20 to 26.
fn parse(text: &[u8]) -> Result<(usize, Vec<u8>), No> {
    ask((1..=57_720).contains(&text.len()), 20)?;
    if let Some(place) = (0..text.len()).find(|&place| !is_allowed(text, place)) {
        return Err(no(21, &[place]));
    }
    let text = std::str::from_utf8(text).expect("allowed bytes are ASCII");
    let records = text.strip_suffix("\r\n").unwrap_or(text);
    let records: Vec<Vec<&str>> = records.split("\r\n").map(|record| record.split(',').collect()).collect();
    let cells = records.iter().flatten().map(|field| field_value(field)).collect::<Result<_, _>>()?;
    let order = records[0].len();
    ask(records.len() == order && records.iter().all(|record| record.len() == order), 26)?;
    Ok((order, cells))
}

pub fn load(text: &[u8], cells: &mut [u8]) -> Answer {
    answer(parse(text).and_then(|(order, loaded)| {
        ask(order <= 120, 1)?;
        ask(cells.len() >= loaded.len(), 27)?;
        write_front(cells, &loaded);
        Ok(numbers(&[order]))
    }))
}

/// The text of a table.
pub fn text_of(cells: &[u8], order: usize) -> String {
    let record = |row: &[u8]| row.iter().map(u8::to_string).collect::<Vec<_>>().join(",") + "\r\n";
    cells.chunks(order).map(record).collect()
}

pub fn save(cells: &[u8], order: usize, text: &mut [u8]) -> Answer {
    answer(Table::filled(cells, order).and_then(|table| {
        let saved = text_of(table.cells, order);
        ask(text.len() >= saved.len(), 28)?;
        write_front(text, saved.as_bytes());
        Ok(numbers(&[saved.len()]))
    }))
}

/// All transformations of some points in list order, and the cells of their table, by composing each with each.
fn transformation_table(degree: usize) -> (Vec<Vec<u8>>, Vec<u8>) {
    let all = lists(degree, degree);
    let mut cells = vec![0; all.len() * all.len()];
    transformations(degree, &mut cells);
    (all, cells)
}

/// Whether these landing positions, `degree` for each element, compose as the table says.
fn compose(table: &Table, degree: usize, positions: &[u8]) -> bool {
    let landing = |element: usize, point: u8| positions[(element - 1) * degree + usize::from(point) - 1];
    let mut triples =
        table.elements().flat_map(|i| table.elements().flat_map(move |j| (1..=degree as u8).map(move |x| (i, j, x))));
    triples.all(|(i, j, x)| landing(table.product(i, j), x) == landing(j, landing(i, x)))
}

/// Tries the degrees from below, each with the search that tries lists; the images of each element as the lists they are.
pub fn least_degree(cells: &[u8], order: usize, positions: &mut [u8]) -> Answer {
    answer(Table::accepted(cells, order).and_then(|source| {
        ask(positions.len() >= 3 * order, 80)?;
        for degree in 1..=3 {
            let (all, products) = transformation_table(degree);
            let target = Table { cells: &products, order: all.len() };
            if let Some(map) = (Pair { source, target }).earliest(Kind::Embedding, None) {
                let landed: Vec<u8> = map.iter().flat_map(|&image| all[usize::from(image) - 1].clone()).collect();
                assert!(compose(&source, degree, &landed), "the positions compose as the table says");
                write_front(positions, &landed);
                return Ok(numbers(&[degree]));
            }
        }
        Ok(numbers(&[0]))
    }))
}
