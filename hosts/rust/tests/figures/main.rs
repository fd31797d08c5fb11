//! Computes numbers that others have published, by the calls of the library alone, and prints each beside the published one
//! with its source; fails where one differs. What the library does not enumerate, lists of generators, exchanges of the points
//! and tables filled cell by cell, is plain code here.
//!
//! A part is a subsemigroup, and the empty one is counted, as in the source. Where mirrored classes count as one, four
//! published counts and their total can't be followed: `MIRRORED_SIZES`.

mod conjugation;
mod parts;
mod small;
mod tables;

use parts::Part;
use std::process::ExitCode;
use std::time::Instant;
use tables::{Class, Table};

/// J. East, A. Egri-Nagy, J. D. Mitchell: Enumerating transformation semigroups.
const PARTS: &str = "East, Egri-Nagy, Mitchell, table 2";
const BY_SIZE: &str = "East, Egri-Nagy, Mitchell, section 5.2";
const MONOIDS: &str = "OEIS A343140";
const EMBEDDINGS: &str = "arXiv 1603.06204, table 2";
const EXAMPLE: &str = "arXiv 1603.06204, example 5.2";
const SYMMETRIC: &str = "Schreier, Ulam: that of all permutations";

/// How many parts there are for degrees 1, 2 and 3: table 2.
const TOTALS: [usize; 3] = [2, 10, 1299];

/// How many of each size from 0 to 27 there are for degree 3: section 5.2, its first table.
const SIZES: [usize; 28] =
    [1, 10, 45, 86, 136, 192, 206, 186, 144, 109, 63, 51, 30, 9, 3, 9, 6, 6, 0, 0, 0, 1, 1, 3, 1, 0, 0, 1];

/// How many of each rank from 0 to 6 there are for degree 3: section 5.2, its second table.
const RANKS: [usize; 7] = [1, 26, 201, 460, 410, 171, 30];

/// How many isomorphism classes they fall into; for degree 3 of each size and rank too: at the same places.
const CLASSES: [usize; 3] = [2, 7, 267];
const CLASS_SIZES: [usize; 28] =
    [1, 1, 5, 15, 24, 37, 42, 38, 30, 25, 14, 12, 7, 3, 1, 3, 2, 2, 0, 0, 0, 1, 1, 1, 1, 0, 0, 1];
const CLASS_RANKS: [usize; 7] = [1, 4, 39, 96, 84, 36, 7];

/// How many classes there are where those with a reversed isomorphism between them count as one, for degree 3 of each size.
/// For sizes 2 to 5 the source prints 5, 14, 23 and 37, which makes 265. It can't be followed there: the five classes of size
/// 2 are all semigroups of order 2, and left zero and right zero, two of them, mirror each other. So these four numbers are
/// those that come from trying every renumbering (`mirrored_by_renumbering`).
const MIRRORED: [usize; 3] = [2, 7, 259];
const MIRRORED_SIZES: [usize; 28] =
    [1, 1, 4, 12, 21, 36, 42, 38, 30, 25, 14, 12, 7, 3, 1, 3, 2, 2, 0, 0, 0, 1, 1, 1, 1, 0, 0, 1];
const MOST_RENUMBERED: usize = 5;
const MIRRORED_PRINTED: [usize; 3] = [2, 7, 265];
const MIRRORED_SIZES_PRINTED: [usize; 4] = [5, 14, 23, 37];

/// How many of the parts hold the identity.
const WITH_IDENTITY: [usize; 3] = [1, 6, 699];

/// How many parts there are up to an exchange of the points.
const CONJUGATE: [usize; 3] = [2, 8, 283];

/// How many copies up to conjugation the table of each degree has in that of each. A copy of the first is an idempotent.
const COPIES: [[usize; 3]; 3] = [[1, 2, 3], [0, 1, 3], [0, 0, 1]];

/// How many tables of order 1 to 4 are accepted, and their classes, also with mirrored ones as one.
const TABLES: [usize; 4] = [1, 8, 113, 3492];
const TABLE_CLASSES: [usize; 4] = [1, 5, 24, 188];
const TABLE_MIRRORED: [usize; 4] = [1, 4, 18, 126];

/// The table of example 5.2.
const MAT5: [u8; 25] = [1, 1, 1, 1, 1, 1, 2, 3, 2, 3, 1, 1, 1, 2, 3, 1, 4, 5, 4, 5, 1, 1, 1, 4, 5];

fn main() -> ExitCode {
    let mut figures = Figures { equal: true, not_followed: 0, since: Instant::now() };
    println!("{:<34}{:>9}{:>11}{:>9}  source", "", "computed", "published", "ms");
    for degree in 1..=3 {
        figures.parts_of(degree);
    }
    figures.embeddings();
    for order in 1..=4 {
        figures.small_tables(order);
    }
    let Figures { equal, not_followed, .. } = figures;
    println!(
        "{not_followed} published figures are not followed, {}",
        if equal { "all others are equal" } else { "others differ" }
    );
    ExitCode::from(u8::from(!equal))
}

/// Whether every number so far is the expected one, and how many published ones are not.
struct Figures {
    equal: bool,
    not_followed: usize,
    since: Instant,
}

impl Figures {
    /// Prints a number beside the published one, with the time since the last.
    fn line(&mut self, name: &str, computed: usize, published: usize, source: &str) {
        let time = self.since.elapsed().as_millis();
        println!("{name:<34}{computed:>9}{published:>11}{time:>9}  {source}");
        self.equal &= computed == published;
        self.since = Instant::now();
    }

    /// The same where the published number may not be the expected one: it is printed, and the expected one counts.
    fn corrected(&mut self, name: &str, computed: usize, published: usize, expected: usize, source: &str) {
        if published == expected {
            return self.line(name, computed, published, source);
        }
        let equal = self.equal && computed == expected;
        self.line(name, computed, published, &format!("{source}; not followed, {expected} expected"));
        self.equal = equal;
        self.not_followed += 1;
    }

    /// Prints how often each number from 0 stands among some, for degree 3.
    fn lines(&mut self, name: &str, published: &[usize], numbers: impl Iterator<Item = usize>, source: &str) {
        let mut counts = vec![0; published.len()];
        for number in numbers {
            counts.resize(counts.len().max(number + 1), 0);
            counts[number] += 1;
        }
        for (number, &counted) in counts.iter().enumerate() {
            let published = published.get(number).copied().unwrap_or(0);
            self.line(&format!("degree 3, {name} {number}"), counted, published, source);
        }
    }

    fn parts_of(&mut self, degree: usize) {
        let place = degree - 1;
        let whole = tables::transformations(degree);
        let parts = parts::parts(&whole);
        self.line(&format!("degree {degree}, parts"), parts.len(), TOTALS[place], PARTS);
        let identity = identity(&whole);
        let monoids = parts.iter().filter(|part| part.elements.contains(&identity)).count();
        self.line(&format!("degree {degree}, with the identity"), monoids, WITH_IDENTITY[place], MONOIDS);
        let sets = parts.iter().map(|part| part.elements.iter().map(|&element| element.into()).collect());
        let conjugate = conjugation::classes(degree, sets);
        self.line(&format!("degree {degree}, up to conjugation"), conjugate, CONJUGATE[place], PARTS);
        let own: Vec<&Table> = parts.iter().map(|part| &part.table).collect();
        let classes = tables::classes(&own);
        self.line(&format!("degree {degree}, classes"), classes.len(), CLASSES[place], PARTS);
        let mirrored = tables::mirrored(&own, &classes);
        let name = format!("degree {degree}, mirrored as one");
        self.corrected(&name, mirrored.len(), MIRRORED_PRINTED[place], MIRRORED[place], PARTS);
        if degree == 3 {
            self.by_size_and_rank(&parts, &classes, &mirrored);
        }
        let automorphisms = tables::automorphisms(&whole);
        let permutations = (1..=degree).product();
        self.line(&format!("degree {degree}, automorphisms"), automorphisms, permutations, SYMMETRIC);
    }

    fn by_size_and_rank(&mut self, parts: &[Part], classes: &[Class], mirrored: &[&Class]) {
        let size = |class: &Class| parts[class.first].table.order;
        self.lines("size", &SIZES, parts.iter().map(|part| part.table.order), BY_SIZE);
        self.lines("rank", &RANKS, parts.iter().map(|part| part.rank), BY_SIZE);
        self.lines("classes of size", &CLASS_SIZES, classes.iter().map(size), BY_SIZE);
        self.lines("classes of rank", &CLASS_RANKS, classes.iter().map(|class| parts[class.first].rank), BY_SIZE);
        for (order, &expected) in MIRRORED_SIZES.iter().enumerate() {
            let counted = mirrored.iter().filter(|class| size(class) == order).count();
            let printed = order.checked_sub(2).and_then(|place| MIRRORED_SIZES_PRINTED.get(place));
            let published = *printed.unwrap_or(&expected);
            self.corrected(&format!("degree 3, mirrored, size {order}"), counted, published, expected, BY_SIZE);
        }
        for (size, &mirrored) in MIRRORED_SIZES.iter().enumerate().take(MOST_RENUMBERED + 1) {
            assert_eq!(parts::mirrored_by_renumbering(parts, size), mirrored, "size {size}");
        }
    }

    fn embeddings(&mut self) {
        for (source, published) in (1..).zip(COPIES) {
            for (target, published) in (1..).zip(published) {
                let copies = conjugation::copies(source, target);
                self.line(&format!("copies of degree {source} in {target}"), copies, published, EMBEDDINGS);
            }
        }
        for (degree, published) in (1..).zip(COPIES[0]) {
            let idempotents = conjugation::idempotents(&tables::transformations(degree));
            let classes = conjugation::classes(degree, idempotents.into_iter().map(|element| [element].into()));
            self.line(&format!("idempotents of degree {degree}"), classes, published, EMBEDDINGS);
        }
        let least = tickdrizzle::least_degree(&MAT5, 5, &mut [0; 15]).expect("it is a table");
        self.line("least degree of mat5", least.unwrap_or(0), 3, EXAMPLE);
    }

    fn small_tables(&mut self, order: usize) {
        let place = order - 1;
        let accepted = small::accepted(order);
        self.line(&format!("order {order}, tables"), accepted.len(), TABLES[place], "OEIS A023814");
        let own: Vec<&Table> = accepted.iter().collect();
        let classes = tables::classes(&own);
        self.line(&format!("order {order}, classes"), classes.len(), TABLE_CLASSES[place], "OEIS A027851");
        let mirrored = tables::mirrored(&own, &classes).len();
        self.line(&format!("order {order}, mirrored as one"), mirrored, TABLE_MIRRORED[place], "OEIS A001423");
    }
}

/// The element that changes no other.
fn identity(table: &Table) -> u8 {
    let Table { cells, order } = table;
    let keeps =
        |e: &usize| (0..*order).all(|x| cells[e * order + x] == x as u8 + 1 && cells[x * order + e] == x as u8 + 1);
    let place = (0..*order).find(keeps).expect("the transformation that moves no point");
    place as u8 + 1
}
