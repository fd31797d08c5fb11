//! Tables, and their classes by the library's isomorphisms.

use tickdrizzle::{scratch_size, Refusal, Search, MOST_CELLS};

pub struct Table {
    pub cells: Vec<u8>,
    pub order: usize,
}

/// The table of all transformations of so many points.
pub fn transformations(degree: usize) -> Table {
    let mut cells = vec![0; MOST_CELLS];
    let order = tickdrizzle::transformations(degree, &mut cells).expect("the degree is 1 to 3");
    cells.truncate(order * order);
    Table { cells, order }
}

/// An isomorphism class: the place of the first table in it, and that table's profiles in order.
pub struct Class {
    pub first: usize,
    profiles: Vec<Counts>,
}

pub fn classes(tables: &[&Table]) -> Vec<Class> {
    let mut classes: Vec<Class> = Vec::new();
    for (first, table) in tables.iter().enumerate() {
        let profiles = profiles(table);
        let same = |class: &Class| {
            class.profiles == profiles && found(tickdrizzle::first_isomorphism, table, tables[class.first])
        };
        if !classes.iter().any(same) {
            classes.push(Class { first, profiles });
        }
    }
    classes
}

/// The classes with no reversed isomorphism onto one before.
pub fn mirrored<'a>(tables: &[&Table], classes: &'a [Class]) -> Vec<&'a Class> {
    let mut apart: Vec<&Class> = Vec::new();
    for class in classes {
        let exchanged = exchanged(&class.profiles);
        let mirrors = |other: &&Class| {
            let search = tickdrizzle::first_reversed_isomorphism;
            other.profiles == exchanged && found(search, tables[class.first], tables[other.first])
        };
        if !apart.iter().any(mirrors) {
            apart.push(class);
        }
    }
    apart
}

/// The counts of a profile: those that are exchanged where products are turned stand last.
type Counts = [usize; 7];

fn profiles(table: &Table) -> Vec<Counts> {
    let counts = |element| {
        let p = tickdrizzle::profile(&table.cells, table.order, element).expect("a part is a table");
        [p.index, p.period, p.frequency, p.diagonal, p.commuting, p.row, p.column]
    };
    let mut profiles: Vec<Counts> = (1..=table.order).map(counts).collect();
    profiles.sort_unstable();
    profiles
}

fn exchanged(profiles: &[Counts]) -> Vec<Counts> {
    let mut exchanged = profiles.to_vec();
    exchanged.iter_mut().for_each(|counts| counts.swap(5, 6));
    exchanged.sort_unstable();
    exchanged
}

type Searching = fn(&[u8], usize, &[u8], usize, &mut [u8], &mut [u8]) -> Result<Search, Refusal>;

/// Whether a search finds a map between two tables; between empty ones there is one.
fn found(search: Searching, source: &Table, target: &Table) -> bool {
    let (mut map, mut scratch) = (vec![0; source.order], vec![0; scratch_size(source.order, target.order)]);
    source.order == 0
        || search(&source.cells, source.order, &target.cells, target.order, &mut map, &mut scratch) == Ok(Search::Found)
}

/// How many isomorphisms a table has onto itself.
pub fn automorphisms(table: &Table) -> usize {
    let Table { cells, order } = table;
    let (mut map, mut scratch) = (vec![0; *order], vec![0; scratch_size(*order, *order)]);
    let mut next = || tickdrizzle::next_isomorphism(cells, *order, cells, *order, &mut map, &mut scratch);
    std::iter::from_fn(|| (next() == Ok(Search::Found)).then_some(())).count()
}
