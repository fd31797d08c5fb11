//! A table that is checked once, what is asked of it, and the walks through its maps.

use crate::{
    check_generated, check_map, check_table, copies, first_embedding, first_embedding_among, first_embedding_within,
    first_isomorphism, first_isomorphism_within, first_reversed_isomorphism, first_reversed_isomorphism_within,
    index_period, least_degree, load, next_embedding, next_embedding_among, next_isomorphism,
    next_reversed_isomorphism, not_refused, profile, save, scratch_size, subsemigroup, transformations, Copies,
    IndexPeriod, LimitedSearch, MapCheck, Profile, Refusal, Search, GREATEST_DEGREE, GREATEST_ORDER, LONGEST_TEXT,
    MOST_CELLS,
};

/// The cells and the order of an accepted table.
///
/// ```
/// use tickdrizzle::{MapCheck, Table};
///
/// let swap = Table::new(vec![1, 2, 2, 1], 2)?;
/// let all = Table::transformations(2)?;
/// assert_eq!(swap.embeddings(&all).collect::<Vec<_>>(), [[2, 3]]);
/// assert_eq!(swap.check_map(&all, &[1, 3])?, MapCheck::WrongProduct { i: 1, j: 2 });
/// assert_eq!(swap.index_period(2)?.period, 2);
/// assert_eq!(all.part(&[3])?.table, swap);
/// # Ok::<(), tickdrizzle::Refusal>(())
/// ```
#[derive(Clone, Debug, PartialEq, Eq, Hash)]
pub struct Table {
    cells: Vec<u8>,
    order: usize,
}

/// A part of a table that holds every product of its own members, as a table of its own.
#[derive(Clone, Debug, PartialEq, Eq, Hash)]
pub struct Part {
    /// The part, renumbered from 1.
    pub table: Table,
    /// Its elements in the whole table, in rising order: an embedding of the part.
    pub elements: Vec<u8>,
}

impl Table {
    /// Takes cells that are a table of this order.
    ///
    /// # Errors
    /// The earliest of the questions 1 to 4 that fails.
    pub fn new(cells: Vec<u8>, order: usize) -> Result<Table, Refusal> {
        check_table(&cells, order)?;
        Ok(Table { cells, order })
    }

    /// Takes cells that are a table of this order, given a list of elements of which all others are products. Fewer triples
    /// are looked at than by [`Table::new`], which accepts the same tables.
    ///
    /// # Errors
    /// The earliest of the questions 1 to 3, 50, 51 and 4 that fails.
    pub fn generated(cells: Vec<u8>, order: usize, generators: &[u8]) -> Result<Table, Refusal> {
        check_generated(&cells, order, generators)?;
        Ok(Table { cells, order })
    }

    /// Loads a table from CSV text.
    ///
    /// # Errors
    /// The earliest question that [`load`] asks of the text, or [`check_table`] of its cells, and that fails.
    pub fn load(text: &[u8]) -> Result<Table, Refusal> {
        let mut cells = vec![0; MOST_CELLS];
        let order = load(text, &mut cells)?;
        cells.truncate(order * order);
        Table::new(cells, order)
    }

    /// The table of all transformations of so many points.
    ///
    /// # Errors
    /// Question 8, where the degree is not 1 to 3.
    pub fn transformations(degree: usize) -> Result<Table, Refusal> {
        let mut cells = vec![0; MOST_CELLS];
        let order = transformations(degree, &mut cells)?;
        cells.truncate(order * order);
        Ok(Table { cells, order })
    }

    /// The number of elements.
    #[must_use]
    pub fn order(&self) -> usize {
        self.order
    }

    /// The cells, row after row.
    #[must_use]
    pub fn cells(&self) -> &[u8] {
        &self.cells
    }

    /// The product i·j.
    ///
    /// # Panics
    /// Where i or j is no element.
    #[must_use]
    pub fn product(&self, i: usize, j: usize) -> usize {
        assert!((1..=self.order).contains(&i) && (1..=self.order).contains(&j), "{i} or {j} is no element");
        usize::from(self.cells[(i - 1) * self.order + (j - 1)])
    }

    /// The CSV text of the table.
    #[must_use]
    pub fn text(&self) -> Vec<u8> {
        let mut text = vec![0; LONGEST_TEXT];
        let length = not_refused(save(&self.cells, self.order, &mut text));
        text.truncate(length);
        text
    }

    /// The smallest part that holds the chosen elements and every product of its own members.
    ///
    /// # Errors
    /// Question 60, where nothing is chosen or an entry is no element.
    pub fn part(&self, chosen: &[u8]) -> Result<Part, Refusal> {
        let (mut cells, mut elements) = (vec![0; MOST_CELLS], vec![0; GREATEST_ORDER]);
        let order = subsemigroup(&self.cells, self.order, chosen, &mut cells, &mut elements)?;
        cells.truncate(order * order);
        elements.truncate(order);
        Ok(Part { table: Table { cells, order }, elements })
    }

    /// Index, period and idempotent power of an element.
    ///
    /// # Errors
    /// Question 7, where it is no element.
    pub fn index_period(&self, element: usize) -> Result<IndexPeriod, Refusal> {
        index_period(&self.cells, self.order, element)
    }

    /// The profile of an element.
    ///
    /// # Errors
    /// Question 7, where it is no element.
    pub fn profile(&self, element: usize) -> Result<Profile, Refusal> {
        profile(&self.cells, self.order, element)
    }

    /// Whether a map is an embedding of this table in the target, or its earliest fault.
    ///
    /// # Errors
    /// Question 5, where it has not exactly one image for each element.
    pub fn check_map(&self, target: &Table, map: &[u8]) -> Result<MapCheck, Refusal> {
        check_map(&self.cells, self.order, &target.cells, target.order, map)
    }

    /// The least degree, 1 to 3, whose table of transformations holds an embedding of this table; nothing where three points
    /// are not enough.
    #[must_use]
    pub fn degree(&self) -> Option<usize> {
        self.positions().map(|positions| positions[0].len())
    }

    /// The fewest rest positions, 1 to 3: for each element in turn where it takes each of them, under the first embedding in a
    /// table of transformations; nothing where three are not enough.
    #[must_use]
    pub fn positions(&self) -> Option<Vec<Vec<u8>>> {
        let mut positions = vec![0; self.order * GREATEST_DEGREE];
        let degree = not_refused(least_degree(&self.cells, self.order, &mut positions))?;
        Some(positions.chunks(degree).take(self.order).map(<[u8]>::to_vec).collect())
    }

    /// The number of different copies of this table in the target: of the image sets of its embeddings.
    #[must_use]
    pub fn copies(&self, target: &Table) -> Copies {
        let mut scratch = vec![0; scratch_size(self.order, target.order)];
        not_refused(copies(&self.cells, self.order, &target.cells, target.order, &mut scratch))
    }

    /// Every embedding of this table in the target, earliest first.
    pub fn embeddings<'a>(&'a self, target: &'a Table) -> Maps<'a> {
        Maps::new(self, target, Searches::All([first_embedding, next_embedding]))
    }

    /// Every embedding of this table in the target for which `allowed` holds of each element and its image, earliest first.
    ///
    /// ```
    /// let left = tickdrizzle::Table::new(vec![1, 1, 2, 2], 2)?;
    /// assert_eq!(left.embeddings(&left).collect::<Vec<_>>(), [[1, 2], [2, 1]]);
    /// assert_eq!(left.embeddings_among(&left, |i, j| i != 1 || j == 2).collect::<Vec<_>>(), [[2, 1]]);
    /// # Ok::<(), tickdrizzle::Refusal>(())
    /// ```
    pub fn embeddings_among<'a>(
        &'a self,
        target: &'a Table,
        mut allowed: impl FnMut(usize, usize) -> bool,
    ) -> Maps<'a> {
        let mut pairs = vec![0; scratch_size(self.order, target.order)];
        for i in 1..=self.order {
            for j in 1..=target.order {
                let k = (i - 1) * target.order + (j - 1);
                pairs[k / 8] |= u8::from(allowed(i, j)) << (k % 8);
            }
        }
        Maps::new(self, target, Searches::Among([first_embedding_among, next_embedding_among], pairs))
    }

    /// Every isomorphism of this table onto the target, earliest first.
    pub fn isomorphisms<'a>(&'a self, target: &'a Table) -> Maps<'a> {
        Maps::new(self, target, Searches::All([first_isomorphism, next_isomorphism]))
    }

    /// Every reversed isomorphism of this table onto the target, earliest first: one to one, onto, and the image of i·j is the
    /// image of j times the image of i.
    pub fn reversed_isomorphisms<'a>(&'a self, target: &'a Table) -> Maps<'a> {
        Maps::new(self, target, Searches::All([first_reversed_isomorphism, next_reversed_isomorphism]))
    }

    /// The earliest embedding of this table in the target within so many trials: what the search says, and the map where it
    /// is found.
    #[must_use]
    pub fn embedding_within(&self, target: &Table, limit: u32) -> (LimitedSearch, Option<Vec<u8>>) {
        self.within(target, limit, first_embedding_within)
    }

    /// The earliest isomorphism of this table onto the target within so many trials: what the search says, and the map where
    /// it is found.
    #[must_use]
    pub fn isomorphism_within(&self, target: &Table, limit: u32) -> (LimitedSearch, Option<Vec<u8>>) {
        self.within(target, limit, first_isomorphism_within)
    }

    /// The earliest reversed isomorphism of this table onto the target within so many trials: what the search says, and the
    /// map where it is found.
    #[must_use]
    pub fn reversed_isomorphism_within(&self, target: &Table, limit: u32) -> (LimitedSearch, Option<Vec<u8>>) {
        self.within(target, limit, first_reversed_isomorphism_within)
    }

    fn within(&self, target: &Table, limit: u32, search: LimitedSearching) -> (LimitedSearch, Option<Vec<u8>>) {
        let (mut map, mut scratch) = (vec![0; self.order], vec![0; scratch_size(self.order, target.order)]);
        let said = search(&self.cells, self.order, &target.cells, target.order, &mut map, &mut scratch, limit);
        let said = not_refused(said);
        (said, matches!(said, LimitedSearch::Found { .. }).then_some(map))
    }
}

type LimitedSearching = fn(&[u8], usize, &[u8], usize, &mut [u8], &mut [u8], u32) -> Result<LimitedSearch, Refusal>;

type Searching = fn(&[u8], usize, &[u8], usize, &mut [u8], &mut [u8]) -> Result<Search, Refusal>;

type SearchingAmong = fn(&[u8], usize, &[u8], usize, &[u8], &mut [u8], &mut [u8]) -> Result<Search, Refusal>;

/// The search for the map that comes now, and the one for those after it.
#[derive(Clone, Debug)]
enum Searches {
    All([Searching; 2]),
    Among([SearchingAmong; 2], Vec<u8>),
}

/// The search that comes now; from then on the other.
fn step<T: Copy>(searches: &mut [T; 2]) -> T {
    let now = searches[0];
    searches[0] = searches[1];
    now
}

/// A walk through all maps of one kind between two tables, earliest first. Each map has one byte for each source element.
#[derive(Clone, Debug)]
#[must_use = "a walk does nothing until it is asked for its maps"]
pub struct Maps<'a> {
    source: &'a Table,
    target: &'a Table,
    searches: Searches,
    map: Vec<u8>,
    scratch: Vec<u8>,
    ended: bool,
}

impl<'a> Maps<'a> {
    fn new(source: &'a Table, target: &'a Table, searches: Searches) -> Maps<'a> {
        let scratch = vec![0; scratch_size(source.order, target.order)];
        Maps { source, target, searches, map: vec![0; source.order], scratch, ended: false }
    }
}

impl Iterator for Maps<'_> {
    type Item = Vec<u8>;

    fn next(&mut self) -> Option<Vec<u8>> {
        if self.ended {
            return None;
        }
        let Maps { source, target, map, scratch, .. } = self;
        let said = match &mut self.searches {
            Searches::All(searches) => {
                step(searches)(&source.cells, source.order, &target.cells, target.order, map, scratch)
            }
            Searches::Among(searches, pairs) => {
                step(searches)(&source.cells, source.order, &target.cells, target.order, pairs, map, scratch)
            }
        };
        self.ended = not_refused(said) == Search::None;
        (!self.ended).then(|| self.map.clone())
    }
}

impl std::iter::FusedIterator for Maps<'_> {}
