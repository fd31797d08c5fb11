//! Building cues: elements of a table of which all others are products.
//!
//! They are chosen here, the rarest first; that they build the table is for the library to say, by `check_generated`.

use tickdrizzle::{Refusal, Table, MOST_CELLS};

/// Loads a table by the shorter check, which is quicker; where that refuses it, the full check says why.
pub fn load(text: &[u8]) -> Result<Table, Refusal> {
    let mut cells = vec![0; MOST_CELLS];
    let order = tickdrizzle::load(text, &mut cells)?;
    cells.truncate(order * order);
    table(cells, order)
}

/// Checks cells that were loaded, in the same way.
pub fn table(cells: Vec<u8>, order: usize) -> Result<Table, Refusal> {
    if cells.iter().any(|&cell| usize::from(cell) > order) {
        return Table::new(cells, order);
    }
    let building = generators(&cells, order);
    Table::generated(cells.clone(), order, &building).or_else(|_| Table::new(cells, order))
}

/// A list of elements of which all others are products, and of which none can be left out.
pub fn generators(cells: &[u8], order: usize) -> Vec<u8> {
    let mut frequency = vec![0; order + 1];
    // What is no product of two others is in every list.
    let mut can_go = vec![false; order + 1];
    for (place, &product) in cells.iter().enumerate() {
        let (i, j, product) = (place / order + 1, place % order + 1, usize::from(product));
        frequency[product] += 1;
        can_go[product] |= i != product && j != product;
    }
    let mut rarest: Vec<usize> = (1..=order).collect();
    rarest.sort_by_key(|&element| frequency[element]);
    let (mut chosen, mut part) = (Vec::new(), Closure::new(cells, order));
    for element in rarest {
        if part.add(element) {
            chosen.push(element);
        }
    }
    for place in (0..chosen.len()).rev() {
        let mut fewer = chosen.clone();
        if can_go[fewer.remove(place)] && closure(cells, order, &fewer).len() == order {
            chosen = fewer;
        }
    }
    chosen.sort_unstable();
    chosen.into_iter().map(|element| u8::try_from(element).expect("orders are at most 120")).collect()
}

/// The elements and every product of members.
pub fn closure(cells: &[u8], order: usize, elements: &[usize]) -> Vec<usize> {
    let mut part = Closure::new(cells, order);
    for &element in elements {
        part.add(element);
    }
    part.held
}

/// Elements of a table with every product of them.
struct Closure<'a> {
    cells: &'a [u8],
    order: usize,
    held: Vec<usize>,
    is_held: Vec<bool>,
}

impl Closure<'_> {
    fn new(cells: &[u8], order: usize) -> Closure<'_> {
        Closure { cells, order, held: Vec::new(), is_held: vec![false; order + 1] }
    }

    /// Adds an element and every product with it; whether it is new.
    fn add(&mut self, element: usize) -> bool {
        let mut place = self.held.len();
        let is_new = self.hold(element);
        while place < self.held.len() {
            for other in 0..=place {
                let (one, other) = (self.held[place], self.held[other]);
                for (i, j) in [(one, other), (other, one)] {
                    self.hold(self.cells[(i - 1) * self.order + (j - 1)].into());
                }
            }
            place += 1;
        }
        is_new
    }

    /// Holds an element; whether it is new.
    fn hold(&mut self, element: usize) -> bool {
        let is_new = !self.is_held[element];
        if is_new {
            self.is_held[element] = true;
            self.held.push(element);
        }
        is_new
    }
}

#[cfg(test)]
mod tests {
    use super::*;
    use tickdrizzle::{check_generated, Table};

    #[test]
    fn they_build_the_table_and_none_can_be_left_out() {
        let all = Table::transformations(3).expect("3 is a degree");
        let chosen = generators(all.cells(), 27);
        assert!(check_generated(all.cells(), 27, &chosen).is_ok());
        for place in 0..chosen.len() {
            let mut fewer = chosen.clone();
            fewer.remove(place);
            assert!(check_generated(all.cells(), 27, &fewer).is_err());
        }
        assert_eq!(generators(&[1; 9], 3), [2, 3]);
        assert_eq!(generators(&[1], 1), [1]);
    }
}
