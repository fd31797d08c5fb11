//! The tables that are timed.

/// A table of a semigroup.
#[derive(Clone)]
pub struct Table {
    pub order: usize,
    pub cells: Vec<u8>,
}

/// The table of a product on the numbers from 0 to `order` - 1.
pub fn table(order: usize, product: impl Fn(usize, usize) -> usize) -> Table {
    let cells = (0..order * order).map(|place| product(place / order, place % order) as u8 + 1).collect();
    Table { order, cells }
}

pub fn chain(order: usize) -> Table {
    table(order, std::cmp::min)
}

pub fn null(order: usize) -> Table {
    table(order, |_, _| 0)
}

pub fn cyclic_group(order: usize) -> Table {
    table(order, |i, j| (i + j) % order)
}

/// The group of all lists of so many binary digits, added digit by digit without carrying.
pub fn two_group(digits: usize) -> Table {
    table(1 << digits, |i, j| i ^ j)
}

/// The group of a polygon: turns first, then each turn after a flip.
pub fn dihedral_group(corners: usize) -> Table {
    table(2 * corners, |i, j| {
        let (flipped, turn, next) = (i >= corners, i % corners, j % corners);
        let turned = if flipped { turn + corners - next } else { turn + next };
        (i / corners + j / corners) % 2 * corners + turned % corners
    })
}

pub fn left_zero(order: usize) -> Table {
    table(order, |i, _| i)
}

pub fn rectangular_band(rows: usize, columns: usize) -> Table {
    table(rows * columns, |i, j| i / columns * columns + j % columns)
}

/// Sets of points under union; number i is the set of its binary digits.
pub fn unions(points: usize) -> Table {
    table(1 << points, |i, j| i | j)
}

/// Factors first, then their products, then a zero: the product of factors i and j is number `square(i, j)`, every
/// product of three is the zero.
pub fn nilpotent(factors: usize, products: usize, square: impl Fn(usize, usize) -> usize) -> Table {
    let zero = factors + products;
    table(zero + 1, |i, j| if i < factors && j < factors { factors + square(i, j) } else { zero })
}

/// The table with its elements numbered anew, in an order that looks random and is always the same.
pub fn relabelled(old: &Table) -> Table {
    let n = old.order;
    let mut new: Vec<usize> = (0..n).collect();
    let mut state: u32 = 12345;
    for place in (1..n).rev() {
        state = state.wrapping_mul(1_103_515_245).wrapping_add(12345);
        new.swap(place, (state >> 16) as usize % (place + 1));
    }
    let mut cells = vec![0; n * n];
    for i in 0..n {
        for j in 0..n {
            cells[new[i] * n + new[j]] = new[usize::from(old.cells[i * n + j]) - 1] as u8 + 1;
        }
    }
    Table { order: n, cells }
}

/// The table with rows and columns exchanged.
pub fn turned(old: &Table) -> Table {
    table(old.order, |i, j| usize::from(old.cells[j * old.order + i]) - 1)
}
