//! Families of semigroups that the paper's test alone does not settle, made with fixed seeds.

use crate::tables::{dihedral_group, table, Table};

/// Numbers that look random and are always the same.
pub struct Numbers(u64);

impl Numbers {
    pub fn new(seed: u64) -> Numbers {
        Numbers(seed)
    }

    pub fn below(&mut self, bound: usize) -> usize {
        self.0 = self.0.wrapping_mul(6_364_136_223_846_793_005).wrapping_add(1_442_695_040_888_963_407);
        (self.0 >> 33) as usize % bound
    }
}

/// The product of two elements, counted from 0.
fn times(table: &Table, i: usize, j: usize) -> usize {
    usize::from(table.cells[i * table.order + j]) - 1
}

/// The numbers below `order` in a random order.
pub fn names(order: usize, numbers: &mut Numbers) -> Vec<usize> {
    let mut names: Vec<usize> = (0..order).collect();
    for place in (1..order).rev() {
        names.swap(place, numbers.below(place + 1));
    }
    names
}

/// The table with its elements numbered anew, each by its name.
pub fn renamed(old: &Table, names: &[usize]) -> Table {
    let n = old.order;
    let mut cells = vec![0; n * n];
    for i in 0..n {
        for j in 0..n {
            cells[names[i] * n + names[j]] = names[times(old, i, j)] as u8 + 1;
        }
    }
    Table { order: n, cells }
}

/// The table with its elements numbered anew at random.
pub fn shuffled(old: &Table, numbers: &mut Numbers) -> Table {
    renamed(old, &names(old.order, numbers))
}

/// Pairs of elements of two tables.
pub fn direct_product(a: &Table, b: &Table) -> Table {
    let k = b.order;
    table(a.order * k, |i, j| times(a, i / k, j / k) * k + times(b, i % k, j % k))
}

/// Sets of points under symmetric difference: every square is the identity.
pub fn elementary_group(rank: usize) -> Table {
    table(1 << rank, |i, j| i ^ j)
}

/// Two copies of the group of the square.
pub fn two_squares() -> Table {
    direct_product(&dihedral_group(4), &dihedral_group(4))
}

/// A group of order 64: three digits v and three digits y, with (v, y)·(w, z) = (v + w, y + z + the sum of `form` at the
/// places where v and w both have a digit).
pub fn form_group(form: [usize; 9]) -> Table {
    let at = |v: usize, w: usize| {
        let places = (0..9).filter(|place| (v >> (place / 3)) & (w >> (place % 3)) & 1 == 1);
        places.fold(0, |sum, place| sum ^ form[place])
    };
    table(64, |i, j| ((i / 8) ^ (j / 8)) * 8 + (i ^ j ^ at(i / 8, j / 8)) % 8)
}

/// The matrix units of a size, and zero.
pub fn brandt(size: usize) -> Table {
    let zero = size * size;
    let meet = |i: usize, j: usize| i < zero && j < zero && i % size == j / size;
    table(zero + 1, |i, j| if meet(i, j) { i / size * size + j % size } else { zero })
}

/// A Rees matrix semigroup: rows, columns and a cyclic group, with a random matrix of group elements between.
pub fn rees(rows: usize, columns: usize, group: usize, numbers: &mut Numbers) -> Table {
    let matrix: Vec<usize> = (0..rows * columns).map(|_| numbers.below(group)).collect();
    table(rows * columns * group, |i, j| {
        let (row, g, column) = (i / group / columns, i % group, i / group % columns);
        let (next, h, last) = (j / group / columns, j % group, j / group % columns);
        (row * columns + last) * group + (g + matrix[column * rows + next] + h) % group
    })
}

/// A random 3-nilpotent semigroup: factors, their products, and zero.
pub fn three_nilpotent(factors: usize, products: usize, numbers: &mut Numbers) -> Table {
    let zero = factors + products;
    let squares: Vec<usize> = (0..factors * factors).map(|_| factors + numbers.below(products + 1)).collect();
    table(zero + 1, |i, j| if i < factors && j < factors { squares[i * factors + j] } else { zero })
}

/// What some random transformations of a number of points generate, the first that has 40 to 120 elements.
pub fn generated(points: usize, generators: usize, numbers: &mut Numbers) -> Table {
    loop {
        let first: Vec<Vec<usize>> =
            (0..generators).map(|_| (0..points).map(|_| numbers.below(points)).collect()).collect();
        let all = closure(&first);
        if (40..=120).contains(&all.len()) {
            let place = |f: &Vec<usize>| all.iter().position(|g| g == f).expect("it is closed");
            return table(all.len(), |i, j| place(&composed(&all[i], &all[j])));
        }
    }
}

pub fn composed(a: &[usize], b: &[usize]) -> Vec<usize> {
    a.iter().map(|&point| b[point]).collect()
}

/// What the transformations generate, or the beginning of it where it has more than 120 elements.
pub fn closure(first: &[Vec<usize>]) -> Vec<Vec<usize>> {
    let mut all: Vec<Vec<usize>> = Vec::new();
    let mut waiting = first.to_vec();
    while let Some(f) = waiting.pop() {
        if !all.contains(&f) && all.len() <= 120 {
            waiting.extend(first.iter().map(|g| composed(&f, g)));
            all.push(f);
        }
    }
    all
}

/// The part that some elements generate.
pub fn part(whole: &Table, chosen: &[usize]) -> Table {
    let mut all: Vec<usize> = Vec::new();
    let mut waiting = chosen.to_vec();
    while let Some(x) = waiting.pop() {
        if !all.contains(&x) {
            all.push(x);
            waiting.extend(all.iter().flat_map(|&y| [times(whole, x, y), times(whole, y, x)]));
        }
    }
    let place = |x: usize| all.iter().position(|&y| y == x).expect("it is closed");
    table(all.len(), |i, j| place(times(whole, all[i], all[j])))
}
