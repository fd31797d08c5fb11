//! True semigroups of many families, as tables.

use crate::random::Random;
use crate::reference;
use std::collections::BTreeSet;

#[derive(Clone, Debug)]
pub struct Semigroup {
    pub family: &'static str,
    pub order: usize,
    pub cells: Vec<u8>,
}

/// A maker of a semigroup whose order is at most the number given.
type Maker = fn(&mut Random, usize) -> Semigroup;

const SIMPLE: [Maker; 8] =
    [cyclic_group, monogenic, null, chain, left_zero, right_zero, rectangular_band, nilpotent_of_class_three];
const COMPOSED: [Maker; 6] =
    [direct_product, matrix_semigroup, unions_of_sets, part_of_transformations, with_identity, with_zero];

/// A semigroup of any family, of order at most `greatest`; half of them relabelled.
pub fn any(random: &mut Random, greatest: usize) -> Semigroup {
    let makers = if random.one_in(2) { &SIMPLE[..] } else { &COMPOSED[..] };
    let semigroup = random.pick(makers)(random, greatest);
    if random.one_in(2) {
        relabelled(random, &semigroup)
    } else {
        semigroup
    }
}

/// A larger one whose search needs few steps: every list that starts well goes on well.
pub fn easy(random: &mut Random) -> Semigroup {
    let n = random.within(8, 40);
    match random.below(3) {
        0 => null_of_order(n),
        1 => table("left zero", n, |i, _| i),
        _ => table("right zero", n, |_, j| j),
    }
}

/// Two semigroups of up to 33 elements, relabelled, between which a search may need many trials: the families that the
/// benchmark has at larger orders, and pairs with no map between them.
pub fn late(random: &mut Random) -> (Semigroup, Semigroup) {
    let (source, target) = match random.below(9) {
        0 => twice(table("chain", random.within(6, 14), std::cmp::min)),
        1 => {
            let points = random.within(3, 5);
            let unions = table("unions of points", 1 << points, |i, j| i | j);
            (table("chain", points + random.within(1, 2), std::cmp::min), unions)
        }
        2 => (band(3, 3), band(2, random.within(5, 8))),
        3 => (band(2, 3), band(4, 5)),
        4 => twice(group_of_16(random.one_in(2))),
        5 => (group_of_16(true), group_of_16(false)),
        6 => twice(matrix_units(random.within(2, 3))),
        7 => {
            let factors = random.within(4, 6);
            let sums = nilpotent("nilpotent sums", factors, |i, j| (i + j) % factors);
            (sums, nilpotent("nilpotent products", factors, |i, j| i * j % factors))
        }
        _ => {
            let factors = random.within(4, 7);
            let chosen: Vec<usize> = (0..factors * factors).map(|_| random.below(factors)).collect();
            twice(nilpotent("nilpotent", factors, |i, j| chosen[i * factors + j]))
        }
    };
    (relabelled(random, &source), relabelled(random, &target))
}

fn twice(semigroup: Semigroup) -> (Semigroup, Semigroup) {
    (semigroup.clone(), semigroup)
}

fn band(rows: usize, columns: usize) -> Semigroup {
    table("rectangular band", rows * columns, |i, j| i / columns * columns + j % columns)
}

/// Two groups of order 16 with as many elements of each order: y·x = x⁻¹·y and x⁴ = 1 in both; y⁴ = 1 in the one, and in the other y² = x²
/// and an element z of order 2 commutes with both.
fn group_of_16(twisted: bool) -> Semigroup {
    table("group of order 16", 16, |i, j| {
        let (x, y, u, v) = (i % 4, i / 4, j % 4, j / 4);
        let moved = if y % 2 == 1 { 4 - u } else { u };
        if twisted {
            (x + moved) % 4 + (y + v) % 4 * 4
        } else {
            (x + moved + 2 * (y & v & 1)) % 4 + (y ^ v) * 4
        }
    })
}

/// The matrix units of a size, and zero.
fn matrix_units(size: usize) -> Semigroup {
    let zero = size * size;
    let meet = |i: usize, j: usize| i < zero && j < zero && i % size == j / size;
    table("Brandt", zero + 1, |i, j| if meet(i, j) { i / size * size + j % size } else { zero })
}

/// Factors, then as many products, then a zero.
fn nilpotent(family: &'static str, factors: usize, square: impl Fn(usize, usize) -> usize) -> Semigroup {
    let zero = 2 * factors;
    table(family, zero + 1, |i, j| if i < factors && j < factors { factors + square(i, j) } else { zero })
}

/// The table of a product on the numbers from 0 to `order` - 1.
fn table(family: &'static str, order: usize, product: impl Fn(usize, usize) -> usize) -> Semigroup {
    let mut cells = Vec::with_capacity(order * order);
    for i in 0..order {
        cells.extend((0..order).map(|j| product(i, j) as u8 + 1));
    }
    Semigroup { family, order, cells }
}

/// An order up to the greatest, often the greatest itself.
fn order(random: &mut Random, greatest: usize) -> usize {
    if random.one_in(3) {
        greatest
    } else {
        random.within(1, greatest)
    }
}

fn cyclic_group(random: &mut Random, greatest: usize) -> Semigroup {
    let n = order(random, greatest);
    table("cyclic group", n, |i, j| (i + j) % n)
}

/// The powers of one element; number i is power i + 1.
fn monogenic(random: &mut Random, greatest: usize) -> Semigroup {
    let n = order(random, greatest);
    let period = random.within(1, n);
    let index = n + 1 - period;
    let power = move |exponent: usize| {
        if exponent < index {
            exponent
        } else {
            index + (exponent - index) % period
        }
    };
    table("monogenic", n, |i, j| power(i + j + 2) - 1)
}

/// Every product is element 1.
pub fn null_of_order(order: usize) -> Semigroup {
    table("null", order, |_, _| 0)
}

fn null(random: &mut Random, greatest: usize) -> Semigroup {
    let n = order(random, greatest);
    let zero = random.below(n);
    table("null", n, |_, _| zero)
}

fn chain(random: &mut Random, greatest: usize) -> Semigroup {
    table("chain", order(random, greatest), std::cmp::min)
}

fn left_zero(random: &mut Random, greatest: usize) -> Semigroup {
    table("left zero", order(random, greatest), |i, _| i)
}

fn right_zero(random: &mut Random, greatest: usize) -> Semigroup {
    table("right zero", order(random, greatest), |_, j| j)
}

fn rectangular_band(random: &mut Random, greatest: usize) -> Semigroup {
    let rows = random.within(1, greatest);
    let columns = random.within(1, greatest / rows);
    table("rectangular band", rows * columns, |i, j| i / columns * columns + j % columns)
}

/// Every product of three is 0: factors have products among numbers that give 0 with everything.
fn nilpotent_of_class_three(random: &mut Random, greatest: usize) -> Semigroup {
    let n = order(random, greatest);
    let products = random.within(1, n);
    let chosen: Vec<usize> = (0..n * n).map(|_| random.below(products)).collect();
    table("nilpotent", n, |i, j| if i < products || j < products { 0 } else { chosen[i * n + j] })
}

fn direct_product(random: &mut Random, greatest: usize) -> Semigroup {
    let first = random.pick(&SIMPLE)(random, greatest.div_ceil(2));
    let second = random.pick(&SIMPLE)(random, greatest / first.order);
    let n = second.order;
    let component = |of: &Semigroup, i: usize, j: usize| usize::from(of.cells[i * of.order + j]) - 1;
    table("direct product", first.order * n, |i, j| {
        component(&first, i / n, j / n) * n + component(&second, i % n, j % n)
    })
}

/// A Rees matrix semigroup over a cyclic group: (r, g, c)(s, h, d) = (r, g + matrix entry at c, s + h, d).
fn matrix_semigroup(random: &mut Random, greatest: usize) -> Semigroup {
    let rows = random.within(1, greatest);
    let group = random.within(1, greatest / rows);
    let columns = random.within(1, greatest / rows / group);
    let matrix: Vec<usize> = (0..rows * columns).map(|_| random.below(group)).collect();
    let parts = |i: usize| (i / (group * columns), i / columns % group, i % columns);
    table("matrix semigroup", rows * group * columns, |i, j| {
        let ((row, g, column), (next_row, h, next_column)) = (parts(i), parts(j));
        let middle = (g + matrix[column * rows + next_row] + h) % group;
        (row * group + middle) * columns + next_column
    })
}

/// Sets of up to seven points, closed under union.
fn unions_of_sets(random: &mut Random, greatest: usize) -> Semigroup {
    let sets: Vec<usize> = (0..random.within(1, greatest)).map(|_| random.below(128)).collect();
    generated("unions of sets", &sets, greatest, |a, b| a | b)
}

/// A part of the table of all transformations of three points.
pub fn part_of_transformations(random: &mut Random, greatest: usize) -> Semigroup {
    let mut cells = [0; 729];
    reference::transformations(3, &mut cells);
    let generators: Vec<usize> = (0..random.within(1, 3)).map(|_| random.below(27)).collect();
    generated("part of degree 3", &generators, greatest, |s, t| usize::from(cells[s * 27 + t]) - 1)
}

fn with_identity(random: &mut Random, greatest: usize) -> Semigroup {
    adjoined(random, greatest, "with identity", |other, _| other)
}

fn with_zero(random: &mut Random, greatest: usize) -> Semigroup {
    adjoined(random, greatest, "with zero", |_, zero| zero)
}

/// A semigroup with one more element; its products with any other are given.
fn adjoined(
    random: &mut Random,
    greatest: usize,
    family: &'static str,
    product: impl Fn(usize, usize) -> usize,
) -> Semigroup {
    let base = random.pick(&SIMPLE)(random, greatest.max(2) - 1);
    let n = base.order;
    table(family, n + 1, |i, j| match (i == n, j == n) {
        (false, false) => usize::from(base.cells[i * n + j]) - 1,
        (true, _) => product(j, n),
        (_, true) => product(i, n),
    })
}

/// The part that some elements of a semigroup generate, as far as its order allows: generators that would make it larger
/// than `greatest` are left out.
fn generated(
    family: &'static str,
    generators: &[usize],
    greatest: usize,
    product: impl Fn(usize, usize) -> usize,
) -> Semigroup {
    let mut part = Vec::new();
    for &generator in generators {
        let with_generator = closure(&part, generator, &product);
        if with_generator.len() <= greatest {
            part = with_generator;
        }
    }
    let place = |element: usize| part.iter().position(|&other| other == element).expect("the part is closed");
    if part.is_empty() {
        return table(family, 1, |_, _| 0);
    }
    table(family, part.len(), |i, j| place(product(part[i], part[j])))
}

/// The least set with these elements and one more that is closed under the product.
fn closure(elements: &[usize], more: usize, product: impl Fn(usize, usize) -> usize) -> Vec<usize> {
    let mut closed: BTreeSet<usize> = elements.iter().copied().collect();
    let mut new = vec![more];
    while let Some(element) = new.pop() {
        if closed.insert(element) {
            for &other in &closed {
                new.extend([product(element, other), product(other, element)]);
            }
        }
    }
    closed.into_iter().collect()
}

/// The part of a semigroup that some of its elements generate, relabelled.
pub fn part(random: &mut Random, semigroup: &Semigroup) -> Semigroup {
    let n = semigroup.order;
    let generators: Vec<usize> = (0..random.within(1, 2)).map(|_| random.below(n)).collect();
    let part = generated("part of the target", &generators, n, |i, j| usize::from(semigroup.cells[i * n + j]) - 1);
    relabelled(random, &part)
}

/// The same semigroup with its elements numbered anew.
pub fn relabelled(random: &mut Random, semigroup: &Semigroup) -> Semigroup {
    let n = semigroup.order;
    let mut new: Vec<usize> = (0..n).collect();
    random.shuffle(&mut new);
    let mut cells = vec![0; n * n];
    for i in 0..n {
        for j in 0..n {
            let product = usize::from(semigroup.cells[i * n + j]) - 1;
            cells[new[i] * n + new[j]] = new[product] as u8 + 1;
        }
    }
    Semigroup { cells, ..*semigroup }
}

/// The semigroup with its products the other way round, its elements numbered anew.
pub fn turned(random: &mut Random, semigroup: &Semigroup) -> Semigroup {
    let n = semigroup.order;
    let cells = (0..n * n).map(|place| semigroup.cells[place % n * n + place / n]).collect();
    relabelled(random, &Semigroup { cells, ..*semigroup })
}
