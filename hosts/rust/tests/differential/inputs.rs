//! Random inputs of calls: tables true, damaged and of wrong size, maps, texts, and buffers around their limits.

use crate::calls::{Lent, LentTable};
use crate::families::{self, Semigroup};
use crate::random::Random;
use crate::reference;

/// A table to lend and the family to count it under.
pub struct Input {
    pub table: LentTable,
    pub family: &'static str,
}

/// An order up to which tables are made: mostly small, at times the greatest there is.
pub fn any_size(random: &mut Random) -> usize {
    match random.below(1000) {
        0..=4 => 120,
        5..=14 => 60,
        15..=99 => 24,
        _ => 9,
    }
}

/// A table of order at most `greatest`, of any kind.
pub fn table(random: &mut Random, greatest: usize) -> Input {
    match random.below(20) {
        0..=2 => damaged(random, greatest),
        3..=4 => random_cells(random),
        5..=7 => wrong_size(random, greatest),
        _ => {
            let semigroup = families::any(random, greatest);
            lend(random, &semigroup)
        }
    }
}

pub fn lend(random: &mut Random, semigroup: &Semigroup) -> Input {
    let table = LentTable { cells: Lent::new(random, &semigroup.cells), order: semigroup.order };
    Input { table, family: semigroup.family }
}

/// A list of elements of a table of this order, with repeats: none, a few or all of them; at times an entry is another byte.
pub fn chosen(random: &mut Random, order: usize) -> Lent {
    let order = order.clamp(1, 120);
    let length = match random.below(8) {
        0 => 0,
        1..=4 => random.within(1, 3),
        _ => order,
    };
    let mut list: Vec<u8> =
        (1..=length).map(|i| if length == order { i } else { random.within(1, order) } as u8).collect();
    if length > 0 && random.one_in(8) {
        let place = random.below(length);
        list[place] = random.pick(&[0, order as u8 + 1, 255, 1]);
    }
    Lent::new(random, &list)
}

/// A semigroup's table with up to three cells changed, to elements or not.
pub fn damaged(random: &mut Random, greatest: usize) -> Input {
    let Semigroup { mut cells, order, .. } = families::any(random, greatest);
    for _ in 0..random.within(1, 3) {
        let place = random.below(cells.len());
        cells[place] = match random.below(6) {
            0 => 0,
            1 => order as u8 + 1,
            2 => random.byte(),
            _ => random.within(1, order) as u8,
        };
    }
    Input { table: LentTable { cells: Lent::new(random, &cells), order }, family: "damaged table" }
}

/// Random elements as cells, of an order so small that some are associative.
fn random_cells(random: &mut Random) -> Input {
    let order = random.within(1, 4);
    let cells: Vec<u8> = (0..order * order).map(|_| random.within(1, order) as u8).collect();
    Input { table: LentTable { cells: Lent::new(random, &cells), order }, family: "random cells" }
}

/// Cells and an order that do not fit each other, or an order that no table has.
fn wrong_size(random: &mut Random, greatest: usize) -> Input {
    let Semigroup { cells, order, .. } = families::any(random, greatest);
    let order = match random.below(8) {
        0 => 0,
        1 => 121,
        2 => usize::MAX,
        3 => random.number() as usize,
        4 => 1 << random.within(30, 63),
        5 => order + 1,
        6 => order - 1,
        _ => order,
    };
    let cells = match random.below(4) {
        0 => random.bytes(121 * 121),
        1 => cells[..cells.len() - 1].to_vec(),
        2 => [cells.as_slice(), &[1]].concat(),
        _ => cells,
    };
    Input { table: LentTable { cells: Lent::new(random, &cells), order }, family: "wrong size" }
}

/// An element of a table of this order, or none of it.
pub fn element(random: &mut Random, order: usize) -> usize {
    match random.below(12) {
        0 => 0,
        1 => order.wrapping_add(1),
        2 => usize::MAX,
        3 => random.number() as usize,
        _ => random.within(1, order.clamp(1, 120)),
    }
}

/// A length at a limit, beside it, or anywhere near.
pub fn length(random: &mut Random, limit: usize) -> usize {
    match random.below(12) {
        0 => 0,
        1 => limit.saturating_sub(1),
        2 => limit + 1,
        3 => random.below(2 * limit + 2),
        4..=6 => limit + random.below(40),
        _ => limit,
    }
}

/// What stands in a map buffer before a call: zeros, any bytes, elements in any order or in theirs, or bytes near elements.
pub fn map(random: &mut Random, source_order: usize, target_order: usize) -> Lent {
    let (m, n) = (source_order.min(120), target_order.min(120));
    let right_length = !random.one_in(12);
    let length = if right_length { m } else { random.below(m + 3) };
    let content: Vec<u8> = match random.below(5) {
        0 => vec![0; length],
        1 => random.bytes(length),
        2 => (1..=length as u8).collect(),
        3 => permutation(random, n).into_iter().cycle().take(length).collect(),
        _ => (0..length).map(|_| random.below(n + 2) as u8).collect(),
    };
    Lent::new(random, &content)
}

/// Pairs for two orders, of a length around the one that is asked for: all marked, any, all but a few, or some elements with one
/// image each; the unused bits are random.
pub fn pairs(random: &mut Random, source_order: usize, target_order: usize) -> Lent {
    let (m, n) = (source_order.clamp(1, 120), target_order.clamp(1, 120));
    let size = length(random, (m * n).div_ceil(8));
    let mut pairs = Lent::random(random, size);
    let how = random.below(4);
    let pinned: Vec<Option<usize>> = (0..m).map(|_| random.one_in(3).then(|| random.below(n))).collect();
    for k in (0..m * n).take_while(|k| k / 8 < size) {
        let marked = match how {
            0 => true,
            1 => random.one_in(2),
            2 => !random.one_in(8),
            _ => pinned[k / n].is_none_or(|image| image == k % n),
        };
        let bit = 1 << (k % 8);
        pairs[k / 8] = if marked { pairs[k / 8] | bit } else { pairs[k / 8] & !bit };
    }
    pairs
}

/// The elements of a table in any order; those of order 1 where there is no element.
fn permutation(random: &mut Random, order: usize) -> Vec<u8> {
    let mut elements: Vec<u8> = (1..=order.max(1) as u8).collect();
    random.shuffle(&mut elements);
    elements
}

/// A text and the family to count it under.
pub fn text(random: &mut Random) -> (Lent, &'static str) {
    let (text, family) = match random.below(100) {
        0..=34 => (saved(random), "saved text"),
        35..=69 => (damaged_text(random), "damaged text"),
        70..=91 => (random_pieces(random), "random pieces"),
        92..=98 => (random_bytes(random), "random bytes"),
        _ => (long_text(random), "text at a limit"),
    };
    (Lent::new(random, &text), family)
}

/// The text of a square of numbers from 1 to 120, not all of them within its order.
fn saved(random: &mut Random) -> Vec<u8> {
    let greatest_order = if random.one_in(100) { 120 } else { 6 };
    let order = random.within(1, greatest_order);
    let greatest = random.pick(&[order, 9, 99, 120]);
    let cells: Vec<u8> = (0..order * order).map(|_| random.within(1, greatest) as u8).collect();
    reference::text_of(&cells, order).into_bytes()
}

/// A saved text with up to three bytes put in, taken out or changed.
fn damaged_text(random: &mut Random) -> Vec<u8> {
    let mut text = saved(random);
    for _ in 0..random.within(1, 3) {
        let place = random.below(text.len() + 1);
        let byte = random.pick(b"0123456789,\r\n \";-/:.+x\x00\xff");
        match random.below(3) {
            0 => text.insert(place, byte),
            1 if place < text.len() => drop(text.remove(place)),
            _ if place < text.len() => text[place] = byte,
            _ => text.push(byte),
        }
    }
    text
}

/// Fields, commas and line breaks in any order, good ones and bad ones.
fn random_pieces(random: &mut Random) -> Vec<u8> {
    const PIECES: [&str; 16] =
        ["1", "2", ",", ",", ",", "\r\n", "\r\n", "0", "01", "120", "121", "999", "1000", "0001", "\r", "\n"];
    let usable = random.pick(&[6, 9, 14, 16]);
    let mut text: Vec<u8> = (0..random.below(12)).flat_map(|_| random.pick(&PIECES[..usable]).bytes()).collect();
    if random.one_in(2) {
        text.extend(b"\r\n");
    }
    text
}

fn random_bytes(random: &mut Random) -> Vec<u8> {
    let length = random.below(20);
    random.bytes(length)
}

/// Texts at the longest length and the greatest order, and just beyond.
fn long_text(random: &mut Random) -> Vec<u8> {
    let (records, fields, greatest) = match random.below(6) {
        0 => (121, 121, 9),
        1 => (120, 121, 9),
        2 => (121, 120, 9),
        3 => (119, 119, 120),
        _ => (120, 120, 120),
    };
    let least = if greatest == 120 { 100 } else { 1 };
    let cells: Vec<u8> = (0..records * fields).map(|_| random.within(least, greatest) as u8).collect();
    let mut text = reference::text_of(&cells, fields).into_bytes();
    match random.below(6) {
        0 => text.push(b'\n'),
        1 => drop(text.pop()),
        2 => text[0] = b'0',
        _ => {}
    }
    text
}
