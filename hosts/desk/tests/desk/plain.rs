//! Plain searches through small tables, to compare with: no library, no order, no short cuts.

pub type Table = Vec<Vec<u8>>;

fn product(table: &Table, i: u8, j: u8) -> u8 {
    table[usize::from(i) - 1][usize::from(j) - 1]
}

pub fn is_associative(table: &Table) -> bool {
    let all = || 1..=u8::try_from(table.len()).expect("tables are small");
    all().all(|i| {
        all().all(|j| all().all(|k| product(table, product(table, i, j), k) == product(table, i, product(table, j, k))))
    })
}

/// The elements and every product of members, in rising order.
pub fn closure(table: &Table, elements: &[u8]) -> Vec<u8> {
    let mut held = elements.to_vec();
    loop {
        let products: Vec<u8> = held.iter().flat_map(|&i| held.iter().map(move |&j| product(table, i, j))).collect();
        let before = held.len();
        held.extend(products);
        held.sort_unstable();
        held.dedup();
        if held.len() == before {
            return held;
        }
    }
}

/// Whether images of elements are different and keep every product.
pub fn keeps(show: &Table, elements: &[u8], rig: &Table, images: &[u8]) -> bool {
    let image = |element: u8| images[elements.iter().position(|&other| other == element).expect("products stay")];
    let pairs = || elements.iter().flat_map(|&i| elements.iter().map(move |&j| (i, j)));
    elements.len() == images.len()
        && pairs().all(|(i, j)| i == j || image(i) != image(j))
        && pairs().all(|(i, j)| image(product(show, i, j)) == product(rig, image(i), image(j)))
}

/// The maps of a small show to a rig that keep every product, earliest first: all lists of images are tried, in their order.
pub fn maps(show: &Table, rig: &Table) -> Vec<Vec<u8>> {
    let all = |table: &Table| 1..=u8::try_from(table.len()).expect("tables are small");
    let elements: Vec<u8> = all(show).collect();
    let longer = |list: Vec<u8>| all(rig).map(move |image| [&list[..], &[image]].concat());
    let mut lists = vec![Vec::new()];
    for _ in &elements {
        lists = lists.into_iter().flat_map(longer).collect();
    }
    lists.retain(|list| keeps(show, &elements, rig, list));
    lists
}

/// Whether a part of the show, with these elements, has a place on the rig.
pub fn fits(show: &Table, elements: &[u8], rig: &Table) -> bool {
    fn goes(show: &Table, elements: &[u8], rig: &Table, images: &mut Vec<u8>) -> bool {
        if images.len() == elements.len() {
            return keeps(show, elements, rig, images);
        }
        (1..=u8::try_from(rig.len()).expect("tables are small")).any(|image| {
            if images.contains(&image) {
                return false;
            }
            images.push(image);
            let placed = &elements[..images.len()];
            let at = |element: u8| placed.iter().position(|&other| other == element).map(|place| images[place]);
            let agrees = placed.iter().all(|&i| {
                placed.iter().all(|&j| match (at(i), at(j), at(product(show, i, j))) {
                    (Some(left), Some(right), Some(both)) => product(rig, left, right) == both,
                    _ => true,
                })
            });
            let found = agrees && goes(show, elements, rig, images);
            images.pop();
            found
        })
    }
    goes(show, elements, rig, &mut Vec::new())
}

/// Every choice of so many of some elements.
pub fn choices(elements: &[u8], size: usize) -> Vec<Vec<u8>> {
    let all = 0..1usize << elements.len();
    let chosen = all.filter(|bits| bits.count_ones() as usize == size);
    chosen
        .map(|bits| (0..elements.len()).filter(|place| bits >> place & 1 == 1).map(|place| elements[place]).collect())
        .collect()
}
