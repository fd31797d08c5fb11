//! Random numbers and tables, the same in each run.

/// Random numbers from a seed.
pub struct Random(u64);

impl Random {
    pub fn new(seed: u64) -> Random {
        Random(seed.wrapping_mul(0x9E37_79B9_7F4A_7C15) | 1)
    }

    /// A number below a bound.
    pub fn below(&mut self, bound: usize) -> usize {
        self.0 ^= self.0 << 13;
        self.0 ^= self.0 >> 7;
        self.0 ^= self.0 << 17;
        (self.0.wrapping_mul(0x2545_F491_4F6C_DD1D) >> 33) as usize % bound
    }
}

/// A linking table of 1 to 40 cues, of one of several families, renumbered.
pub fn table(random: &mut Random) -> Vec<Vec<u8>> {
    let order = 1 + random.below(40);
    let family = random.below(5);
    let shift = random.below(order);
    let product = |i: usize, j: usize| match family {
        0 => (i + j) % order,
        1 => i,
        2 => j,
        3 => i.max(j),
        _ => shift,
    };
    let mut numbers: Vec<usize> = (0..order).collect();
    for place in (1..order).rev() {
        numbers.swap(place, random.below(place + 1));
    }
    let mut table = vec![vec![0; order]; order];
    for i in 0..order {
        for j in 0..order {
            table[numbers[i]][numbers[j]] = u8::try_from(numbers[product(i, j)] + 1).expect("orders are small");
        }
    }
    table
}

/// A linking table of 2 cues to this many: the maps of a few points into themselves that some random ones make, in a random order.
pub fn of_maps(random: &mut Random, most: usize) -> Vec<Vec<u8>> {
    loop {
        let points = 2 + random.below(3);
        let mut maps: Vec<Vec<usize>> = Vec::new();
        for _ in 0..=random.below(3) {
            let map: Vec<usize> = (0..points).map(|_| random.below(points)).collect();
            if !maps.contains(&map) {
                maps.push(map);
            }
        }
        let then = |one: &[usize], other: &[usize]| one.iter().map(|&point| other[point]).collect::<Vec<_>>();
        let mut place = 0;
        while place < maps.len() && maps.len() <= most {
            for other in 0..=place {
                for map in [then(&maps[place], &maps[other]), then(&maps[other], &maps[place])] {
                    if !maps.contains(&map) {
                        maps.push(map);
                    }
                }
            }
            place += 1;
        }
        if (2..=most).contains(&maps.len()) {
            for place in (1..maps.len()).rev() {
                maps.swap(place, random.below(place + 1));
            }
            let number =
                |map: &Vec<usize>| u8::try_from(maps.iter().position(|other| other == map).expect("it is there") + 1);
            let row = |one: &Vec<usize>| {
                maps.iter().map(|other| number(&then(one, other)).expect("orders are small")).collect()
            };
            return maps.iter().map(row).collect();
        }
    }
}

/// The sheet of a table.
pub fn sheet(table: &[Vec<u8>]) -> String {
    let row = |row: &Vec<u8>| row.iter().map(u8::to_string).collect::<Vec<_>>().join(",") + "\r\n";
    table.iter().map(row).collect()
}
