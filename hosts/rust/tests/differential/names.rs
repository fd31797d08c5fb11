//! Name sheets: every short text, random names and sheets, rounds of loading and saving, and sheets that Python's csv module
//! wrote, in each of its quoting styles.

use crate::calls::{Call, Lent};
use crate::inputs;
use crate::random::Random;
use crate::sheets;
use crate::Comparison;

/// The bytes of the short texts.
const ALPHABET: &[u8] = b"12,\"\r\na\t";

/// The family of all texts of up to five of these bytes.
const SHORT: &str = "short sheet";

const ROUNDS: usize = 10;

/// The names on the written sheets.
const WRITTEN: [&str; 9] = [
    "House to half",
    r"C:\show\new",
    "say \"go\"",
    "a,b",
    " spaces at both ends ",
    "\"",
    ",",
    "\\\"\\\\,\"\"",
    "0123456789012345678901234567890123456789",
];

/// By QUOTE_MINIMAL, QUOTE_ALL and QUOTE_NONNUMERIC.
const SHEETS: [&[u8]; 3] =
    [include_bytes!("sheets/minimal.csv"), include_bytes!("sheets/all.csv"), include_bytes!("sheets/nonnumeric.csv")];

/// By QUOTE_NONE: the names that need no quotes.
const UNQUOTED: &[u8] = include_bytes!("sheets/none.csv");

impl Comparison {
    /// Every text of up to five bytes of the alphabet, with buffers that have room; and where a text offends, the place by its
    /// own definition.
    pub fn small_sheets(&mut self) {
        for length in 0..=5 {
            for text in texts(length) {
                let answer = self.load_sheet(&text, 8, 4, SHORT);
                if answer[0] == 40 {
                    self.hold_place(&text, answer[2] as usize);
                }
            }
        }
    }

    /// Loads a text into buffers of these lengths; what the reference says.
    fn load_sheet(&mut self, text: &[u8], room: usize, count: usize, family: &'static str) -> [u64; 16] {
        let text = Lent::new(&mut self.random, text);
        let names = Lent::random(&mut self.random, room);
        let lengths = Lent::random(&mut self.random, count);
        self.compare(&mut Call::LoadNames { text, names, lengths }, family)
    }

    /// The longest beginning that some sheet starts with ends at the place.
    fn hold_place(&mut self, text: &[u8], place: usize) {
        let longer = text.get(..place + 1);
        if !begins_a_sheet(&text[..place]) || longer.is_some_and(begins_a_sheet) {
            self.tally.differences += 1;
            println!("the place {place} of {text:?} is not where it offends");
        }
    }

    /// Each written sheet loads as the names that it was written from, and these are saved.
    pub fn written_sheets(&mut self) {
        let names: Vec<Vec<u8>> = WRITTEN.iter().map(|name| name.as_bytes().to_vec()).collect();
        for sheet in SHEETS {
            self.hold_names(sheet, &names);
        }
        let plain: Vec<Vec<u8>> =
            names.into_iter().filter(|name| !name.iter().any(|byte| b",\"".contains(byte))).collect();
        self.hold_names(UNQUOTED, &plain);
    }

    fn hold_names(&mut self, sheet: &[u8], expected: &[Vec<u8>]) {
        let text = Lent::new(&mut self.random, sheet);
        let names = Lent::new(&mut self.random, &vec![0; expected.concat().len()]);
        let lengths = Lent::new(&mut self.random, &vec![0; expected.len()]);
        let mut call = Call::LoadNames { text, names, lengths };
        let answer = self.compare(&mut call, "written sheet");
        let (names, lengths) = names_of(&call);
        let sizes: Vec<u8> = expected.iter().map(|name| name.len() as u8).collect();
        if answer[0] != 0 || answer[2] != expected.len() as u64 || names != expected.concat() || lengths != sizes {
            self.tally.differences += 1;
            println!("a written sheet is not loaded as its names: {answer:?}");
        }
        let (names, lengths) = (Lent::new(&mut self.random, &names), Lent::new(&mut self.random, &lengths));
        let text = Lent::random(&mut self.random, sheets::sheet_of(expected).len());
        self.compare(&mut Call::SaveNames { names, lengths, text }, "written sheet");
    }

    /// A random sheet, with buffers around the lengths that are asked for.
    pub fn load_names(&mut self) {
        let random = &mut self.random;
        let list = names(random);
        let text = sheet(random, &list);
        let room = inputs::length(random, list.concat().len());
        let count = inputs::length(random, list.len());
        self.load_sheet(&text, room, count, "name sheet");
    }

    /// Random names in memory, with lengths changed at times.
    pub fn save_names(&mut self) {
        let random = &mut self.random;
        let list = names(random);
        let mut sizes: Vec<u8> = list.iter().map(|name| name.len() as u8).collect();
        if !sizes.is_empty() && random.one_in(8) {
            let place = random.below(sizes.len());
            sizes[place] = random.pick(&[0, 40, 41, 255, 1]);
        }
        let mut bytes = list.concat();
        match random.below(8) {
            0 => bytes.truncate(bytes.len().saturating_sub(1)),
            1 => bytes.extend([0, 255]),
            _ => (),
        }
        let room = inputs::length(random, sheets::sheet_of(&list).len());
        let (names, lengths) = (Lent::new(random, &bytes), Lent::new(random, &sizes));
        let text = Lent::random(random, room);
        self.compare(&mut Call::SaveNames { names, lengths, text }, "names");
    }

    /// Rounds of loading and saving on the same buffers: after the first saving no byte of the text changes.
    pub fn name_rounds(&mut self) {
        let list: Vec<Vec<u8>> = (0..self.random.within(1, 5)).map(|_| good_name(&mut self.random)).collect();
        let mut text = [&written(&mut self.random, &list)[..], &[0; 8]].concat();
        let mut size = text.len() - 8;
        let saved = sheets::sheet_of(&list);
        text.resize(saved.len().max(size), 0);
        for round in 0..ROUNDS {
            let sheet = Lent::new(&mut self.random, &text[..size]);
            let names = Lent::random(&mut self.random, list.concat().len() + 3);
            let lengths = Lent::random(&mut self.random, list.len());
            let mut call = Call::LoadNames { text: sheet, names, lengths };
            self.compare(&mut call, "name rounds");
            let (names, lengths) = names_of(&call);
            let (names, lengths) = (Lent::new(&mut self.random, &names), Lent::new(&mut self.random, &lengths));
            let mut call = Call::SaveNames { names, lengths, text: Lent::new(&mut self.random, &text) };
            let answer = self.compare(&mut call, "name rounds");
            let Call::SaveNames { text: after, .. } = call else { unreachable!("the call saves") };
            if answer[0] != 0 || answer[2] != saved.len() as u64 || !after.starts_with(&saved) {
                self.tally.differences += 1;
                println!("round {round} changes the sheet of {list:?}");
            }
            text = after.to_vec();
            size = saved.len();
        }
    }
}

/// All texts of so many bytes of the alphabet.
fn texts(length: usize) -> Vec<Vec<u8>> {
    if length == 0 {
        return vec![vec![]];
    }
    let shorter = texts(length - 1);
    shorter.iter().flat_map(|text| ALPHABET.iter().map(move |&byte| [text, &[byte][..]].concat())).collect()
}

/// Whether some sheet starts with these bytes: three more are enough to end any record.
fn begins_a_sheet(beginning: &[u8]) -> bool {
    let mut endings: Vec<Vec<u8>> = vec![vec![]];
    for length in 0..3 {
        let longest: Vec<Vec<u8>> = endings.iter().filter(|ending| ending.len() == length).cloned().collect();
        endings
            .extend(longest.iter().flat_map(|ending| b",\"\n".iter().map(move |&byte| [ending, &[byte][..]].concat())));
    }
    endings.iter().any(|ending| sheets::is_sheet(&[beginning, ending].concat()))
}

/// A name with many backslashes, quote marks, commas and spaces.
fn good_name(random: &mut Random) -> Vec<u8> {
    let length = match random.below(6) {
        0 => 40,
        1 => 1,
        _ => random.within(1, 12),
    };
    (0..length)
        .map(|_| if random.one_in(2) { random.pick(b"\\\", ~a") } else { random.within(32, 126) as u8 })
        .collect()
}

/// A name, at times one byte too long, of no byte, or with a byte that is not allowed.
fn name(random: &mut Random) -> Vec<u8> {
    let mut name = good_name(random);
    match random.below(60) {
        0 => name.clear(),
        1 => name.resize(41, b'x'),
        2 => name.push(random.pick(&[10, 13, 9, 31, 127, 128])),
        _ => (),
    }
    name
}

/// A list of names: mostly a few, at times around 120 of them.
fn names(random: &mut Random) -> Vec<Vec<u8>> {
    let count = match random.below(40) {
        0 => random.within(119, 122),
        1 => 0,
        _ => random.within(1, 4),
    };
    (0..count).map(|_| name(random)).collect()
}

/// The sheet of names with quote marks around any fields, and with or without the last break.
fn written(random: &mut Random, names: &[Vec<u8>]) -> Vec<u8> {
    let mut text = Vec::new();
    for (place, name) in (1..).zip(names) {
        text.extend(field(random, place.to_string().as_bytes()));
        text.push(b',');
        text.extend(field(random, name));
        text.extend(b"\r\n");
    }
    if random.one_in(2) {
        text.truncate(text.len().saturating_sub(2));
    }
    text
}

fn field(random: &mut Random, value: &[u8]) -> Vec<u8> {
    if random.one_in(2) && !value.iter().any(|byte| b",\"\r\n".contains(byte)) {
        return value.to_vec();
    }
    let doubled: Vec<u8> =
        value.iter().flat_map(|&byte| if byte == b'"' { vec![byte, byte] } else { vec![byte] }).collect();
    [b"\"", &doubled[..], b"\""].concat()
}

/// The sheet of names, at times with a byte changed, put in or left out.
fn sheet(random: &mut Random, names: &[Vec<u8>]) -> Vec<u8> {
    let mut text = written(random, names);
    if text.is_empty() || random.one_in(2) {
        return text;
    }
    for _ in 0..random.within(1, 2) {
        let (place, byte) = (random.below(text.len()), random.pick(b"\"\",,\r\n\t12a\\\x7f"));
        match random.below(3) {
            0 => text[place] = byte,
            1 => text.insert(place, byte),
            _ if text.len() > 1 => drop(text.remove(place)),
            _ => (),
        }
    }
    text
}

/// The two buffers of a call that loads names.
fn names_of(call: &Call) -> (Vec<u8>, Vec<u8>) {
    match call {
        Call::LoadNames { names, lengths, .. } => (names.to_vec(), lengths.to_vec()),
        _ => unreachable!("only loads are asked for their names"),
    }
}
