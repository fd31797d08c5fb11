//! Name sheets written again, from RFC 4180 and the text of the rules: a reader that goes down the grammar, names as lists.

use crate::reference::{answer, ask, no, numbers, write_front, No};
use tickdrizzle::abi::Answer;

/// A reader of a text; where it goes wrong, it says the place.
struct Reader<'a> {
    text: &'a [u8],
    place: usize,
}

impl Reader<'_> {
    fn next(&self) -> Option<u8> {
        self.text.get(self.place).copied()
    }

    fn take(&mut self, byte: u8) -> Result<(), usize> {
        if self.next() != Some(byte) {
            return Err(self.place);
        }
        self.place += 1;
        Ok(())
    }

    /// The bytes from here on that pass.
    fn take_while(&mut self, passes: impl Fn(u8) -> bool) -> Vec<u8> {
        let length = self.text[self.place..].iter().take_while(|&&byte| passes(byte)).count();
        self.place += length;
        self.text[self.place - length..self.place].to_vec()
    }

    fn field(&mut self) -> Result<Vec<u8>, usize> {
        if self.next() != Some(b'"') {
            return Ok(self.take_while(|byte| is_printable(byte) && !b",\"".contains(&byte)));
        }
        let mut value = Vec::new();
        loop {
            self.take(b'"')?;
            value.extend(self.take_while(|byte| is_printable(byte) && byte != b'"' || b"\r\n".contains(&byte)));
            self.take(b'"')?;
            if self.next() != Some(b'"') {
                return Ok(value);
            }
            value.push(b'"');
        }
    }

    fn record(&mut self) -> Result<Record, usize> {
        let number = self.field()?;
        self.take(b',')?;
        Ok(Record { number, name: self.field()? })
    }
}

struct Record {
    number: Vec<u8>,
    name: Vec<u8>,
}

fn is_printable(byte: u8) -> bool {
    (0x20..=0x7e).contains(&byte)
}

fn is_name(name: &[u8]) -> bool {
    (1..=40).contains(&name.len()) && name.iter().all(|&byte| is_printable(byte))
}

/// The records of a sheet, or the offending place.
fn records(text: &[u8]) -> Result<Vec<Record>, usize> {
    let mut reader = Reader { text, place: 0 };
    let mut records = vec![reader.record()?];
    while reader.next().is_some() {
        reader.take(b'\r')?;
        reader.take(b'\n')?;
        if reader.next().is_some() {
            records.push(reader.record()?);
        }
    }
    Ok(records)
}

/// Whether a text passes 40.
pub fn is_sheet(text: &[u8]) -> bool {
    records(text).is_ok()
}

fn ask_at(yes: bool, number: u64, place: usize) -> Result<(), No> {
    if yes {
        Ok(())
    } else {
        Err(no(number, &[place]))
    }
}

/// The names on a sheet, after questions 40, 42 and 41.
fn parse(text: &[u8]) -> Result<Vec<Vec<u8>>, No> {
    let records = records(text).map_err(|place| no(40, &[place]))?;
    for (place, record) in (1..).zip(&records) {
        ask_at(place <= 120 && record.number == place.to_string().as_bytes(), 42, place)?;
        ask_at(is_name(&record.name), 41, place)?;
    }
    Ok(records.into_iter().map(|record| record.name).collect())
}

pub fn load(text: &[u8], names: &mut [u8], lengths: &mut [u8]) -> Answer {
    answer(parse(text).and_then(|loaded| {
        let sizes: Vec<u8> = loaded.iter().map(|name| name.len() as u8).collect();
        ask(names.len() >= loaded.concat().len(), 27)?;
        ask(lengths.len() >= sizes.len(), 27)?;
        write_front(names, &loaded.concat());
        write_front(lengths, &sizes);
        Ok(numbers(&[loaded.len()]))
    }))
}

/// A field as it is saved.
fn field_of(name: &[u8]) -> Vec<u8> {
    if !name.iter().any(|byte| b",\"".contains(byte)) {
        return name.to_vec();
    }
    let doubled = name.iter().flat_map(|&byte| if byte == b'"' { vec![byte, byte] } else { vec![byte] });
    [b"\"".to_vec(), doubled.collect(), b"\"".to_vec()].concat()
}

/// The sheet of a list of names.
pub fn sheet_of(names: &[Vec<u8>]) -> Vec<u8> {
    let record =
        |(place, name): (usize, &Vec<u8>)| [format!("{place},").into_bytes(), field_of(name), b"\r\n".to_vec()];
    (1..).zip(names).flat_map(record).flatten().collect()
}

pub fn save(names: &[u8], lengths: &[u8], text: &mut [u8]) -> Answer {
    answer((|| {
        ask((1..=120).contains(&lengths.len()), 42)?;
        let (mut list, mut rest) = (Vec::new(), names);
        for (place, &length) in (1..).zip(lengths) {
            let name = rest.get(..usize::from(length)).filter(|name| is_name(name)).ok_or_else(|| no(41, &[place]))?;
            rest = &rest[name.len()..];
            list.push(name.to_vec());
        }
        let sheet = sheet_of(&list);
        ask(text.len() >= sheet.len(), 28)?;
        write_front(text, &sheet);
        Ok(numbers(&[sheet.len()]))
    })())
}
