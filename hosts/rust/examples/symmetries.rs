//! Prints every way to exchange the elements of a table that leaves all its products as they are, by name where a name sheet is
//! given: symmetries TABLE.csv [NAMES.csv]

use std::error::Error;
use std::{env, fs, process};
use tickdrizzle::{Names, Table};

fn main() -> Result<(), Box<dyn Error>> {
    let arguments: Vec<String> = env::args().skip(1).collect();
    let (table, names) = match &arguments[..] {
        [table] => (table, None),
        [table, names] => (table, Some(Names::load(&fs::read(names)?)?)),
        _ => {
            eprintln!("usage: symmetries TABLE.csv [NAMES.csv]");
            process::exit(64);
        }
    };
    let table = Table::load(&fs::read(table)?)?;
    let mut count = 0;
    for map in table.isomorphisms(&table) {
        println!("{}", said(&map, names.as_ref()));
        count += 1;
    }
    println!("{count} in all");
    Ok(())
}

/// The elements that a map moves, with their images.
fn said(map: &[u8], names: Option<&Names>) -> String {
    let name =
        |element: usize| names.and_then(|names| names.get(element)).map_or_else(|| element.to_string(), str::to_string);
    let images = (1..).zip(map.iter().map(|&image| usize::from(image)));
    let moved = images.filter(|(element, image)| element != image);
    let moved: Vec<String> = moved.map(|(element, image)| format!("{} -> {}", name(element), name(image))).collect();
    if moved.is_empty() {
        "all stay".to_string()
    } else {
        moved.join(", ")
    }
}
