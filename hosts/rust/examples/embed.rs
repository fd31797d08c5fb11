//! Prints the earliest embedding of one table in another, or that there is none: embed SOURCE.csv TARGET.csv

use std::error::Error;
use std::{env, fs, process};
use tickdrizzle::Table;

fn main() -> Result<(), Box<dyn Error>> {
    let arguments: Vec<String> = env::args().skip(1).collect();
    let [source, target] = &arguments[..] else {
        eprintln!("usage: embed SOURCE.csv TARGET.csv");
        process::exit(64);
    };
    let (source, target) = (Table::load(&fs::read(source)?)?, Table::load(&fs::read(target)?)?);
    match source.embeddings(&target).next() {
        None => println!("none"),
        Some(map) => (1..).zip(map).for_each(|(element, image)| println!("{element} -> {image}")),
    }
    Ok(())
}
