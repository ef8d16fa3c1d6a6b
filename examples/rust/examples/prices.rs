//! Lists the shelves of a file of prices: `cargo run --example prices [FILE]`. Without a word it takes samples/prices.sol.
use std::error::Error;
use std::process::ExitCode;
use std::{env, fs};

use riddoskam::{image_room, index_room, File, Value};

const SAMPLE: &str = concat!(env!("CARGO_MANIFEST_DIR"), "/../../samples/prices.sol");

fn main() -> ExitCode {
    let path = env::args().nth(1).unwrap_or(SAMPLE.into());
    match list(&path) {
        Ok(()) => ExitCode::SUCCESS,
        Err(why) => {
            eprintln!("{path}: {why}");
            ExitCode::FAILURE
        }
    }
}

fn list(path: &str) -> Result<(), Box<dyn Error>> {
    let input = fs::read(path)?;
    let mut image = vec![0; image_room(input.len())];
    let file = File::read(&input, &mut image)?;
    println!("{}: {}", file.name(), file.get("store").and_then(|store| store.as_str()).unwrap_or("no store"));

    // In the order of the file: what is no shelf has no price.
    for (shelf, value) in file.pairs() {
        if let Some(line) = price(value) {
            println!("  {shelf}  {line}");
        }
    }

    // In the order that the file asks for, by the index.
    let mut index = vec![0; index_room(file.image().len())];
    let file = file.index(&mut index)?;
    let Some(order) = file.get("order") else { return Ok(()) };
    println!("in order, {} shelves:", order.len());
    for shelf in order.items().filter_map(|item| item.as_str()) {
        let line = file.get(shelf).and_then(price);
        println!("  {shelf}  {}", line.as_deref().unwrap_or("no price"));
    }
    Ok(())
}

/// The price and the name on a shelf.
fn price(shelf: Value) -> Option<String> {
    let cents = shelf.get("cents")?.as_number()?;
    let name = shelf.get("name")?.as_str()?;
    Some(format!("{:7.2}  {name}", cents / 100.0))
}
