//! timeline NAME..: reads what slotlist prints on standard input, and writes a picture of it (SVG) to standard output. The names
//! are those of the places, from 0 on; a place without one is called by its number.

mod layout;
mod listing;
mod picture;

use std::io::{self, Read, Write};
use std::{env, process};

use listing::Listing;

fn main() {
    if let Err(what) = draw() {
        eprintln!("timeline: {what}");
        process::exit(1);
    }
}

fn draw() -> Result<(), String> {
    let names: Vec<String> = env::args().skip(1).collect();
    let mut text = String::new();
    io::stdin().read_to_string(&mut text).map_err(|error| error.to_string())?;
    let picture = picture::draw(&Listing::read(&text)?, &names);
    io::stdout().write_all(picture.as_bytes()).map_err(|error| error.to_string())
}
