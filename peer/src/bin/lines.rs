//! Reading alone: for each line its refusal's number or the line written back.

use std::io::{self, Read, Write};

use peer::arguments::{take_category, usage, words};
use peer::program::{lines, read_back};

fn main() -> io::Result<()> {
    let mut words = words();
    let category = take_category(&mut words)
        .unwrap_or_else(|error| usage(&error, "lines [--residue COMPOUND] <lines"));
    let mut input = Vec::new();
    io::stdin().lock().read_to_end(&mut input)?;
    let mut text = Vec::new();
    for line in lines(&input) {
        text.extend(read_back(category, line));
        text.push(b'\n');
    }
    io::stdout().lock().write_all(&text)
}
