//! Prints one list of a seed: `lists [--residue COMPOUND] SEED NUMBER`, the number counted from 0.

use std::io::{self, Write};

use peer::arguments::{take_category, usage, words};
use peer::lists::list;

const USE: &str = "lists [--residue COMPOUND] SEED NUMBER";

fn main() -> io::Result<()> {
    let mut words = words();
    let category = take_category(&mut words).unwrap_or_else(|error| usage(&error, USE));
    let numbers: Vec<u64> = words.iter().flat_map(|word| word.parse()).collect();
    let [seed, number] = numbers[..] else { usage("a seed and a number are wanted", USE) };
    io::stdout().lock().write_all(&list(category, seed, number))
}
