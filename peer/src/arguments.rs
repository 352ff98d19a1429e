//! What the programs are told on their command lines.

use std::process::Command;

use crate::category::Category;
use crate::compound::Compound;

/// The words of the command line.
pub fn words() -> Vec<String> {
    std::env::args().skip(1).collect()
}

/// Takes `--residue COMPOUND` out of the words; without it the category is food chemistry.
pub fn take_category(words: &mut Vec<String>) -> Result<Category, String> {
    let Some(at) = words.iter().position(|word| word == "--residue") else {
        return Ok(Category::Food);
    };
    let taken: Vec<String> = words.drain(at..words.len().min(at + 2)).collect();
    let number = taken.get(1).map_or("", String::as_str);
    let Ok(number) = number.parse() else {
        return Err(format!("--residue '{number}': a compound is a number from 0 to 19"));
    };
    let compound = Compound::new(number);
    compound
        .map(Category::Residue)
        .map_err(|refusal| format!("a unit of compound {number} is refused {}", refusal.number()))
}

/// A program that is given in one word with its arguments, between spaces.
pub fn command(words: &str) -> Command {
    let mut words = words.split_whitespace();
    let mut command = Command::new(words.next().unwrap_or_default());
    command.args(words);
    command
}

/// Says what is wrong with the command line and how it goes, and ends the program.
pub fn usage(wrong: &str, right: &str) -> ! {
    eprintln!("{wrong}; use: {right}");
    std::process::exit(2)
}
