//! Document 01's program, or with `--residue COMPOUND` request One's.
//! `--fast` takes the incremental rule instead of the search.

use std::io::{self, BufReader, Read, Write};

use peer::arguments::{take_category, usage, words};
use peer::program::{stream, transcript};

const USE: &str = "peer [--fast] [--residue COMPOUND] <lines";

fn main() -> io::Result<()> {
    let mut words = words();
    let category = take_category(&mut words).unwrap_or_else(|error| usage(&error, USE));
    match words.iter().map(String::as_str).collect::<Vec<&str>>()[..] {
        [] => {
            let mut input = Vec::new();
            io::stdin().lock().read_to_end(&mut input)?;
            io::stdout().lock().write_all(&transcript(category, &input))
        }
        ["--fast"] => {
            let mut input = BufReader::with_capacity(1 << 16, io::stdin().lock());
            stream(category, &mut input, &mut io::stdout().lock())
        }
        _ => usage(&format!("{} is unknown", words.join(" ")), USE),
    }
}
