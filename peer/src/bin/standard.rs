//! Standardizing alone: answers each row of 12 digits as `single` says.

use std::io::{self, Read, Write};

use peer::program::lines;
use peer::single::standardize;

fn main() -> io::Result<()> {
    let mut input = Vec::new();
    io::stdin().lock().read_to_end(&mut input)?;
    let mut output = io::BufWriter::new(io::stdout().lock());
    for row in lines(&input) {
        writeln!(output, "{}", standardize(row))?;
    }
    output.flush()
}
