//! What several tests share.

use std::io::BufReader;

use peer::category::Category;
use peer::compound::Compound;
use peer::program::stream;

pub fn residue(compound: u8) -> Category {
    Category::Residue(Compound::new(compound).unwrap())
}

/// What the fast mode prints for an input that comes in pieces of this size.
pub fn streamed(category: Category, input: &[u8], piece: usize) -> Vec<u8> {
    let mut output = Vec::new();
    stream(category, &mut BufReader::with_capacity(piece, input), &mut output).unwrap();
    output
}
