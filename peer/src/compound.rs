//! Request One's compounds: document 003's hydrocarbons in its order, then the other residues.

use crate::refused::Refusal;

const NAMES: [&str; 20] = [
    "aldrin",
    "benzene hexachloride",
    "chlordane",
    "dieldrin",
    "DDT",
    "DDE",
    "TDE",
    "endrin",
    "heptachlor",
    "heptachlor epoxide",
    "lindane",
    "methoxychlor",
    "toxaphene",
    "hexachlorobenzene",
    "mirex",
    "nonachlor",
    "PCB",
    "arsenic",
    "sulfonamides",
    "nitrosamine",
];

/// A compound that the table has.
#[derive(Clone, Copy, Debug, PartialEq, Eq)]
pub struct Compound(u8);

impl Compound {
    /// Row 14 of "Refused", as far as it does not ask whose compound it is.
    pub fn new(number: u8) -> Result<Compound, Refusal> {
        match usize::from(number) < NAMES.len() {
            true => Ok(Compound(number)),
            false => Err(Refusal::Compound),
        }
    }

    pub fn number(self) -> u8 {
        self.0
    }

    pub fn name(self) -> &'static str {
        NAMES[usize::from(self.0)]
    }

    /// The standardizing value in thousandths.
    pub fn value(self) -> u32 {
        match self.0 {
            0..=16 => 200,
            _ => 250,
        }
    }
}
