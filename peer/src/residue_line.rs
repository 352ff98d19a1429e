//! Request One's line: 24 digits to a record and back.

use crate::compound::Compound;
use crate::digits::{decode, encode};
use crate::head::Head;
use crate::refused::Refusal;

pub const DIGITS: usize = 24;
const BYTES: usize = DIGITS / 2;
pub const KIND: u8 = 3;
/// No log is further from 0, in thousandths.
pub const FARTHEST: i16 = 9999;
pub const MOST_MISIDENTIFIED: u8 = 20;

/// Tags.
pub const FOUND: u8 = 0;
pub const LOST: u8 = 2;

#[derive(Clone, Copy, Debug, PartialEq, Eq)]
pub enum Outcome {
    /// The result's log in thousandths.
    Log(i16),
    Lost,
}

#[derive(Clone, Copy, Debug, PartialEq, Eq)]
pub struct Line {
    pub head: Head,
    pub compound: Compound,
    /// The comparison's log in thousandths.
    pub comparison: i16,
    pub outcome: Outcome,
    /// Misidentifications.
    pub count: u8,
}

/// The fields of a line before any but its digits has been checked.
#[derive(Clone, Copy, Debug, PartialEq, Eq)]
pub struct Fields {
    pub head: Head,
    pub compound: u8,
    pub comparison: i16,
    pub tag: u8,
    pub result: i16,
    pub count: u8,
}

impl Fields {
    fn new(bytes: &[u8; BYTES]) -> Fields {
        let [kind, year_high, year_low, month, days, compound, rest @ ..] = *bytes;
        let [comparison_high, comparison_low, tag, result_high, result_low, count] = rest;
        Fields {
            head: Head::new([kind, year_high, year_low, month, days]),
            compound,
            comparison: i16::from_be_bytes([comparison_high, comparison_low]),
            tag,
            result: i16::from_be_bytes([result_high, result_low]),
            count,
        }
    }

    /// The 24 digits of these fields.
    pub fn text(&self) -> Vec<u8> {
        let mut text = Vec::with_capacity(DIGITS);
        encode(&self.head.bytes(), &mut text);
        encode(&[self.compound], &mut text);
        encode(&self.comparison.to_be_bytes(), &mut text);
        encode(&[self.tag], &mut text);
        encode(&self.result.to_be_bytes(), &mut text);
        encode(&[self.count], &mut text);
        text
    }
}

fn log_fits(log: i16) -> bool {
    (-FARTHEST..=FARTHEST).contains(&log)
}

/// Rows 1 to 4, 14, 15 and 7 of "Refused", in this order, for a unit of this compound.
pub fn read(text: &[u8], own: Compound) -> Result<Line, Refusal> {
    let fields = Fields::new(&decode::<DIGITS, BYTES>(text)?);
    let Fields { head, comparison, tag, result, count, .. } = fields;
    if head.kind != KIND {
        return Err(Refusal::Kind);
    }
    head.check_date()?;
    let compound = Compound::new(fields.compound)?;
    if compound != own {
        return Err(Refusal::Compound);
    }
    if !log_fits(comparison) || (tag == FOUND && !log_fits(result)) {
        return Err(Refusal::Log);
    }
    let outcome = match (tag, result) {
        (FOUND, log) => Outcome::Log(log),
        (LOST, 0) => Outcome::Lost,
        _ => return Err(Refusal::Reading),
    };
    if count > MOST_MISIDENTIFIED {
        return Err(Refusal::Reading);
    }
    Ok(Line { head, compound, comparison, outcome, count })
}

impl Line {
    /// The 24 digits this line was read from.
    pub fn write(&self) -> Vec<u8> {
        let Line { head, comparison, count, .. } = *self;
        let (tag, result) = match self.outcome {
            Outcome::Log(log) => (FOUND, log),
            Outcome::Lost => (LOST, 0),
        };
        Fields { head, compound: self.compound.number(), comparison, tag, result, count }.text()
    }
}
