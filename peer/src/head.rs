//! The five bytes with which every line begins: kind, year, month, days.

use crate::refused::Refusal;

/// Results that come later than this are missed.
const MOST_DAYS: u8 = 21;

#[derive(Clone, Copy, Debug, PartialEq, Eq)]
pub struct Head {
    pub kind: u8,
    pub year: u16,
    pub month: u8,
    /// From receipt to result.
    pub days: u8,
}

impl Head {
    pub fn new(bytes: [u8; 5]) -> Head {
        let [kind, high, low, month, days] = bytes;
        Head { kind, year: u16::from_be_bytes([high, low]), month, days }
    }

    pub fn bytes(self) -> [u8; 5] {
        let [high, low] = self.year.to_be_bytes();
        [self.kind, high, low, self.month, self.days]
    }

    /// Row 4 of "Refused".
    pub fn check_date(self) -> Result<(), Refusal> {
        match (2000..=2099).contains(&self.year) && (1..=12).contains(&self.month) {
            true => Ok(()),
            false => Err(Refusal::Date),
        }
    }

    pub fn month_number(self) -> u32 {
        12 * u32::from(self.year) + u32::from(self.month)
    }

    pub fn late(self) -> bool {
        self.days > MOST_DAYS
    }
}
