//! "The line": 68 digits to a record and back, and a percent's hundredths.

use crate::digits::{decode, encode};
use crate::head::Head;
use crate::refused::Refusal;

pub const DIGITS: usize = 68;
const BYTES: usize = DIGITS / 2;
pub const ANALYTES: usize = 4;

/// Analytes in the document's order.
pub const MOISTURE: usize = 0;
pub const PROTEIN: usize = 1;
pub const FAT: usize = 2;
pub const SALT: usize = 3;

/// 100.0 percent in hundredths, the highest mean.
const WHOLE: u16 = 10_000;
/// 100.0 in binary32. Where the sign bit is clear, the order of the bits is that of the values,
/// and infinities and NaNs lie above all numbers.
const WHOLE_BINARY32: u32 = 0x42c8_0000;

/// Kinds.
pub const MAINTENANCE: u8 = 1;
pub const STUDY: u8 = 2;

#[derive(Clone, Copy, Debug, PartialEq, Eq)]
pub enum Reading {
    /// The bits of a binary32 percent, as received.
    Percent(u32),
    NothingFound,
    Lost,
}

#[derive(Clone, Copy, Debug, PartialEq, Eq)]
pub enum Class {
    CuredPork,
    GroundBeef,
    OtherMeat,
    Poultry,
}

/// A product byte that has been checked.
#[derive(Clone, Copy, Debug, PartialEq, Eq)]
pub struct Product(u8);

#[derive(Clone, Copy, Debug, PartialEq, Eq)]
pub struct Line {
    pub head: Head,
    pub product: Product,
    pub means: [u16; ANALYTES],
    pub readings: [Reading; ANALYTES],
}

impl Product {
    pub fn new(byte: u8) -> Result<Product, Refusal> {
        let product = Product(byte);
        let spare_bits = byte & 0b0111_1100;
        if spare_bits != 0 || (product.dry() && product.class() != Class::OtherMeat) {
            return Err(Refusal::Product);
        }
        Ok(product)
    }

    pub fn class(self) -> Class {
        match self.0 & 3 {
            0 => Class::CuredPork,
            1 => Class::GroundBeef,
            2 => Class::OtherMeat,
            _ => Class::Poultry,
        }
    }

    /// Dry salami or pepperoni.
    pub fn dry(self) -> bool {
        self.0 >> 7 == 1
    }
}

/// Whether the mean, in hundredths, is inside for this product and analyte.
pub fn mean_fits(product: Product, analyte: usize, mean: u16) -> bool {
    let least = match (analyte, product.class()) {
        (PROTEIN, _) => 5,
        (FAT, Class::GroundBeef) => 1250,
        (FAT, _) => 1,
        _ => 0,
    };
    (least..=WHOLE).contains(&mean)
}

impl Reading {
    fn new(tag: u8, bits: u32) -> Result<Reading, Refusal> {
        match (tag, bits) {
            (0, 0..=WHOLE_BINARY32) => Ok(Reading::Percent(bits)),
            (1, 0) => Ok(Reading::NothingFound),
            (2, 0) => Ok(Reading::Lost),
            _ => Err(Refusal::Reading),
        }
    }

    /// Nothing for a lost reading.
    pub fn hundredths(self) -> Option<u16> {
        match self {
            Reading::Percent(bits) => Some(hundredths(bits)),
            Reading::NothingFound => Some(0),
            Reading::Lost => None,
        }
    }

    fn bytes(self) -> (u8, u32) {
        match self {
            Reading::Percent(bits) => (0, bits),
            Reading::NothingFound => (1, 0),
            Reading::Lost => (2, 0),
        }
    }
}

/// The hundredths of a percent that is accepted: its exact value times 100, nearest, halves up.
fn hundredths(bits: u32) -> u16 {
    let exponent = bits >> 23;
    let fraction = bits & 0x7f_ffff;
    // The value is significand / 2^scale.
    let (significand, scale) = match exponent {
        0 => (fraction, 149),
        _ => (fraction | 1 << 23, 150 - exponent),
    };
    // The significand times 100 is below 2^31, so with a scale above 32 less than a half is left.
    if scale > 32 {
        return 0;
    }
    let hundredfold = u64::from(significand) * 100;
    let half = 1 << (scale - 1);
    ((hundredfold + half) >> scale) as u16
}

/// The fields of a line before any but its digits has been checked.
#[derive(Clone, Copy, Debug, PartialEq, Eq)]
pub struct Fields {
    pub head: Head,
    pub product: u8,
    pub means: [u16; ANALYTES],
    /// Tag and four bytes.
    pub readings: [(u8, u32); ANALYTES],
}

impl Fields {
    fn new(bytes: &[u8; BYTES]) -> Fields {
        let pair = |at: usize| u16::from_be_bytes([bytes[at], bytes[at + 1]]);
        let reading = |at: usize| {
            let bits = [bytes[at + 1], bytes[at + 2], bytes[at + 3], bytes[at + 4]];
            (bytes[at], u32::from_be_bytes(bits))
        };
        Fields {
            head: Head::new([bytes[0], bytes[1], bytes[2], bytes[3], bytes[4]]),
            product: bytes[5],
            means: [pair(6), pair(8), pair(10), pair(12)],
            readings: [reading(14), reading(19), reading(24), reading(29)],
        }
    }

    /// The 68 digits of these fields.
    pub fn text(&self) -> Vec<u8> {
        let mut text = Vec::with_capacity(DIGITS);
        encode(&self.head.bytes(), &mut text);
        encode(&[self.product], &mut text);
        for mean in self.means {
            encode(&mean.to_be_bytes(), &mut text);
        }
        for (tag, bits) in self.readings {
            encode(&[tag], &mut text);
            encode(&bits.to_be_bytes(), &mut text);
        }
        text
    }
}

/// Rows 1 to 7 of "Refused", in their order.
pub fn read(text: &[u8]) -> Result<Line, Refusal> {
    let fields = Fields::new(&decode::<DIGITS, BYTES>(text)?);
    let Fields { head, means, .. } = fields;
    if ![MAINTENANCE, STUDY].contains(&head.kind) {
        return Err(Refusal::Kind);
    }
    head.check_date()?;
    let product = Product::new(fields.product)?;
    if !(0..ANALYTES).all(|analyte| mean_fits(product, analyte, means[analyte])) {
        return Err(Refusal::Mean);
    }
    let mut readings = [Reading::Lost; ANALYTES];
    for (reading, (tag, bits)) in readings.iter_mut().zip(fields.readings) {
        *reading = Reading::new(tag, bits)?;
    }
    Ok(Line { head, product, means, readings })
}

impl Line {
    /// The 68 digits this line was read from.
    pub fn write(&self) -> Vec<u8> {
        let Line { head, means, .. } = *self;
        let readings = self.readings.map(Reading::bytes);
        Fields { head, product: self.product.0, means, readings }.text()
    }

    /// A reading lost, or more than 21 days from receipt to result.
    pub fn incomplete(&self) -> bool {
        self.head.late() || self.readings.contains(&Reading::Lost)
    }
}

#[cfg(test)]
mod tests {
    use super::*;

    /// 31 bits at most are significant in the product, so binary64 has it exactly.
    #[test]
    fn hundredths_agree_with_binary64() {
        for bits in (0..=WHOLE_BINARY32).step_by(1009).chain([1, WHOLE_BINARY32]) {
            let expected = (f64::from(f32::from_bits(bits)) * 100.0 + 0.5).floor();
            assert_eq!(f64::from(hundredths(bits)), expected, "{bits:08x}");
        }
    }
}
