//! One value and one difference, outside any line: what the program `standard` answers.

use crate::charts::{large_discrepancy, measure, variability, FOOD};
use crate::difference::{difference, value, Derived};
use crate::food_line::{mean_fits, Product, ANALYTES};
use crate::refused::Refusal;

const DIGITS: usize = 12;
const HIGHEST_READING: u16 = 10_000;

/// The answer to a row of 12 digits: product 1 byte, analyte 1, mean 2, reading 2, mean and
/// reading in hundredths. It has s, d and the contributions P, N, V, D, or `refused N`.
pub fn standardize(row: &[u8]) -> String {
    answer(row).unwrap_or_else(|refusal| format!("refused {}", refusal.number()))
}

fn answer(row: &[u8]) -> Result<String, Refusal> {
    if row.len() != DIGITS {
        return Err(Refusal::Length);
    }
    if !row.iter().all(|byte| matches!(byte, b'0'..=b'9' | b'a'..=b'f')) {
        return Err(Refusal::Digit);
    }
    let product = Product::new(number(&row[..2]) as u8)?;
    let analyte = usize::from(number(&row[2..4]));
    let (mean, reading) = (number(&row[4..8]), number(&row[8..]));
    // Document 01 has no row for an analyte above 3, since a line has no such field.
    if analyte >= ANALYTES || !mean_fits(product, analyte, mean) {
        return Err(Refusal::Mean);
    }
    if reading > HIGHEST_READING {
        return Err(Refusal::Reading);
    }
    let s = value(product, analyte, mean, &Derived);
    let d = difference(reading, mean, s);
    let (p, n, v) = (FOOD.positive(d), FOOD.negative(d), variability(d));
    Ok(format!("{s} {d} {p} {n} {v} {}", large_discrepancy(measure(d))))
}

/// Up to four lowercase hexadecimal digits.
fn number(digits: &[u8]) -> u16 {
    digits.iter().fold(0, |number, &digit| {
        let value = match digit {
            b'0'..=b'9' => digit - b'0',
            _ => digit - b'a' + 10,
        };
        16 * number + u16::from(value)
    })
}
