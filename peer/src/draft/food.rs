//! Food lines with chosen differences.

use super::Draft;
use crate::difference::{value, Derived};
use crate::food_line::{Fields, Product, FAT, MOISTURE, PROTEIN};
use crate::random::Random;

/// Dry salami or pepperoni.
pub const DRY: u8 = 0x82;
const PRODUCTS: [u8; 5] = [0, 1, 2, 3, DRY];
const GROUND_BEEF: u8 = 1;

/// The binary32 percent nearest to these hundredths; it has them again.
pub fn percent(hundredths: u16) -> u32 {
    (f32::from(hundredths) / 100.0).to_bits()
}

/// The binary32 percent nearest to these hundredths and a half.
pub fn halves(hundredths: u16) -> u32 {
    ((f32::from(hundredths) + 0.5) / 100.0).to_bits()
}

/// A food line that is to be like this.
pub fn fields(draft: &Draft, random: &mut Random) -> Fields {
    let product = random.pick(&PRODUCTS);
    let means = std::array::from_fn(|analyte| match draft.exact {
        true => ordinary_mean(analyte, random),
        false => any_mean(product, analyte, random),
    });
    let readings = std::array::from_fn(|analyte| {
        let wanted = draft.differences[analyte];
        let hundredths = reading_near(product, analyte, means[analyte], wanted);
        match draft.exact {
            true => (0, percent(hundredths)),
            false => any_reading(hundredths, random),
        }
    });
    Fields { head: draft.head(random), product, means, readings }
}

/// A mean at which differences up to 100 and more can be met.
fn ordinary_mean(analyte: usize, random: &mut Random) -> u16 {
    let least = [6000, 1800, 1500, 200][analyte];
    random.between(least, least + least / 4) as u16
}

/// The means at edges, the least first. At the least of protein each hundredth counts for 7 in d;
/// with fat at 1600 d is h / 6, so that halves come about.
fn edges(product: u8, analyte: usize) -> &'static [u16] {
    match analyte {
        MOISTURE => &[0, 1, 5, 10_000],
        PROTEIN => &[5, 5, 5, 14, 15, 94, 95, 104, 105, 9994, 9995, 10_000],
        FAT if product == GROUND_BEEF => &[1250, 1251, 10_000],
        FAT => &[1, 2, 1249, 1250, 1251, 1600, 1600, 1600, 10_000],
        _ => &[0, 1, 98, 99, 100, 101, 399, 400, 401, 10_000],
    }
}

/// An ordinary mean mostly, else any that is inside or one at an edge.
fn any_mean(product: u8, analyte: usize, random: &mut Random) -> u16 {
    let edges = edges(product, analyte);
    match random.below(10) {
        0 => random.pick(edges),
        1 | 2 => random.between(i32::from(edges[0]), 10_000) as u16,
        _ => ordinary_mean(analyte, random),
    }
}

/// A mean at an edge mostly.
pub fn edge_mean(product: u8, analyte: usize, random: &mut Random) -> u16 {
    match random.percent(60) {
        true => random.pick(edges(product, analyte)),
        false => any_mean(product, analyte, random),
    }
}

/// s, for a product that is inside.
pub fn s_of(product: u8, analyte: usize, mean: u16) -> i64 {
    let product = Product::new(product).expect("a product that is inside");
    i64::from(value(product, analyte, mean, &Derived))
}

/// The reading in hundredths whose difference is nearest to d.
fn reading_near(product: u8, analyte: usize, mean: u16, d: i32) -> u16 {
    let s = s_of(product, analyte, mean);
    let h = (i64::from(d.abs()) * s + 500_000) / 1_000_000 * i64::from(d.signum());
    (i64::from(mean) + h).clamp(0, 10_000) as u16
}

/// One of the binary32 percents at or near these hundredths, or nothing found.
fn any_reading(hundredths: u16, random: &mut Random) -> (u8, u32) {
    let exact = percent(hundredths);
    match (hundredths, random.below(8)) {
        (0, 0..=3) => (1, 0),
        (0, 4) => (0, random.pick(&[1, 0x007f_ffff, 0x0080_0000, 0x3ba3_d70a])),
        (1, 0..=3) => (0, random.pick(&[0x3ba3_d70b, 0x3c23_d70a])),
        (1..=9998, 0) => (0, halves(hundredths)),
        (1..=9998, 1) => (0, halves(hundredths) - 1),
        (1..=9998, 2) => (0, halves(hundredths - 1)),
        (10_000, 0..=3) => (0, random.pick(&[0x42c8_0000, 0x42c7_ffff])),
        _ => (0, exact),
    }
}
