//! "Standardizing value and difference": s = k × p and d, and the difference of request One.

use crate::food_line::{Class, Line, Product, ANALYTES, FAT, MOISTURE, PROTEIN, SALT};
use crate::natural::{largest, Natural};

/// p where the table has a constant.
const CONSTANT: u32 = 10_000;
const CAP: u64 = 999;
const LARGEST_T: u32 = 1000;
const LARGEST_MEAN: u32 = 10_000;

/// The largest p with p^20 ≤ T^13 × 10^67, for T up to 1,000: p^20 ≤ 10^106 is below 2^360.
pub fn protein_power(t: u32) -> u32 {
    let t = u64::from(t);
    let bound = Natural::one().times_power(t.pow(6), 2).times(t).times_power(10, 67);
    let holds = |p: u64| Natural::one().times_power(p.pow(3), 6).times(p.pow(2)).at_most(&bound);
    largest(18, holds) as u32
}

/// The largest q with q^4 ≤ M × 10^14, for M up to 10,000: q^4 ≤ 10^18 is below 2^60.
pub fn fourth_root(mean: u32) -> u32 {
    let bound = u64::from(mean) * 10u64.pow(14);
    largest(15, |q| q.pow(4) <= bound) as u32
}

/// Where the powers come from.
pub trait Powers {
    fn protein_power(&self, t: u32) -> u32;
    fn fourth_root(&self, mean: u32) -> u32;
}

/// Worked out anew each time.
pub struct Derived;

impl Powers for Derived {
    fn protein_power(&self, t: u32) -> u32 {
        protein_power(t)
    }

    fn fourth_root(&self, mean: u32) -> u32 {
        fourth_root(mean)
    }
}

/// Worked out once for every T and every mean.
#[derive(Default)]
pub struct Tables {
    protein_powers: Vec<u32>,
    fourth_roots: Vec<u16>,
}

impl Tables {
    pub fn derive() -> Tables {
        Tables {
            protein_powers: (0..=LARGEST_T).map(protein_power).collect(),
            fourth_roots: (0..=LARGEST_MEAN).map(|mean| fourth_root(mean) as u16).collect(),
        }
    }
}

impl Powers for Tables {
    fn protein_power(&self, t: u32) -> u32 {
        self.protein_powers[t as usize]
    }

    fn fourth_root(&self, mean: u32) -> u32 {
        u32::from(self.fourth_roots[mean as usize])
    }
}

/// s in ten-millionths of a percent; the mean is in hundredths and inside.
#[inline(always)]
pub fn value(product: Product, analyte: usize, mean: u16, powers: &impl Powers) -> u32 {
    let mean = u32::from(mean);
    match analyte {
        MOISTURE => moisture_thousandths(product.class()) * CONSTANT,
        PROTEIN => {
            let t = (mean + 5) / 10;
            60 * powers.protein_power(t)
        }
        FAT => fat_thousandths(product.class(), mean) * powers.fourth_root(mean),
        SALT => match mean {
            0..=99 => 127 * CONSTANT,
            400.. if product.dry() => 220 * CONSTANT,
            _ => 127 * powers.fourth_root(mean),
        },
        _ => panic!("no analyte {analyte}"),
    }
}

fn moisture_thousandths(class: Class) -> u32 {
    match class {
        Class::CuredPork => 500,
        Class::GroundBeef => 710,
        Class::OtherMeat | Class::Poultry => 570,
    }
}

fn fat_thousandths(class: Class, mean: u32) -> u32 {
    match (class, mean) {
        (Class::GroundBeef, _) => 350,
        (_, 0..1250) => 260,
        _ => 300,
    }
}

/// h × scale / value with the sign of h: to the nearest whole, halves away from zero, capped.
fn rounded(h: i32, scale: u64, value: u32) -> i32 {
    let value = u64::from(value);
    let doubled = 2 * u64::from(h.unsigned_abs()) * scale;
    let size = ((doubled + value) / (2 * value)).min(CAP);
    h.signum() * size as i32
}

/// d in tenths, from reading and mean in hundredths and the value s.
pub fn difference(reading: u16, mean: u16, value: u32) -> i32 {
    rounded(i32::from(reading) - i32::from(mean), 1_000_000, value)
}

/// d in tenths, from the logs of result and comparison and the value, all in thousandths.
pub fn residue_difference(result: i16, comparison: i16, value: u32) -> i32 {
    rounded(i32::from(result) - i32::from(comparison), 10, value)
}

/// The difference of one reading that is not lost.
#[inline(always)]
fn reading_difference(line: &Line, analyte: usize, powers: &impl Powers) -> i32 {
    let mean = line.means[analyte];
    let reading = line.readings[analyte].hundredths().expect("no reading is lost");
    difference(reading, mean, value(line.product, analyte, mean, powers))
}

/// The four differences of a line with no reading lost.
pub fn differences(line: &Line, powers: &impl Powers) -> [i32; ANALYTES] {
    [
        reading_difference(line, MOISTURE, powers),
        reading_difference(line, PROTEIN, powers),
        reading_difference(line, FAT, powers),
        reading_difference(line, SALT, powers),
    ]
}
