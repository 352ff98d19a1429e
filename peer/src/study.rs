//! The rule of "Stages" by which a study set passes.

use crate::charts::measure;
use crate::food_line::ANALYTES;

pub const SET: usize = 36;

/// One analyte's sums over a set.
#[derive(Clone, Copy, Debug, Default, PartialEq, Eq)]
pub struct Sums {
    /// S, of d.
    pub differences: i64,
    /// Q, of d squared.
    pub squares: i64,
    /// G, of the measures.
    pub measures: i64,
}

impl Sums {
    pub fn add(&mut self, d: i32, measure: i32) {
        self.differences += i64::from(d);
        self.squares += i64::from(d) * i64::from(d);
        self.measures += i64::from(measure);
    }

    pub fn pass(&self) -> bool {
        let v = SET as i64 * self.squares - self.differences * self.differences;
        let room = 1314 - 5 * self.differences.abs();
        room >= 0 && 2601 * v <= 3500 * room * room && v <= 166_635 && self.measures < 18_000
    }
}

/// Whether one analyte's 36 differences pass.
pub fn analyte_passes(differences: &[i32]) -> bool {
    let mut sums = Sums::default();
    for &d in differences {
        sums.add(d, measure(d));
    }
    sums.pass()
}

/// Whether a set of 36 lines passes.
pub fn passes(set: &[[i32; ANALYTES]]) -> bool {
    (0..ANALYTES).all(|analyte| {
        let own: Vec<i32> = set.iter().map(|line| line[analyte]).collect();
        analyte_passes(&own)
    })
}
