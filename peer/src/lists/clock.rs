//! The long list for the clock.

use super::Author;
use crate::category::{Category, Kind};
use crate::food_line::ANALYTES;
use crate::random::Random;

/// A food list of so many lines: nearly all accepted, most of them samples, with a probation and a set
/// that passes every few hundred lines.
pub fn long(seed: u64, lines: usize) -> Vec<u8> {
    let mut author = Author::new(Category::Food, Random::new(seed, 0), lines);
    while author.more() {
        author.set(|random| random.between(-6, 6));
        author.work();
    }
    author.input
}

impl Author {
    /// Samples, a miss, one line in fifty that is refused, then one analyte off until probation.
    fn work(&mut self) {
        for _ in 0..self.random.between(100, 900) {
            if !self.accredited() {
                break;
            }
            let differences = self.differences(7);
            self.proper(Kind::Maintenance, differences);
            if self.more() && self.random.percent(2) {
                self.refused();
            }
        }
        if self.accredited() {
            let mut late = self.at_the_mean();
            late.head().days = 22;
            self.give(&late.text());
        }
        let mut off = [0; ANALYTES];
        off[self.random.below(ANALYTES)] = self.random.pick(&[-14, 14]);
        while self.accredited() {
            self.proper(Kind::Maintenance, off.to_vec());
        }
        let months = i32::from(self.random.percent(5));
        self.later(months);
    }

    /// A maintenance line cut short or in capitals, or a study line.
    fn refused(&mut self) {
        let kind = self.random.pick(&[Kind::Maintenance, Kind::Study]);
        let mut text = self.draft(kind, vec![0; ANALYTES]).fields(&mut self.random).text();
        match kind {
            Kind::Study => {}
            _ if self.random.percent(50) => text.truncate(67),
            _ => text.make_ascii_uppercase(),
        }
        self.give(&text);
    }
}
