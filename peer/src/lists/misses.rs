//! Missed lines around 11 months apart.

use super::Author;
use crate::category::Kind;
use crate::draft::Fields;

impl Author {
    /// Misses some months apart, samples between.
    pub(super) fn misses(&mut self) {
        for _ in 0..self.random.between(1, 4) {
            if !self.accredited() {
                return;
            }
            if self.random.percent(20) {
                self.backdated_miss();
            }
            let missed = self.missed_line();
            self.give(&missed.text());
            if self.random.percent(20) {
                self.backdated_miss();
            }
            let before = self.random.pick(&[0, 0, 1, 6]);
            self.later(before);
            if before > 0 {
                self.proper(Kind::Maintenance, vec![0; self.analytes()]);
            }
            let apart = self.random.pick(&[0, 10, 11, 11, 12, 12, 12, 13]);
            self.later((apart - before).max(0));
        }
    }

    pub(super) fn missed_line(&mut self) -> Fields {
        let mut fields = self.at_the_mean();
        match self.random.below(3) {
            0 => fields.head().days = 22,
            1 => fields.head().days = 255,
            _ => fields.lose(&mut self.random),
        }
        // They count nothing.
        fields.misidentify(&[0, 1, 2, 20], &mut self.random);
        fields
    }

    /// Refused, so it is no miss. It shows too that a missed line moves the month.
    fn backdated_miss(&mut self) {
        let mut missed = self.missed_line();
        (missed.head().year, missed.head().month) = self.month_before();
        self.give(&missed.text());
    }
}
