//! Samples in bulk: calm ones, ones of any size, and stretches that fill.

use super::Author;
use crate::category::Kind;
use crate::unit::LONGEST_STRETCH;

impl Author {
    /// Samples that leave the charts low, month by month.
    pub(super) fn calm(&mut self) {
        for _ in 0..self.random.between(1, 30) {
            if !self.accredited() {
                return;
            }
            let differences = self.differences(7);
            self.proper(Kind::Maintenance, differences);
            let months = self.random.pick(&[0, 0, 1, 1, 2]);
            self.later(months);
        }
    }

    /// Differences of any size.
    pub(super) fn far_off(&mut self) {
        for _ in 0..self.random.between(1, 3) {
            if self.accredited() {
                let most = self.random.pick(&[20, 27, 40, 1500]);
                let differences = self.differences(most);
                self.proper(Kind::Maintenance, differences);
            }
        }
        self.later(12);
    }

    /// A stretch of 999 samples, or one in which a chart is over late: at its end, or where the
    /// numbers of its samples begin to need two bytes.
    pub(super) fn fill(&mut self) {
        self.later(1);
        let full = LONGEST_STRETCH;
        let calm = self.random.pick(&[full, full, full, full - 3, 253]);
        let year = self.year;
        while self.accredited() && self.year == year && self.samples() < calm {
            let differences = self.differences(3);
            self.proper(Kind::Maintenance, differences);
        }
        let analyte = self.random.below(self.analytes());
        while self.accredited() && self.year == year && self.samples() < full {
            self.off(analyte, 25);
        }
        if self.year == year && self.samples() == full {
            self.overfill();
        }
        self.later(12);
    }

    /// Samples of this year that a full stretch does not take, and missed lines, which count.
    fn overfill(&mut self) {
        let first = self.month.max(2) - 1;
        for _ in 0..5 {
            let mut fields = self.at_the_mean();
            fields.head().month = self.random.between(i32::from(first), 12) as u8;
            self.give(&fields.text());
        }
        self.misses();
    }
}
