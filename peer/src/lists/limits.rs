//! Samples that lead a chart to its limit, or over it by runs of all kinds.

use super::Author;
use crate::category::{Category, Kind};
use crate::charts::{measure, FOOD, KINDS};
use crate::food_line::MOISTURE;

impl Author {
    /// Leads a chart of each analyte to its limit or one under it, and now and then one of them
    /// over it by one, with breaks on the way.
    pub(super) fn near_a_limit(&mut self) {
        let one_of = |analyte: usize| KINDS * analyte + self.random.below(KINDS);
        let charts: Vec<usize> = (0..self.unit.category().analytes()).map(one_of).collect();
        for _ in 0..self.random.between(3, 40) {
            if !self.accredited() {
                return;
            }
            let over = self.random.percent(25).then(|| self.random.pick(&charts));
            let near = |&chart: &usize| self.difference_near_limit(chart, over);
            let differences = charts.iter().map(near).collect();
            self.exact(Kind::Maintenance, differences);
            let months = i32::from(self.random.percent(10));
            self.later(months);
        }
    }

    pub(super) fn difference_near_limit(&mut self, chart: usize, over: Option<usize>) -> i32 {
        if self.random.percent(10) && self.chart_v(chart) <= 20 {
            return self.difference_that_takes(chart);
        }
        let beyond = match over == Some(chart) {
            true => 1,
            // Chart D comes so near but seldom.
            false if chart % KINDS == 3 => self.random.pick(&[-1, 0, 1, 1]),
            false => self.random.pick(&[-1, 0, 0]),
        };
        let limit = self.category().turns().limit(chart);
        self.difference_that_adds(chart, limit + beyond - self.unit.values()[chart])
    }

    /// A difference by which the chart gets this, or as much of it as one sample can give.
    pub(super) fn difference_that_adds(&mut self, chart: usize, wanted: i32) -> i32 {
        let shift = self.category().turns().shift;
        match chart % KINDS {
            0 => wanted.clamp(-24, 20) + shift,
            1 => -(wanted.clamp(-24, 20) + shift),
            // To the side on which chart P or N is lower, so that neither is over first.
            2 if self.unit.values()[chart - 2] > self.unit.values()[chart - 1] => {
                -(wanted.clamp(-4, 16) + 9)
            }
            2 => wanted.clamp(-4, 16) + 9,
            _ => self.difference_for_d(chart, wanted),
        }
    }

    /// The same for chart D: far off if that does it, to the side on which the mean has room.
    /// From the 821 that 28 adds, less a calm sample, every value near the limit can be met.
    fn difference_for_d(&mut self, chart: usize, wanted: i32) -> i32 {
        let fits = |size: &i32| measure(*size) - 250 == wanted;
        match (25..=800).find(fits) {
            Some(_) if self.chart_v(chart) > 27 => 0,
            Some(size) => self.roomy_side(chart) * size,
            None if self.unit.values()[chart] < 300 => self.random.pick(&[-28, 28]),
            None => 0,
        }
    }

    /// On which side of a chart's ordinary mean readings can be far off.
    fn roomy_side(&mut self, chart: usize) -> i32 {
        match self.category() {
            Category::Food if chart / KINDS == MOISTURE => -1,
            Category::Food => 1,
            Category::Residue(_) => self.random.pick(&[-1, 1]),
        }
    }

    /// The value of chart V beside this one. It takes 16 from any sample far off, and is not to be
    /// over first.
    pub(super) fn chart_v(&self, chart: usize) -> i32 {
        self.unit.values()[chart / KINDS * KINDS + 2]
    }

    /// A difference by which the chart falls as far as it can, or nearly.
    fn difference_that_takes(&mut self, chart: usize) -> i32 {
        match chart % KINDS {
            0 => self.random.pick(&[-15, -16, -17, -25]),
            1 => self.random.pick(&[15, 16, 17, 25]),
            2 => self.random.pick(&[-6, -5, 0, 5, 6]),
            _ => self.random.pick(&[-25, -24, 24, 25]),
        }
    }

    /// One analyte off to one side until a chart is over, with breaks that restart its run.
    pub(super) fn drift(&mut self) {
        let (analyte, sign) = (self.random.below(self.analytes()), self.random.pick(&[-1, 1]));
        while self.accredited() {
            let size = self.random.pick(&[-17, 4, 4, 2, 6, 10, 14, 17, 25]);
            self.off(analyte, sign * self.as_for_food(size));
            if self.random.percent(2) {
                return self.later(1);
            }
        }
    }

    /// A new year in which a chart is soon over: its first samples decide where the run starts,
    /// and small ones that cancel out make runs tie.
    pub(super) fn soon_over(&mut self) {
        self.later(12);
        let (analyte, sign) = (self.random.below(self.analytes()), self.random.pick(&[-1, 1]));
        let starts: [&[i32]; 3] = [&[-17, 0, 4, 4, 6], &[2, 2, 4, 14, 25], &[2, 4, 6, 14]];
        for sizes in starts.into_iter().chain(std::iter::repeat(&[2, 6, 14, 17, 25][..])) {
            if !self.accredited() {
                return;
            }
            let size = self.random.pick(sizes);
            self.off(analyte, sign * self.as_for_food(size));
        }
    }

    /// The size that adds to charts P and N what this one does for food.
    fn as_for_food(&self, size: i32) -> i32 {
        size + self.category().turns().shift - FOOD.shift
    }

    /// A sample with one analyte off by this.
    pub(super) fn off(&mut self, analyte: usize, d: i32) {
        let mut differences = self.differences(4);
        differences[analyte] = d;
        self.exact(Kind::Maintenance, differences);
    }
}
