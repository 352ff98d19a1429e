//! Misidentifications as close together as the windows allow, or closer.

use super::Author;
use crate::category::Kind;
use crate::charts::KINDS;
use crate::draft::Fields;

/// Three in so many consecutive samples are too many.
const EIGHT: usize = 8;
/// The number of chart D.
const D: usize = 3;

impl Author {
    /// Clear of the earlier ones a sample with one; then some as close to it and to each other as is
    /// allowed, or one that breaks a window. Now and then the sample that is clear does that, which
    /// may be the very first.
    pub(super) fn windows(&mut self) {
        let chart = self.random.percent(85).then(|| self.random.below(KINDS));
        let clear = match self.samples() {
            0 => self.random.pick(&[1, 1, 1, 2, 5, 6, 7, 8, 9]),
            _ => EIGHT + self.random.below(2),
        };
        if self.random.percent(10) {
            self.no_sample();
        }
        if self.random.percent(12) {
            return self.alone(chart, clear);
        }
        self.counted(chart, clear, 1);
        let apart = self.random.pick(&[1, 1, 1, 2, 2, 3, 3, 4, 5, 6, 7, 8, 8, 9]);
        match self.random.below(10) {
            0 | 1 => self.allowed(chart),
            2..=4 => self.alone(chart, apart),
            5 => self.too_many(chart, 1, 1),
            6 => {
                self.counted(chart, apart, 1);
                self.too_many(chart, 1, 1);
            }
            _ => self.third(chart),
        }
    }

    /// Of any three the last comes eight samples after the first, or nine.
    fn allowed(&mut self, chart: Option<usize>) {
        let apart = self.random.between(2, 6) as usize;
        for _ in 0..self.random.between(1, 3) {
            self.counted(chart, apart, 1);
            let more = self.random.pick(&[0, 0, 1]);
            self.counted(chart, EIGHT - apart + more, 1);
        }
    }

    /// More than one in a sample.
    fn alone(&mut self, chart: Option<usize>, apart: usize) {
        let count = self.random.pick(&[2, 2, 2, 3, 20]);
        self.too_many(chart, apart, count);
    }

    /// The third of three, no two of them neighbours, comes four to seven samples after the first.
    fn third(&mut self, chart: Option<usize>) {
        let span = self.random.between(4, 7);
        let apart = self.random.between(2, span - 2);
        self.counted(chart, apart as usize, 1);
        self.too_many(chart, (span - apart) as usize, 1);
    }

    /// A sample with so many misidentifications, so many samples after the last that had some. Those
    /// between have none.
    fn counted(&mut self, chart: Option<usize>, apart: usize, count: u8) {
        self.clean(chart, apart - 1);
        self.step(chart, count, false);
    }

    /// The same with one that breaks a window, and often leaves the chart over.
    fn too_many(&mut self, chart: Option<usize>, apart: usize, count: u8) {
        self.clean(chart, apart - 1);
        let over = self.random.percent(80);
        self.step(chart, count, over);
    }

    fn clean(&mut self, chart: Option<usize>, samples: usize) {
        (0..samples).for_each(|_| self.step(chart, 0, false));
    }

    /// A sample that leads the chart to its limit, or over it, or is calm; lines that are no samples
    /// may follow, and months.
    fn step(&mut self, chart: Option<usize>, count: u8, over: bool) {
        if !self.accredited() {
            return;
        }
        let d = match chart {
            None => self.random.between(-4, 4),
            Some(chart) if over => self.difference_over(chart),
            Some(chart) => self.difference_short_of_over(chart),
        };
        let mut fields = self.draft(Kind::Maintenance, vec![d]).fields(&mut self.random);
        fields.misidentify(&[count], &mut self.random);
        self.put(&fields);
        if self.random.percent(if count > 0 { 60 } else { 6 }) {
            self.no_sample();
        }
        let months = match self.random.below(if count > 0 { 10 } else { 60 }) {
            0 => 12,
            1..=3 => 1,
            _ => 0,
        };
        self.later(months);
    }

    fn difference_over(&mut self, chart: usize) -> i32 {
        let limit = self.category().turns().limit(chart);
        match chart {
            D => self.random.pick(&[-999, 999]),
            _ => self.difference_that_adds(chart, limit + 1 - self.unit.values()[chart]),
        }
    }

    /// Chart D is kept where one sample far off leaves it over.
    fn difference_short_of_over(&mut self, chart: usize) -> i32 {
        match chart {
            D if self.unit.values()[D] < 800 && self.chart_v(D) <= 20 => {
                self.random.pick(&[-28, 28])
            }
            D => 0,
            _ => self.difference_near_limit(chart, None),
        }
    }

    /// A line with misidentifications that is no sample: missed, or refused for its kind, its count
    /// or its date.
    fn no_sample(&mut self) {
        let month_number = 12 * u32::from(self.year) + u32::from(self.month);
        let fields = match self.random.below(2) {
            0 if !self.unit.soon_after_a_miss(month_number) => self.missed_line(),
            _ => self.refused_line(),
        };
        self.give(&fields.text());
    }

    fn refused_line(&mut self) -> Fields {
        let mut fields = self.at_the_mean();
        fields.misidentify(&[1, 2, 20], &mut self.random);
        match self.random.below(3) {
            0 if self.samples() > 0 && self.unit.last_date() == (self.year, self.month) => {
                (fields.head().year, fields.head().month) = self.month_before();
            }
            1 => fields.misidentify(&[21, 22, 0x80, 0xff], &mut self.random),
            _ => fields.head().kind = self.random.pick(&[1, 2]),
        }
        fields
    }
}
