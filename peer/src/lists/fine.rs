//! Samples for which a rounding decides: of a percent, of a difference or of a measure.

use super::Author;
use crate::category::Kind;
use crate::charts::KINDS;
use crate::compound::Compound;
use crate::draft::food::{edge_mean, halves, percent, s_of, DRY};
use crate::draft::residue::{least_apart, set_apart};
use crate::draft::{Draft, Fields};
use crate::food_line::{self, ANALYTES};
use crate::random::Random;
use crate::residue_line;

impl Author {
    /// Such samples, until one far off leaves all charts D over: the sums of their runs show every
    /// one of them.
    pub(super) fn fine(&mut self) {
        while self.accredited() {
            let d: Vec<i32> = self.unit.values().iter().skip(3).step_by(KINDS).copied().collect();
            let ready = d.iter().all(|&value| value > 1100);
            if ready && (d.iter().any(|&value| value > 7000) || self.random.percent(30)) {
                return self.fine_sample(true);
            }
            self.fine_sample(false);
            // Calm ones bring the other charts down.
            for _ in 0..4 {
                if self.accredited() {
                    self.exact(Kind::Maintenance, vec![0; self.analytes()]);
                }
            }
            if self.random.percent(1) {
                return self.later(12);
            }
        }
    }

    fn fine_sample(&mut self, far: bool) {
        // At 32 and 800 the measure is halfway; 999 is the most.
        let sizes: &[i32] = match far {
            true => &[300, 350, 400, 500, 650, 800, 999, 1100],
            false => &[30, 31, 32, 32, 33, 34, 35, 36, 60],
        };
        let plain = self.draft(Kind::Maintenance, vec![0; self.analytes()]);
        let mut fields = Draft { exact: true, ..plain }.fields(&mut self.random);
        match &mut fields {
            Fields::Food(fields) => self.fine_readings(fields, sizes),
            Fields::Residue(fields) => self.fine_result(fields, sizes),
        }
        self.give(&fields.text());
    }

    fn fine_readings(&mut self, fields: &mut food_line::Fields, sizes: &[i32]) {
        fields.product = self.random.pick(&[0, 1, 2, 3, DRY, DRY]);
        for analyte in 0..ANALYTES {
            self.fine_reading(fields, analyte, sizes);
        }
    }

    /// A result at which |d| just comes to one of these sizes, or just does not.
    fn fine_result(&mut self, fields: &mut residue_line::Fields, sizes: &[i32]) {
        let own = Compound::new(fields.compound).expect("the draft is valid");
        let least = least_apart(own, self.random.pick(sizes));
        let apart = self.random.pick(&[-1, 1]) * (least - self.random.pick(&[0, 1]));
        set_apart(fields, apart, &mut self.random);
    }

    /// A reading at which |d| just comes to one of these sizes, or just does not: to that which is
    /// nearest to its edge, or has an exact half of a hundredth in binary32, or to any.
    fn fine_reading(&mut self, fields: &mut food_line::Fields, analyte: usize, sizes: &[i32]) {
        let random = &mut self.random;
        let mean = edge_mean(fields.product, analyte, random);
        let steps: [Step; 12] = std::array::from_fn(|_| {
            let size = random.pick(sizes);
            Step::new(fields.product, analyte, mean, size, random)
        });
        let chosen = match random.below(3) {
            0 => steps.iter().min_by_key(|step| step.slack),
            1 => steps.iter().find(|step| step.lower % 25 == 12),
            _ => None,
        };
        fields.means[analyte] = mean;
        fields.readings[analyte] = (0, chosen.unwrap_or(&steps[0]).percent(random));
    }
}

/// Two readings next to each other, in hundredths, between which |d| comes to some size.
struct Step {
    lower: u16,
    /// By how little the further reading makes that size, in parts of a hundredth.
    slack: i64,
}

impl Step {
    fn new(product: u8, analyte: usize, mean: u16, size: i32, random: &mut Random) -> Step {
        const PARTS: i64 = 2_000_000;
        // h × 1,000,000 / s is to be at least the size less a half.
        let wanted = (2 * i64::from(size) - 1) * s_of(product, analyte, mean);
        let h = (wanted + PARTS - 1) / PARTS;
        let (below, above) = (i64::from(mean) - h, i64::from(mean) + h - 1);
        let lower = match (below >= 0, above < 10_000) {
            (true, true) => random.pick(&[below, above]),
            (true, false) => below,
            _ => above.min(9_999),
        };
        Step { lower: lower as u16, slack: h * PARTS - wanted }
    }

    /// A percent at one of the two, or halfway or next to that.
    fn percent(&self, random: &mut Random) -> u32 {
        match random.below(6) {
            0 => percent(self.lower),
            1 => percent(self.lower + 1),
            2 => halves(self.lower) - 1,
            3 => halves(self.lower) + 1,
            _ => halves(self.lower),
        }
    }
}
