//! Study sets that pass or fail: ordinary ones, and ones at the edges of the sums.

use super::Author;
use crate::category::Kind;
use crate::food_line::ANALYTES;
use crate::random::Random;
use crate::study::SET;

impl Author {
    pub(super) fn any_set(&mut self) {
        match self.random.below(10) {
            0..=2 => self.set_at_an_edge(),
            3 if self.random.percent(30) => self.set(|random| random.between(-40, 40)),
            _ => self.set(|random| random.between(-6, 6)),
        }
        let months = self.random.pick(&[0, 0, 1, 5]);
        self.later(months);
    }

    pub(super) fn set_at_an_edge(&mut self) {
        match self.random.below(4) {
            0 => self.level_set(),
            1 => self.random_set(),
            _ => self.edge_set(),
        }
    }

    /// The rest of the set under way, each difference by this rule.
    pub(super) fn set(&mut self, rule: impl Fn(&mut Random) -> i32) {
        for _ in self.unit.set_lines()..SET {
            if self.more() {
                let differences = (0..ANALYTES).map(|_| rule(&mut self.random)).collect();
                self.proper(Kind::Study, differences);
            }
        }
    }

    /// One analyte at 7 or 8, or between them.
    fn level_set(&mut self) {
        let (chosen, sign) = (self.random.below(ANALYTES), self.random.pick(&[-1, 1]));
        let eights = self.random.pick(&[0, 5, 8, 9, 10, SET]);
        let own = std::array::from_fn(|place| sign * if place < eights { 8 } else { 7 });
        self.exact_set(chosen, own);
    }

    /// One analyte with the largest spread that its sum allows, or the next. The sums 3, 9, 15
    /// and so on come to the largest of all exactly; from 193 on less is allowed.
    fn edge_set(&mut self) {
        let sum = i64::from(match self.random.below(3) {
            0 => 3 + 6 * self.random.between(0, 31),
            1 => self.random.between(193, 262),
            _ => self.random.between(0, 262),
        });
        let room = 1314 - 5 * sum;
        let most = (3500 * room * room / 2601).min(166_635);
        let squares = (most + sum * sum) / SET as i64;
        // A sum and the sum of its squares are both odd or both even.
        let squares = squares - (squares - sum) % 2 + self.random.pick(&[0, 0, 2]);
        let (chosen, sign) = (self.random.below(ANALYTES), self.random.pick(&[-1, 1]));
        let own = self.with_sums(sum, squares).map(|d| sign * d);
        self.exact_set(chosen, own);
    }

    /// One analyte off by a little and spread by a little.
    fn random_set(&mut self) {
        let chosen = self.random.below(ANALYTES);
        let (off, spread) = (self.random.between(-7, 7), self.random.between(0, 20));
        let own = std::array::from_fn(|_| off + self.random.between(-spread, spread));
        self.exact_set(chosen, own);
    }

    /// The rest of the set under way, with exactly these differences for one analyte.
    fn exact_set(&mut self, analyte: usize, own: [i32; SET]) {
        for &d in &own[self.unit.set_lines()..] {
            if self.more() {
                let mut differences = vec![0; ANALYTES];
                differences[analyte] = d;
                self.exact(Kind::Study, differences);
            }
        }
    }

    /// 36 differences with this sum whose squares add up to this, if they are found: from level
    /// ones on, two at a time move apart.
    fn with_sums(&mut self, sum: i64, squares: i64) -> [i32; SET] {
        let (each, more) = (sum / SET as i64, sum % SET as i64);
        let mut own: [i32; SET] =
            std::array::from_fn(|place| each as i32 + i32::from((place as i64) < more));
        let mut missing = squares - own.iter().map(|&d| i64::from(d * d)).sum::<i64>();
        for _ in 0..20_000 {
            let (up, down) = (self.random.below(SET), self.random.below(SET));
            let gain = 2 * i64::from(own[up] - own[down] + 1);
            if up != down && (1..=missing).contains(&gain) {
                own[up] += 1;
                own[down] -= 1;
                missing -= gain;
            }
            if missing <= 0 {
                break;
            }
        }
        own
    }
}
