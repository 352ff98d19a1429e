//! The same unit by the incremental rule: a state that each line moves, tables worked out once.

use crate::category::{Category, Kind, MOST_CHARTS};
use crate::charts::{measure, Over, Run, KINDS};
use crate::difference::Tables;
use crate::food_line::ANALYTES;
use crate::refused::Refusal;
use crate::study::{Sums, SET};
use crate::unit::{Event, Stage, Status, LONGEST_STRETCH, MISSES_APART};

/// A number for each chart; those that the category lacks stay 0.
type Charts = [i32; MOST_CHARTS];

pub struct Unit {
    category: Category,
    /// What chart P takes off a difference, and N off its opposite.
    shift: i32,
    limits: Charts,
    tables: Tables,
    /// The measure by the size of d.
    measures: Vec<i32>,
    stage: Stage,
    last_month: u32,
    set_lines: u8,
    sums: [Sums; ANALYTES],
    /// The year of the last sample, where there is one.
    year: u16,
    samples: u16,
    values: Charts,
    /// The first sample of the run shown for each chart.
    firsts: Charts,
    last_miss: Option<u32>,
    misses: bool,
    /// The misidentifications of the last eight samples, the last one first; 0 where there are
    /// fewer.
    misidentifications: [u8; 8],
}

impl Unit {
    pub fn new(category: Category) -> Unit {
        let (shift, limit, tables) = match category {
            Category::Food => (4, 52, Tables::derive()),
            // It has no powers.
            Category::Residue(_) => (5, 48, Tables::default()),
        };
        Unit {
            category,
            shift,
            limits: std::array::from_fn(|chart| [limit, limit, 43, 10_000][chart % KINDS]),
            tables,
            measures: (0..=999).map(measure).collect(),
            stage: category.first_stage(),
            last_month: 0,
            set_lines: 0,
            sums: Default::default(),
            year: 0,
            samples: 0,
            values: [0; MOST_CHARTS],
            firsts: [0; MOST_CHARTS],
            last_miss: None,
            misses: false,
            misidentifications: [0; 8],
        }
    }

    pub fn take(&mut self, text: &[u8]) -> Event {
        self.accept(text).unwrap_or_else(Event::Refused)
    }

    fn accept(&mut self, text: &[u8]) -> Result<Event, Refusal> {
        let seen = self.category.see(text, &self.tables)?;
        if self.category.closed(self.stage) {
            return Err(Refusal::Closed);
        }
        if (seen.kind == Kind::Maintenance) != (self.stage == Stage::Accredited) {
            return Err(Refusal::Stage);
        }
        let month = seen.head.month_number();
        if month < self.last_month {
            return Err(Refusal::Backdated);
        }
        let event = match (seen.kind, seen.differences) {
            (Kind::Study, None) => return Err(Refusal::Gap),
            (Kind::Study, Some(own)) => self.study(own),
            (Kind::Maintenance, None) => self.missed(month),
            (Kind::Maintenance, Some(own)) => {
                self.sample(seen.head.year, own, seen.misidentifications)?
            }
        };
        self.last_month = month;
        Ok(event)
    }

    fn study(&mut self, own: [i32; ANALYTES]) -> Event {
        for (sums, d) in self.sums.iter_mut().zip(own) {
            sums.add(d, self.measures[d.unsigned_abs() as usize]);
        }
        self.set_lines += 1;
        if usize::from(self.set_lines) < SET {
            return Event::UnderWay(self.set_lines);
        }
        let passed = self.sums.iter().all(Sums::pass);
        self.set_lines = 0;
        self.sums = Default::default();
        if passed {
            self.admit();
            return Event::Passed;
        }
        self.stage = match self.stage {
            Stage::Applicant => Stage::SecondSet,
            _ => Stage::Closed,
        };
        Event::Failed
    }

    fn admit(&mut self) {
        self.stage = Stage::Accredited;
        self.samples = 0;
        self.values = [0; MOST_CHARTS];
        self.last_miss = None;
        self.misses = false;
    }

    /// Whether a miss in this month, no earlier than the last line's, would open probation.
    pub fn soon_after_a_miss(&self, month: u32) -> bool {
        self.last_miss.is_some_and(|earlier| month - earlier <= MISSES_APART)
    }

    fn missed(&mut self, month: u32) -> Event {
        let soon = self.soon_after_a_miss(month);
        self.last_miss = Some(month);
        if !soon {
            return Event::Missed;
        }
        self.misses = true;
        self.stage = Stage::Probation;
        Event::ProbationByMisses
    }

    fn sample(
        &mut self,
        year: u16,
        differences: [i32; ANALYTES],
        misidentifications: u8,
    ) -> Result<Event, Refusal> {
        let same_stretch = self.samples > 0 && self.year == year;
        if same_stretch && usize::from(self.samples) == LONGEST_STRETCH {
            return Err(Refusal::Full);
        }
        let own = self.contributions(&differences);
        if same_stretch {
            self.samples += 1;
            self.move_charts(&own);
        } else {
            self.year = year;
            self.samples = 1;
            self.values = own;
            self.firsts = [1; MOST_CHARTS];
        }
        if self.breaks_a_window(misidentifications) {
            self.stage = Stage::Probation;
            return Ok(Event::ProbationByWindows);
        }
        if self.any_over() {
            self.stage = Stage::Probation;
            return Ok(Event::ProbationByCharts);
        }
        Ok(Event::Sample)
    }

    fn contributions(&self, differences: &[i32; ANALYTES]) -> Charts {
        let mut own = [0; MOST_CHARTS];
        match self.category {
            Category::Food => self.contribute(differences, &mut own),
            Category::Residue(_) => self.contribute(&differences[..1], &mut own),
        }
        own
    }

    #[inline(always)]
    fn contribute(&self, differences: &[i32], own: &mut Charts) {
        for (own, &d) in own.chunks_exact_mut(KINDS).zip(differences) {
            let measure = self.measures[d.unsigned_abs() as usize];
            own.copy_from_slice(&[
                (d - self.shift).clamp(-20, 20),
                (-d - self.shift).clamp(-20, 20),
                (d.abs() - 9).clamp(-4, 16),
                measure - 250,
            ]);
        }
    }

    /// A later sample. From sample 3 on, a chart at 0 starts its run anew.
    fn move_charts(&mut self, own: &Charts) {
        let sample = i32::from(self.samples);
        let starts_anew = sample >= 3;
        let charts = self.values.iter_mut().zip(&mut self.firsts).zip(own);
        for ((value, first), own) in charts {
            *first = if starts_anew && *value == 0 { sample } else { *first };
            *value = (*value + own).max(0);
        }
    }

    /// Only a window that the last sample ends can be the first to break. Food has none.
    fn breaks_a_window(&mut self, own: u8) -> bool {
        let Category::Residue(_) = self.category else { return false };
        let last = &mut self.misidentifications;
        last.rotate_right(1);
        last[0] = own;
        last[0] + last[1] > 1 || last.iter().sum::<u8>() > 2
    }

    pub fn stage(&self) -> Stage {
        self.stage
    }

    /// Year and month of the last accepted line.
    pub fn last_date(&self) -> (u16, u8) {
        let months = self.last_month - 1;
        ((months / 12) as u16, (months % 12 + 1) as u8)
    }

    /// How many lines the set under way has.
    pub fn set_lines(&self) -> usize {
        usize::from(self.set_lines)
    }

    pub fn category(&self) -> Category {
        self.category
    }

    /// The charts' values by their number.
    pub fn values(&self) -> &[i32] {
        &self.values[..self.category.charts()]
    }

    fn any_over(&self) -> bool {
        let charts = self.values.iter().zip(&self.limits);
        charts.fold(false, |over, (value, limit)| over | (value > limit))
    }

    fn is_over(&self, chart: usize) -> bool {
        self.values[chart] > self.limits[chart]
    }

    pub fn status(&self) -> Status {
        let shown = |chart: usize| Over {
            chart,
            run: Run {
                first: self.firsts[chart] as usize,
                last: usize::from(self.samples),
                sum: self.values[chart],
            },
        };
        let named = (0..MOST_CHARTS).filter(|&chart| self.is_over(chart));
        Status {
            stage: self.stage,
            samples: self.samples,
            misses: self.misses,
            over: named.map(shown).collect(),
        }
    }
}
