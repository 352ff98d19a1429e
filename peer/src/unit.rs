//! "Stages", "Stretch and run" and rows 8 to 12 of "Refused", read off the list of accepted
//! lines and their events. Nothing else is kept.

use crate::category::{Category, Kind};
use crate::charts::{contributions, over, Contributions, Over};
use crate::difference::Derived;
use crate::food_line::ANALYTES;
use crate::head::Head;
use crate::refused::Refusal;
use crate::study::{passes, SET};
use crate::windows::any_broken;

pub const LONGEST_STRETCH: usize = 999;
/// Misses at most this many months apart open probation.
pub const MISSES_APART: u32 = 11;

#[derive(Clone, Copy, Debug, PartialEq, Eq)]
pub enum Stage {
    Applicant,
    SecondSet,
    Accredited,
    Probation,
    Closed,
}

#[derive(Clone, Copy, Debug, PartialEq, Eq)]
pub enum Event {
    Refused(Refusal),
    Sample,
    Missed,
    UnderWay(u8),
    Passed,
    Failed,
    ProbationByCharts,
    ProbationByMisses,
    ProbationByWindows,
}

impl Event {
    pub fn bytes(self) -> [u8; 2] {
        match self {
            Event::Refused(refusal) => [0, refusal.number()],
            Event::Sample => [1, 0],
            Event::Missed => [2, 0],
            Event::UnderWay(lines) => [3, lines],
            Event::Passed => [4, 0],
            Event::Failed => [5, 0],
            Event::ProbationByCharts => [6, 0],
            Event::ProbationByMisses => [7, 0],
            Event::ProbationByWindows => [8, 0],
        }
    }

    pub fn opens_probation(self) -> bool {
        matches!(
            self,
            Event::ProbationByCharts | Event::ProbationByMisses | Event::ProbationByWindows
        )
    }
}

/// What is printed after the events.
#[derive(Clone, Debug, PartialEq, Eq)]
pub struct Status {
    pub stage: Stage,
    pub samples: u16,
    pub misses: bool,
    pub over: Vec<Over>,
}

/// What an accepted line is.
enum Accepted {
    Study([i32; ANALYTES]),
    Sample { contributions: Contributions, misidentifications: u8 },
    Missed,
}

struct Entry {
    head: Head,
    accepted: Accepted,
    event: Event,
}

pub struct Unit {
    category: Category,
    entries: Vec<Entry>,
}

impl Unit {
    pub fn new(category: Category) -> Unit {
        Unit { category, entries: Vec::new() }
    }

    pub fn take(&mut self, text: &[u8]) -> Event {
        match self.judge(text) {
            Err(refusal) => Event::Refused(refusal),
            Ok(entry) => {
                let event = entry.event;
                self.entries.push(entry);
                event
            }
        }
    }

    fn judge(&self, text: &[u8]) -> Result<Entry, Refusal> {
        let seen = self.category.see(text, &Derived)?;
        let (head, stage) = (seen.head, self.stage());
        if self.category.closed(stage) {
            return Err(Refusal::Closed);
        }
        if (seen.kind == Kind::Maintenance) != (stage == Stage::Accredited) {
            return Err(Refusal::Stage);
        }
        let last_month = self.entries.last().map(|entry| entry.head.month_number());
        if last_month.is_some_and(|last| head.month_number() < last) {
            return Err(Refusal::Backdated);
        }
        let (accepted, event) = match (seen.kind, seen.differences) {
            (Kind::Study, None) => return Err(Refusal::Gap),
            (Kind::Study, Some(own)) => (Accepted::Study(own), self.study(own)),
            (Kind::Maintenance, None) => (Accepted::Missed, self.missed(head)),
            (Kind::Maintenance, Some(own)) => self.sample(head, &own, seen.misidentifications)?,
        };
        Ok(Entry { head, accepted, event })
    }

    fn study(&self, own: [i32; ANALYTES]) -> Event {
        let mut set = self.set_so_far();
        set.push(own);
        match set.len() {
            SET if passes(&set) => Event::Passed,
            SET => Event::Failed,
            lines => Event::UnderWay(lines as u8),
        }
    }

    fn missed(&self, head: Head) -> Event {
        let soon_after = |entry: &Entry| {
            matches!(entry.accepted, Accepted::Missed)
                && head.month_number() - entry.head.month_number() <= MISSES_APART
        };
        match self.since_admission().any(soon_after) {
            true => Event::ProbationByMisses,
            false => Event::Missed,
        }
    }

    fn sample(
        &self,
        head: Head,
        differences: &[i32; ANALYTES],
        misidentifications: u8,
    ) -> Result<(Accepted, Event), Refusal> {
        let own = contributions(&differences[..self.category.analytes()], self.category.turns());
        let mut stretch = match self.last_sample_year() {
            Some(year) if year == head.year => self.stretch(),
            _ => Vec::new(),
        };
        if stretch.len() == LONGEST_STRETCH {
            return Err(Refusal::Full);
        }
        stretch.push(own.clone());
        let mut counts = self.misidentifications();
        counts.push(misidentifications);
        let event = if any_broken(self.category.windows(), &counts) {
            Event::ProbationByWindows
        } else if over(&stretch, self.category.turns()).is_empty() {
            Event::Sample
        } else {
            Event::ProbationByCharts
        };
        Ok((Accepted::Sample { contributions: own, misidentifications }, event))
    }

    pub fn status(&self) -> Status {
        let stretch = self.stretch();
        let by_misses = |entry: &Entry| entry.event == Event::ProbationByMisses;
        Status {
            stage: self.stage(),
            samples: stretch.len() as u16,
            misses: self.since_admission().any(by_misses),
            over: over(&stretch, self.category.turns()),
        }
    }

    /// Study lines come only before admission and after probation, so going back over them leads
    /// to the start or to what opened probation, past the sets that failed. A unit without sets
    /// has none of them.
    pub fn stage(&self) -> Stage {
        let mut failed = 0;
        for entry in self.entries.iter().rev() {
            match entry.event {
                Event::UnderWay(_) => {}
                Event::Failed => failed += 1,
                event if !event.opens_probation() => return Stage::Accredited,
                _ if failed == 0 => return Stage::Probation,
                _ => return Stage::Closed,
            }
        }
        [self.category.first_stage(), Stage::SecondSet, Stage::Closed][failed]
    }

    /// The entries after the last admission, or all, from the last back.
    fn since_admission(&self) -> impl Iterator<Item = &Entry> {
        self.entries.iter().rev().take_while(|entry| entry.event != Event::Passed)
    }

    /// The years and contributions of the samples since admission, from the last back.
    fn samples(&self) -> impl Iterator<Item = (u16, &Contributions)> {
        self.since_admission().filter_map(|entry| match &entry.accepted {
            Accepted::Sample { contributions, .. } => Some((entry.head.year, contributions)),
            _ => None,
        })
    }

    fn last_sample_year(&self) -> Option<u16> {
        self.samples().next().map(|(year, _)| year)
    }

    /// The samples since admission that share the last one's year, in order.
    pub fn stretch(&self) -> Vec<Contributions> {
        let last_year = self.last_sample_year();
        let same_year = self.samples().take_while(|(year, _)| Some(*year) == last_year);
        let mut stretch: Vec<Contributions> = same_year.map(|(_, own)| own.clone()).collect();
        stretch.reverse();
        stretch
    }

    /// The counts of all samples since the unit's start, in order.
    fn misidentifications(&self) -> Vec<u8> {
        let counts = self.entries.iter().filter_map(|entry| match entry.accepted {
            Accepted::Sample { misidentifications, .. } => Some(misidentifications),
            _ => None,
        });
        counts.collect()
    }

    /// The lines of the set under way.
    fn set_so_far(&self) -> Vec<[i32; ANALYTES]> {
        let under_way = self.entries.iter().rev().map_while(|entry| match entry {
            Entry { accepted: Accepted::Study(own), event: Event::UnderWay(_), .. } => Some(*own),
            _ => None,
        });
        under_way.collect()
    }
}
