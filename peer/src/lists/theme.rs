//! What a list is about, and by that the episode that comes next.

use super::Author;
use crate::category::Category;
use crate::unit::Stage;

/// What a list is about.
#[derive(Clone, Copy, PartialEq, Eq)]
pub(super) enum Theme {
    Anything,
    /// Charts that go over, with which the list may end: the status then shows the run.
    Shown,
    /// Sets at the edges of passing, and misses to come back to them.
    Sets,
    /// Misidentifications, in residue lists.
    Windows,
    /// Stretches that fill.
    Full,
}

impl Theme {
    pub(super) fn of(category: Category, number: u64) -> Theme {
        match number % 10 {
            2 | 5 | 6 | 8 => Theme::Shown,
            4 if category == Category::Food => Theme::Sets,
            3 | 4 | 7 if category != Category::Food => Theme::Windows,
            9 => Theme::Full,
            _ => Theme::Anything,
        }
    }

    /// In a hundred probations, how many end the list.
    fn ends(self) -> usize {
        match self {
            Theme::Shown => 40,
            _ => 25,
        }
    }
}

impl Author {
    pub(super) fn episode(&mut self, theme: Theme) {
        match (self.unit.stage(), theme) {
            // Some lists end where the status must be zero.
            (Stage::SecondSet | Stage::Accredited, _)
                if self.samples() == 0 && self.random.percent(3) =>
            {
                self.most_lines = self.lines;
            }
            (Stage::Accredited, _) => self.maintenance(theme),
            (Stage::Closed, _) => self.after_the_end(),
            (_, Theme::Sets) => self.set_at_an_edge(),
            // Some end where it says most.
            (Stage::Probation, _) if self.random.percent(theme.ends()) => {
                self.most_lines = self.lines;
            }
            (stage, _) if self.category().closed(stage) => {
                if self.random.percent(30) {
                    let missed = self.missed_line();
                    self.give(&missed.text());
                }
                self.after_the_end();
            }
            (Stage::Probation, Theme::Full) if self.random.percent(30) => {
                self.set(|random| random.between(-40, 40));
            }
            (_, Theme::Full) => self.set(|random| random.between(-3, 3)),
            _ => self.any_set(),
        }
    }

    /// Some lines more, none of which is taken.
    fn after_the_end(&mut self) {
        self.most_lines = self.most_lines.min(self.lines + 12);
        self.out_of_order();
    }

    fn maintenance(&mut self, theme: Theme) {
        match theme {
            Theme::Full => self.fill(),
            Theme::Sets => self.misses(),
            Theme::Windows => self.windows(),
            Theme::Shown => match self.random.below(12) {
                0..=4 => self.fine(),
                5 | 6 => self.soon_over(),
                7 => self.misses(),
                _ => self.near_a_limit(),
            },
            Theme::Anything => match self.random.below(8) {
                0 => self.fine(),
                1 => self.soon_over(),
                2 | 3 => self.near_a_limit(),
                4 => self.drift(),
                5 => self.misses(),
                6 => self.calm(),
                _ => self.far_off(),
            },
        }
    }
}
