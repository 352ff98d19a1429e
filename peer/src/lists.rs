//! Lists of lines from a seed, of either category. The fast unit goes along, so that the lists lead
//! where they should: through sets, admissions, charts at their limits, misses, misidentifications,
//! full stretches and closing, with a look at the status here and there.

mod clock;
mod disorder;
mod fine;
mod limits;
mod lines;
mod looks;
mod misses;
mod samples;
mod sets;
mod theme;
mod windows;

use crate::category::Category;
use crate::fast::Unit;
use crate::random::Random;
use crate::unit::Stage;

use theme::Theme;

pub use clock::long;

pub const LONGEST_LIST: usize = 1500;

struct Author {
    random: Random,
    unit: Unit,
    input: Vec<u8>,
    lines: usize,
    most_lines: usize,
    /// In a hundred lines, how many more that are out of order.
    disorder: usize,
    /// In a hundred lines, after how many there is a look at the status.
    looks: usize,
    year: u16,
    month: u8,
}

/// One list of a category and a seed, as the program's input.
pub fn list(category: Category, seed: u64, number: u64) -> Vec<u8> {
    let mut random = Random::new(seed, number);
    let theme = Theme::of(category, number);
    let most_lines = match random.below(10) {
        _ if [Theme::Shown, Theme::Full].contains(&theme) => LONGEST_LIST,
        0 => random.below(40),
        1 => LONGEST_LIST,
        _ => 40 + random.below(460),
    };
    let disorder = match theme {
        Theme::Anything if category != Category::Food => random.pick(&[2, 20, 80, 80]),
        Theme::Anything => random.pick(&[0, 2, 20, 80]),
        Theme::Shown | Theme::Sets | Theme::Windows => random.pick(&[0, 0, 2, 10]),
        Theme::Full => random.pick(&[0, 1]),
    };
    let looks = random.pick(&[0, 1, 2]);
    let year = random.pick(&[2000, 2011, 2012, 2050, 2090, 2098, 2099]);
    let month = random.between(1, 12) as u8;
    let plain = Author::new(category, random, most_lines);
    let mut author = Author { disorder, looks, year, month, ..plain };
    author.look_at_first();
    while author.more() {
        author.episode(theme);
    }
    author.end()
}

impl Author {
    /// In good order, without a look at the status, from January 2000 on.
    fn new(category: Category, random: Random, most_lines: usize) -> Author {
        Author {
            random,
            unit: Unit::new(category),
            input: Vec::new(),
            lines: 0,
            most_lines,
            disorder: 0,
            looks: 0,
            year: 2000,
            month: 1,
        }
    }

    fn more(&self) -> bool {
        self.lines < self.most_lines
    }

    fn category(&self) -> Category {
        self.unit.category()
    }

    fn analytes(&self) -> usize {
        self.category().analytes()
    }

    /// How many samples the stretch has.
    fn samples(&self) -> usize {
        usize::from(self.unit.status().samples)
    }

    fn accredited(&self) -> bool {
        self.more() && self.unit.stage() == Stage::Accredited
    }

    /// The last line may stay unended or be cut, and empty lines may follow.
    fn end(mut self) -> Vec<u8> {
        match self.random.below(10) {
            0 | 1 => {
                self.input.pop();
            }
            2 => self.input.truncate(self.input.len().saturating_sub(2 + self.random.below(67))),
            3 if self.lines < LONGEST_LIST => self.input.push(b'\n'),
            4 if self.lines + 2 <= LONGEST_LIST => self.input.extend(b"\n\n"),
            _ => {}
        }
        self.input
    }

    /// Some months on, up to December 2099.
    fn later(&mut self, months: i32) {
        let month_number =
            (12 * i32::from(self.year) + i32::from(self.month) - 1 + months).min(12 * 2099 + 11);
        self.year = (month_number / 12) as u16;
        self.month = (month_number % 12 + 1) as u8;
    }
}
