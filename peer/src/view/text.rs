//! The charts as text, two panels beside each other in 80 columns.

use crate::category::Category;
use crate::charts::Run;
use crate::view::history::{History, Stretch};
use crate::view::plot::sample_ticks;
use crate::view::words;

const PAGE: usize = 80;
const PANEL: usize = 39;
/// Columns before the plot: the number of a value and a bar.
const BEFORE: usize = 8;
const COLUMNS: usize = 30;
/// Rows below the limit's own, and above it.
const BELOW: usize = 7;
const ABOVE: usize = 2;

/// The whole text.
pub fn page(name: &str, program: &str, history: &History) -> String {
    let category = history.category;
    let mut lines = vec![words::title(name, history), words::status(&history.status)];
    lines.push(words::lines_taken(history));
    lines.extend(words::sources(program));
    lines.push("Marks: o value after a sample, # the run shown, - limit, . 0.".into());
    for (number, admission) in (1..).zip(&history.admissions) {
        lines.push(String::new());
        lines.extend(words::admission(number, admission));
        for stretch in &admission.stretches {
            lines.extend([String::new(), stretch_title(stretch)]);
            for chart in (0..category.charts()).step_by(2) {
                let [left, right] = [chart, chart + 1].map(|chart| panel(category, stretch, chart));
                lines.push(String::new());
                lines.extend(beside(left, right));
            }
        }
    }
    lines.iter().map(|line| folded(line.trim_end()) + "\n").collect()
}

/// A long stretch says how it is drawn.
fn stretch_title(stretch: &Stretch) -> String {
    let title = words::stretch(stretch);
    match stretch.samples.len() {
        0..=COLUMNS => title,
        _ => format!("{title} (samples share columns)"),
    }
}

/// A line longer than the page goes on below, indented.
fn folded(line: &str) -> String {
    if line.chars().count() <= PAGE {
        return line.into();
    }
    let mut text = String::new();
    let mut column = 0;
    for word in line.split(' ') {
        let length = word.chars().count();
        if column > 0 && column + 1 + length > PAGE {
            text += "\n  ";
            column = 2;
        } else if column > 0 {
            text.push(' ');
            column += 1;
        }
        text += word;
        column += length;
    }
    text
}

fn beside(left: Vec<String>, right: Vec<String>) -> impl Iterator<Item = String> {
    left.into_iter().zip(right).map(|(left, right)| format!("{left:PANEL$}  {right}"))
}

fn panel(category: Category, stretch: &Stretch, chart: usize) -> Vec<String> {
    let values = stretch.values(chart);
    let grid = Grid::new(&values, category.turns().limit(chart));
    let title = format!("{}, value in {}", words::chart(category, chart), words::unit(chart));
    let mut lines = vec![title, words::outcome(stretch, chart)];
    let cells = grid.cells(&values, stretch.run(chart));
    for (row, cells) in cells.iter().enumerate().rev() {
        let label = grid.label(row).map(|value| value.to_string()).unwrap_or_default();
        lines.push(format!("{label:>6} |{}", cells.iter().collect::<String>()));
    }
    lines.push(format!("{:>7}+{}", "", "-".repeat(COLUMNS)));
    lines.push(grid.sample_numbers());
    lines
}

/// Rows are numbered from the bottom. The limit has a row of its own, so no value appears on the
/// wrong side of it.
struct Grid {
    samples: usize,
    lowest: i32,
    limit: i32,
}

impl Grid {
    fn new(values: &[i32], limit: i32) -> Grid {
        let lowest = values.iter().copied().fold(0, i32::min);
        Grid { samples: values.len(), lowest, limit }
    }

    fn row(&self, value: i32) -> usize {
        let share = |size: i32| size as usize * BELOW / (self.limit - self.lowest) as usize;
        if value < self.limit {
            share(value - self.lowest)
        } else if value == self.limit {
            BELOW
        } else {
            (BELOW + 1 + share(value - self.limit)).min(BELOW + ABOVE)
        }
    }

    /// The column of a sample; in a long stretch some samples share one.
    fn column(&self, sample: usize) -> usize {
        match self.samples {
            0..=15 => 2 * (sample - 1),
            16..=COLUMNS => sample - 1,
            _ => (sample - 1) * COLUMNS / self.samples,
        }
    }

    /// The number beside a row: the limit, 0, or the lowest where it is below.
    fn label(&self, row: usize) -> Option<i32> {
        [self.limit, 0, self.lowest].into_iter().find(|&value| self.row(value) == row)
    }

    fn cells(&self, values: &[i32], run: Option<Run>) -> Vec<Vec<char>> {
        let mut cells = vec![vec![' '; COLUMNS]; BELOW + 1 + ABOVE];
        cells[self.row(0)].fill('.');
        cells[BELOW].fill('-');
        for (sample, &value) in (1..).zip(values) {
            let in_run = run.is_some_and(|run| (run.first..=run.last).contains(&sample));
            let cell = &mut cells[self.row(value)][self.column(sample)];
            *cell = if in_run || *cell == '#' { '#' } else { 'o' };
        }
        cells
    }

    fn sample_numbers(&self) -> String {
        let mut line = String::from("sample");
        for sample in sample_ticks(self.samples, 8) {
            let at = BEFORE + self.column(sample);
            let number = sample.to_string();
            if line.len() < at && at + number.len() <= PANEL {
                line = format!("{line:at$}{number}");
            }
        }
        line
    }
}

#[cfg(test)]
mod tests {
    use super::*;

    #[test]
    fn no_value_is_on_the_wrong_side_of_the_limit() {
        for (limit, lowest) in [(52, -20), (52, 0), (48, -20), (43, -4), (10_000, -250)] {
            let grid = Grid::new(&[lowest], limit);
            for value in lowest..2 * limit {
                assert_eq!(grid.row(value).cmp(&BELOW), value.cmp(&limit), "{value} of {limit}");
                assert!(grid.row(value) <= BELOW + ABOVE);
            }
        }
    }

    #[test]
    fn the_run_is_marked_and_no_other_sample() {
        let values = [-20, 0, 2, 0, 20, 40, 53];
        let run = Run { first: 5, last: 7, sum: 53 };
        let grid = Grid::new(&values, 52);
        let cells = grid.cells(&values, Some(run));
        for (sample, &value) in (1..).zip(&values) {
            let expected = if sample >= 5 { '#' } else { 'o' };
            assert_eq!(cells[grid.row(value)][grid.column(sample)], expected, "sample {sample}");
        }
        let marked = cells.iter().flatten().filter(|&&cell| cell == '#').count();
        assert_eq!(marked, 3);
    }

    #[test]
    fn every_sample_has_a_column() {
        for samples in [1, 12, 15, 16, 30, 31, 999] {
            let grid = Grid::new(&vec![0; samples], 52);
            assert!((1..=samples).all(|sample| grid.column(sample) < COLUMNS));
        }
    }
}
