//! "Contributions to the charts" and the runs of "Stretch and run".

/// Charts of one analyte: P, N, V, D.
pub const KINDS: usize = 4;
/// What one sample adds to each chart, by chart number.
pub type Contributions = Vec<i32>;

/// What charts P and N of a category go by, in tenths. N turns where P does, with the other sign.
pub struct Turns {
    /// From a higher d P takes 20.
    pub high: i32,
    /// From a lower d P takes -20.
    pub low: i32,
    /// What P takes off a d between them.
    pub shift: i32,
    pub limit: i32,
}

pub const FOOD: Turns = Turns { high: 24, low: -16, shift: 4, limit: 52 };
pub const RESIDUE: Turns = Turns { high: 25, low: -15, shift: 5, limit: 48 };

impl Turns {
    pub fn limit(&self, chart: usize) -> i32 {
        [self.limit, self.limit, 43, 10_000][chart % KINDS]
    }

    pub fn positive(&self, d: i32) -> i32 {
        if d > self.high {
            20
        } else if d < self.low {
            -20
        } else {
            d - self.shift
        }
    }

    pub fn negative(&self, d: i32) -> i32 {
        if d > -self.low {
            -20
        } else if d < -self.high {
            20
        } else {
            -(d + self.shift)
        }
    }
}

pub fn variability(d: i32) -> i32 {
    (d.abs() - 9).clamp(-4, 16)
}

/// In ten-thousandths, nearest, halves up.
pub fn measure(d: i32) -> i32 {
    match d.abs() {
        0..=24 => 0,
        size => (2 * 10_000 * (size - 25) + size) / (2 * size),
    }
}

pub fn large_discrepancy(measure: i32) -> i32 {
    measure - 250
}

/// What a sample with these differences, one for each analyte, adds to the charts.
pub fn contributions(differences: &[i32], turns: &Turns) -> Contributions {
    let own = |&d: &i32| {
        [turns.positive(d), turns.negative(d), variability(d), large_discrepancy(measure(d))]
    };
    differences.iter().flat_map(own).collect()
}

/// Samples `first` to `last` of a stretch, numbered from 1, and the sum of their contributions.
#[derive(Clone, Copy, Debug, PartialEq, Eq)]
pub struct Run {
    pub first: usize,
    pub last: usize,
    pub sum: i32,
}

/// Of all runs that end at the last sample, the shortest with the highest sum: they are tried
/// from the shortest to the longest, and a longer one must have more. None starts at sample 2.
pub fn highest_run(stretch: &[i32]) -> Option<Run> {
    let last = stretch.len();
    let mut highest: Option<Run> = None;
    let mut sum = 0;
    for first in (1..=last).rev() {
        sum += stretch[first - 1];
        if first != 2 && highest.is_none_or(|run| run.sum < sum) {
            highest = Some(Run { first, last, sum });
        }
    }
    highest
}

/// A chart that is over, with the run shown for it.
#[derive(Clone, Copy, Debug, PartialEq, Eq)]
pub struct Over {
    pub chart: usize,
    pub run: Run,
}

/// The charts that are over after the samples of a stretch, lowest number first.
pub fn over(stretch: &[Contributions], turns: &Turns) -> Vec<Over> {
    let charts = stretch.first().map_or(0, Vec::len);
    (0..charts)
        .filter_map(|chart| {
            let own: Vec<i32> = stretch.iter().map(|sample| sample[chart]).collect();
            let run = highest_run(&own).filter(|run| run.sum > turns.limit(chart))?;
            Some(Over { chart, run })
        })
        .collect()
}
