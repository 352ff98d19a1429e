//! The lists for the program, each with its output worked out by hand.

mod charts;
mod inputs;
mod misses;
mod refusals;
mod residue;
mod sets;
mod status;
mod windows;

use crate::list::Case;

pub fn cases() -> Vec<Case> {
    vec![
        inputs::two_lines(),
        charts::fat_near_limit(),
        charts::fat_over_limit(),
        charts::run_and_tie(),
        charts::run_from_3(),
        charts::two_charts(),
        charts::large_discrepancy(),
        charts::january(),
        misses::misses_two_years(),
        misses::misses_11_and_12(),
        misses::readmitted(),
        misses::second_probation_by_charts(),
        misses::second_probation_by_misses(),
        sets::set_mean_edge(),
        sets::set_spread_edge(),
        sets::both_sets_failed(),
        sets::probation_failed(),
        refusals::refusals(),
        refusals::stretch_full(),
        inputs::empty(),
        inputs::unended(),
        inputs::lengths(),
        inputs::bytes(),
        status::status(),
        residue::low_results(),
        residue::residue_charts(),
        residue::residue_misses(),
        residue::residue_status(),
        windows::residue_two(),
        windows::residue_eight(),
        windows::residue_both(),
        windows::residue_first(),
    ]
}

/// A chart's value after the first lines of a list, where the program does not show it.
pub struct Hidden {
    pub list: &'static str,
    pub lines: usize,
    pub chart: usize,
    pub value: i32,
}

pub const HIDDEN: [Hidden; 8] = [
    Hidden { list: "fat-near-limit", lines: 36 + 11, chart: 8, value: 52 },
    Hidden { list: "fat-near-limit", lines: 36 + 12, chart: 8, value: 51 },
    Hidden { list: "residue-charts", lines: 3, chart: 0, value: 48 },
    Hidden { list: "residue-charts", lines: 3 + 32, chart: 0, value: 48 },
    Hidden { list: "residue-charts", lines: 3 + 32 + 3, chart: 2, value: 43 },
    Hidden { list: "residue-charts", lines: 3 + 32 + 4 + 1, chart: 0, value: -20 },
    Hidden { list: "residue-eight", lines: 12, chart: 0, value: 48 },
    Hidden { list: "residue-both", lines: 5, chart: 0, value: 48 },
];
