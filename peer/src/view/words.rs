//! The words that picture and text share.

use crate::category::Category;
use crate::charts::KINDS;
use crate::program::{lines, write_status};
use crate::unit::{Stage, Status};
use crate::view::history::{Admission, Ground, History, Mark, Stretch};

const ANALYTES: [&str; 4] = ["Moisture", "Protein", "Fat", "Salt"];
const LETTERS: [&str; KINDS] = ["P", "N", "V", "D"];
const MONTHS: [&str; 12] = [
    "January",
    "February",
    "March",
    "April",
    "May",
    "June",
    "July",
    "August",
    "September",
    "October",
    "November",
    "December",
];

/// What the page shows.
pub fn title(name: &str, history: &History) -> String {
    match history.category {
        Category::Food => format!("Charts of {name}"),
        Category::Residue(own) => {
            format!("Charts of {name}, residue compound {} ({})", own.number(), own.name())
        }
    }
}

/// Analyte or compound, letter, and the chart's number as the status prints it.
pub fn chart(category: Category, chart: usize) -> String {
    let analyte = match category {
        Category::Food => ANALYTES[chart / KINDS],
        Category::Residue(own) => own.name(),
    };
    format!("{analyte} {} ({chart:02x})", LETTERS[chart % KINDS])
}

/// What a chart's value is counted in.
pub fn unit(chart: usize) -> &'static str {
    match chart % KINDS {
        3 => "1/10000",
        _ => "1/10",
    }
}

/// How a chart stands at the end of a stretch.
pub fn outcome(stretch: &Stretch, chart: usize) -> String {
    if let Some(run) = stretch.run(chart) {
        return format!("OVER: run {} to {}, sum {}", run.first, run.last, run.sum);
    }
    let values = stretch.values(chart);
    let highest = values.iter().max().copied().unwrap_or_default();
    format!("last {}, highest {highest}", values.last().copied().unwrap_or_default())
}

fn month(mark: Mark) -> &'static str {
    MONTHS[usize::from(mark.month) - 1]
}

fn date(mark: Mark) -> String {
    format!("{} {}", month(mark), mark.year)
}

fn counted(number: usize, word: &str) -> String {
    match number {
        1 => format!("1 {word}"),
        _ => format!("{number} {word}s"),
    }
}

pub fn stretch(stretch: &Stretch) -> String {
    let samples = &stretch.samples;
    let count = counted(samples.len(), "sample");
    let (first, last) = (samples[0].mark, samples[samples.len() - 1].mark);
    match first.month == last.month {
        true => format!("Year {}: {count}, {}", stretch.year(), month(first)),
        false => format!("Year {}: {count}, {} to {}", stretch.year(), month(first), month(last)),
    }
}

fn word(ground: Ground) -> &'static str {
    match ground {
        Ground::Charts => "charts",
        Ground::Misses => "misses",
        Ground::Misidentifications => "misidentifications",
    }
}

/// Number of the admission, its date, and what came of it.
pub fn admission(number: usize, admission: &Admission) -> Vec<String> {
    let title = match admission.mark {
        Some(mark) => format!("Admission {number}: line {}, {}", mark.line, date(mark)),
        None => "Accredited from the start".into(),
    };
    let probation = match admission.probation {
        None => "No probation.".into(),
        Some((mark, ground)) => {
            format!("Probation by {}: line {}, {}.", word(ground), mark.line, date(mark))
        }
    };
    let samples = match admission.stretches.is_empty() {
        true => " No samples.",
        false => "",
    };
    vec![title, format!("{probation} {}{samples}", misses(&admission.misses))]
}

/// The last few misses by their dates.
fn misses(misses: &[Mark]) -> String {
    const SHOWN: usize = 6;
    if misses.is_empty() {
        return "No missed lines.".into();
    }
    let earlier = misses.len().saturating_sub(SHOWN);
    let dates: Vec<String> = misses[earlier..].iter().map(|&mark| date(mark)).collect();
    let before = match earlier {
        0 => String::new(),
        _ => format!("{earlier} earlier, "),
    };
    format!("Missed: {before}{}.", dates.join(", "))
}

/// How many lines there were, empty ones aside, and how often each refusal was given.
pub fn lines_taken(history: &History) -> String {
    let refused: usize = history.refused.iter().map(|(_, times)| times).sum();
    let each = history.refused.iter().map(|(refusal, times)| {
        let word = format!("{refusal:?}").to_lowercase();
        format!("{word} {times}")
    });
    let each: Vec<String> = each.collect();
    let colon = if each.is_empty() { "" } else { ": " };
    let admitted = match history.admissions.is_empty() {
        true => " No admission, so no charts.",
        false => "",
    };
    let lines = counted(history.lines, "line");
    format!("{lines}, {refused} refused{colon}{}.{admitted}", each.join(", "))
}

/// The status line as printed, and in words.
pub fn status(status: &Status) -> String {
    let mut text = Vec::new();
    write_status(status, &mut text);
    let line = lines(&text).next().map(String::from_utf8_lossy).unwrap_or_default();
    let stage = match status.stage {
        Stage::Applicant => "stage 0, applicant",
        Stage::SecondSet => "stage 1, second set",
        Stage::Accredited => "stage 2, accredited",
        Stage::Probation => "stage 3, probation",
        Stage::Closed => "stage 4, closed",
    };
    let samples = counted(usize::from(status.samples), "sample");
    let over = match status.over.len() {
        0 => "no chart over".into(),
        number => format!("{} over", counted(number, "chart")),
    };
    let misses = match status.misses {
        true => "probation by misses",
        false => "no probation by misses",
    };
    format!("Status {line}: {stage}; {samples} in the stretch; {over}; {misses}.")
}

/// Where the figures come from.
pub fn sources(program: &str) -> [String; 2] {
    [
        format!("Events, status, charts over and their runs: printed by {program}."),
        "Values after each sample: worked out by the peer, whose events and status are the same."
            .into(),
    ]
}
