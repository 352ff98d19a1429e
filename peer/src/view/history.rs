//! What a list of lines came to: admissions, the stretches since each, and what opened probation.

use crate::category::Category;
use crate::charts::Over;
use crate::fast::Unit;
use crate::program::{answer, Answer};
use crate::refused::Refusal;
use crate::unit::{Event, Stage, Status};
use crate::view::answers::Answers;

/// A line of the list, numbered from 1 with the empty ones, and its date.
#[derive(Clone, Copy, Debug, PartialEq, Eq)]
pub struct Mark {
    pub line: usize,
    pub year: u16,
    pub month: u8,
}

pub struct Sample {
    pub mark: Mark,
    /// Each chart after this sample.
    pub values: Vec<i32>,
}

pub struct Stretch {
    pub samples: Vec<Sample>,
    /// The charts that its last sample left over.
    pub over: Vec<Over>,
}

#[derive(Clone, Copy, Debug, PartialEq, Eq)]
pub enum Ground {
    Charts,
    Misses,
    Misidentifications,
}

/// One admission and all until the next.
pub struct Admission {
    /// None for a unit that starts accredited.
    pub mark: Option<Mark>,
    pub stretches: Vec<Stretch>,
    pub misses: Vec<Mark>,
    pub probation: Option<(Mark, Ground)>,
}

pub struct History {
    pub category: Category,
    /// How many lines the unit was given: all that are not empty.
    pub lines: usize,
    /// How often each refusal was given, in the order of the table.
    pub refused: Vec<(Refusal, usize)>,
    pub admissions: Vec<Admission>,
    pub status: Status,
}

impl Stretch {
    pub fn year(&self) -> u16 {
        self.samples[0].mark.year
    }

    /// One chart after each sample.
    pub fn values(&self, chart: usize) -> Vec<i32> {
        self.samples.iter().map(|sample| sample.values[chart]).collect()
    }

    pub fn run(&self, chart: usize) -> Option<crate::charts::Run> {
        self.over.iter().find(|over| over.chart == chart).map(|over| over.run)
    }
}

/// Goes through the list with the program's answers. `status_after` asks the program for its
/// status after the first lines of the list, so that runs of earlier admissions are its own too.
/// The peer takes the same lines for the values and must answer alike.
pub fn history(
    category: Category,
    list: &[&[u8]],
    answers: &Answers,
    status_after: &mut dyn FnMut(usize) -> Result<Status, String>,
) -> Result<History, String> {
    let mut peer = Unit::new(category);
    let mut admissions = Vec::new();
    if category.first_stage() == Stage::Accredited {
        admissions.push(Admission::new(None));
    }
    for (line, (text, theirs)) in (1..).zip(list.iter().zip(&answers.each)) {
        let own = answer(&mut peer, text);
        if own != *theirs {
            return Err(format!("line {line}: the program and the peer differ; see peer/check"));
        }
        let Some(event) = accepted(own) else { continue };
        let (year, month) = peer.last_date();
        let mark = Mark { line, year, month };
        if event == Event::Passed {
            admissions.push(Admission::new(Some(mark)));
        }
        let Some(admission) = admissions.last_mut() else { continue };
        admission.take(event, Sample { mark, values: peer.values().to_vec() });
        if matches!(event, Event::ProbationByCharts | Event::ProbationByWindows) {
            admission.name(status_after(line)?);
        }
    }
    if peer.status() != answers.status {
        return Err("status: the program and the peer differ; see peer/check".into());
    }
    let events: Vec<Event> = answers.events().collect();
    let (lines, refused, status) = (events.len(), refused(&events), answers.status.clone());
    Ok(History { category, lines, refused, admissions, status })
}

/// The event of a line that was taken.
fn accepted(answer: Answer) -> Option<Event> {
    match answer {
        Answer::Status(_) | Answer::Event(Event::Refused(_)) => None,
        Answer::Event(event) => Some(event),
    }
}

impl Admission {
    fn new(mark: Option<Mark>) -> Admission {
        Admission { mark, stretches: Vec::new(), misses: Vec::new(), probation: None }
    }

    /// A line that was taken. What it did to the charts counts only if it is a sample.
    fn take(&mut self, event: Event, line: Sample) {
        let mark = line.mark;
        match event {
            Event::Sample => self.add(line),
            Event::ProbationByCharts => {
                self.add(line);
                self.probation = Some((mark, Ground::Charts));
            }
            Event::ProbationByWindows => {
                self.add(line);
                self.probation = Some((mark, Ground::Misidentifications));
            }
            Event::Missed => self.misses.push(mark),
            Event::ProbationByMisses => {
                self.misses.push(mark);
                self.probation = Some((mark, Ground::Misses));
            }
            _ => {}
        }
    }

    fn add(&mut self, sample: Sample) {
        match self.stretches.last_mut() {
            Some(stretch) if stretch.year() == sample.mark.year => stretch.samples.push(sample),
            _ => self.stretches.push(Stretch { samples: vec![sample], over: Vec::new() }),
        }
    }

    /// A sample opened probation: the status right after it names the charts that are over.
    fn name(&mut self, status: Status) {
        if let Some(stretch) = self.stretches.last_mut() {
            stretch.over = status.over;
        }
    }
}

fn refused(events: &[Event]) -> Vec<(Refusal, usize)> {
    let times = |refusal| events.iter().filter(|&&event| event == Event::Refused(refusal)).count();
    let counted = Refusal::ALL.iter().map(|&refusal| (refusal, times(refusal)));
    counted.filter(|&(_, times)| times > 0).collect()
}

#[cfg(test)]
pub mod tests {
    use super::*;
    use crate::category::MOST_CHARTS;
    use crate::charts::{Run, FOOD};
    use crate::program::{ended, lines, transcript};
    use crate::view::answers::parse;

    /// What a food list came to, with the peer as the program.
    pub fn of_case(input: &[u8]) -> History {
        of_case_in(Category::Food, input)
    }

    pub fn of_case_in(category: Category, input: &[u8]) -> History {
        let list: Vec<&[u8]> = lines(input).collect();
        let answers = |first: &[&[u8]]| parse(&transcript(category, &ended(first)), first).unwrap();
        let status_after = &mut |count: usize| Ok(answers(&list[..count]).status);
        history(category, &list, &answers(&list), status_after).unwrap()
    }

    #[test]
    fn the_run_of_a_year_over_its_limit() {
        let history = of_case(include_bytes!("../../cases/fat-over-limit.stdin"));
        let [admission] = &history.admissions[..] else { panic!("one admission") };
        let [stretch] = &admission.stretches[..] else { panic!("one stretch") };
        assert_eq!((stretch.year(), stretch.samples.len()), (2013, 12));
        assert_eq!(stretch.run(8), Some(Run { first: 1, last: 12, sum: 53 }));
        assert_eq!(stretch.values(8).last(), Some(&53));
        assert!((0..MOST_CHARTS).all(|chart| {
            (stretch.run(chart).is_some())
                == (*stretch.values(chart).last().unwrap() > FOOD.limit(chart))
        }));
    }

    #[test]
    fn runs_of_an_earlier_admission_stay() {
        let history = of_case(include_bytes!("../../cases/second-probation-by-misses.stdin"));
        let [first, second] = &history.admissions[..] else { panic!("two admissions") };
        assert_eq!(first.probation.map(|(_, ground)| ground), Some(Ground::Charts));
        assert!(first.stretches[0].run(1).is_some());
        assert_eq!(second.probation.map(|(_, ground)| ground), Some(Ground::Misses));
        assert_eq!(second.stretches[0].samples.len(), 1);
        assert!(history.status.over.is_empty());
    }

    #[test]
    fn a_residue_unit_is_accredited_from_the_start() {
        let input = include_bytes!("../../../crates/case_residue_charts/stdin");
        let history = of_case_in(Category::tested_residue(), input);
        let [admission] = &history.admissions[..] else { panic!("one admission") };
        assert_eq!(admission.mark, None);
        let years: Vec<u16> = admission.stretches.iter().map(Stretch::year).collect();
        assert_eq!(years, [2012, 2013, 2014]);
        let last = &admission.stretches[2];
        assert_eq!(last.samples[0].values.len(), 4);
        assert_eq!(last.run(0), Some(Run { first: 4, last: 10, sum: 49 }));
        assert_eq!(last.run(3), Some(Run { first: 5, last: 10, sum: 12_000 }));
        assert_eq!((last.run(1), last.run(2)), (None, None));
    }

    #[test]
    fn misidentifications_are_a_ground_and_charts_over_stay_named() {
        let probation = |input: &[u8]| {
            let history = of_case_in(Category::tested_residue(), input);
            let [admission] = &history.admissions[..] else { panic!("one admission") };
            let (mark, ground) = admission.probation.unwrap();
            assert_eq!(ground, Ground::Misidentifications);
            let last = admission.stretches.last().unwrap();
            (mark.line, last.samples.len(), last.over.clone())
        };
        let two = probation(include_bytes!("../../../crates/case_residue_two/stdin"));
        assert_eq!(two, (19, 12, vec![]));
        let run = Run { first: 1, last: 4, sum: 49 };
        let both = probation(include_bytes!("../../../crates/case_residue_both/stdin"));
        assert_eq!(both, (7, 4, vec![Over { chart: 0, run }]));
    }

    #[test]
    fn a_line_that_differs_is_numbered_as_the_list_stands() {
        let output = b"020000000000\n0001\n020001000000\n020000000000\n";
        let list: [&[u8]; 3] = [b"", b"\r", b""];
        let answers = parse(output, &list).unwrap();
        let status_after = &mut |_| Err("no one asks".into());
        let said =
            history(Category::tested_residue(), &list, &answers, status_after).err().unwrap();
        assert!(said.starts_with("line 3: "), "{said}");
    }

    #[test]
    fn january_opens_a_stretch() {
        let history = of_case(include_bytes!("../../../crates/case_january/stdin"));
        let years: Vec<u16> = history.admissions[0].stretches.iter().map(Stretch::year).collect();
        assert_eq!(years, [2012, 2013]);
        assert_eq!(history.admissions[0].stretches[1].run(0).map(|run| run.first), Some(1));
    }
}
