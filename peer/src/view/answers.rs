//! The program's output read back: an answer for each line, then the status.

use crate::category::MOST_CHARTS;
use crate::charts::{Over, Run};
use crate::program::{lines, write_answer, write_status, Answer};
use crate::refused::Refusal;
use crate::unit::{Event, Stage, Status};

const STAGES: [Stage; 5] =
    [Stage::Applicant, Stage::SecondSet, Stage::Accredited, Stage::Probation, Stage::Closed];

#[derive(Clone, Debug, PartialEq, Eq)]
pub struct Answers {
    /// One for each line of the list.
    pub each: Vec<Answer>,
    /// After the list.
    pub status: Status,
}

/// The output for a list. Nothing if it does not have the documents' form: what was understood,
/// written out again, must be the output byte for byte.
pub fn parse(output: &[u8], list: &[&[u8]]) -> Option<Answers> {
    let mut printed = lines(output);
    let answer = |line: &&[u8]| match *line {
        b"" => status(&mut printed).map(Answer::Status),
        _ => event(printed.next()?).map(Answer::Event),
    };
    let each = list.iter().map(answer).collect::<Option<Vec<Answer>>>()?;
    let answers = Answers { each, status: status(&mut printed)? };
    (answers.text() == output).then_some(answers)
}

impl Answers {
    /// The events of the lines that are not empty.
    pub fn events(&self) -> impl Iterator<Item = Event> + '_ {
        self.each.iter().filter_map(|answer| match answer {
            Answer::Event(event) => Some(*event),
            Answer::Status(_) => None,
        })
    }

    fn text(&self) -> Vec<u8> {
        let mut text = Vec::new();
        self.each.iter().for_each(|answer| write_answer(answer, &mut text));
        write_status(&self.status, &mut text);
        text
    }
}

/// A status line, and a line for each chart that it says is over.
fn status<'a>(printed: &mut impl Iterator<Item = &'a [u8]>) -> Option<Status> {
    let line = printed.next()?;
    let charts = number(line, 6..10)?.count_ones() as usize;
    Some(Status {
        stage: *STAGES.get(number(line, 0..2)? as usize)?,
        samples: number(line, 2..6)? as u16,
        misses: number(line, 10..12)? == 1,
        over: printed.take(charts).map(over).collect::<Option<Vec<Over>>>()?,
    })
}

fn event(line: &[u8]) -> Option<Event> {
    let number = number(line, 2..4)?;
    Some(match line.get(..2)? {
        b"00" => Event::Refused(refusal(number)?),
        b"01" => Event::Sample,
        b"02" => Event::Missed,
        b"03" => Event::UnderWay(number as u8),
        b"04" => Event::Passed,
        b"05" => Event::Failed,
        b"06" => Event::ProbationByCharts,
        b"07" => Event::ProbationByMisses,
        b"08" => Event::ProbationByWindows,
        _ => return None,
    })
}

fn refusal(number: u32) -> Option<Refusal> {
    Refusal::ALL.into_iter().find(|refusal| u32::from(refusal.number()) == number)
}

fn over(line: &[u8]) -> Option<Over> {
    let run = Run {
        first: number(line, 2..6)? as usize,
        last: number(line, 6..10)? as usize,
        sum: number(line, 10..18)? as i32,
    };
    let chart = number(line, 0..2)? as usize;
    (chart < MOST_CHARTS).then_some(Over { chart, run })
}

/// The number whose hexadecimal digits stand there.
fn number(line: &[u8], at: std::ops::Range<usize>) -> Option<u32> {
    u32::from_str_radix(std::str::from_utf8(line.get(at)?).ok()?, 16).ok()
}

#[cfg(test)]
mod tests {
    use super::*;

    const LINE: &[u8] = b"a line";

    #[test]
    fn only_whole_outputs_are_read() {
        let output = b"0600\n03000c010000\n080001000c00000035\n";
        let answers = parse(output, &[LINE]).unwrap();
        let run = Run { first: 1, last: 12, sum: 53 };
        assert_eq!(answers.each, [Answer::Event(Event::ProbationByCharts)]);
        assert_eq!(answers.status.over, [Over { chart: 8, run }]);
        assert_eq!(parse(output, &[]), None);
        assert_eq!(parse(output, &[LINE, LINE]), None);
        assert_eq!(parse(output, &[b""]), None);
        assert_eq!(parse(output, &[LINE, b""]), None);
        assert_eq!(parse(&output[..output.len() - 1], &[LINE]), None);
        assert_eq!(parse(b"0600\n03000c010000\n", &[LINE]), None);
        assert_eq!(parse(b"0013\n000000000000\n", &[LINE]), None);
    }

    #[test]
    fn an_empty_line_has_a_status_with_its_charts() {
        let status = "030003000600\n01000100030000003c\n020001000300000030\n";
        let output = format!("000000000000\n0600\n{status}0009\n{status}{status}");
        let list: [&[u8]; 5] = [b"", LINE, b"", LINE, b""];
        let answers = parse(output.as_bytes(), &list).unwrap();
        let shown = Answer::Status(answers.status.clone());
        assert_eq!(answers.status.over.iter().map(|over| over.chart).collect::<Vec<_>>(), [1, 2]);
        assert_eq!((&answers.each[2], &answers.each[4]), (&shown, &shown));
        assert_eq!(answers.events().count(), 2);
        let dropped: Vec<&[u8]> = list.into_iter().filter(|line| !line.is_empty()).collect();
        assert_eq!(parse(output.as_bytes(), &dropped), None);
        // One chart fewer, another, one more, and no stage.
        for spoiled in ["030003000200", "030003000500", "030003000e00", "050003000600"] {
            let output = output.replacen("030003000600", spoiled, 1);
            assert_eq!(parse(output.as_bytes(), &list), None, "{spoiled}");
        }
        for whole in status.split_inclusive('\n') {
            assert_eq!(parse(output.replacen(whole, "", 1).as_bytes(), &list), None);
        }
    }
}
