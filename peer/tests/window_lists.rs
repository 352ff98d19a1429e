//! The lists of a seed reach both of request Three's windows from every distance, and come to the
//! other ends too.

use std::collections::BTreeMap;

use peer::category::Category;
use peer::compound::Compound;
use peer::fast::Unit;
use peer::lists::list;
use peer::program::lines;
use peer::residue_line::read;
use peer::unit::Event;

const SEED: u64 = 1;
const LISTS: u64 = 2000;

/// How often each thing came about.
#[derive(Default)]
struct Tally(BTreeMap<String, usize>);

impl Tally {
    fn count(&mut self, thing: String) {
        *self.0.entry(thing).or_default() += 1;
    }

    fn times(&self, thing: &str) -> usize {
        self.0.get(thing).copied().unwrap_or_default()
    }

    fn assert_often(&self, least: usize, thing: String) {
        let times = self.times(&thing);
        assert!(times >= least, "{thing}: {times}, in all {:#?}", self.0);
    }
}

/// What a list has so far.
#[derive(Default)]
struct Story {
    /// Of each sample the year and its count of misidentifications.
    samples: Vec<(u16, u8)>,
    /// After how many samples the last missed line with a count came, and the last refused line.
    missed: usize,
    refused: usize,
}

impl Story {
    /// How many samples before the last the shortest window begins that ends there, has at most so
    /// many samples and more misidentifications than this.
    fn distance(&self, most_samples: usize, most: u32) -> Option<usize> {
        let mut sum = 0;
        let backwards = self.samples.iter().rev().take(most_samples);
        backwards.enumerate().find_map(|(distance, &(_, count))| {
            sum += u32::from(count);
            (sum > most).then_some(distance)
        })
    }

    /// The distances from the last sample back to those before it that have misidentifications.
    fn earlier(&self) -> impl Iterator<Item = usize> + '_ {
        let backwards = self.samples.iter().rev().enumerate().skip(1);
        backwards.filter(|(_, (_, count))| *count > 0).map(|(distance, _)| distance)
    }

    fn opened(&self, over: bool, tally: &mut Tally) {
        let (two, eight) = (self.distance(2, 1), self.distance(8, 2));
        let named = if over { "a chart over" } else { "no chart over" };
        let (ground, distance) = match (two, eight) {
            (Some(two), None) => ("two", two),
            (None, Some(eight)) => ("eight", eight),
            (Some(_), Some(eight)) => ("both", eight),
            (None, None) => panic!("no window is broken"),
        };
        tally.count(format!("by {ground} at {distance}"));
        tally.count(format!("by {ground} at {distance}, {named}"));
        let last = self.samples.len() - 1;
        if last == 0 {
            tally.count("by the first sample".into());
        }
        let first = last - two.or(eight).unwrap_or_default();
        if self.missed > first {
            tally.count(format!("by {ground}, a missed line between"));
        }
        if self.refused > first {
            tally.count(format!("by {ground}, a refused line between"));
        }
        if self.samples[first].0 < self.samples[last].0 {
            tally.count(format!("by {ground}, January between"));
        }
    }

    /// A sample with misidentifications that opened nothing.
    fn passed(&self, tally: &mut Tally) {
        let mut earlier = self.earlier();
        for which in ["second", "third"] {
            let Some(distance) = earlier.next() else { return };
            tally.count(format!("passed: {which} at {distance}"));
        }
    }
}

fn tell(own: Compound, input: &[u8], tally: &mut Tally) {
    let mut unit = Unit::new(Category::Residue(own));
    let mut story = Story::default();
    for text in lines(input).filter(|line| !line.is_empty()) {
        let event = unit.take(text);
        if event.opens_probation() {
            tally.count(format!("event {:02x}", event.bytes()[0]));
        }
        let line = match (event, read(text, own)) {
            (Event::Refused(_), _) | (_, Err(_)) => {
                story.refused = story.samples.len();
                continue;
            }
            (_, Ok(line)) => line,
        };
        if matches!(event, Event::Missed | Event::ProbationByMisses) {
            story.missed = if line.count > 0 { story.samples.len() } else { story.missed };
            continue;
        }
        story.samples.push((line.head.year, line.count));
        match event {
            Event::ProbationByWindows => story.opened(!unit.status().over.is_empty(), tally),
            _ if line.count > 0 => story.passed(tally),
            _ => {}
        }
    }
}

#[test]
fn both_windows_from_every_distance() {
    let own = Compound::new(4).unwrap();
    let mut tally = Tally::default();
    for number in 0..LISTS {
        tell(own, &list(Category::Residue(own), SEED, number), &mut tally);
    }
    println!("{:#?}", tally.0);
    for event in ["06", "07", "08"] {
        tally.assert_often(100, format!("event {event}"));
    }
    for named in ["a chart over", "no chart over"] {
        (0..=1).for_each(|at| tally.assert_often(5, format!("by two at {at}, {named}")));
        // Three ones of which no two are neighbours.
        (4..=7).for_each(|at| tally.assert_often(5, format!("by eight at {at}, {named}")));
        (0..=3).for_each(|at| tally.assert_often(3, format!("by both at {at}, {named}")));
    }
    (0..=7).for_each(|at| tally.assert_often(5, format!("by both at {at}")));
    tally.assert_often(5, "by the first sample".into());
    for between in ["a missed line", "a refused line", "January"] {
        tally.assert_often(5, format!("by two, {between} between"));
        tally.assert_often(5, format!("by eight, {between} between"));
    }
    (2..=9).for_each(|at| tally.assert_often(10, format!("passed: second at {at}")));
    (8..=9).for_each(|at| tally.assert_often(50, format!("passed: third at {at}")));
    assert_eq!(tally.times("passed: second at 1"), 0);
    assert!((2..=7).all(|at| tally.times(&format!("passed: third at {at}")) == 0));
}
