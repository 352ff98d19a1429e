//! Request Two: an empty line shows the status there and changes nothing, in both modes and for
//! both categories.

mod common;

use std::iter;

use common::{residue, streamed};
use peer::category::Category;
use peer::fast;
use peer::lists::list;
use peer::program::{ended, lines, read_back, transcript};
use peer::refused::Refusal;
use peer::unit::{Event, Unit};

/// A line of a category, its event at a new unit, and the status before and after it.
struct First {
    line: &'static str,
    event: &'static str,
    before: &'static str,
    after: &'static str,
}

const FOOD: First = First {
    line: "0207dc030a021770070805dc00c80042700000004190000000417000000040000000",
    event: "0301",
    before: "000000000000",
    after: "000000000000",
};
const RESIDUE: First = First {
    line: "0307dd050c04fc180001f400",
    event: "0100",
    before: "020000000000",
    after: "020001000000",
};

/// The input comes in pieces of these sizes: small ones, and those around the length of a line.
const PIECES: [usize; 11] = [1, 2, 3, 23, 24, 25, 67, 68, 69, 70, 4096];

/// Both modes print this, the fast one in whatever pieces the input comes.
fn assert_prints(category: Category, input: &str, expected: &[&str]) {
    let expected: String = expected.iter().map(|line| format!("{line}\n")).collect();
    let text = |output: Vec<u8>| String::from_utf8(output).unwrap();
    assert_eq!(text(transcript(category, input.as_bytes())), expected, "{input:?}");
    for piece in PIECES {
        let output = text(streamed(category, input.as_bytes(), piece));
        assert_eq!(output, expected, "{input:?} in pieces of {piece}");
    }
}

#[test]
fn around_newlines() {
    for (category, new) in [(Category::Food, FOOD.before), (residue(4), RESIDUE.before)] {
        assert_prints(category, "", &[new]);
        assert_prints(category, "\n", &[new, new]);
        assert_prints(category, "\n\n", &[new, new, new]);
        assert_prints(category, "a", &["0001", new]);
        assert_prints(category, "a\n", &["0001", new]);
        assert_prints(category, "a\n\n", &["0001", new, new]);
        assert_prints(category, "\na", &[new, "0001", new]);
        assert_prints(category, "a\n\nb", &["0001", new, "0001", new]);
        assert_prints(category, "\r", &["0001", new]);
        assert_prints(category, "\r\n", &["0001", new]);
        assert_prints(category, "\n\r\n\n", &[new, "0001", new, new]);
    }
}

/// A newline that comes first in a piece ends the line that the last piece broke off; only the next
/// one is an empty line.
#[test]
fn around_a_line() {
    for (category, first) in [(Category::Food, FOOD), (residue(4), RESIDUE)] {
        let First { line, event, before, after } = first;
        assert_prints(category, &format!("\n\n{line}"), &[before, before, event, after]);
        assert_prints(category, &format!("{line}\n"), &[event, after]);
        assert_prints(category, &format!("{line}\n\n\n"), &[event, after, after, after]);
        assert_prints(
            category,
            &format!("\n{line}\n\n{line}0\n\n\r\n{line}\r\n\n"),
            &[before, event, after, "0001", after, "0001", "0001", after, after],
        );
    }
}

/// h = 1500 gives d = 75: D takes 6667 - 250 twice and is over with 12,834.
#[test]
fn with_a_chart_over() {
    let First { line, after: once, .. } = RESIDUE;
    let [status, chart] = ["030002000800", "030001000200003222"];
    assert_prints(
        residue(4),
        &format!("{line}\n\n{line}\n\n\n{line}\n\n"),
        &["0100", once, "0600", status, chart, status, chart, "0008", status, chart, status, chart],
    );
}

#[test]
fn the_reader_below_still_refuses_length_0() {
    for category in [Category::Food, residue(4)] {
        assert_eq!(read_back(category, b""), b"01");
        assert_eq!(Unit::new(category).take(b""), Event::Refused(Refusal::Length));
        assert_eq!(fast::Unit::new(category).take(b""), Event::Refused(Refusal::Length));
    }
}

/// Each status of an empty line, after the events alone, is what is printed for the lines before it
/// with the empty ones dropped. So is the one at the end, which comes as if after an empty line.
fn assert_as_if_dropped(category: Category, input: &[u8]) {
    const CHART_DIGITS: usize = 18;
    let output = transcript(category, input);
    let mut printed = lines(&output).peekable();
    let (mut kept, mut events) = (Vec::new(), Vec::new());
    for line in lines(input).chain([&b""[..]]) {
        let first = printed.next().unwrap();
        if !line.is_empty() {
            kept.push(line);
            events.push(first);
            continue;
        }
        let mut without = events.clone();
        without.push(first);
        without.extend(iter::from_fn(|| printed.next_if(|line| line.len() == CHART_DIGITS)));
        assert!(ended(&without) == transcript(category, &ended(&kept)), "{} lines", kept.len());
    }
    assert_eq!(printed.next(), None);
}

#[test]
fn lists_are_read_with_empty_lines_dropped() {
    for category in [Category::Food, residue(4)] {
        for number in 0..8 {
            assert_as_if_dropped(category, &list(category, 4, number));
        }
    }
}
