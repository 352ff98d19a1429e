//! Request Three's windows, each worked out by hand: at most one misidentification in any two
//! consecutive samples, at most two in any eight.

mod common;

use common::{residue, streamed};
use peer::category::Category;
use peer::lists::list;
use peer::program::{lines, transcript};

/// Compound 4, ten days, the logs of comparison and result both -1.000: d = 0, by which no chart
/// rises.
fn sample(year: u16, month: u8, count: u8) -> String {
    format!("03{year:04x}{month:02x}0a04fc1800fc18{count:02x}")
}

fn lost(year: u16, month: u8, count: u8) -> String {
    format!("03{year:04x}{month:02x}0a04fc18020000{count:02x}")
}

/// d = 75, by which chart D takes 6667 - 250.
fn far_off(count: u8) -> String {
    format!("0307dc010a04fc180001f4{count:02x}")
}

/// Both modes print this for the lines, the status at the end included.
fn assert_prints(list: &[String], expected: &[&str]) {
    let input = list.join("\n");
    let expected = expected.join("\n") + "\n";
    let text = |output: Vec<u8>| String::from_utf8(output).unwrap();
    assert_eq!(text(transcript(residue(4), input.as_bytes())), expected, "{input}");
    assert_eq!(text(streamed(residue(4), input.as_bytes(), 4096)), expected, "{input}");
}

/// Samples of one month by the digits of their counts. Each answer is 1 for event 01, 8 for event
/// 08, x for refusal 8.
fn assert_answers(counts: &str, answers: &str) {
    let count = |digit: char| digit.to_digit(10).unwrap() as u8;
    let list: Vec<String> = counts.chars().map(|digit| sample(2012, 1, count(digit))).collect();
    let event = |answer: char| match answer {
        '1' => "0100",
        '8' => "0800",
        _ => "0008",
    };
    let mut expected: Vec<&str> = answers.chars().map(event).collect();
    let taken = answers.replace('x', "").len();
    let stage = if answers.contains('8') { 3 } else { 2 };
    let status = format!("{stage:02x}{taken:04x}000000");
    expected.push(&status);
    assert_prints(&list, &expected);
}

#[test]
fn one_in_any_two() {
    assert_answers("1", "1");
    assert_answers("11", "18");
    assert_answers("110", "18x");
    assert_answers("0011", "1118");
    assert_answers("101", "111");
    assert_answers("100000000011", "111111111118");
}

/// A window may be one sample: where it is the first, and anywhere else.
#[test]
fn two_in_one_sample() {
    assert_answers("2", "8");
    assert_answers("3", "8");
    assert_answers("20", "8x");
    assert_answers("02", "18");
    assert_answers("00000002", "11111118");
    assert_answers("000000002", "111111118");
    assert_answers("100000002", "111111118");
    assert_prints(&[sample(2012, 1, 20)], &["0800", "030001000000"]);
}

#[test]
fn two_in_any_eight() {
    assert_answers("10000001", "11111111");
    assert_answers("100000001", "111111111");
    // Three, the third four to eight samples after the first.
    assert_answers("10101", "11118");
    assert_answers("100101", "111118");
    assert_answers("101001", "111118");
    assert_answers("1001001", "1111118");
    assert_answers("10100001", "11111118");
    assert_answers("10010001", "11111118");
    assert_answers("10000101", "11111118");
    assert_answers("101000001", "111111111");
    assert_answers("100010001", "111111111");
    assert_answers("100000101", "111111111");
    // Every fourth sample, as long as they come; the last one sample sooner.
    assert_answers("1000100010001000", "1111111111111111");
    assert_answers("1000100010001001", "1111111111111118");
    assert_answers("000000000010100001", "111111111111111118");
    assert_answers("10100000101", "11111111111");
}

/// Both windows are broken at once; one event is printed.
#[test]
fn two_and_eight() {
    assert_answers("1011", "1118");
    assert_answers("10000011", "11111118");
    assert_answers("102", "118");
}

/// January opens a new stretch, but no new window.
#[test]
fn across_januaries() {
    let (one, clean) = (|year| sample(year, 1, 1), |year| sample(year, 1, 0));
    assert_prints(&[one(2012), one(2013)], &["0100", "0800", "030001000000"]);
    assert_prints(
        &[one(2012), clean(2012), one(2013), clean(2014), one(2016)],
        &["0100", "0100", "0100", "0100", "0800", "030001000000"],
    );
    assert_prints(&[one(2012), clean(2012), one(2013)], &["0100", "0100", "0100", "020001000000"]);
}

/// A missed line is no sample: it keeps no two apart, and its count counts nothing. Neither does a
/// refused line.
#[test]
fn lines_that_are_no_samples() {
    let one = || sample(2012, 2, 1);
    let late = sample(2012, 2, 20).replacen("0a04", "1604", 1);
    for missed in [lost(2012, 2, 0), lost(2012, 2, 20), late.clone()] {
        assert_prints(&[one(), missed.clone(), one()], &["0100", "0200", "0800", "030002000000"]);
        assert_prints(
            &[one(), missed, sample(2012, 2, 0), one()],
            &["0100", "0200", "0100", "0100", "020003000000"],
        );
    }
    let refused = [
        (sample(2012, 1, 1), "000a"),
        (sample(2012, 2, 21), "0007"),
        (one().replacen("0a04", "0a05", 1), "000e"),
        (one()[..23].to_string(), "0001"),
    ];
    for (line, answer) in refused {
        assert_prints(&[one(), line.clone(), one()], &["0100", answer, "0800", "030002000000"]);
        assert_prints(
            &[one(), line, sample(2012, 2, 0), one()],
            &["0100", answer, "0100", "0100", "020003000000"],
        );
    }
    // Two misses open probation by misses, whatever their counts.
    assert_prints(&[lost(2012, 2, 20), late], &["0200", "0700", "030000000001"]);
    assert_prints(&[lost(2012, 1, 20), sample(2012, 2, 2)], &["0200", "0800", "030001000000"]);
}

/// The sample that a full stretch does not take counts nothing.
#[test]
fn a_full_stretch() {
    let mut list = vec![sample(2012, 1, 0); 998];
    list.extend([sample(2012, 1, 1), sample(2012, 1, 20), sample(2013, 1, 0), sample(2013, 1, 1)]);
    let mut expected = vec!["0100"; 999];
    expected.extend(["000c", "0100", "0100", "020002000000"]);
    assert_prints(&list, &expected);
}

/// D is at 6417, then at 12,834 and over.
#[test]
fn in_place_of_charts() {
    let over = ["030002000800", "030001000200003222"];
    let answers = |event| ["0100", event, over[0], over[1]];
    assert_prints(&[far_off(0), far_off(0)], &answers("0600"));
    assert_prints(&[far_off(0), far_off(1)], &answers("0600"));
    assert_prints(&[far_off(1), far_off(1)], &answers("0800"));
    assert_prints(&[far_off(0), far_off(2)], &answers("0800"));
}

/// As after any probation: 8 for a line that reads, else its own number.
#[test]
fn lines_after_it() {
    let list = [
        sample(2012, 1, 2),
        sample(2012, 1, 0),
        sample(2011, 12, 0),
        lost(2012, 1, 0),
        sample(2012, 1, 21),
        sample(2012, 13, 2),
        sample(2013, 1, 2),
    ];
    let expected = ["0800", "0008", "0008", "0008", "0007", "0004", "0008", "030001000000"];
    assert_prints(&list, &expected);
}

/// A food line has no count, and a residue line given to a food unit is refused for its length.
#[test]
fn food_has_none() {
    assert!(Category::Food.windows().is_empty());
    assert_eq!(transcript(Category::Food, sample(2012, 1, 2).as_bytes()), b"0001\n000000000000\n");
    for number in 0..10 {
        let output = transcript(Category::Food, &list(Category::Food, 5, number));
        assert!(lines(&output).all(|line| line != b"0800"), "list {number}");
    }
}
