//! Lists for the residue program, compound 4: |d| is |h| / 20 to the nearest, halves away from
//! zero, h being result less comparison in thousandths.

use peer::head::Head;
use peer::residue_line::Fields;

use crate::list::Case;
use crate::plain::{FIELDS, RESIDUE};

/// A sample of that month with this h.
pub fn off(year: u16, month: u8, h: i16) -> Fields {
    let head = Head { year, month, ..RESIDUE.head };
    Fields { head, result: RESIDUE.comparison + h, ..RESIDUE }
}

pub fn lost(year: u16, month: u8) -> Fields {
    Fields { tag: 2, result: 0, ..off(year, month, 0) }
}

pub fn misidentified(count: u8, fields: Fields) -> Fields {
    Fields { count, ..fields }
}

pub fn with_days(days: u8, fields: Fields) -> Fields {
    Fields { head: Head { days, ..fields.head }, ..fields }
}

/// The text with its third digit no digit.
pub fn no_digit(fields: Fields) -> Vec<u8> {
    let mut text = fields.text();
    text[2] = b'O';
    text
}

/// | sample | h | d | N | V | D |
/// |---|---|---|---|---|---|
/// | 1 | -90 | -5 | 0, at 0 | -4, at -4 | -250, at -250 |
/// | 2 | -330 | -17 | 12, at 12 | 8, at 4 | -250, at 0 |
/// | 3 | -1000 | -50 | 20, at 32 | 16, at 20 | 4750, at 4750 |
/// | 4 | -2000 | -100 | 20, at 52 | 16, at 36 | 7250, at 12000 |
pub fn low_results() -> Case {
    let case = Case::residue(
        "residue",
        "Low results. N (01) comes to 52, over its limit of 48, and D (03) with it to 12,000, run \
         3 to 4. N's run is 1 to 4, though sample 1 adds 0: none starts at 2. From then on a line \
         that reads is refused 8, one that does not gets its own number.",
    );
    let after = off(2012, 5, 0);
    case.line(off(2012, 1, -90), "0100")
        .line(off(2012, 2, -330), "0100")
        .text(&FIELDS.text(), "0001")
        .text(&no_digit(off(2012, 12, -2000)), "0002")
        .line(off(2012, 3, -1000), "0100")
        .line(lost(2012, 3), "0200")
        .line(off(2012, 4, -2000), "0600")
        .line(after, "0008")
        .line(lost(2012, 5), "0008")
        .line(off(2012, 1, 0), "0008")
        .text(&FIELDS.text(), "0001")
        .text(&no_digit(after), "0002")
        .line(Fields { head: Head { kind: 1, ..after.head }, ..after }, "0003")
        .line(off(2012, 13, 0), "0004")
        .line(Fields { compound: 5, ..after }, "000e")
        .line(Fields { comparison: 10_000, ..after }, "000f")
        .line(misidentified(21, after), "0007")
        .line(off(2013, 1, 0), "0008")
        .expect("030004000a00")
        .expect("010001000400000034")
        .expect("030003000400002ee0")
}

/// Each refusal but 8 and 12, most by a December line with d = 25: if it counted, chart P would be
/// over and the next line backdated.
fn refused_at_the_limit() -> Vec<(Vec<u8>, &'static str)> {
    let wrong = off(2012, 12, 500);
    let mut refused = vec![(wrong.text()[..23].to_vec(), "0001"), (no_digit(wrong), "0002")];
    let lines = [
        (Fields { head: Head { kind: 2, ..wrong.head }, ..wrong }, "0003"),
        (off(2012, 13, 500), "0004"),
        (Fields { compound: 20, ..wrong }, "000e"),
        (Fields { compound: 5, ..wrong }, "000e"),
        (Fields { comparison: 10_000, ..wrong }, "000f"),
        (Fields { comparison: -10_000, ..wrong }, "000f"),
        (Fields { result: 10_000, ..wrong }, "000f"),
        (Fields { result: -10_000, ..wrong }, "000f"),
        (Fields { tag: 2, result: 10_000, ..wrong }, "0007"),
        (Fields { tag: 1, result: 0, ..wrong }, "0007"),
        (Fields { tag: 3, ..wrong }, "0007"),
        (Fields { tag: 2, ..wrong }, "0007"),
        (misidentified(21, wrong), "0007"),
        (off(2012, 2, 500), "000a"),
    ];
    refused.extend(lines.map(|(fields, number)| (fields.text(), number)));
    refused
}

/// 2012: h = 490, 509 and 269 give d = 25, 25 and 13. P adds 20, 20 and 8 and is at 48. After each
/// refusal h = 109 gives d = 5, by which P stays there.
fn at_the_limit(case: Case) -> Case {
    let year = case
        .line(off(2012, 1, 490), "0100")
        .line(off(2012, 2, 509), "0100")
        .line(off(2012, 3, 269), "0100");
    refused_at_the_limit()
        .iter()
        .fold(year, |case, (text, number)| case.text(text, number).line(off(2012, 3, 109), "0100"))
}

/// 2014, the last year:
///
/// | sample | h | d | P | V | D |
/// |---|---|---|---|---|---|
/// | 1 | -310 | -16 | -20, at -20 | 7, at 7 | -250, at -250 |
/// | 2 | 500 | 25 | 20, at 0 | 16, at 23 | -250, at 0 |
/// | 3 | 100 | 5 | 0, at 0 | -4, at 19 | -250, at 0 |
/// | 4 | 270 | 14 | 9, at 9 | 5, at 24 | -250, at 0 |
/// | 5 | 790 | 40 | 20, at 29 | 16, at 40 | 3500, at 3500 |
/// | 6 to 9 | 90 | 5 | 0, at 29 | -4, at 24 | -250, at 2500 |
/// | 10 | 19998 | 999 | 20, at 49 | 16, at 40 | 9500, at 12000 |
///
/// Of P's runs 1 to 10, 3 to 10 and 4 to 10 sum to 49; the shortest is shown.
fn over_the_limit(case: Case) -> Case {
    let farthest = Fields { comparison: -9999, result: 9999, ..off(2014, 10, 0) };
    case.line(off(2014, 1, -310), "0100")
        .line(off(2014, 2, 500), "0100")
        .line(off(2014, 3, 100), "0100")
        .line(off(2014, 4, 270), "0100")
        .line(off(2014, 5, 790), "0100")
        .lines(4, off(2014, 6, 90), "0100")
        .line(farthest, "0600")
}

pub fn residue_charts() -> Case {
    let case = Case::residue(
        "residue-charts",
        "2012: P (00) comes to its limit, 48, and stays there through every refusal but 8 and 12, \
         each followed by a sample that adds 0. 2013: a new stretch, V at its limit, 43. 2014: \
         the first sample sets P to -20; in October P is over with 49, run 4 to 10, the shortest \
         of three, and D with 12,000, run 5 to 10. Then 8, but for lines that do not read. The last \
         line is empty and ended, so the status comes twice.",
    );
    let over = ["03000a000900", "000004000a00000031", "030005000a00002ee0"];
    // 2013: d = 25, -25, 20 and 9. V adds 16, 16, 11 and 0; P is at 20, 0, 15 and 19.
    let year = at_the_limit(case)
        .line(off(2013, 1, 500), "0100")
        .line(off(2013, 1, -500), "0100")
        .line(off(2013, 2, 400), "0100")
        .line(off(2013, 3, 180), "0100");
    let after = off(2014, 12, 0);
    over_the_limit(year)
        .line(after, "0008")
        .line(lost(2014, 12), "0008")
        .line(off(2014, 9, 0), "0008")
        .text(&after.text()[..23], "0001")
        .line(Fields { compound: 19, ..after }, "000e")
        .line(Fields { tag: 2, ..after }, "0007")
        .line(off(2015, 1, 0), "0008")
        .look(&over)
        .status(&over)
}

pub fn residue_misses() -> Case {
    let case = Case::residue(
        "residue-misses",
        "A stretch of 999 samples in April 2012: the next sample of the year is refused 12, a \
         missed line is not. Misses in that April (lost) and in April 2013 (22 days, far off and \
         with 20 misidentifications, which moves no chart and counts for no window) are 12 months \
         apart; the lost one between them is refused and so is none. The one in March 2014, 11 \
         months later, opens probation. 21 days are a sample. The last line has no newline.",
    );
    let spoiled = misidentified(21, lost(2012, 10));
    let mut case = case
        .line(with_days(21, off(2012, 4, 0)), "0100")
        .lines(998, off(2012, 4, 0), "0100")
        .line(off(2012, 4, 0), "000c")
        .line(lost(2012, 4), "0200")
        .line(off(2012, 6, 500), "000c")
        .line(spoiled, "0007")
        .line(misidentified(20, with_days(22, off(2013, 4, 9999))), "0200")
        .line(with_days(21, off(2013, 5, 0)), "0100")
        .line(off(2013, 12, 60), "0100")
        .line(off(2014, 1, 0), "0100")
        .line(off(2014, 2, -60), "0100")
        .line(with_days(255, lost(2014, 3)), "0700")
        .line(off(2014, 3, 0), "0008")
        .line(lost(2014, 4), "0008")
        .line(off(2015, 1, 0), "0008")
        .expect("030002000001");
    case.input.pop();
    case
}

/// Three samples with d = -25: each adds 20 to N (01) and 16 to V (02). After the third these are at
/// 60 and 48, and both are over.
pub fn residue_status() -> Case {
    let case = Case::residue(
        "residue-status",
        "Empty lines show the status and change nothing: before any line, twice in a row, after a \
         sample, a miss and a carriage return alone, which is refused 1, and on probation with \
         two charts over, there also after a line refused 8. The last line comes after an empty \
         one, has no newline and counts.",
    );
    let probation = ["030003000600", "01000100030000003c", "020001000300000030"];
    let mut case = case
        .look(&["020000000000"])
        .look(&["020000000000"])
        .line(off(2012, 1, -500), "0100")
        .look(&["020001000000"])
        .line(lost(2012, 1), "0200")
        .look(&["020001000000"])
        .text(b"\r", "0001")
        .look(&["020001000000"])
        .look(&["020001000000"])
        .line(off(2012, 2, -500), "0100")
        .look(&["020002000000"])
        .line(off(2012, 3, -500), "0600")
        .look(&probation)
        .line(off(2012, 4, 0), "0008")
        .look(&probation)
        .line(off(2012, 5, 0), "0008")
        .status(&probation);
    case.input.pop();
    case
}
