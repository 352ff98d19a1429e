//! Lists for the residue program in which misidentifications stand close together. In every sample
//! without an h the result is that of the comparison, d = 0, and no chart rises.

use peer::residue_line::Fields;

use super::residue::{lost, misidentified, no_digit, off, with_days};
use crate::list::Case;

/// | sample | month | count | window that ends there |
/// |---|---|---|---|
/// | 1 | January | 0 | |
/// | 2 | January | 1 | 1 to 2: 1 |
/// | 3 to 10 | February | 0 | |
/// | 11 | March | 1 | 10 to 11: 1, and 4 to 11: 1 |
/// | 12 | April | 1 | 11 to 12: 2, which is too many; 5 to 12: 2 |
pub fn residue_two() -> Case {
    let case = Case::residue(
        "residue-two",
        "One misidentification in each of two neighbouring samples, 11 and 12: event 08, no chart \
         named, the misses byte 00. Between them stand a missed line with 20 and refused lines, \
         which keep no samples apart and count nothing. The one in sample 2 is long past. From \
         then on 8, but for a line that does not read.",
    );
    let one = |month: u8| misidentified(1, off(2012, month, 0));
    refused_between(
        case.line(off(2012, 1, 0), "0100")
            .line(one(1), "0100")
            .lines(8, off(2012, 2, 0), "0100")
            .line(one(3), "0100"),
    )
    .line(misidentified(20, with_days(22, off(2012, 3, 0))), "0200")
    .look(&["02000b000000"])
    .line(one(4), "0800")
    .look(&["03000c000000"])
    .line(off(2012, 4, 0), "0008")
    .line(misidentified(20, off(2012, 5, 0)), "0008")
    .line(lost(2012, 5), "0008")
    .line(off(2012, 1, 0), "0008")
    .line(misidentified(21, off(2012, 5, 0)), "0007")
    .line(off(2013, 1, 0), "0008")
    .expect("03000c000000")
}

/// In March 2012, after a line of that month.
fn refused_between(case: Case) -> Case {
    let one = misidentified(1, off(2012, 3, 0));
    case.text(&one.text()[..22], "0001")
        .text(&no_digit(one), "0002")
        .line(Fields { compound: 5, ..one }, "000e")
        .line(misidentified(21, one), "0007")
        .line(misidentified(1, off(2012, 2, 0)), "000a")
}

/// A sample a month from January 2012 on, as many as there are months.
///
/// | sample | month | count | h | d | P | three that end there |
/// |---|---|---|---|---|---|---|
/// | 1 | January | 1 | | 0 | -5, at -5 | |
/// | 5 | May | 1 | | 0 | -5, at 0 | |
/// | 9 | September | 1 | | 0 | -5, at 0 | 1, 5, 9: not in any eight |
/// | 10 | October | 0 | 500 | 25 | 20, at 20 | |
/// | 11 | November | 0 | 500 | 25 | 20, at 40 | |
/// | 12 | December | 0 | 260 | 13 | 8, at 48 | |
/// | 13 | January 2013 | 1 | 500 | 25 | 20, at 20 anew | 5, 9, 13: not in any eight |
/// | 14, 15 | February, March | 0 | | 0 | -5, at 15, at 10 | |
/// | 16 | April | 1 | | 0 | -5, at 5 | 9, 13, 16: in 9 to 16, which are eight |
///
/// V adds 16, 16, 4 in October to December and is at 36; D stays at 0.
pub fn residue_eight() -> Case {
    let case = Case::residue(
        "residue-eight",
        "One misidentification in every fourth sample, 1, 5, 9 and 13: of any three the last comes \
         eight samples after the first, which is allowed. With one in sample 16 there are three \
         in samples 9 to 16: event 08. The missed line between, which has 20, is no sample. \
         Sample 13 is January's: P, at its limit of 48 in December, starts anew, the window does \
         not, and the status counts four samples.",
    );
    let one = |month: u8| misidentified(1, off(2012, month, 0));
    let clean = |case: Case, months: std::ops::RangeInclusive<u8>| {
        months.fold(case, |case, month| case.line(off(2012, month, 0), "0100"))
    };
    let spring = clean(case.line(one(1), "0100"), 2..=4).line(one(5), "0100");
    clean(spring, 6..=8)
        .line(one(9), "0100")
        .line(off(2012, 10, 500), "0100")
        .line(off(2012, 11, 500), "0100")
        .line(off(2012, 12, 260), "0100")
        .look(&["02000c000000"])
        .line(misidentified(1, off(2013, 1, 500)), "0100")
        .line(off(2013, 2, 0), "0100")
        .line(misidentified(20, lost(2013, 2)), "0200")
        .line(off(2013, 3, 0), "0100")
        .look(&["020003000000"])
        .line(misidentified(1, off(2013, 4, 0)), "0800")
        .line(off(2013, 5, 0), "0008")
        .expect("030004000000")
}

/// | sample | month | count | h | d | P | V | D |
/// |---|---|---|---|---|---|---|---|
/// | 1 | November 2012 | 1 | | 0 | -5, at -5 | -4, at -4 | -250, at -250 |
/// | 2 | December | 0 | | 0 | -5, at 0 | -4, at 0 | -250, at 0 |
/// | 3 | January 2013 | 1 | 490 | 25 | 20, at 20 anew | 16, at 16 | -250, at -250 |
/// | 4 | February | 0 | 509 | 25 | 20, at 40 | 16, at 32 | -250, at 0 |
/// | 5 | March | 0 | 269 | 13 | 8, at 48 | 4, at 36 | -250, at 0 |
/// | 6 | April | 1 | 119 | 6 | 1, at 49 | -3, at 33 | -250, at 0 |
///
/// Samples 1 to 6 have three. They are samples 1 to 4 of 2013 in which P is over.
pub fn residue_both() -> Case {
    let case = Case::residue(
        "residue-both",
        "In April 2013 both hold: P (00) comes to 49, one over its limit, and samples 1 to 6, of \
         two years, have three misidentifications. Event 08 is printed, not 06, and the status \
         names P all the same, with its run, 1 to 4 of 2013. No two of them are neighbours. The \
         last line is empty and ended, so the status comes twice.",
    );
    let over = ["030004000100", "000001000400000031"];
    case.line(misidentified(1, off(2012, 11, 0)), "0100")
        .line(off(2012, 12, 0), "0100")
        .line(misidentified(1, off(2013, 1, 490)), "0100")
        .line(off(2013, 2, 509), "0100")
        .line(off(2013, 3, 269), "0100")
        .look(&["020003000000"])
        .line(misidentified(1, off(2013, 4, 119)), "0800")
        .look(&over)
        .line(off(2013, 5, 0), "0008")
        .look(&over)
        .status(&over)
}

/// | line | count | sample |
/// |---|---|---|
/// | lost | 2 | none |
/// | refused, three of them | 2, 2, 21 | none |
/// | January | 2 | 1, the first: a window as it is, with more than one |
pub fn residue_first() -> Case {
    let case = Case::residue(
        "residue-first",
        "The first sample has two misidentifications and opens probation at once: event 08. The \
         missed line and the refused ones before it have as many or more, but are no samples. \
         The last line has no newline.",
    );
    let two = misidentified(2, off(2012, 1, 0));
    let mut case = case
        .line(misidentified(2, lost(2012, 1)), "0200")
        .line(misidentified(2, off(2011, 12, 0)), "000a")
        .line(Fields { compound: 5, ..two }, "000e")
        .line(misidentified(21, two), "0007")
        .look(&["020000000000"])
        .line(two, "0800")
        .look(&["030001000000"])
        .line(off(2012, 2, 0), "0008")
        .line(lost(2012, 2), "0008")
        .expect("030001000000");
    case.input.pop();
    case
}
