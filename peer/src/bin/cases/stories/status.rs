//! A list with empty lines, at which the status is shown.

use crate::list::{at, Case};

const PROBATION: [&str; 5] = [
    "030003050600",
    "01000100030000003c",
    "020001000300000030",
    "08000100030000003c",
    "0a0001000300000030",
];

pub fn status() -> Case {
    let case = Case::new(
        "status",
        "Empty lines show the status and change nothing: before any line, twice in a row, in a \
         set under way, after a refused line, right after admission, after a sample, after a \
         miss, and on probation with four charts over, there also in the set under way. The last \
         line is empty and ended, so the status comes twice.",
    );
    accredited(applicant(case))
        .look(&PROBATION)
        .line(at(2012, 8).sample(), "0009")
        .look(&PROBATION)
        .look(&PROBATION)
        .line(at(2012, 8).study(), "0301")
        .look(&PROBATION)
        .line(at(2012, 8).study(), "0302")
        .look(&PROBATION)
        .status(&PROBATION)
}

/// Up to admission. How many lines a set has is not in the status.
fn applicant(case: Case) -> Case {
    let study = at(2012, 3).study();
    case.look(&["000000000000"])
        .look(&["000000000000"])
        .line(study, "0301")
        .look(&["000000000000"])
        .line(study, "0302")
        .text(b"00", "0001")
        .look(&["000000000000"])
        .set_from(3, |_| study, "0400")
        .look(&["020000000000"])
}

/// Three samples with d = -25 for moisture and 25 for fat. Each adds 20 to N of moisture (01) and
/// to P of fat (08), and 16 to V of both (02, 0a): after the third these are at 60 and 48, and all
/// four are over.
fn accredited(case: Case) -> Case {
    let sample = |month: u8| at(2012, month).moisture(-25).fat(25).sample();
    case.line(sample(4), "0100")
        .look(&["020001000000"])
        .look(&["020001000000"])
        .line(at(2012, 5).late(), "0200")
        .look(&["020001000000"])
        .line(sample(6), "0100")
        .line(sample(5), "000a")
        .look(&["020002000000"])
        .line(sample(7), "0600")
}
