//! Lists with missed lines, and what is left of them after admission.

use crate::list::{at, Case};

/// Admission, a miss in November 2012 and one in February 2013.
fn two_misses(case: Case) -> Case {
    case.admission(at(2012, 3))
        .line(at(2012, 10).sample(), "0100")
        .line(at(2012, 11).late(), "0200")
        .line(at(2013, 1).sample(), "0100")
        .line(at(2013, 2).lost(), "0700")
}

pub fn misses_two_years() -> Case {
    let case = Case::new(
        "misses-two-years",
        "Probation by misses in two calendar years: results after 22 days in November 2012, a \
         lost reading in February 2013. Misses are not cleared in January; the stretch is new.",
    );
    two_misses(case).expect("030001000001")
}

pub fn misses_11_and_12() -> Case {
    Case::new(
        "misses-11-and-12",
        "Misses in April 2012 and April 2013, 12 months apart, change nothing; the one in March \
         2014, 11 months later, opens probation.",
    )
    .admission(at(2012, 3))
    .line(at(2012, 4).late(), "0200")
    .line(at(2013, 4).late(), "0200")
    .line(at(2013, 5).sample(), "0100")
    .line(at(2014, 3).late(), "0700")
    .expect("030001000001")
}

pub fn readmitted() -> Case {
    let case = Case::new(
        "readmitted",
        "Probation by misses, then a set that passes: admission zeroes all after the stage.",
    );
    two_misses(case).admission(at(2013, 3)).expect("020000000000")
}

pub fn second_probation_by_charts() -> Case {
    let case = Case::new(
        "second-probation-by-charts",
        "As `readmitted`, then a miss, which finds no earlier one, and six samples that start a \
         new stretch in the same year and open probation by charts. The misses byte is 00 again.",
    );
    let readmitted = two_misses(case).admission(at(2013, 3));
    let missed = readmitted.line(at(2013, 4).late(), "0200");
    missed
        .lines(5, at(2013, 5).moisture(14).sample(), "0100")
        .line(at(2013, 5).moisture(14).sample(), "0600")
        .expect("030006000100")
        .expect("00000100060000003c")
}

pub fn second_probation_by_misses() -> Case {
    let case = Case::new(
        "second-probation-by-misses",
        "Probation by charts (N of moisture), admission, then probation by misses: no chart is \
         named any more, and the one sample after admission stands alone in its stretch.",
    );
    case.admission(at(2012, 3))
        .lines(5, at(2012, 4).moisture(-14).sample(), "0100")
        .line(at(2012, 4).moisture(-14).sample(), "0600")
        .admission(at(2012, 5))
        .line(at(2012, 6).moisture(-14).sample(), "0100")
        .line(at(2012, 7).lost(), "0200")
        .line(at(2012, 7).lost(), "0700")
        .expect("030001000001")
}
