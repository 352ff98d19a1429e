//! Lists whose charts come to their limits, go over them and start anew.

use peer::food_line::SALT;

use crate::list::{at, Case};

/// Fat's d from January to November; chart P of fat stands at 4, 9, 8, 16, 22, 25, 34, 32, 39,
/// 44 and 52.
const FAT_YEAR: [i32; 11] = [8, 9, 3, 12, 10, 7, 13, 2, 11, 9, 12];

fn fat_year(case: Case) -> Case {
    let months = (1..).zip(FAT_YEAR);
    months.fold(case.admission(at(2012, 3)), |case, (month, d)| {
        case.line(at(2013, month).fat(d).sample(), "0100")
    })
}

pub fn fat_near_limit() -> Case {
    let case = Case::new(
        "fat-near-limit",
        "A year that ends accredited: chart P of fat (08) is at its limit, 52, in November and \
         at 51, one under it, in December. At the limit is not over.",
    );
    fat_year(case).line(at(2013, 12).fat(3).sample(), "0100").expect("02000c000000")
}

pub fn fat_over_limit() -> Case {
    let case = Case::new(
        "fat-over-limit",
        "The same year up to November, then one tenth too much in December: 53, probation by \
         charts, run 1 to 12. It shows that `fat-near-limit` was as near as it says.",
    );
    fat_year(case)
        .line(at(2013, 12).fat(5).sample(), "0600")
        .expect("03000c010000")
        .expect("080001000c00000035")
}

fn moisture_year(case: Case, differences: &[i32], last: &str) -> Case {
    let end = differences.len() - 1;
    let months = (1..).zip(differences).enumerate();
    months.fold(case, |case, (place, (month, &d))| {
        let event = if place == end { last } else { "0100" };
        case.line(at(2013, month).moisture(d).sample(), event)
    })
}

pub fn run_and_tie() -> Case {
    let case = Case::new(
        "run-and-tie",
        "Probation by charts with a run from sample 5. Chart P of moisture (00) adds -20, -4, 2, \
         -2, 20, 20, 13: runs 3 to 7 and 5 to 7 both sum to 53, and the shortest is shown.",
    );
    moisture_year(case.admission(at(2012, 3)), &[-17, 0, 6, 2, 25, 25, 17], "0600")
        .expect("030007000100")
        .expect("000005000700000035")
}

pub fn run_from_3() -> Case {
    let case = Case::new(
        "run-from-3",
        "Chart P of moisture adds -20 and then seven times 10: run 3 to 8 with 60 is shown. From \
         sample 2 it would be 70, but no run starts there. Chart V is at its limit, 43.",
    );
    moisture_year(case.admission(at(2012, 3)), &[-17, 14, 14, 14, 14, 14, 14, 14], "0600")
        .expect("030008000100")
        .expect("00000300080000003c")
}

pub fn two_charts() -> Case {
    let case = Case::new(
        "two-charts",
        "One sample leaves two charts over, on different analytes and with different runs: P of \
         moisture (00), run 1 to 6 with 60, and N of fat (09), run 3 to 6 with 56.",
    );
    let fat = [17, 0, -18, -18, -18, -18];
    let months = (1..).zip(fat);
    let year = months.fold(case.admission(at(2012, 3)), |case, (month, d)| {
        let event = if month == 6 { "0600" } else { "0100" };
        case.line(at(2013, month).moisture(14).fat(d).sample(), event)
    });
    year.expect("030006020100").expect("00000100060000003c").expect("090003000600000038")
}

pub fn large_discrepancy() -> Case {
    let case = Case::new(
        "large-discrepancy",
        "Chart D of salt (0f) alone is over after two samples: d = 999 adds 9500, and no salt \
         found where the mean is 2.00 gives d = -132 and adds 7856. The measure has no sign.",
    );
    let mut nothing_found = at(2013, 2).sample();
    nothing_found.readings[SALT] = (1, 0);
    let mut far_above = at(2013, 1).sample();
    far_above.readings[SALT] = (0, 0x42c8_0000);
    case.admission(at(2012, 3))
        .line(far_above, "0100")
        .line(nothing_found, "0600")
        .expect("030002800000")
        .expect("0f00010002000043cc")
}

pub fn january() -> Case {
    let case = Case::new(
        "january",
        "No chart is carried into January: P of moisture stands at 50 in December 2012, then \
         starts anew. Six more samples of 10 each are needed; the run is 1 to 6 of 2013.",
    );
    case.admission(at(2012, 3))
        .lines(5, at(2012, 12).moisture(14).sample(), "0100")
        .lines(5, at(2013, 1).moisture(14).sample(), "0100")
        .line(at(2013, 2).moisture(14).sample(), "0600")
        .expect("030006000100")
        .expect("00000100060000003c")
}
