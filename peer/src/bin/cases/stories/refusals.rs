//! Lists with every refusal, and a stretch that is full.

use peer::food_line::{Fields, PROTEIN, SALT};
use peer::head::Head;

use crate::list::{at, beginning, Case};

/// Rows 1 to 7 and 9 to 11, each by a line with a fat reading that would fail the set if it
/// counted; those of rows 9 and 11 have a later month that would make the next line backdated.
fn refused_in_a_set() -> [(Vec<u8>, &'static str); 10] {
    let wrong = at(2012, 3).fat(500).study();
    let mut capital = wrong.text();
    capital[5] = b'C';
    let (mut mean, mut reading) = (wrong, wrong);
    mean.means[PROTEIN] = 4;
    reading.readings[SALT].1 = 0x8000_0000;
    let with = |head: Head| beginning(head, wrong).text();
    [
        (wrong.text()[..67].to_vec(), "0001"),
        (capital, "0002"),
        (with(Head { kind: 3, ..wrong.head }), "0003"),
        (with(Head { month: 13, ..wrong.head }), "0004"),
        (Fields { product: 0x80, ..wrong }.text(), "0005"),
        (mean.text(), "0006"),
        (reading.text(), "0007"),
        (at(2012, 12).fat(500).sample().text(), "0009"),
        (at(2012, 2).fat(500).study().text(), "000a"),
        (with(Head { month: 12, days: 22, ..wrong.head }), "000b"),
    ]
}

pub fn refusals() -> Case {
    let study = at(2012, 3).study();
    let case = Case::new(
        "refusals",
        "Each refusal 1 to 12 once, and after each an accepted line whose number or event shows \
         that nothing moved. Row 8 is last: once closed no line is accepted, and the status shows \
         that nothing moved.",
    );
    let refused = (1..).zip(refused_in_a_set()).fold(case, |case, (place, (text, refusal))| {
        case.line(study, &format!("03{place:02x}")).text(&text, refusal)
    });
    refused
        .set_from(11, |_| study, "0400")
        .lines(999, at(2012, 4).sample(), "0100")
        .line(at(2012, 12).fat(500).sample(), "000c")
        .line(at(2012, 4).late(), "0200")
        .line(at(2013, 1).sample(), "0100")
        .line(at(2013, 2).late(), "0700")
        .set(|_| at(2013, 3).moisture(8).study(), "0500")
        .line(at(2013, 4).study(), "0008")
        .expect("040001000001")
}

pub fn stretch_full() -> Case {
    let case = Case::new(
        "stretch-full",
        "A stretch of 999 samples. The next sample of the year is refused 12, a missed line is \
         not, a sample in December is; January opens a new stretch.",
    );
    case.admission(at(2012, 3))
        .lines(999, at(2013, 1).sample(), "0100")
        .line(at(2013, 1).sample(), "000c")
        .line(at(2013, 2).late(), "0200")
        .line(at(2013, 12).sample(), "000c")
        .line(at(2014, 1).sample(), "0100")
        .line(at(2014, 1).sample(), "0100")
        .expect("020002000000")
}
