//! Lists with sets at the edges of passing, and units that are closed.

use peer::head::Head;

use crate::list::{at, beginning, Case};

pub fn set_mean_edge() -> Case {
    let case = Case::new(
        "set-mean-edge",
        "Protein at 7 and 8: with nine times 8, S = 261, V = 243 is too much and the set fails; \
         with eight times 8, S = 260, V = 224 passes.",
    );
    let set = |eights: usize| {
        move |place: usize| at(2012, 3).protein(if place <= eights { 8 } else { 7 }).study()
    };
    case.set(set(9), "0500").set(set(8), "0400").expect("020000000000")
}

pub fn set_spread_edge() -> Case {
    let case = Case::new(
        "set-spread-edge",
        "Fat at 11 and -11 but for four lines, Q = 4629: with S = 1, V = 166,643 fails; with \
         S = 3, V = 166,635 passes, the largest that does.",
    );
    let set = |last: [i32; 4]| {
        move |place: usize| {
            let d = match place {
                33.. => last[place - 33],
                _ if place.is_multiple_of(2) => 11,
                _ => -11,
            };
            at(2012, 3).fat(d).study()
        }
    };
    case.set(set([14, -14, -13, 14]), "0500")
        .set(set([8, -20, -2, 17]), "0400")
        .expect("020000000000")
}

pub fn both_sets_failed() -> Case {
    let case = Case::new(
        "both-sets-failed",
        "The first set fails by its mean (36 times d = 8 on moisture), the second by its spread \
         (12 and -12 on fat). Closed: every line that reads is refused 8, whatever else is wrong \
         with it; one that does not read gets its own number.",
    );
    let study = at(2012, 5).study();
    let spread = |place: usize| if place.is_multiple_of(2) { 12 } else { -12 };
    case.set(|_| at(2012, 3).moisture(8).study(), "0500")
        .set(|place| at(2012, 4).fat(spread(place)).study(), "0500")
        .line(study, "0008")
        .line(at(2012, 5).sample(), "0008")
        .line(at(2012, 1).study(), "0008")
        .line(beginning(Head { days: 22, ..study.head }, study), "0008")
        .line(at(2012, 5).lost(), "0008")
        .line(beginning(Head { month: 13, ..study.head }, study), "0004")
        .line(at(2013, 5).study(), "0008")
        .expect("040000000000")
}

pub fn probation_failed() -> Case {
    let case = Case::new(
        "probation-failed",
        "From probation one failed set closes the unit; samples, chart and run stay shown.",
    );
    case.admission(at(2012, 3))
        .line(at(2012, 4).moisture(-25).sample(), "0100")
        .line(at(2012, 4).moisture(-25).sample(), "0100")
        .line(at(2012, 4).moisture(-25).sample(), "0600")
        .set(|_| at(2012, 5).moisture(8).study(), "0500")
        .line(at(2012, 6).study(), "0008")
        .expect("040003000600")
        .expect("01000100030000003c")
        .expect("020001000300000030")
}
