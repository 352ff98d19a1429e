//! Request One's figures, each worked out by hand.

use peer::category::Category;
use peer::charts::{contributions, highest_run, Run, RESIDUE};
use peer::compound::Compound;
use peer::difference::residue_difference;
use peer::program::{read_back, transcript};
use peer::refused::Refusal;
use peer::residue_line::{read, Outcome};

fn compound(number: u8) -> Compound {
    Compound::new(number).unwrap()
}

/// d for a result so many thousandths above the comparison, for a compound with value 0.20 and for
/// one with 0.25.
fn both(h: i16) -> [i32; 2] {
    [compound(16), compound(17)].map(|own| residue_difference(h, 0, own.value()))
}

#[test]
fn values_by_compound() {
    assert!((0..=16).all(|number| compound(number).value() == 200));
    assert!((17..=19).all(|number| compound(number).value() == 250));
    assert_eq!(Compound::new(20), Err(Refusal::Compound));
    assert_eq!(Refusal::Compound.number(), 14);
    assert_eq!(Refusal::Log.number(), 15);
    assert_eq!(
        [compound(0), compound(4), compound(15), compound(19)].map(Compound::name),
        ["aldrin", "DDT", "nonachlor", "nitrosamine"]
    );
}

#[test]
fn halves_go_away_from_zero() {
    assert_eq!(both(9), [0, 0]);
    assert_eq!(both(10), [1, 0]);
    assert_eq!(both(-10), [-1, 0]);
    assert_eq!(both(12), [1, 0]);
    assert_eq!(both(13), [1, 1]);
    assert_eq!(both(-12), [-1, 0]);
    assert_eq!(both(-13), [-1, -1]);
    // With 0.25 the halves lie between two thousandths: at 12.5, 37.5 and so on.
    assert_eq!(both(37), [2, 1]);
    assert_eq!(both(38), [2, 2]);
    assert_eq!(both(490), [25, 20]);
    assert_eq!(both(489), [24, 20]);
}

#[test]
fn the_cap() {
    let farthest = |own: Compound| residue_difference(9999, -9999, own.value());
    assert_eq!(farthest(compound(4)), 999);
    assert_eq!(farthest(compound(19)), 800);
    assert_eq!(residue_difference(-9999, 9999, 200), -999);
    assert_eq!(residue_difference(9989, -9980, 200), 998);
    assert_eq!(residue_difference(9990, -9980, 200), 999);
}

#[test]
fn turning_points_of_p_and_n() {
    let p = [26, 25, 24, 6, 5, 4, -14, -15, -16].map(|d| RESIDUE.positive(d));
    assert_eq!(p, [20, 20, 19, 1, 0, -1, -19, -20, -20]);
    let n = [-26, -25, -24, -6, -5, -4, 14, 15, 16].map(|d| RESIDUE.negative(d));
    assert_eq!(n, p);
    assert_eq!(contributions(&[18], &RESIDUE), [13, -20, 9, -250]);
    assert_eq!(contributions(&[-26], &RESIDUE), [-20, 20, 16, 135]);
}

/// Chart P's law alone.
#[test]
fn at_the_limit_and_over() {
    let run = |contributions: &[i32]| highest_run(contributions).unwrap();
    assert_eq!([0, 1, 2, 3].map(|chart| RESIDUE.limit(chart)), [48, 48, 43, 10_000]);
    assert_eq!(run(&[20, 20, 8]).sum, 48);
    assert!(run(&[20, 20, 8]).sum <= RESIDUE.limit(0));
    assert_eq!(run(&[20, 20, 9]), Run { first: 1, last: 3, sum: 49 });
    assert!(run(&[20, 20, 9]).sum > RESIDUE.limit(0));
}

/// May 2013, 12 days, comparison -1.000, result 0.500, one misidentification.
const LINE: &str = "0307dd050c04fc180001f401";

#[test]
fn a_line_by_its_fields() {
    let line = read(LINE.as_bytes(), compound(4)).unwrap();
    assert_eq!((line.head.year, line.head.month, line.head.days), (2013, 5, 12));
    assert_eq!((line.comparison, line.outcome, line.count), (-1000, Outcome::Log(500), 1));
    assert_eq!(line.write(), LINE.as_bytes());
    assert_eq!(read(LINE.as_bytes(), compound(5)), Err(Refusal::Compound));
    let own = Category::tested_residue();
    assert_eq!(read_back(own, LINE.as_bytes()), LINE.as_bytes());
    assert_eq!(read_back(own, b"0307dd050c04fc180001f4"), b"01");
    assert_eq!(read_back(own, b"0307dd050c14fc180001f401"), b"0e");
    assert_eq!(read_back(own, b"0307dd050c0427100001f401"), b"0f");
}

/// h = 1500 gives d = 75: P 20, V 16, D 6667 - 250. After the second D is at 12,834 and over. None
/// has a misidentification.
#[test]
fn the_program() {
    let own = Category::tested_residue();
    assert_eq!(transcript(own, b""), b"020000000000\n");
    let input = ["0307dd050c04fc180001f400"; 3].join("\n");
    let expected = "0100\n0600\n0008\n030002000800\n030001000200003222\n";
    assert_eq!(String::from_utf8(transcript(own, input.as_bytes())).unwrap(), expected);
}
