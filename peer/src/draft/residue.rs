//! Residue lines with chosen differences.

use super::Draft;
use crate::compound::Compound;
use crate::random::Random;
use crate::residue_line::{Fields, FARTHEST, FOUND};

/// A residue line that is to be like this.
pub fn fields(draft: &Draft, own: Compound, random: &mut Random) -> Fields {
    let d = draft.differences[0].clamp(-999, 999);
    let least = least_apart(own, d.abs());
    let most = least_apart(own, d.abs() + 1) - 1;
    let apart = match random.below(4) {
        0 => least,
        1 => most,
        _ => random.between(least, most),
    };
    let mut fields = Fields {
        head: draft.head(random),
        compound: own.number(),
        comparison: 0,
        tag: FOUND,
        result: 0,
        count: rare_count(random),
    };
    set_apart(&mut fields, d.signum() * apart, random);
    fields
}

/// A sample with a misidentification is rare, so that lists come to other ends too.
fn rare_count(random: &mut Random) -> u8 {
    match random.below(8000) {
        0 => random.pick(&[2, 20]),
        1..=40 => 1,
        _ => 0,
    }
}

/// By how many thousandths a result is at least off whose |d| is this.
pub fn least_apart(own: Compound, size: i32) -> i32 {
    // |h| × 10 / value is to be at least the size less a half.
    let doubled = (2 * size - 1).max(0) * own.value() as i32;
    (doubled + 19) / 20
}

/// Logs so far apart, or as far as logs go, anywhere or at an end.
pub fn set_apart(fields: &mut Fields, apart: i32, random: &mut Random) {
    let farthest = i32::from(FARTHEST);
    let apart = apart.clamp(-2 * farthest, 2 * farthest);
    let (lowest, highest) = (-farthest - apart.min(0), farthest - apart.max(0));
    let comparison = match random.below(6) {
        0 => lowest,
        1 => highest,
        2 => 0.clamp(lowest, highest),
        _ => random.between(lowest, highest),
    };
    (fields.comparison, fields.result) = (comparison as i16, (comparison + apart) as i16);
}
