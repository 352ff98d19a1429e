//! Damaged lines: spoiled so that rows of "Refused" which reading looks at fit, often several.

use crate::draft::Fields;
use crate::food_line::{self, ANALYTES, FAT, PROTEIN};
use crate::random::Random;
use crate::residue_line::{self, FARTHEST, FOUND, LOST};

const GROUND_BEEF: u8 = 1;

/// A line spoiled so that one or more of these rows mostly fit; now and then it still reads.
pub fn damaged(fields: Fields, random: &mut Random) -> Vec<u8> {
    let mut spoiled = fields;
    let choice = match fields {
        Fields::Food(_) => [1, 1, 2, 2, 3, 4, 5, 6, 7, 7],
        Fields::Residue(_) => [1, 2, 3, 4, 14, 14, 15, 15, 7, 7],
    };
    let mut rows: Vec<u8> =
        (0..random.pick(&[1, 1, 1, 2, 3])).map(|_| random.pick(&choice)).collect();
    rows.sort();
    for row in &rows {
        spoil(&mut spoiled, *row, random);
    }
    let mut text = spoiled.text();
    if rows.contains(&2) {
        text = with_another_byte(text, random);
    }
    if rows.contains(&1) {
        text = of_another_length(text, random);
    }
    text
}

/// The fields for one of the rows after 2.
fn spoil(fields: &mut Fields, row: u8, random: &mut Random) {
    match (row, fields) {
        (3, fields) => fields.head().kind = random.pick(&[0, 3, 0x10, 0x81, 0xff]),
        (4, fields) if random.percent(50) => {
            fields.head().year = random.pick(&[0, 1999, 2000, 2099, 2100, u16::MAX]);
        }
        (4, fields) => fields.head().month = random.pick(&[0, 13, 0xff]),
        (row, Fields::Food(fields)) => spoil_food(fields, row, random),
        (row, Fields::Residue(fields)) => spoil_residue(fields, row, random),
    }
}

fn spoil_food(fields: &mut food_line::Fields, row: u8, random: &mut Random) {
    match row {
        5 => {
            fields.product = random.pick(&[0x80, 0x81, 0x83, 0x04, 0x0a, 0x12, 0x22, 0x42, 0xff]);
        }
        6 => spoil_mean(fields, random),
        7 => fields.readings[random.below(ANALYTES)] = bad_reading(random),
        _ => {}
    }
}

fn spoil_mean(fields: &mut food_line::Fields, random: &mut Random) {
    match random.below(5) {
        0 => fields.means[PROTEIN] = random.between(0, 5) as u16,
        1 => fields.means[FAT] = random.between(0, 1) as u16,
        2 => (fields.product, fields.means[FAT]) = (GROUND_BEEF, random.pick(&[0, 1, 1249, 1250])),
        3 => fields.means[random.below(ANALYTES)] = random.pick(&[10_000, 10_001]),
        _ => {
            fields.means[random.below(ANALYTES)] = random.pick(&[10_001, 10_002, 0x8000, u16::MAX])
        }
    }
}

fn bad_reading(random: &mut Random) -> (u8, u32) {
    match random.below(4) {
        0 => (random.pick(&[3, 4, 0x80, 0xff]), 0),
        1 => (random.pick(&[1, 2]), 1 << random.pick(&[0, 8, 16, 24, 31])),
        2 => (0, random.pick(&[0x42c8_0001, 0x8000_0000, 0x8000_0001, 0x7f80_0000, 0x7fc0_0000])),
        _ => (0, random.number() as u32),
    }
}

fn spoil_residue(fields: &mut residue_line::Fields, row: u8, random: &mut Random) {
    match row {
        14 => fields.compound = random.pick(&[0, 3, 4, 5, 16, 17, 19, 20, 21, 0x84, 0xff]),
        15 if random.percent(50) => fields.comparison = log_at_an_end(random),
        15 => (fields.tag, fields.result) = (random.pick(&[FOUND, LOST]), log_at_an_end(random)),
        7 => match random.below(3) {
            0 => {
                fields.tag = random.pick(&[1, 3, 4, 0x80, 0xff]);
                fields.result *= random.pick(&[0, 1]);
            }
            1 => (fields.tag, fields.result) = (LOST, random.pick(&[0, 1, -1, 0x0100, i16::MIN])),
            _ => fields.count = random.pick(&[20, 21, 22, 0x80, 0xff]),
        },
        _ => {}
    }
}

/// The last log inside or the first outside, on either side, or one further out.
fn log_at_an_end(random: &mut Random) -> i16 {
    random.pick(&[FARTHEST, FARTHEST + 1, -FARTHEST, -FARTHEST - 1, i16::MIN, i16::MAX])
}

fn of_another_length(mut text: Vec<u8>, random: &mut Random) -> Vec<u8> {
    let whole = text.len();
    match random.below(8) {
        0 => text.clear(),
        1 => text.truncate(whole - 1),
        2 => text.push(random.pick(b"0\r ")),
        3 => text.truncate(random.below(whole)),
        4 => text.resize(whole + random.below(200), b'0'),
        5 => text.resize(5000 + random.below(9000), b'a'),
        6 => text = text.repeat(2),
        _ => text = (0..random.below(100)).map(|_| random.number() as u8).collect(),
    }
    text
}

fn with_another_byte(mut text: Vec<u8>, random: &mut Random) -> Vec<u8> {
    let at = random.below(text.len());
    match random.below(5) {
        0 => text[at] = random.number() as u8,
        1 | 2 => text[at] = random.pick(b"/:`g@G \r\n\x00\xff"),
        3 => text[at] = random.pick(b"0123456789abcdef"),
        _ => text.make_ascii_uppercase(),
    }
    text
}
