//! The rows of `lines` for food: each with what it shows and what must come of it.

use peer::draft::food::halves;
use peer::food_line::{Fields, FAT, MOISTURE, PROTEIN, SALT};
use peer::head::Head;

use crate::plain::FIELDS;
use crate::rows::{self, Row};

type Rows = rows::Rows<Fields>;

/// The moisture reading's tag and bits.
fn reading(rows: &mut Rows, shows: &str, refusal: u8, tag: u8, bits: u32) {
    rows.line(shows, refusal, |fields| fields.readings[MOISTURE] = (tag, bits));
}

fn mean(rows: &mut Rows, shows: &str, refusal: u8, product: u8, analyte: usize, mean: u16) {
    rows.line(shows, refusal, |fields| {
        fields.product = product;
        fields.means[analyte] = mean;
    });
}

pub fn rows() -> Vec<Row> {
    let mut rows = Rows::new(FIELDS, |fields| &mut fields.head, Fields::text);
    lengths(&mut rows);
    digits(&mut rows);
    rows.kinds(&[(0x00, 3), (0x01, 0), (0x03, 3), (0x81, 3)]);
    rows.dates();
    products(&mut rows);
    means(&mut rows);
    tags(&mut rows);
    percents(&mut rows);
    two_faults(&mut rows);
    rows.rows
}

fn lengths(rows: &mut Rows) {
    let text = FIELDS.text();
    rows.text("document 01's line", 0, text.clone());
    rows.text("length 0", 1, Vec::new());
    rows.text("length 1", 1, text[..1].to_vec());
    rows.text("length 67", 1, text[..67].to_vec());
    rows.text("length 69", 1, [&text[..], b"0"].concat());
    rows.text("length 70", 1, [&text[..], b"00"].concat());
    rows.text("length 69: a carriage return at the end", 1, [&text[..], b"\r"].concat());
    rows.text("length 136: two lines without a newline between", 1, text.repeat(2));
}

fn digits(rows: &mut Rows) {
    rows.byte("uppercase digit: C for c in the year", 2, 5, b'C');
    rows.text("all digits in uppercase", 2, FIELDS.text().to_ascii_uppercase());
    for (shows, refusal, at, byte) in [
        ("'/', the byte before '0'", 2, 67, b'/'),
        ("'0', the first digit, in the same place", 0, 67, b'0'),
        ("':', the byte after '9', first in the line", 2, 0, b':'),
        ("'`', the byte before 'a'", 2, 36, b'`'),
        ("'a' in the same place", 0, 36, b'a'),
        ("'g', the byte after 'f'", 2, 37, b'g'),
        ("'f' in the same place", 0, 37, b'f'),
        ("'@', the byte before 'A'", 2, 20, b'@'),
        ("a space", 2, 33, b' '),
        ("byte 00", 2, 12, 0x00),
        ("byte ff", 2, 13, 0xff),
        ("byte b0, '0' with bit 7 set", 2, 14, 0xb0),
    ] {
        rows.byte(shows, refusal, at, byte);
    }
}

fn products(rows: &mut Rows) {
    for (shows, refusal, product) in [
        ("class 0, cured pork and canned ham", 0, 0x00),
        ("class 1, ground beef", 0, 0x01),
        ("class 3, poultry", 0, 0x03),
        ("bit 7 with class 0", 5, 0x80),
        ("bit 7 with class 1", 5, 0x81),
        ("bit 7 with class 2, dry salami or pepperoni", 0, 0x82),
        ("bit 7 with class 3", 5, 0x83),
        ("bit 2", 5, 0x06),
        ("bit 3", 5, 0x0a),
        ("bit 4", 5, 0x12),
        ("bit 5", 5, 0x22),
        ("bit 6", 5, 0x42),
        ("bits 7 and 6 with class 2", 5, 0xc2),
    ] {
        rows.line(shows, refusal, |fields| fields.product = product);
    }
}

fn means(rows: &mut Rows) {
    for (name, analyte) in
        [("moisture", MOISTURE), ("protein", PROTEIN), ("fat", FAT), ("salt", SALT)]
    {
        mean(rows, &format!("{name} mean 10000"), 0, 2, analyte, 10_000);
        mean(rows, &format!("{name} mean 10001"), 6, 2, analyte, 10_001);
    }
    for (shows, refusal, product, analyte, own) in [
        ("moisture mean 0", 0, 2, MOISTURE, 0),
        ("salt mean 0", 0, 2, SALT, 0),
        ("protein mean 4", 6, 2, PROTEIN, 4),
        ("protein mean 5", 0, 2, PROTEIN, 5),
        ("fat mean 0", 6, 2, FAT, 0),
        ("fat mean 1", 0, 2, FAT, 1),
        ("fat mean 1249 of ground beef", 6, 1, FAT, 1249),
        ("fat mean 1250 of ground beef", 0, 1, FAT, 1250),
        ("fat mean 1249 of cured pork", 0, 0, FAT, 1249),
        ("fat mean 1249 of poultry", 0, 3, FAT, 1249),
        ("salt mean 65535", 6, 2, SALT, u16::MAX),
    ] {
        mean(rows, shows, refusal, product, analyte, own);
    }
}

fn tags(rows: &mut Rows) {
    reading(rows, "tag 01, nothing found", 0, 1, 0);
    reading(rows, "tag 02, lost", 0, 2, 0);
    reading(rows, "tag 03", 7, 3, 0);
    reading(rows, "tag 80", 7, 0x80, 0);
    reading(rows, "tag 01 with a byte not zero", 7, 1, 1);
    reading(rows, "tag 02 with a byte not zero", 7, 2, 0x0100_0000);
    rows.line("tag 03 on salt, the last reading", 7, |fields| fields.readings[SALT].0 = 3);
    rows.line("all four readings lost", 0, |fields| fields.readings = [(2, 0); 4]);
    rows.line("all four readings nothing found", 0, |fields| fields.readings = [(1, 0); 4]);
}

fn percents(rows: &mut Rows) {
    for (shows, refusal, bits) in [
        ("percent 0", 0, 0),
        ("the smallest subnormal", 0, 0x0000_0001),
        ("the largest subnormal", 0, 0x007f_ffff),
        ("the smallest normal", 0, 0x0080_0000),
        ("a tiny percent, 2^-64", 0, 0x1f80_0000),
        ("just below .005, to 0 hundredths", 0, 0x3ba3_d70a),
        ("just above .005, to 1 hundredth", 0, 0x3ba3_d70b),
        ("halfway, 0.125: 12.5 hundredths", 0, 0x3e00_0000),
        ("the percent before 0.125", 0, 0x3dff_ffff),
        ("halfway, 60.125", 0, halves(6012)),
        ("100.0", 0, 0x42c8_0000),
        ("the percent before 100.0", 0, 0x42c7_ffff),
        ("the percent after 100.0", 7, 0x42c8_0001),
        ("infinity", 7, 0x7f80_0000),
        ("a NaN", 7, 0x7fc0_0000),
        ("a signalling NaN", 7, 0x7f80_0001),
        ("minus zero", 7, 0x8000_0000),
        ("minus the smallest subnormal", 7, 0x8000_0001),
        ("minus 60.0", 7, 0xc270_0000),
        ("minus infinity", 7, 0xff80_0000),
        ("all bits set", 7, 0xffff_ffff),
    ] {
        reading(rows, shows, refusal, 0, bits);
    }
    for (name, analyte) in [("protein", PROTEIN), ("fat", FAT), ("salt", SALT)] {
        let shows = format!("the percent after 100.0 on {name}");
        rows.line(&shows, 7, |fields| fields.readings[analyte] = (0, 0x42c8_0001));
    }
}

fn two_faults(rows: &mut Rows) {
    let text = FIELDS.text();
    let upper = [&text[..66], b"G"].concat();
    rows.text("length 67 and no digit: length", 1, upper);
    let mut no_digit = Fields { head: Head { kind: 3, ..FIELDS.head }, ..FIELDS }.text();
    no_digit[67] = b'x';
    rows.text("no digit and kind 03: digit", 2, no_digit);
    rows.line("kind 00 and month 13: kind", 3, |fields| {
        (fields.head.kind, fields.head.month) = (0, 13)
    });
    rows.line("year 2100 and product 04: date", 4, |fields| {
        (fields.head.year, fields.product) = (2100, 4)
    });
    rows.line("product 81 and fat mean 1249: product", 5, |fields| {
        fields.product = 0x81;
        fields.means[FAT] = 1249;
    });
    rows.line("salt mean 10001 and moisture tag 03: mean", 6, |fields| {
        fields.means[SALT] = 10_001;
        fields.readings[MOISTURE].0 = 3;
    });
    rows.line("every field at fault: kind", 3, |fields| {
        *fields = Fields {
            head: Head { kind: 0xff, year: u16::MAX, month: 0xff, days: 0xff },
            product: 0xff,
            means: [u16::MAX; 4],
            readings: [(0xff, u32::MAX); 4],
        }
    });
    rows.text("document 01's line again", 0, text);
}
