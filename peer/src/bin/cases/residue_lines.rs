//! The rows of `lines` for residue compound 4: each with what it shows and what must come of it.

use peer::head::Head;
use peer::residue_line::Fields;

use crate::plain::{FIELDS, RESIDUE};
use crate::rows::{self, Row};

type Rows = rows::Rows<Fields>;

pub fn rows() -> Vec<Row> {
    let mut rows = Rows::new(RESIDUE, |fields| &mut fields.head, Fields::text);
    lengths(&mut rows);
    digits(&mut rows);
    rows.kinds(&[(0x00, 3), (0x01, 3), (0x02, 3), (0x03, 0), (0x04, 3), (0x83, 3)]);
    rows.dates();
    rows.line("days 0", 0, |fields| fields.head.days = 0);
    compounds(&mut rows);
    logs(&mut rows);
    tags(&mut rows);
    counts(&mut rows);
    form_first(&mut rows);
    compound_first(&mut rows);
    rows.rows
}

fn lengths(rows: &mut Rows) {
    let text = RESIDUE.text();
    rows.text("result and comparison both -1.000", 0, text.clone());
    rows.text("length 0", 1, Vec::new());
    rows.text("length 1", 1, text[..1].to_vec());
    rows.text("length 23", 1, text[..23].to_vec());
    rows.text("length 25", 1, [&text[..], b"0"].concat());
    rows.text("length 25: a carriage return at the end", 1, [&text[..], b"\r"].concat());
    rows.text("length 48: two lines without a newline between", 1, text.repeat(2));
    rows.text("length 68: document 01's line", 1, FIELDS.text());
    rows.text("length 200", 1, text.repeat(9)[..200].to_vec());
}

/// Digits 9 and 10 are the days, which may be anything.
fn digits(rows: &mut Rows) {
    rows.text("all digits in uppercase", 2, RESIDUE.text().to_ascii_uppercase());
    for (shows, refusal, at, byte) in [
        ("'/', the byte before '0', last in the line", 2, 23, b'/'),
        ("'0', the first digit, in the days", 0, 9, b'0'),
        ("'9' in the same place", 0, 9, b'9'),
        ("':', the byte after '9'", 2, 9, b':'),
        ("'@', the byte before 'A'", 2, 9, b'@'),
        ("'A' for 'a'", 2, 9, b'A'),
        ("'F' for 'f'", 2, 12, b'F'),
        ("'`', the byte before 'a'", 2, 9, b'`'),
        ("'f', the last digit", 0, 9, b'f'),
        ("'g', the byte after 'f'", 2, 9, b'g'),
        ("':' first in the line", 2, 0, b':'),
        ("a space", 2, 16, b' '),
        ("byte 00", 2, 22, 0x00),
        ("byte ff", 2, 18, 0xff),
        ("byte b0, '0' with bit 7 set", 2, 10, 0xb0),
    ] {
        rows.byte(shows, refusal, at, byte);
    }
}

fn compounds(rows: &mut Rows) {
    for (shows, refusal, compound) in [
        ("compound 0, not the unit's", 14, 0),
        ("compound 3, not the unit's", 14, 3),
        ("compound 4", 0, 4),
        ("compound 5, not the unit's", 14, 5),
        ("compound 19, not the unit's", 14, 19),
        ("compound 20, which is none", 14, 20),
        ("compound 132, 4 with bit 7 set", 14, 0x84),
        ("compound 255", 14, 0xff),
    ] {
        rows.line(shows, refusal, |fields| fields.compound = compound);
    }
}

/// Logs at both ends, and whether they are inside.
const LOGS: [(i16, bool); 9] = [
    (-9999, true),
    (-10_000, false),
    (9999, true),
    (10_000, false),
    (i16::MIN, false),
    (i16::MAX, false),
    (-1, true),
    (0, true),
    (1, true),
];

fn logs(rows: &mut Rows) {
    let refusal = |inside: bool| if inside { 0 } else { 15 };
    for (log, inside) in LOGS {
        let shows = format!("comparison {log}");
        rows.line(&shows, refusal(inside), |fields| fields.comparison = log);
    }
    for (log, inside) in LOGS {
        rows.line(&format!("result {log}"), refusal(inside), |fields| fields.result = log);
    }
    rows.line("comparison -9999, result 9999", 0, |fields| {
        (fields.comparison, fields.result) = (-9999, 9999)
    });
}

fn tags(rows: &mut Rows) {
    for (shows, refusal, tag, result) in [
        ("tag 02, lost, with a zero result", 0, 0x02, 0),
        ("tag 02 with result 1", 7, 0x02, 1),
        ("tag 02 with result -1", 7, 0x02, -1),
        ("tag 02 with result 256: its low byte is zero", 7, 0x02, 256),
        ("tag 02 with result 10000: under 02 no log is looked at", 7, 0x02, 10_000),
        ("tag 02 with result -32768", 7, 0x02, i16::MIN),
        ("tag 01, which food has", 7, 0x01, 0),
        ("tag 03", 7, 0x03, 0),
        ("tag 80", 7, 0x80, 0),
        ("tag ff", 7, 0xff, 0),
        ("tag 01 with result 10000", 7, 0x01, 10_000),
        ("tag 03 with result -10000", 7, 0x03, -10_000),
    ] {
        rows.line(shows, refusal, |fields| (fields.tag, fields.result) = (tag, result));
    }
    rows.line("tag 02 with comparison 10000: the comparison is looked at", 15, |fields| {
        (fields.tag, fields.result, fields.comparison) = (2, 0, 10_000)
    });
}

fn counts(rows: &mut Rows) {
    for (count, refusal) in [(0, 0), (1, 0), (20, 0), (21, 7), (128, 7), (255, 7)] {
        rows.line(&format!("count {count}"), refusal, |fields| fields.count = count);
    }
    rows.line("lost, with count 20", 0, |fields| {
        (fields.tag, fields.result, fields.count) = (2, 0, 20)
    });
    rows.line("lost, with count 21", 7, |fields| {
        (fields.tag, fields.result, fields.count) = (2, 0, 21)
    });
}

/// Two faults of which the first is in the form or the head of a line.
fn form_first(rows: &mut Rows) {
    let text = RESIDUE.text();
    rows.text("length 23 and no digit: length", 1, [&text[..22], b"G"].concat());
    let mut no_digit = text.clone();
    (no_digit[1], no_digit[23]) = (b'2', b'x');
    rows.text("no digit and kind 02: digit", 2, no_digit);
    rows.line("kind 01 and month 13: kind", 3, |fields| {
        (fields.head.kind, fields.head.month) = (1, 13)
    });
    rows.line("kind 02 and compound 20: kind", 3, |fields| {
        (fields.head.kind, fields.compound) = (2, 20)
    });
    rows.line("kind 04 and count 21: kind", 3, |fields| (fields.head.kind, fields.count) = (4, 21));
    rows.line("year 2100 and compound 20: date", 4, |fields| {
        (fields.head.year, fields.compound) = (2100, 20)
    });
    rows.line("month 0 and comparison 10000: date", 4, |fields| {
        (fields.head.month, fields.comparison) = (0, 10_000)
    });
    rows.line("month 13 and tag 03: date", 4, |fields| (fields.head.month, fields.tag) = (13, 3));
}

/// Two faults of which the first is in the compound or a log; then all at once, and none.
fn compound_first(rows: &mut Rows) {
    rows.line("compound 20 and comparison 10000: compound", 14, |fields| {
        (fields.compound, fields.comparison) = (20, 10_000)
    });
    rows.line("compound 5 and result -10000: compound", 14, |fields| {
        (fields.compound, fields.result) = (5, -10_000)
    });
    rows.line("compound 3 and count 21: compound", 14, |fields| {
        (fields.compound, fields.count) = (3, 21)
    });
    rows.line("comparison -10000 and tag 03: log", 15, |fields| {
        (fields.comparison, fields.tag) = (-10_000, 3)
    });
    rows.line("comparison 10000 and a nonzero result under 02: log", 15, |fields| {
        (fields.comparison, fields.tag) = (10_000, 2)
    });
    rows.line("result 10000 and count 21: log", 15, |fields| {
        (fields.result, fields.count) = (10_000, 21)
    });
    rows.line("every field at fault: kind", 3, |fields| {
        *fields = Fields {
            head: Head { kind: 0xff, year: u16::MAX, month: 0xff, days: 0xff },
            compound: 0xff,
            comparison: i16::MIN,
            tag: 0xff,
            result: i16::MIN,
            count: 0xff,
        }
    });
    rows.text("the first line again", 0, RESIDUE.text());
}
