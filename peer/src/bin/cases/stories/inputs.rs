//! Inputs as such: no line, an unended one, lengths and bytes of all kinds.

use crate::list::Case;
use crate::plain::FIELDS;

pub fn two_lines() -> Case {
    Case::new("two-lines", "Document 01's own example: a line of two bytes and a study line.")
        .text(b"00", "0001")
        .line(FIELDS, "0301")
        .expect("000000000000")
}

pub fn empty() -> Case {
    Case::new("empty", "No input at all: the status alone.").expect("000000000000")
}

pub fn unended() -> Case {
    let shows = "The last line, which comes after an empty one, has no newline and counts.";
    let mut case = Case::new("unended", shows)
        .line(FIELDS, "0301")
        .look(&["000000000000"])
        .line(FIELDS, "0302")
        .expect("000000000000");
    case.input.pop();
    case
}

pub fn lengths() -> Case {
    let text = FIELDS.text();
    Case::new("lengths", "Lines of 67, 68, 69 and 100,000 bytes, then one of 68.")
        .text(&text[..67], "0001")
        .text(&text, "0301")
        .text(&[&text[..], b"0"].concat(), "0001")
        .text(&text.repeat(1471)[..100_000], "0001")
        .text(&text, "0302")
        .expect("000000000000")
}

pub fn bytes() -> Case {
    let text = FIELDS.text();
    Case::new(
        "bytes",
        "Any bytes: an empty line, which shows the status, a carriage return alone, which is \
         refused 1, 68 times 00, 68 times ff, a line ended by a carriage return and a newline, a \
         line of one space; a line counts before and after.",
    )
    .text(&text, "0301")
    .look(&["000000000000"])
    .text(b"\r", "0001")
    .text(&[0x00; 68], "0002")
    .text(&[0xff; 68], "0002")
    .text(&[&text[..], b"\r"].concat(), "0001")
    .text(b" ", "0001")
    .text(&text, "0302")
    .expect("000000000000")
}
