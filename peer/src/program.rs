//! "The program": its lines, its events and its status as text; request Two's empty line.

use std::io::{self, BufRead, Write};

use crate::category::Category;
use crate::digits::{encode, hexadecimal};
use crate::unit::{Event, Status, Unit};
use crate::{fast, food_line, residue_line};

/// The lines of an input: an unended last line counts if not empty.
pub fn lines(input: &[u8]) -> impl Iterator<Item = &[u8]> {
    let ended = input.strip_suffix(b"\n").unwrap_or(input);
    let pieces = (!input.is_empty()).then(|| ended.split(|&byte| byte == b'\n'));
    pieces.into_iter().flatten()
}

/// An input of these lines, each ended by a newline.
pub fn ended(lines: &[&[u8]]) -> Vec<u8> {
    lines.iter().flat_map(|line| [line, &b"\n"[..]].concat()).collect()
}

/// Everything the program of a category prints for an input. An empty line shows the status there.
pub fn transcript(category: Category, input: &[u8]) -> Vec<u8> {
    let mut unit = Unit::new(category);
    let mut text = Vec::new();
    for line in lines(input) {
        match line {
            b"" => write_status(&unit.status(), &mut text),
            _ => write_event(unit.take(line), &mut text),
        }
    }
    write_status(&unit.status(), &mut text);
    text
}

/// Reading alone: a line's refusal as two digits, or the line written back.
pub fn read_back(category: Category, line: &[u8]) -> Vec<u8> {
    let written = match category {
        Category::Food => food_line::read(line).map(|line| line.write()),
        Category::Residue(own) => residue_line::read(line, own).map(|line| line.write()),
    };
    written.unwrap_or_else(|refusal| hexadecimal(refusal.number()).to_vec())
}

pub fn write_event(event: Event, text: &mut Vec<u8>) {
    let [event, number] = event.bytes().map(hexadecimal);
    text.extend_from_slice(&[event[0], event[1], number[0], number[1], b'\n']);
}

/// The digits of a status line; neither an event nor a chart over has so many.
pub const STATUS_DIGITS: usize = 12;

pub fn write_status(status: &Status, text: &mut Vec<u8>) {
    let mask = status.over.iter().fold(0u16, |mask, over| mask | 1 << over.chart);
    encode(&[status.stage as u8], text);
    encode(&status.samples.to_be_bytes(), text);
    encode(&mask.to_be_bytes(), text);
    encode(&[u8::from(status.misses)], text);
    text.push(b'\n');
    for over in &status.over {
        encode(&[over.chart as u8], text);
        encode(&(over.run.first as u16).to_be_bytes(), text);
        encode(&(over.run.last as u16).to_be_bytes(), text);
        encode(&over.run.sum.to_be_bytes(), text);
        text.push(b'\n');
    }
}

/// What is printed for a line: for an empty one the status, for any other its event.
#[derive(Clone, Debug, PartialEq, Eq)]
pub enum Answer {
    Event(Event),
    Status(Status),
}

#[inline(always)]
pub fn answer(unit: &mut fast::Unit, line: &[u8]) -> Answer {
    match line {
        b"" => Answer::Status(unit.status()),
        _ => Answer::Event(unit.take(line)),
    }
}

pub fn write_answer(answer: &Answer, text: &mut Vec<u8>) {
    match answer {
        Answer::Event(event) => write_event(*event, text),
        Answer::Status(status) => write_status(status, text),
    }
}

/// Output goes out in pieces of about this size.
const PIECE: usize = 1 << 16;
/// A line of so many bytes is too long for every category.
const TOO_LONG: usize = food_line::DIGITS + 1;

/// The same transcript in one pass by the incremental rule, in little memory.
pub fn stream(
    category: Category,
    input: &mut impl BufRead,
    output: &mut impl Write,
) -> io::Result<()> {
    let mut unit = fast::Unit::new(category);
    let mut text = Vec::with_capacity(2 * PIECE);
    // The line that the last piece of input broke off, if any.
    let mut broken = Vec::with_capacity(TOO_LONG);
    loop {
        let piece = input.fill_buf()?;
        if piece.is_empty() {
            break;
        }
        let mut rest = piece;
        while let Some((end, after)) = split_line(category, rest) {
            rest = after;
            write_answer(&answer(&mut unit, whole(&mut broken, end)), &mut text);
            broken.clear();
            if text.len() >= PIECE {
                output.write_all(&text)?;
                text.clear();
            }
        }
        keep(&mut broken, rest);
        let length = piece.len();
        input.consume(length);
    }
    if !broken.is_empty() {
        write_event(unit.take(&broken), &mut text);
    }
    write_status(&unit.status(), &mut text);
    output.write_all(&text)?;
    output.flush()
}

/// The line that ends here: all of it, or the end of a broken one, which may be empty.
fn whole<'a>(broken: &'a mut Vec<u8>, end: &'a [u8]) -> &'a [u8] {
    if broken.is_empty() {
        return end;
    }
    keep(broken, end);
    broken
}

/// The first line and what comes after its newline. Most lines have the category's length.
fn split_line(category: Category, text: &[u8]) -> Option<(&[u8], &[u8])> {
    let whole = match category {
        Category::Food => whole_line::<{ food_line::DIGITS }>(text),
        Category::Residue(_) => whole_line::<{ residue_line::DIGITS }>(text),
    };
    let end = whole.or_else(|| text.iter().position(|&byte| byte == b'\n'))?;
    Some((&text[..end], &text[end + 1..]))
}

/// The length of a first line that has so many bytes. It looks at every byte, which is quicker
/// here than to stop at the first newline.
fn whole_line<const DIGITS: usize>(text: &[u8]) -> Option<usize> {
    let (digits, [b'\n', ..]) = text.split_first_chunk::<DIGITS>()? else { return None };
    let newline = digits.iter().fold(false, |seen, &byte| seen | (byte == b'\n'));
    (!newline).then_some(DIGITS)
}

/// Appends to a broken line what still matters.
fn keep(broken: &mut Vec<u8>, more: &[u8]) {
    let room = TOO_LONG - broken.len();
    broken.extend_from_slice(&more[..more.len().min(room)]);
}
