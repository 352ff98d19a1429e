//! Rows for reading alone: a text, what it shows, and what must come of it.

use peer::head::Head;

pub struct Row {
    pub text: Vec<u8>,
    pub shows: String,
    /// The refusal's number, or 0 where the line reads.
    pub refusal: u8,
}

/// Rows that start from a plain line of some format.
pub struct Rows<Fields> {
    plain: Fields,
    head: fn(&mut Fields) -> &mut Head,
    write: fn(&Fields) -> Vec<u8>,
    pub rows: Vec<Row>,
}

impl<Fields: Copy> Rows<Fields> {
    pub fn new(
        plain: Fields,
        head: fn(&mut Fields) -> &mut Head,
        write: fn(&Fields) -> Vec<u8>,
    ) -> Rows<Fields> {
        Rows { plain, head, write, rows: Vec::new() }
    }

    pub fn text(&mut self, shows: &str, refusal: u8, text: Vec<u8>) {
        self.rows.push(Row { text, shows: shows.to_string(), refusal });
    }

    /// The plain line with a change.
    pub fn line(&mut self, shows: &str, refusal: u8, change: impl Fn(&mut Fields)) {
        let mut fields = self.plain;
        change(&mut fields);
        self.text(shows, refusal, (self.write)(&fields));
    }

    /// The plain line with another byte at a place.
    pub fn byte(&mut self, shows: &str, refusal: u8, at: usize, byte: u8) {
        let mut text = (self.write)(&self.plain);
        text[at] = byte;
        self.text(shows, refusal, text);
    }

    pub fn kinds(&mut self, kinds: &[(u8, u8)]) {
        for &(kind, refusal) in kinds {
            let head = self.head;
            self.line(&format!("kind {kind:02x}"), refusal, |fields| head(fields).kind = kind);
        }
    }

    /// Both ends of year and month.
    pub fn dates(&mut self) {
        let head = self.head;
        for (year, refusal) in [(1999, 4), (2000, 0), (2099, 0), (2100, 4)] {
            self.line(&format!("year {year}"), refusal, |fields| head(fields).year = year);
        }
        for (month, refusal) in [(0, 4), (1, 0), (12, 0), (13, 4)] {
            self.line(&format!("month {month}"), refusal, |fields| head(fields).month = month);
        }
        self.line("days 255: reading alone does not mind", 0, |fields| head(fields).days = 255);
    }
}
