//! Builds a list of lines together with the output that is worked out for it by hand.

use peer::category::Category;
use peer::difference::{difference, value, Derived};
use peer::draft;
use peer::draft::food::percent;
use peer::food_line::{Fields, Product, ANALYTES, FAT, MOISTURE, PROTEIN, SALT};
use peer::head::Head;

use crate::plain::FIELDS;

#[derive(Clone)]
pub struct Case {
    pub category: Category,
    pub name: &'static str,
    pub shows: &'static str,
    pub input: Vec<u8>,
    pub output: String,
}

/// A line of the plain product whose four differences are these.
#[derive(Clone, Copy)]
pub struct Plain {
    pub year: u16,
    pub month: u8,
    pub differences: [i32; ANALYTES],
}

pub fn at(year: u16, month: u8) -> Plain {
    Plain { year, month, differences: [0; ANALYTES] }
}

impl Plain {
    pub fn moisture(mut self, d: i32) -> Plain {
        self.differences[MOISTURE] = d;
        self
    }

    pub fn protein(mut self, d: i32) -> Plain {
        self.differences[PROTEIN] = d;
        self
    }

    pub fn fat(mut self, d: i32) -> Plain {
        self.differences[FAT] = d;
        self
    }

    pub fn study(self) -> Fields {
        let Plain { year, month, .. } = self;
        let readings = std::array::from_fn(|analyte| {
            let (mean, d) = (FIELDS.means[analyte], self.differences[analyte]);
            (0, percent(reading_with(analyte, mean, d)))
        });
        Fields { head: Head { year, month, ..FIELDS.head }, readings, ..FIELDS }
    }

    pub fn sample(self) -> Fields {
        let study = self.study();
        beginning(Head { kind: 1, ..study.head }, study)
    }

    /// Late by a day.
    pub fn late(self) -> Fields {
        let sample = self.sample();
        beginning(Head { days: 22, ..sample.head }, sample)
    }

    /// Salt lost.
    pub fn lost(self) -> Fields {
        let mut fields = self.sample();
        fields.readings[SALT] = (2, 0);
        fields
    }
}

/// The line with another beginning.
pub fn beginning(head: Head, fields: Fields) -> Fields {
    Fields { head, ..fields }
}

/// The reading nearest to the mean whose difference is d.
fn reading_with(analyte: usize, mean: u16, d: i32) -> u16 {
    let product = Product::new(FIELDS.product).expect("the plain product");
    let s = value(product, analyte, mean, &Derived);
    let fits = |reading: &u16| difference(*reading, mean, s) == d;
    let found = match d {
        0.. => (mean..=10_000).find(fits),
        _ => (0..mean).rev().find(fits),
    };
    found.unwrap_or_else(|| panic!("no reading with d = {d}"))
}

impl Case {
    /// A food list.
    pub fn new(name: &'static str, shows: &'static str) -> Case {
        let category = Category::Food;
        Case { category, name, shows, input: Vec::new(), output: String::new() }
    }

    /// A list for the tested residue program.
    pub fn residue(name: &'static str, shows: &'static str) -> Case {
        Case { category: Category::tested_residue(), ..Case::new(name, shows) }
    }

    /// One line and its event.
    pub fn text(mut self, text: &[u8], event: &str) -> Case {
        self.input.extend(text);
        self.input.push(b'\n');
        self.expect(event)
    }

    pub fn line(self, fields: impl Into<draft::Fields>, event: &str) -> Case {
        self.text(&fields.into().text(), event)
    }

    pub fn lines(self, count: usize, fields: impl Into<draft::Fields> + Copy, event: &str) -> Case {
        (0..count).fold(self, |case, _| case.line(fields, event))
    }

    /// 36 study lines by their place in the set, from 1, and the event of the last.
    pub fn set(self, line: impl Fn(usize) -> Fields, end: &str) -> Case {
        self.set_from(1, line, end)
    }

    /// The rest of a set, from this place.
    pub fn set_from(self, place: usize, line: impl Fn(usize) -> Fields, end: &str) -> Case {
        (place..=36).fold(self, |case, place| match place {
            36 => case.line(line(place), end),
            _ => case.line(line(place), &format!("03{place:02x}")),
        })
    }

    /// 36 study lines of that month with every reading at its mean.
    pub fn admission(self, month: Plain) -> Case {
        self.set(|_| month.study(), "0400")
    }

    /// An empty line and the status there.
    pub fn look(mut self, status: &[&str]) -> Case {
        self.input.push(b'\n');
        self.status(status)
    }

    /// The lines of a status.
    pub fn status(self, lines: &[&str]) -> Case {
        lines.iter().fold(self, |case, line| case.expect(line))
    }

    /// A line of the output.
    pub fn expect(mut self, line: &str) -> Case {
        self.output.push_str(line);
        self.output.push('\n');
        self
    }
}
