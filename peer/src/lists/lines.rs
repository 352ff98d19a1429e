//! One line more: drafted, written down and given to the unit.

use super::Author;
use crate::category::Kind;
use crate::draft::{Draft, Fields};
use crate::unit::Event;

impl Author {
    /// A line, or more where a newline is in it, as far as the list goes, and now and then a look
    /// at the status.
    pub(super) fn give(&mut self, text: &[u8]) {
        for line in text.split(|&byte| byte == b'\n') {
            if !self.more() {
                return;
            }
            self.lines += 1;
            self.input.extend(line);
            self.input.push(b'\n');
            let event = self.unit.take(line);
            if !matches!(event, Event::Refused(_)) {
                (self.year, self.month) = self.unit.last_date();
            }
            self.look_after(event);
        }
    }

    pub(super) fn draft(&self, kind: Kind, differences: Vec<i32>) -> Draft {
        let (category, year, month) = (self.category(), self.year, self.month);
        Draft { category, kind, year, month, differences, exact: false }
    }

    /// A maintenance line with nothing off.
    pub(super) fn at_the_mean(&mut self) -> Fields {
        self.draft(Kind::Maintenance, vec![0; self.analytes()]).fields(&mut self.random)
    }

    /// A line as it should be, after which one out of order may follow.
    pub(super) fn proper(&mut self, kind: Kind, differences: Vec<i32>) {
        let draft = self.draft(kind, differences);
        self.write(draft);
    }

    /// The same with exactly these differences.
    pub(super) fn exact(&mut self, kind: Kind, differences: Vec<i32>) {
        let draft = Draft { exact: true, ..self.draft(kind, differences) };
        self.write(draft);
    }

    fn write(&mut self, draft: Draft) {
        let fields = draft.fields(&mut self.random);
        self.put(&fields);
    }

    /// A line after which one out of order may follow.
    pub(super) fn put(&mut self, fields: &Fields) {
        self.give(&fields.text());
        if self.random.percent(self.disorder) {
            self.out_of_order();
        }
    }

    pub(super) fn differences(&mut self, most: i32) -> Vec<i32> {
        (0..self.analytes()).map(|_| self.random.between(-most, most)).collect()
    }
}
