//! Lines out of order: most of them are refused, by any row, often by more than one.

use super::Author;
use crate::category::{Category, Kind};
use crate::damage::damaged;
use crate::draft::Fields;

impl Author {
    /// Of the wrong kind, of another month, with a gap, or damaged, or some of these.
    pub(super) fn out_of_order(&mut self) {
        let differences = self.differences(30);
        let kind = self.any_kind();
        let mut fields = self.draft(kind, differences).fields(&mut self.random);
        if self.random.percent(40) {
            self.shift(&mut fields);
        }
        if kind == Kind::Study && self.random.percent(30) {
            self.open_gap(&mut fields);
        }
        let text = match self.random.percent(60) {
            true => damaged(fields, &mut self.random),
            false => fields.text(),
        };
        self.give(&text);
    }

    /// A residue unit knows study lines only to refuse them.
    fn any_kind(&mut self) -> Kind {
        match self.category() {
            Category::Residue(_) if self.random.percent(90) => Kind::Maintenance,
            Category::Residue(_) => Kind::Study,
            Category::Food => self.random.pick(&[Kind::Maintenance, Kind::Study]),
        }
    }

    /// Another month: next to this one, in the same year, the year before or after, or any.
    fn shift(&mut self, fields: &mut Fields) {
        let head = fields.head();
        match self.random.below(6) {
            0 => (head.year, head.month) = self.month_before(),
            1 | 2 => head.month = self.random.between(1, 12) as u8,
            3 => head.year -= 1,
            4 => head.year += 1,
            // Far in the future a line would end the list's years, so it goes there seldom.
            _ if self.random.percent(5) => head.year = self.random.between(2000, 2099) as u16,
            _ => head.year = self.random.between(2000, i32::from(self.year)) as u16,
        }
    }

    fn open_gap(&mut self, fields: &mut Fields) {
        match self.random.percent(50) {
            true => fields.head().days = self.random.pick(&[22, 255]),
            false => fields.lose(&mut self.random),
        }
    }

    /// The month before the one at which the list is.
    pub(super) fn month_before(&self) -> (u16, u8) {
        match self.month {
            1 => (self.year - 1, 12),
            month => (self.year, month - 1),
        }
    }
}
