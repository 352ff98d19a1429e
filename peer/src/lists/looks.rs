//! Looks at the status: empty lines, and a carriage return alone, which is none.

use super::Author;
use crate::unit::Event;

/// At the start and after a change of stage a look is so many times as likely as elsewhere.
const OFTEN: usize = 20;

impl Author {
    pub(super) fn look_at_first(&mut self) {
        self.look(OFTEN * self.looks);
    }

    /// A look may follow any line, another look too.
    pub(super) fn look_after(&mut self, event: Event) {
        let chance = match event {
            Event::Passed | Event::Failed => OFTEN * self.looks,
            event if event.opens_probation() => OFTEN * self.looks,
            _ => self.looks,
        };
        self.look(chance);
    }

    /// One line or two, in so many of a hundred cases.
    fn look(&mut self, chance: usize) {
        // The benchmark's list has no looks and takes no number for them.
        if chance > 0 && self.random.percent(chance) {
            let text = self.random.pick(&[&b""[..], b"", b"\n", b"\r", b"\r\n"]);
            self.give(text);
        }
    }
}
