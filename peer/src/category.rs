//! The analyte category for which accreditation was granted, 439.20: food chemistry, or one
//! residue compound. What differs between the two stands here; the unit knows nothing else of it.

use crate::charts::{Turns, FOOD, KINDS, RESIDUE};
use crate::compound::Compound;
use crate::difference::{differences, residue_difference, Powers};
use crate::food_line::{self, ANALYTES, STUDY};
use crate::head::Head;
use crate::refused::Refusal;
use crate::residue_line::{self, Outcome};
use crate::unit::Stage;
use crate::windows::{self, Window};

/// The charts of the category that has most.
pub const MOST_CHARTS: usize = KINDS * ANALYTES;

#[derive(Clone, Copy, Debug, PartialEq, Eq)]
pub enum Category {
    Food,
    Residue(Compound),
}

#[derive(Clone, Copy, Debug, PartialEq, Eq)]
pub enum Kind {
    Maintenance,
    Study,
}

/// What a line is to a unit.
pub struct Seen {
    pub kind: Kind,
    pub head: Head,
    /// One for each analyte, then zeros; none where a reading is lost or the days exceed 21.
    pub differences: Option<[i32; ANALYTES]>,
    /// The line's count of them; food has none.
    pub misidentifications: u8,
}

impl Category {
    /// The tested program's: compound 4.
    pub fn tested_residue() -> Category {
        Category::Residue(Compound::new(4).expect("it is below 20"))
    }

    pub fn analytes(self) -> usize {
        match self {
            Category::Food => ANALYTES,
            Category::Residue(_) => 1,
        }
    }

    pub fn charts(self) -> usize {
        KINDS * self.analytes()
    }

    pub fn turns(self) -> &'static Turns {
        match self {
            Category::Food => &FOOD,
            Category::Residue(_) => &RESIDUE,
        }
    }

    /// The windows that its samples must not break.
    pub fn windows(self) -> &'static [Window] {
        match self {
            Category::Food => &[],
            Category::Residue(_) => &windows::RESIDUE,
        }
    }

    /// A residue unit starts accredited, which is its admission.
    pub fn first_stage(self) -> Stage {
        match self {
            Category::Food => Stage::Applicant,
            Category::Residue(_) => Stage::Accredited,
        }
    }

    /// Row 8 of "Refused". Without sets a residue unit has no way back from probation.
    pub fn closed(self, stage: Stage) -> bool {
        match self {
            Category::Food => stage == Stage::Closed,
            Category::Residue(_) => stage != Stage::Accredited,
        }
    }

    /// Reads a line of this category.
    #[inline(always)]
    pub fn see(self, text: &[u8], powers: &impl Powers) -> Result<Seen, Refusal> {
        match self {
            Category::Food => food_line::read(text).map(|line| food_seen(&line, powers)),
            Category::Residue(own) => residue_line::read(text, own).map(residue_seen),
        }
    }
}

#[inline(always)]
fn food_seen(line: &food_line::Line, powers: &impl Powers) -> Seen {
    let kind = match line.head.kind {
        STUDY => Kind::Study,
        _ => Kind::Maintenance,
    };
    let differences = (!line.incomplete()).then(|| differences(line, powers));
    Seen { kind, head: line.head, differences, misidentifications: 0 }
}

fn residue_seen(line: residue_line::Line) -> Seen {
    let differences = match line.outcome {
        Outcome::Log(log) if !line.head.late() => {
            Some([residue_difference(log, line.comparison, line.compound.value()), 0, 0, 0])
        }
        _ => None,
    };
    let (kind, misidentifications) = (Kind::Maintenance, line.count);
    Seen { kind, head: line.head, differences, misidentifications }
}
