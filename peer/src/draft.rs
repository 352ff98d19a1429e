//! Lines for the lists: valid ones with chosen differences.

pub mod food;
pub mod residue;

use crate::category::{Category, Kind};
use crate::food_line::{self, ANALYTES};
use crate::head::Head;
use crate::random::Random;
use crate::residue_line;

/// What a line is to be.
pub struct Draft {
    pub category: Category,
    pub kind: Kind,
    pub year: u16,
    pub month: u8,
    /// One for each analyte.
    pub differences: Vec<i32>,
    /// For food: meet the differences exactly, by ordinary means; else as nearly as means of all
    /// sizes allow. A residue line always meets them.
    pub exact: bool,
}

/// The fields of a line of either category.
#[derive(Clone, Copy)]
pub enum Fields {
    Food(food_line::Fields),
    Residue(residue_line::Fields),
}

impl From<food_line::Fields> for Fields {
    fn from(fields: food_line::Fields) -> Fields {
        Fields::Food(fields)
    }
}

impl From<residue_line::Fields> for Fields {
    fn from(fields: residue_line::Fields) -> Fields {
        Fields::Residue(fields)
    }
}

impl Draft {
    pub fn fields(&self, random: &mut Random) -> Fields {
        match self.category {
            Category::Food => Fields::Food(food::fields(self, random)),
            Category::Residue(own) => Fields::Residue(residue::fields(self, own, random)),
        }
    }

    /// In time. A residue unit has no study lines: one of food's kind is refused.
    fn head(&self, random: &mut Random) -> Head {
        let kind = match (self.kind, self.category) {
            (Kind::Study, _) => food_line::STUDY,
            (Kind::Maintenance, Category::Food) => food_line::MAINTENANCE,
            (Kind::Maintenance, Category::Residue(_)) => residue_line::KIND,
        };
        let days = random.pick(&[0, 1, 10, 20, 21]);
        Head { kind, year: self.year, month: self.month, days }
    }
}

impl Fields {
    pub fn head(&mut self) -> &mut Head {
        match self {
            Fields::Food(fields) => &mut fields.head,
            Fields::Residue(fields) => &mut fields.head,
        }
    }

    /// A reading or the result is lost.
    pub fn lose(&mut self, random: &mut Random) {
        match self {
            Fields::Food(fields) => fields.readings[random.below(ANALYTES)] = (2, 0),
            Fields::Residue(fields) => (fields.tag, fields.result) = (residue_line::LOST, 0),
        }
    }

    /// One of these counts of misidentifications, where a line has one.
    pub fn misidentify(&mut self, counts: &[u8], random: &mut Random) {
        if let Fields::Residue(fields) = self {
            fields.count = random.pick(counts);
        }
    }

    pub fn text(&self) -> Vec<u8> {
        match self {
            Fields::Food(fields) => fields.text(),
            Fields::Residue(fields) => fields.text(),
        }
    }
}
