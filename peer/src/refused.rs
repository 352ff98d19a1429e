//! "Refused": the numbers of its rows, and request One's. Number 13 is for writing alone.

#[derive(Clone, Copy, Debug, PartialEq, Eq)]
pub enum Refusal {
    Length = 1,
    Digit,
    Kind,
    Date,
    Product,
    Mean,
    Reading,
    Closed,
    Stage,
    Backdated,
    Gap,
    Full,
    Compound = 14,
    Log,
}

impl Refusal {
    pub const ALL: [Refusal; 14] = [
        Refusal::Length,
        Refusal::Digit,
        Refusal::Kind,
        Refusal::Date,
        Refusal::Product,
        Refusal::Mean,
        Refusal::Reading,
        Refusal::Closed,
        Refusal::Stage,
        Refusal::Backdated,
        Refusal::Gap,
        Refusal::Full,
        Refusal::Compound,
        Refusal::Log,
    ];

    pub fn number(self) -> u8 {
        self as u8
    }
}
