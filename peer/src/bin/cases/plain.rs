//! Plain lines that the cases start from.

use peer::food_line::Fields;
use peer::head::Head;
use peer::residue_line;

const HEAD: Head = Head { kind: 2, year: 2012, month: 3, days: 10 };

/// Document 01's line: other meat, March 2012, readings equal to the means.
pub const FIELDS: Fields = Fields {
    head: HEAD,
    product: 2,
    means: [6000, 1800, 1500, 200],
    readings: [(0, 0x4270_0000), (0, 0x4190_0000), (0, 0x4170_0000), (0, 0x4000_0000)],
};

/// Compound 4, March 2012, the logs of comparison and result both -1.000.
pub const RESIDUE: residue_line::Fields = residue_line::Fields {
    head: Head { kind: 3, ..HEAD },
    compound: 4,
    comparison: -1000,
    tag: 0,
    result: -1000,
    count: 0,
};
