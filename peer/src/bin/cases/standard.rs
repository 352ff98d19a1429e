//! The rows of `standard`: each with what it shows.

use peer::food_line::{FAT, MOISTURE, PROTEIN, SALT};

pub struct Row {
    pub text: String,
    pub shows: String,
    /// What must come of it, where document 01 or a short sum says so, else `UNSAID`.
    pub answer: &'static str,
}

pub const UNSAID: &str = "";

const CURED_PORK: u8 = 0;
const GROUND_BEEF: u8 = 1;
const OTHER_MEAT: u8 = 2;
const POULTRY: u8 = 3;
const DRY: u8 = 0x82;

/// One analyte's rows: what each shows, product, mean, reading, answer.
type Table = &'static [(&'static str, u8, u16, u16, &'static str)];

const MOISTURE_ROWS: Table = &[
    ("class 0, s = 500 × 10000", CURED_PORK, 6000, 6100, "5000000 20 16 -20 11 -250"),
    ("class 1, s = 710 × 10000", GROUND_BEEF, 6000, 6071, "7100000 10 6 -14 1 -250"),
    ("F: class 2, h = 100", OTHER_MEAT, 6000, 6100, "5700000 18 14 -20 9 -250"),
    ("class 3, as class 2", POULTRY, 6000, 6100, "5700000 18 14 -20 9 -250"),
    ("bit 7 does not matter", DRY, 6000, 6100, "5700000 18 14 -20 9 -250"),
    ("reading at the mean", OTHER_MEAT, 6000, 6000, "5700000 0 -4 -4 -4 -250"),
    ("mean 0 and reading 0", OTHER_MEAT, 0, 0, "5700000 0 -4 -4 -4 -250"),
    ("mean 0, reading 10000: cap 999", OTHER_MEAT, 0, 10_000, "5700000 999 20 -20 16 9500"),
    ("mean 10000, reading 0: cap -999", OTHER_MEAT, 10_000, 0, "5700000 -999 -20 20 16 9500"),
    ("class 0, h = 4994: 998.8, to 999", CURED_PORK, 0, 4994, "5000000 999 20 -20 16 9500"),
    ("class 0, h = 4992: 998.4, to 998", CURED_PORK, 0, 4992, "5000000 998 20 -20 16 9499"),
    ("class 0, h = 4998: 999.6, capped", CURED_PORK, 0, 4998, "5000000 999 20 -20 16 9500"),
    ("class 0, h = 3: 0.6, to 1", CURED_PORK, 6000, 6003, "5000000 1 -3 -5 -4 -250"),
    ("class 0, h = 2: 0.4, to 0", CURED_PORK, 6000, 6002, "5000000 0 -4 -4 -4 -250"),
    ("class 0, h = -2: -0.4, to 0", CURED_PORK, 6000, 5998, "5000000 0 -4 -4 -4 -250"),
    ("class 0, h = -3: -0.6, to -1", CURED_PORK, 6000, 5997, "5000000 -1 -5 -3 -4 -250"),
    ("class 1, h = 355: exactly 50", GROUND_BEEF, 6000, 6355, "7100000 50 20 -20 16 4750"),
    ("class 2, h = 285: exactly 50", OTHER_MEAT, 6000, 6285, "5700000 50 20 -20 16 4750"),
];

/// T is the mean in tenths, nearest, halves up.
const PROTEIN_ROWS: Table = &[
    ("mean 100: T = 10, p = 10000", OTHER_MEAT, 100, 160, "600000 100 20 -20 16 7250"),
    ("mean 95: T = 10", OTHER_MEAT, 95, 155, "600000 100 20 -20 16 7250"),
    ("mean 94: T = 9", OTHER_MEAT, 94, 154, UNSAID),
    ("mean 104: T = 10", OTHER_MEAT, 104, 164, "600000 100 20 -20 16 7250"),
    ("mean 105: T = 11", OTHER_MEAT, 105, 165, UNSAID),
    ("mean 5, the least: T = 1", OTHER_MEAT, 5, 6, UNSAID),
    ("mean 14: T = 1", OTHER_MEAT, 14, 15, UNSAID),
    ("mean 15: T = 2", OTHER_MEAT, 15, 16, UNSAID),
    ("mean 5, nothing found", OTHER_MEAT, 5, 0, UNSAID),
    ("mean 994: T = 99", OTHER_MEAT, 994, 1000, UNSAID),
    ("mean 995: T = 100", OTHER_MEAT, 995, 1000, UNSAID),
    ("mean 1800: T = 180", OTHER_MEAT, 1800, 1850, UNSAID),
    ("mean 1800, below", OTHER_MEAT, 1800, 1750, UNSAID),
    ("mean 1804: T = 180", OTHER_MEAT, 1804, 1904, UNSAID),
    ("mean 1805: T = 181", OTHER_MEAT, 1805, 1905, UNSAID),
    ("mean 9994: T = 999", OTHER_MEAT, 9994, 9000, UNSAID),
    ("mean 9995: T = 1000", OTHER_MEAT, 9995, 9000, UNSAID),
    ("mean 10000: p = 199526", OTHER_MEAT, 10_000, 10_000, "11971560 0 -4 -4 -4 -250"),
    ("class 0", CURED_PORK, 2000, 2100, UNSAID),
    ("class 1, the same", GROUND_BEEF, 2000, 2100, UNSAID),
    ("class 3, the same", POULTRY, 2000, 2100, UNSAID),
    ("bit 7, the same", DRY, 2000, 2100, UNSAID),
];

/// At mean 1600 q is 20000 and d is h / 6, so that halves come about.
const FAT_ROWS: Table = &[
    ("class 0, mean 1249: k = 260", CURED_PORK, 1249, 1349, UNSAID),
    ("class 0, mean 1250: k = 300", CURED_PORK, 1250, 1350, UNSAID),
    ("class 2, mean 1249: k = 260", OTHER_MEAT, 1249, 1149, UNSAID),
    ("class 2, mean 1250: k = 300", OTHER_MEAT, 1250, 1150, UNSAID),
    ("class 3, mean 1249: k = 260", POULTRY, 1249, 1300, UNSAID),
    ("class 3, mean 1250: k = 300", POULTRY, 1250, 1300, UNSAID),
    ("bit 7, mean 1249: k = 260", DRY, 1249, 1300, UNSAID),
    ("bit 7, mean 1250: k = 300", DRY, 1250, 1300, UNSAID),
    ("ground beef, mean 1250: k = 350", GROUND_BEEF, 1250, 1350, UNSAID),
    ("ground beef, mean 1600: s = 350 × 20000", GROUND_BEEF, 1600, 1670, "7000000 10 6 -14 1 -250"),
    ("ground beef, mean 3000", GROUND_BEEF, 3000, 2900, UNSAID),
    ("mean 1, the least", OTHER_MEAT, 1, 2, UNSAID),
    ("mean 1, nothing found", OTHER_MEAT, 1, 0, UNSAID),
    ("mean 100: s = 260 × 10000", OTHER_MEAT, 100, 126, "2600000 10 6 -14 1 -250"),
    ("mean 10000: q = 31622", OTHER_MEAT, 10_000, 9000, UNSAID),
    ("half up: h = 3, 0.5 to 1", OTHER_MEAT, 1600, 1603, "6000000 1 -3 -5 -4 -250"),
    ("half away from zero: h = -3, -0.5 to -1", OTHER_MEAT, 1600, 1597, "6000000 -1 -5 -3 -4 -250"),
    ("h = 2, 0.33 to 0", OTHER_MEAT, 1600, 1602, "6000000 0 -4 -4 -4 -250"),
    ("half: h = 147, 24.5 to 25", OTHER_MEAT, 1600, 1747, "6000000 25 20 -20 16 -250"),
    ("h = 146, 24.33 to 24", OTHER_MEAT, 1600, 1746, "6000000 24 20 -20 15 -250"),
    ("half: h = -147, -24.5 to -25", OTHER_MEAT, 1600, 1453, "6000000 -25 -20 20 16 -250"),
    ("half: h = 99, 16.5 to 17", OTHER_MEAT, 1600, 1699, "6000000 17 13 -20 8 -250"),
];

const SALT_ROWS: Table = &[
    ("mean 0: s = 127 × 10000", OTHER_MEAT, 0, 127, "1270000 100 20 -20 16 7250"),
    ("mean 99: constant", OTHER_MEAT, 99, 226, "1270000 100 20 -20 16 7250"),
    ("mean 100: q, which is 10000", OTHER_MEAT, 100, 227, "1270000 100 20 -20 16 7250"),
    ("mean 101: q", OTHER_MEAT, 101, 228, UNSAID),
    ("G: mean 200, h = 38", OTHER_MEAT, 200, 238, "1510284 25 20 -20 16 -250"),
    ("G: mean 200, h = 39", OTHER_MEAT, 200, 239, "1510284 26 20 -20 16 135"),
    ("mean 399", OTHER_MEAT, 399, 410, UNSAID),
    ("mean 399, bit 7: q all the same", DRY, 399, 410, UNSAID),
    ("mean 400: q", OTHER_MEAT, 400, 422, UNSAID),
    ("mean 400, bit 7: s = 220 × 10000", DRY, 400, 422, "2200000 10 6 -14 1 -250"),
    ("mean 10000, bit 7: constant", DRY, 10_000, 9978, "2200000 -10 -14 6 1 -250"),
    ("mean 10000: q = 31622", OTHER_MEAT, 10_000, 9978, UNSAID),
    ("mean 99, bit 7: constant", DRY, 99, 226, "1270000 100 20 -20 16 7250"),
    ("mean 1600: s = 127 × 20000", CURED_PORK, 1600, 1727, "2540000 50 20 -20 16 4750"),
    ("class 1 too", GROUND_BEEF, 1600, 1727, "2540000 50 20 -20 16 4750"),
    ("class 3 too", POULTRY, 1600, 1727, "2540000 50 20 -20 16 4750"),
    ("mean 0, reading 10000: cap 999", OTHER_MEAT, 0, 10_000, "1270000 999 20 -20 16 9500"),
];

/// The contributions at their edges, by d.
const CHART_ROWS: &[(i32, &str)] = &[
    (24, "5000000 24 20 -20 15 -250"),
    (25, "5000000 25 20 -20 16 -250"),
    (26, "5000000 26 20 -20 16 135"),
    (-24, "5000000 -24 -20 20 15 -250"),
    (-25, "5000000 -25 -20 20 16 -250"),
    (-26, "5000000 -26 -20 20 16 135"),
    (16, "5000000 16 12 -20 7 -250"),
    (17, "5000000 17 13 -20 8 -250"),
    (15, "5000000 15 11 -19 6 -250"),
    (-15, "5000000 -15 -19 11 6 -250"),
    (-16, "5000000 -16 -20 12 7 -250"),
    (-17, "5000000 -17 -20 13 8 -250"),
    (4, "5000000 4 0 -8 -4 -250"),
    (-4, "5000000 -4 -8 0 -4 -250"),
    (5, "5000000 5 1 -9 -4 -250"),
    (6, "5000000 6 2 -10 -3 -250"),
    (9, "5000000 9 5 -13 0 -250"),
    (10, "5000000 10 6 -14 1 -250"),
    (32, "5000000 32 20 -20 16 1938"),
    (-32, "5000000 -32 -20 20 16 1938"),
    (160, "5000000 160 20 -20 16 8188"),
    (800, "5000000 800 20 -20 16 9438"),
];

/// What each shows, product, analyte, mean, reading, answer.
const REFUSALS: &[(&str, u8, usize, u16, u16, &str)] = &[
    ("protein mean 4", OTHER_MEAT, PROTEIN, 4, 100, "refused 6"),
    ("fat mean 0", OTHER_MEAT, FAT, 0, 100, "refused 6"),
    ("ground beef, fat mean 1249", GROUND_BEEF, FAT, 1249, 1300, "refused 6"),
    ("mean 10001", OTHER_MEAT, MOISTURE, 10_001, 6000, "refused 6"),
    ("reading 10001", OTHER_MEAT, MOISTURE, 6000, 10_001, "refused 7"),
    ("product 83", 0x83, MOISTURE, 6000, 6000, "refused 5"),
    ("product 04", 0x04, MOISTURE, 6000, 6000, "refused 5"),
];

fn row(
    shows: &str,
    product: u8,
    analyte: usize,
    mean: u16,
    reading: u16,
    answer: &'static str,
) -> Row {
    let text = format!("{product:02x}{analyte:02x}{mean:04x}{reading:04x}");
    Row { text, shows: shows.to_string(), answer }
}

/// Class 0 moisture, where d is h / 5.
fn chart_row(d: i32, answer: &'static str) -> Row {
    let shows = match d {
        32 | -32 | 160 | 800 => format!("d = {d}: a half in the measure, up"),
        _ => format!("d = {d}"),
    };
    row(&shows, CURED_PORK, MOISTURE, 5000, (5000 + 5 * d) as u16, answer)
}

pub fn rows() -> Vec<Row> {
    let tables =
        [(MOISTURE, MOISTURE_ROWS), (PROTEIN, PROTEIN_ROWS), (FAT, FAT_ROWS), (SALT, SALT_ROWS)];
    let mut rows = Vec::new();
    for (analyte, table) in tables {
        rows.extend(table.iter().map(|&(shows, product, mean, reading, answer)| {
            row(shows, product, analyte, mean, reading, answer)
        }));
    }
    rows.extend(CHART_ROWS.iter().map(|&(d, answer)| chart_row(d, answer)));
    rows.extend(REFUSALS.iter().map(|&(shows, product, analyte, mean, reading, answer)| {
        row(shows, product, analyte, mean, reading, answer)
    }));
    rows
}
