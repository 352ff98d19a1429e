//! The rows of `word`: words of eight characters, each with what must come of it.

use peer::word::step;

/// The words that stand apart: what each shows, the word, and the four bytes that the step must give, or none.
const APART: [(&str, u64, Option<u32>); 14] = [
    ("0123abcd", 0x3031_3233_6162_6364, Some(0x0123_abcd)),
    ("00000000, the least", 0x3030_3030_3030_3030, Some(0)),
    ("ffffffff, the greatest", 0x6666_6666_6666_6666, Some(0xffff_ffff)),
    ("90a0f090: digits and letters in turn", 0x3930_6130_6630_3930, Some(0x90a0_f090)),
    ("0a9f0a9f: all four ends", 0x3061_3966_3061_3966, Some(0x0a9f_0a9f)),
    ("eight times 00", 0, None),
    ("eight times ff", u64::MAX, None),
    ("eight times 80", 0x8080_8080_8080_8080, None),
    ("eight times /", 0x2f2f_2f2f_2f2f_2f2f, None),
    ("eight times :", 0x3a3a_3a3a_3a3a_3a3a, None),
    ("eight times `", 0x6060_6060_6060_6060, None),
    ("eight times g", 0x6767_6767_6767_6767, None),
    ("/ before ff, from which a sum would carry into it", 0x3030_302f_ff30_3030, None),
    (": after 00, into which a difference would borrow", 0x3030_3000_3a30_3030, None),
];

const PLACES: usize = 8;

/// Digits that differ from place to place and from byte to byte.
fn around(byte: u8, place: usize) -> [u8; PLACES] {
    const DIGITS: &[u8; 16] = b"0123456789abcdef";
    std::array::from_fn(|other| DIGITS[(usize::from(byte) + 5 * place + 7 * other) % DIGITS.len()])
}

/// The word with a byte in a place, digits around it, and what its digits stand for, or nothing where one is no digit.
fn with(byte: u8, place: usize) -> (u64, Option<u32>) {
    let mut characters = around(byte, place);
    characters[place] = byte;
    let value = |character: u8| match character {
        b'0'..=b'9' => Some(u32::from(character - b'0')),
        b'a'..=b'f' => Some(u32::from(character - b'a') + 10),
        _ => None,
    };
    let four =
        characters.iter().try_fold(0, |four, &character| Some(16 * four + value(character)?));
    (u64::from_be_bytes(characters), four)
}

/// Each row, a word and the four bytes, or none: the words apart, then each byte in each place.
pub fn rows() -> Vec<(u64, Option<u32>)> {
    let apart = APART.iter().map(|&(_, word, four)| (word, four));
    let each = (0..PLACES).flat_map(|place| (0..=u8::MAX).map(move |byte| with(byte, place)));
    let rows: Vec<_> = apart.chain(each).collect();
    for &(word, four) in &rows {
        assert_eq!(step(word).ok(), four, "{word:016x}");
    }
    rows
}

/// The rows as the program reads them, eight characters each, and as it answers them.
pub fn texts(rows: &[(u64, Option<u32>)]) -> (Vec<u8>, String) {
    let words = rows.iter().flat_map(|(word, _)| [&word.to_be_bytes()[..], b"\n"].concat());
    let answer = |four: &Option<u32>| match four {
        Some(four) => format!("{four:08x}\n"),
        None => "refused 2\n".to_string(),
    };
    (words.collect(), rows.iter().map(|(_, four)| answer(four)).collect())
}

/// What the words apart show.
pub fn shown() -> impl Iterator<Item = (u64, &'static str)> {
    APART.iter().map(|&(shows, word, _)| (word, shows))
}
