//! Request Four's step: a word of eight characters, the first highest.

use peer::refused::Refusal;
use peer::word::step;

#[test]
fn first_digit_highest() {
    assert_eq!(step(u64::from_be_bytes(*b"0123abcd")), Ok(0x0123_abcd));
    assert_eq!(step(u64::from_be_bytes(*b"f0000000")), Ok(0xf000_0000));
    assert_eq!(step(u64::from_be_bytes(*b"0000000f")), Ok(15));
}

#[test]
fn neighbours_of_the_digits_in_every_place() {
    for stranger in [0x00, b'/', b':', b'@', b'A', b'F', b'G', b'`', b'g', 0x80, 0xb0, 0xff] {
        for place in 0..8 {
            let mut characters = *b"09afaf09";
            characters[place] = stranger;
            let given = step(u64::from_be_bytes(characters));
            assert_eq!(given, Err(Refusal::Digit), "{stranger:02x} in place {place}");
        }
    }
}
