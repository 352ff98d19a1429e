//! Hexadecimal digits to bytes and back.

use crate::refused::Refusal;

const NOT_A_DIGIT: u8 = 0xff;

fn digit_value(byte: u8) -> u8 {
    let (digit, letter) = (byte.wrapping_sub(b'0'), byte.wrapping_sub(b'a'));
    if digit < 10 {
        digit
    } else if letter < 6 {
        letter + 10
    } else {
        NOT_A_DIGIT
    }
}

/// Rows 1 and 2 of "Refused" for a line of so many digits, and the bytes that they write.
pub fn decode<const DIGITS: usize, const BYTES: usize>(
    text: &[u8],
) -> Result<[u8; BYTES], Refusal> {
    let digits: &[u8; DIGITS] = text.try_into().map_err(|_| Refusal::Length)?;
    let mut values = [0; DIGITS];
    let mut seen = 0;
    for (value, &digit) in values.iter_mut().zip(digits) {
        *value = digit_value(digit);
        seen |= *value;
    }
    if seen == NOT_A_DIGIT {
        return Err(Refusal::Digit);
    }
    let mut bytes = [0; BYTES];
    for (byte, pair) in bytes.iter_mut().zip(values.chunks_exact(2)) {
        *byte = pair[0] << 4 | pair[1];
    }
    Ok(bytes)
}

pub fn hexadecimal(byte: u8) -> [u8; 2] {
    const DIGITS: &[u8; 16] = b"0123456789abcdef";
    [DIGITS[usize::from(byte >> 4)], DIGITS[usize::from(byte & 15)]]
}

/// Appends the bytes as lowercase hexadecimal digits.
pub fn encode(bytes: &[u8], text: &mut Vec<u8>) {
    text.extend(bytes.iter().flat_map(|&byte| hexadecimal(byte)));
}
