//! Request Four: a word of eight characters, the first highest.

use crate::refused::Refusal;

/// The four bytes that the characters write, the first highest, where all eight are digits of a line.
pub fn step(word: u64) -> Result<u32, Refusal> {
    let characters = word.to_be_bytes();
    if !characters.iter().all(|byte| matches!(byte, b'0'..=b'9' | b'a'..=b'f')) {
        return Err(Refusal::Digit);
    }
    let text = characters.map(char::from).iter().collect::<String>();
    Ok(u32::from_str_radix(&text, 16).expect("eight hexadecimal digits"))
}
