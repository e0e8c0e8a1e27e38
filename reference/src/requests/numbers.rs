//! The numbers of a line.

use super::{Fault, MOST_NUMBERS, NUMBER_LIMIT};

/// The numbers with single spaces between them, or what is wrong first from the
/// left.
pub fn read_numbers(text: &[u8]) -> Result<Vec<u64>, Fault> {
    let words = text.split(|&byte| byte == b' ').enumerate();
    words.map(|(place, word)| number(place, word)).collect()
}

/// The number in this place of a line, counted from 0.
fn number(place: usize, word: &[u8]) -> Result<u64, Fault> {
    let begins = word.first().is_some_and(u8::is_ascii_digit);
    if begins && place >= MOST_NUMBERS {
        return Err(Fault::TooManyWords);
    }
    if word.is_empty() {
        return Err(Fault::NotDecimal);
    }
    word.iter().try_fold(0, |number, byte| digit(number, *byte))
}

/// The number with a digit more.
fn digit(number: u64, byte: u8) -> Result<u64, Fault> {
    if !byte.is_ascii_digit() {
        return Err(Fault::NotDecimal);
    }
    let longer = 10 * u128::from(number) + u128::from(byte - b'0');
    if longer < NUMBER_LIMIT {
        Ok(longer as u64)
    } else {
        Err(Fault::NumberTooLarge)
    }
}
