//! A line read a second way: its numbers byte by byte, then one pattern a request.

use reference::requests::{Fault, Request};
use reference::tower::{Item, Wind};
use reference::units::Length;

/// What has been read of the numbers of a line.
enum Reading {
    /// Numbers, each with a space after it.
    Between(Vec<u64>),
    /// Such numbers, and one more up to its last digit so far.
    Inside(Vec<u64>, u128),
    /// What is wrong.
    Wrong(Fault),
}

/// After a byte more.
fn read_byte(reading: Reading, byte: u8) -> Reading {
    match (reading, byte) {
        (Reading::Wrong(fault), _) => Reading::Wrong(fault),
        (Reading::Between(numbers), b'0'..=b'9') if numbers.len() == 3_003 => {
            Reading::Wrong(Fault::TooManyWords)
        }
        (Reading::Between(numbers), b'0'..=b'9') => {
            Reading::Inside(numbers, u128::from(byte - b'0'))
        }
        (Reading::Inside(numbers, number), b'0'..=b'9') => {
            match 10 * number + u128::from(byte - b'0') {
                10_000_000_000_000_000_000.. => Reading::Wrong(Fault::NumberTooLarge),
                longer => Reading::Inside(numbers, longer),
            }
        }
        (Reading::Inside(mut numbers, number), b' ') => {
            numbers.push(number as u64);
            Reading::Between(numbers)
        }
        _ => Reading::Wrong(Fault::NotDecimal),
    }
}

/// The numbers of a text, with what is wrong first.
pub fn second_numbers(text: &[u8]) -> Result<Vec<u64>, Fault> {
    let start = Reading::Between(Vec::new());
    match text.iter().copied().fold(start, read_byte) {
        Reading::Between(_) => Err(Fault::NotDecimal),
        Reading::Inside(numbers, last) => Ok([numbers, vec![last as u64]].concat()),
        Reading::Wrong(fault) => Err(fault),
    }
}

fn second_file(text: &[u8]) -> Result<Vec<u8>, Fault> {
    if text.len() % 2 == 1 || !text.iter().all(u8::is_ascii_hexdigit) {
        return Err(Fault::NotHexadecimal);
    }
    let digits = std::str::from_utf8(text).expect("digits");
    let byte = |place| u8::from_str_radix(&digits[place..place + 2], 16).expect("a byte");
    Ok((0..text.len()).step_by(2).map(byte).collect())
}

/// A line, read a second way.
pub fn second_parse(line: &[u8]) -> Result<Request, Fault> {
    if line.len() > 6_006 {
        return Err(Fault::LineTooLong);
    }
    let mut parts = line.splitn(2, |&byte| byte == b' ');
    let word = parts.next().expect("a first part");
    let rest = parts.next();
    let (least, most) = match word {
        b"erect" => return second_file(rest.unwrap_or(b"")).map(Request::Erect),
        b"hang" => (7, 7),
        b"takedown" => (1, 1),
        b"wind" => (3, 3_003),
        b"report" | b"write" => (0, 1),
        b"check" | b"help" => (0, 0),
        _ => return Err(Fault::UnknownRequest),
    };
    let numbers = match rest {
        Some(text) => second_numbers(text)?,
        None => Vec::new(),
    };
    if numbers.len() < least {
        return Err(Fault::TooFewWords);
    }
    if numbers.len() > most {
        return Err(Fault::TooManyWords);
    }
    asked(word, &numbers).ok_or(Fault::NumberTooLarge)
}

/// What so many numbers as are right ask for, if each fits.
fn asked(word: &[u8], numbers: &[u64]) -> Option<Request> {
    let room = numbers.first().copied();
    Some(match (word, numbers) {
        (b"hang", [number, section, width, length, bare, iced, position]) => Request::Hang(Item {
            number: fits(*number)?,
            section: fits(*section)?,
            width: Length(fits(*width)?),
            length: Length(fits(*length)?),
            bare: fits(*bare)?,
            iced: fits(*iced)?,
            position: fits(*position)?,
        }),
        (b"takedown", [number]) => Request::TakeDown(fits(*number)?),
        (b"wind", [k, ice, factor, pressures @ ..]) => Request::Wind(Wind {
            direction: fits(*k)?,
            ice_class: fits(*ice)?,
            structure_factor: fits(*factor)?,
            pressures: pressures.iter().map(|p| fits(*p)).collect::<Option<_>>()?,
        }),
        (b"report", _) => Request::Report(room),
        (b"write", _) => Request::Write(room),
        (b"check", _) => Request::Check,
        (b"help", _) => Request::Help,
        _ => unreachable!("{numbers:?}"),
    })
}

fn fits<T: TryFrom<u64>>(number: u64) -> Option<T> {
    T::try_from(number).ok()
}
