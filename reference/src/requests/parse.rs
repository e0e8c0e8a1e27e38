//! What a line asks for, or what is wrong with it first.

use super::{read_numbers, Fault, Request, LONGEST_LINE, WRITE_ROOM};
use crate::tower::{Item, Wind};
use crate::units::Length;
use std::cmp::Ordering;

/// A line without its newline, of any bytes.
pub fn parse(line: &[u8]) -> Result<Request, Fault> {
    if line.len() > LONGEST_LINE {
        return Err(Fault::LineTooLong);
    }
    let space = line.iter().position(|&byte| byte == b' ');
    let word = &line[..space.unwrap_or(line.len())];
    let rest = space.map(|space| &line[space + 1..]);
    let numbers = || rest.map_or(Ok(Vec::new()), read_numbers);
    match word {
        b"erect" => file(rest.unwrap_or_default()).map(Request::Erect),
        b"hang" => hang(&numbers()?),
        b"takedown" => take_down(&numbers()?),
        b"wind" => wind(&numbers()?),
        b"report" => room(&numbers()?).map(Request::Report),
        b"check" => exactly(&numbers()?).map(|[]| Request::Check),
        b"write" => room(&numbers()?).map(Request::Write),
        b"help" => exactly(&numbers()?).map(|[]| Request::Help),
        _ => Err(Fault::UnknownRequest),
    }
}

/// Two digits a byte.
fn file(digits: &[u8]) -> Result<Vec<u8>, Fault> {
    let pairs = digits.chunks_exact(2);
    if !pairs.remainder().is_empty() {
        return Err(Fault::NotHexadecimal);
    }
    if pairs.len() > WRITE_ROOM {
        return Err(Fault::LineTooLong);
    }
    let byte = |pair: &[u8]| Some(16 * nibble(pair[0])? + nibble(pair[1])?);
    let bytes: Option<Vec<u8>> = pairs.map(byte).collect();
    bytes.ok_or(Fault::NotHexadecimal)
}

/// The value of a hexadecimal digit in either case.
fn nibble(digit: u8) -> Option<u8> {
    match digit {
        b'0'..=b'9' => Some(digit - b'0'),
        b'A'..=b'F' => Some(digit - b'A' + 10),
        b'a'..=b'f' => Some(digit - b'a' + 10),
        _ => None,
    }
}

fn hang(numbers: &[u64]) -> Result<Request, Fault> {
    let [number, section, width, length, bare, iced, position] = exactly(numbers)?;
    Ok(Request::Hang(Item {
        number: fits(number)?,
        section: fits(section)?,
        width: Length(fits(width)?),
        length: Length(fits(length)?),
        bare: fits(bare)?,
        iced: fits(iced)?,
        position: fits(position)?,
    }))
}

fn take_down(numbers: &[u64]) -> Result<Request, Fault> {
    let [number] = exactly(numbers)?;
    fits(number).map(Request::TakeDown)
}

/// Any count of pressures, which the service judges.
fn wind(numbers: &[u64]) -> Result<Request, Fault> {
    let Some((&[k, ice, factor], pressures)) = numbers.split_first_chunk() else {
        return Err(Fault::TooFewWords);
    };
    let pressures: Result<Vec<u16>, Fault> = pressures.iter().copied().map(fits).collect();
    Ok(Request::Wind(Wind {
        direction: fits(k)?,
        ice_class: fits(ice)?,
        structure_factor: fits(factor)?,
        pressures: pressures?,
    }))
}

/// A room or none.
fn room(numbers: &[u64]) -> Result<Option<u64>, Fault> {
    match numbers {
        [] => Ok(None),
        [room] => Ok(Some(*room)),
        _ => Err(Fault::TooManyWords),
    }
}

/// So many numbers.
fn exactly<const COUNT: usize>(numbers: &[u64]) -> Result<[u64; COUNT], Fault> {
    match numbers.len().cmp(&COUNT) {
        Ordering::Less => Err(Fault::TooFewWords),
        Ordering::Equal => Ok(numbers.try_into().expect("so many")),
        Ordering::Greater => Err(Fault::TooManyWords),
    }
}

/// The number in its parameter's type.
fn fits<T: TryFrom<u64>>(number: u64) -> Result<T, Fault> {
    T::try_from(number).map_err(|_| Fault::NumberTooLarge)
}
