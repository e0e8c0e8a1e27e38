//! A request's line in its plain spelling: no zeros ahead of a number, lowercase.

use super::Request;
use crate::tower::{Item, Wind};

impl Request {
    /// The line without its newline.
    pub fn text(&self) -> String {
        match self {
            Request::Erect(file) if file.is_empty() => "erect".to_string(),
            Request::Erect(file) => format!("erect {}", hexadecimal(file)),
            Request::Hang(item) => line("hang", &item_numbers(item)),
            Request::TakeDown(number) => line("takedown", &[(*number).into()]),
            Request::Wind(wind) => line("wind", &wind_numbers(wind)),
            Request::Report(room) => line("report", room.as_slice()),
            Request::Check => "check".to_string(),
            Request::Write(room) => line("write", room.as_slice()),
            Request::Help => "help".to_string(),
        }
    }
}

/// Two lowercase digits a byte.
pub fn hexadecimal(bytes: &[u8]) -> String {
    bytes.iter().map(|byte| format!("{byte:02x}")).collect()
}

/// Decimal numbers apart by spaces.
pub fn words(numbers: &[u64]) -> String {
    let words: Vec<String> = numbers.iter().map(u64::to_string).collect();
    words.join(" ")
}

fn line(word: &str, numbers: &[u64]) -> String {
    match numbers {
        [] => word.to_string(),
        numbers => format!("{word} {}", words(numbers)),
    }
}

fn item_numbers(item: &Item) -> [u64; 7] {
    [
        item.number.into(),
        item.section.into(),
        item.width.0.into(),
        item.length.0.into(),
        item.bare.into(),
        item.iced.into(),
        item.position.into(),
    ]
}

fn wind_numbers(wind: &Wind) -> Vec<u64> {
    let numbers = [wind.direction, wind.ice_class, wind.structure_factor];
    let pressures = wind.pressures.iter().copied().map(u64::from);
    numbers
        .map(u64::from)
        .into_iter()
        .chain(pressures)
        .collect()
}
