//! The request language of the service program. A request is a line of bytes, and
//! so is an answer, but for a report's and for help. A line that is no request is
//! answered by what is wrong with it first, and changes nothing.

mod answers;
mod numbers;
mod parse;
mod text;

use crate::tower::{Item, Wind};

pub use answers::{session, Program};
pub use numbers::read_numbers;
pub use parse::parse;

/// The most bytes of a line, without its newline: `erect` with a file of
/// [`WRITE_ROOM`] bytes.
pub const LONGEST_LINE: usize = 6 + 2 * WRITE_ROOM;

/// The most numbers of a line.
pub const MOST_NUMBERS: usize = 3_003;

/// Every number of a line is below.
pub const NUMBER_LIMIT: u128 = 10_u128.pow(19);

/// The program's own room for a report, in numbers.
pub const REPORT_ROOM: usize = 192;

/// The program's own room for a file, in bytes.
pub const WRITE_ROOM: usize = 3_000;

/// What `help` is answered.
pub const HELP: &str = include_str!("requests/help.txt");

/// What a line asks for.
#[derive(Clone, Debug, PartialEq, Eq)]
pub enum Request {
    /// `erect`: a file.
    Erect(Vec<u8>),
    /// `hang`: an item.
    Hang(Item),
    /// `takedown`: an item's number.
    TakeDown(u16),
    /// `wind`: a wind.
    Wind(Wind),
    /// `report`: how many numbers are lent, if it is said.
    Report(Option<u64>),
    /// `check`.
    Check,
    /// `write`: how many bytes are lent, if it is said.
    Write(Option<u64>),
    /// `help`.
    Help,
}

/// What is wrong with a line.
#[derive(Clone, Copy, Debug, PartialEq, Eq, PartialOrd, Ord)]
pub enum Fault {
    /// It has more than [`LONGEST_LINE`] bytes.
    LineTooLong,
    /// Its first word is no request's.
    UnknownRequest,
    /// A file has another byte than a digit, or half a byte at its end.
    NotHexadecimal,
    /// There is something else than numbers with single spaces between them.
    NotDecimal,
    /// A number reaches [`NUMBER_LIMIT`], or is beyond its parameter's type.
    NumberTooLarge,
    /// The request needs more numbers.
    TooFewWords,
    /// The request takes fewer numbers, or there are more than [`MOST_NUMBERS`].
    TooManyWords,
}

impl Fault {
    /// What is printed behind `error`.
    pub fn message(self) -> &'static str {
        match self {
            Fault::LineTooLong => "line too long",
            Fault::UnknownRequest => "unknown request, try help",
            Fault::NotHexadecimal => "not hexadecimal",
            Fault::NotDecimal => "not a decimal number",
            Fault::NumberTooLarge => "number too large",
            Fault::TooFewWords => "too few words",
            Fault::TooManyWords => "too many words",
        }
    }
}

/// The lines of an input, without their newlines. A last line may lack its own if
/// it is not empty.
pub fn lines(input: &[u8]) -> Vec<&[u8]> {
    let mut lines: Vec<&[u8]> = input.split(|&byte| byte == b'\n').collect();
    lines.pop_if(|last| last.is_empty());
    lines
}
