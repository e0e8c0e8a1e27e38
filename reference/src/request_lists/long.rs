//! Lines as long as a line may be, and longer ones; then the last line of all.

use super::standing::{shown, standing_tower};
use super::{Line, List};
use crate::file;
use crate::requests::{Fault, Request, LONGEST_LINE, WRITE_ROOM};
use crate::tower::Wind;

/// Each with a request behind it that shows the state unchanged.
pub fn list() -> List {
    let lines = [files(), numbers(), words(), longer()].concat();
    let mut list = shown("long", lines);
    list.lines.push(Request::Report(None).into());
    list
}

/// A file of 3 000 bytes: the longest line that is a request.
fn files() -> Vec<Line> {
    let mut followed = file::write(&standing_tower());
    followed.resize(WRITE_ROOM, 0);
    let digits = |last: &str| format!("erect {}{last}", "f".repeat(2 * WRITE_ROOM - 1));
    vec![
        Request::Erect(followed).into(),
        Line::wrong(digits("g"), Fault::NotHexadecimal),
        Line::wrong(digits("ff"), Fault::LineTooLong),
    ]
}

/// A number with as many zeros ahead as fit, and as many numbers as fit: 3 001.
fn numbers() -> Vec<Line> {
    let take_down = |zeros: usize| format!("takedown {}8", "0".repeat(zeros));
    let wind = format!("wind{}", " 0".repeat(3_001));
    let zeros = Wind {
        direction: 0,
        ice_class: 0,
        structure_factor: 0,
        pressures: vec![0; 2_998],
    };
    vec![
        Line::spelled(take_down(LONGEST_LINE - 10), Request::TakeDown(8)),
        Line::wrong(take_down(LONGEST_LINE - 9), Fault::LineTooLong),
        Line::spelled(wind, Request::Wind(zeros)),
    ]
}

/// Words that no request has.
fn words() -> Vec<Line> {
    vec![
        Line::wrong("x".repeat(5_000), Fault::UnknownRequest),
        Line::wrong("x".repeat(LONGEST_LINE), Fault::UnknownRequest),
        one_too_long(b'x'),
    ]
}

/// A line of one byte, which is a byte too long.
pub fn one_too_long(byte: u8) -> Line {
    Line::wrong([byte; LONGEST_LINE + 1], Fault::LineTooLong)
}

/// Lines of many times the length, in which requests seem to begin everywhere, or
/// with every byte but a newline.
fn longer() -> Vec<Line> {
    let fill = |from: &[u8], count: usize| -> Vec<u8> {
        let bytes = from.iter().copied().cycle();
        bytes.take(count).collect()
    };
    let every: Vec<u8> = (0..=255).filter(|&byte| byte != b'\n').collect();
    let too_long = [fill(b"takedown 7 ", 70_000), fill(&every, 200_000)];
    let mut lines = vec![Line::wrong(fill(b"check ", 5_000), Fault::NotDecimal)];
    lines.extend(too_long.map(|text| Line::wrong(text, Fault::LineTooLong)));
    lines
}
