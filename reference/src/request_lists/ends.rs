//! Requests in other spellings, and numbers at the ends of their types and rooms.

use super::standing::{standing, standing_tower};
use super::{Line, List};
use crate::file::{self, LONGEST_FILE};
use crate::file_cases::{largest, smallest};
use crate::report::ROW;
use crate::requests::{Request, NUMBER_LIMIT, REPORT_ROOM, WRITE_ROOM};
use crate::sample::{item, sample_wind};
use crate::tower::{Item, Tower, Wind};
use crate::units::Length;

/// The standing tower's file in uppercase, and in both cases.
const UPPER: &str = "040107D01770000000000100006400005DC001000700012C07D004B004B00320";
const MIXED: &str = "040107d01770000000000100006400005Dc001000700012C07d004B004b00320";

/// One list for each.
pub fn lists() -> Vec<List> {
    let mut spellings = List::new("spellings", standing());
    spellings.lines.extend(spelled());
    let types = [standing().to_vec(), items(), winds()].concat();
    vec![
        spellings,
        List::new("types", types),
        List::new("small rooms", rooms(&smallest(), ROW, 19)),
        List::new("large rooms", rooms(&largest(), REPORT_ROOM, LONGEST_FILE)),
    ]
}

/// Zeros before a number do not count, nor does the case of a digit.
fn spelled() -> Vec<Line> {
    let file = file::write(&standing_tower());
    let zeros = "0".repeat(300);
    let hang = "hang 007 00 0300 02000 1200 01200 00800";
    let wind = Wind {
        pressures: vec![5_000],
        ..sample_wind(&standing_tower(), 3, 0)
    };
    vec![
        Line::spelled(format!("report {zeros}6"), Request::Report(Some(6))),
        Line::spelled("report 007", Request::Report(Some(7))),
        Line::spelled(format!("report {zeros}"), Request::Report(Some(0))),
        Line::spelled(format!("takedown {zeros}7"), Request::TakeDown(7)),
        Line::spelled("takedown 00007", Request::TakeDown(7)),
        Line::spelled(hang, Request::Hang(item(7))),
        Line::spelled("wind 003 000 01000 0000005000", Request::Wind(wind)),
        Line::spelled("report 0000192", Request::Report(Some(192))),
        Line::spelled("write 0032", Request::Write(Some(32))),
        Line::spelled("erect ", Request::Erect(Vec::new())),
        Line::spelled("erect", Request::Erect(Vec::new())),
        Line::spelled(format!("erect {UPPER}"), Request::Erect(file.clone())),
        Line::spelled("write", Request::Write(None)),
        Line::spelled(format!("erect {MIXED}"), Request::Erect(file)),
        Line::spelled("write 032", Request::Write(Some(32))),
        Line::spelled("erect aAfFbB", Request::Erect(vec![170, 255, 187])),
        Line::spelled("erect eEcCdD", Request::Erect(vec![238, 204, 221])),
        Line::spelled("help", Request::Help),
    ]
}

/// Fields of an item at the end of their types.
fn items() -> Vec<Request> {
    let hang = |change: fn(&mut Item)| {
        let mut item = item(65_535);
        change(&mut item);
        Request::Hang(item)
    };
    vec![
        hang(|item| item.section = 255),
        hang(|item| item.width = Length(u32::MAX)),
        hang(|item| item.length = Length(u32::MAX)),
        hang(|item| item.bare = u16::MAX),
        hang(|item| item.iced = u16::MAX),
        hang(|item| item.position = u16::MAX),
        hang(|_| {}),
        hang(|_| {}),
        Request::Write(Some(45)),
        Request::TakeDown(65_535),
        Request::TakeDown(65_535),
        Request::TakeDown(0),
    ]
}

/// Numbers of a wind at the end of their types, and the greatest that are
/// accepted.
fn winds() -> Vec<Request> {
    let wind = |direction, ice_class, structure_factor, pressures: &[u16]| {
        Request::Wind(Wind {
            direction,
            ice_class,
            structure_factor,
            pressures: pressures.to_vec(),
        })
    };
    let most = u32::MAX;
    vec![
        wind(most, 0, 1_000, &[1_000]),
        wind(0, most, 1_000, &[1_000]),
        wind(0, 0, most, &[1_000]),
        wind(0, 0, 1_000, &[u16::MAX]),
        wind(0, 0, 1_000, &[]),
        wind(0, 0, 1_000, &[1_000; 2]),
        wind(0, 0, 1_000, &[1_000; 33]),
        wind(23, 5, 2_000, &[5_000]),
        Request::Report(None),
        Request::Check,
        Request::Write(None),
    ]
}

/// A tower under wind with so many numbers of a report and bytes of a file, and
/// rooms beside these, beside the program's own, and far beyond.
fn rooms(tower: &Tower, numbers: usize, bytes: usize) -> Vec<Request> {
    let far = [1 << 16, 1 << 32, 1 << 63, NUMBER_LIMIT as u64 - 1];
    let rooms = |needed: usize, own: usize| {
        let (needed, own) = (needed as u64, own as u64);
        let near = [0, needed - 1, needed, needed + 1, own - 1, own, own + 1];
        near.into_iter().chain(far).map(Some).chain([None])
    };
    let mut requests = vec![
        Request::Erect(file::write(tower)),
        Request::Wind(sample_wind(tower, 0, 0)),
    ];
    requests.extend(rooms(numbers, REPORT_ROOM).map(Request::Report));
    requests.extend(rooms(bytes, WRITE_ROOM).map(Request::Write));
    requests
}
