//! Lines that change nothing, each with a request behind it that shows the state
//! unchanged.

use super::{faults, Line, List};
use crate::file;
use crate::requests::Request;
use crate::sample::{flat, item, round, sample, sample_wind};
use crate::tower::{Item, Legs, Tower, Wind};
use crate::units::Length;

/// Lines that are no request, and requests that are refused, over a tower with an
/// item and a wind.
pub fn lists() -> Vec<List> {
    let refused = refused().into_iter().map(Line::from).collect();
    vec![shown("wrong", faults::all()), shown("refused", refused)]
}

/// The first sample with item 7.
pub fn standing_tower() -> Tower {
    Tower {
        items: vec![item(7)],
        ..sample(Legs::Four, &[flat(100, 24_000)])
    }
}

/// The tower under the samples' wind.
pub fn standing() -> [Request; 2] {
    let wind = sample_wind(&standing_tower(), 0, 0);
    [
        Request::Erect(file::write(&standing_tower())),
        Request::Wind(wind),
    ]
}

/// Behind each line a report, a check or a write, in turn.
pub fn shown(name: &'static str, lines: Vec<Line>) -> List {
    let shows = [Request::Report(None), Request::Check, Request::Write(None)];
    let mut list = List::new(name, standing());
    for (line, show) in lines.into_iter().zip(shows.into_iter().cycle()) {
        list.lines.extend([line, show.into()]);
    }
    list
}

/// Every refusal of this tower but 9, 10 in a file, 20 and 21.
fn refused() -> Vec<Request> {
    [
        files().map(Request::Erect).to_vec(),
        items(),
        winds(),
        rooms(),
    ]
    .concat()
}

/// The tower's file with one byte or two changed, for the refusals 2 to 9 and 11
/// to 13.
fn files() -> [Vec<u8>; 17] {
    let file = file::write(&standing_tower());
    let set = |place: usize, byte: u8| {
        let mut file = file.clone();
        file[place] = byte;
        file
    };
    let overfull = sample(Legs::Four, &[flat(100, 120_000), round(1, 1)]);
    [
        Vec::new(),
        file[..1].to_vec(),
        file[..file.len() - 1].to_vec(),
        set(0, 5),
        set(1, 0),
        set(1, 33),
        set(5, 113),
        set(2, 255),
        set(10, 0),
        set(10, 9),
        set(11, 2),
        file::write(&overfull),
        set(18, 65),
        set(21, 1),
        set(22, 255),
        set(30, 255),
        [&file[..], &[0]].concat(),
    ]
}

/// Items that are held, hang nowhere or have a wrong field, and one that is not
/// held.
fn items() -> Vec<Request> {
    let hang = |change: fn(&mut Item)| {
        let mut item = item(8);
        change(&mut item);
        Request::Hang(item)
    };
    vec![
        Request::Hang(item(7)),
        hang(|item| item.section = 1),
        hang(|item| item.section = 255),
        hang(|item| item.width = Length(0)),
        hang(|item| item.width = Length(3_001)),
        hang(|item| item.length = Length(0)),
        hang(|item| item.length = Length(10_001)),
        hang(|item| item.bare = 3_001),
        hang(|item| item.iced = 3_001),
        hang(|item| item.position = 1_001),
        Request::TakeDown(8),
        Request::TakeDown(0),
    ]
}

/// Winds with one number that is wrong.
fn winds() -> Vec<Request> {
    let wind = |change: fn(&mut Wind)| {
        let mut wind = sample_wind(&standing_tower(), 3, 1);
        change(&mut wind);
        Request::Wind(wind)
    };
    vec![
        wind(|wind| wind.direction = 24),
        wind(|wind| wind.ice_class = 6),
        wind(|wind| wind.structure_factor = 499),
        wind(|wind| wind.structure_factor = 2_001),
        wind(|wind| wind.pressures.clear()),
        wind(|wind| wind.pressures.push(0)),
        wind(|wind| wind.pressures[0] = 5_001),
    ]
}

/// Rooms that are too small for 6 numbers and 32 bytes.
fn rooms() -> Vec<Request> {
    let reports = [0, 1, 5].map(|room| Request::Report(Some(room)));
    let writes = [0, 1, 31].map(|room| Request::Write(Some(room)));
    [reports, writes].concat()
}
