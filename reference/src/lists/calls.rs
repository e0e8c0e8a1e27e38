//! Single calls with drawn arguments, most of which suit the tower that stands.

use super::draws::{Draws, Key};
use super::files::{damaged_file, item, sound_file, Size, FLOW_LIMITS};
use crate::file;
use crate::report::ROW;
use crate::service::Service;
use crate::tower::{Legs, Wind, DIRECTION, ICE_CLASS, PRESSURE, STRUCTURE_FACTOR};
use crate::vectors::Call;

/// The numbers of items that are drawn.
const ITEM_NUMBERS: u32 = 40;

/// How often a field of an item or of a wind is wrong: once in so many.
const ITEM_ODDS: u64 = 30;
const WIND_ODDS: u64 = 12;

/// What a call's arguments are drawn for.
struct Standing {
    legs: Legs,
    sections: u32,
    held: Vec<u16>,
    file_length: usize,
}

impl Standing {
    /// Where there is no tower, one section on four legs.
    fn of(service: &Service) -> Standing {
        match service.tower() {
            None => Standing {
                legs: Legs::Four,
                sections: 1,
                held: Vec::new(),
                file_length: 3,
            },
            Some(tower) => Standing {
                legs: tower.legs,
                sections: tower.sections.len() as u32,
                held: tower.items.iter().map(|item| item.number).collect(),
                file_length: file::write(tower).len(),
            },
        }
    }
}

/// The call of this key. What is missing, a tower or a wind, comes more often.
pub fn call(key: Key, size: Size, service: &Service) -> Call {
    let standing = Standing::of(service);
    let argument = key.part(2);
    let soon = key.once_in(0, 3);
    if soon && service.tower().is_none() {
        return Call::Erect(sound_file(argument, size));
    }
    if soon && service.current_wind().is_none() {
        return Call::Wind(wind(argument, &standing));
    }
    match key.within(1, 0..=99) {
        0..=2 => Call::Erect(sound_file(argument, size)),
        3..=10 => Call::Erect(damaged_file(argument, size)),
        11..=34 => hang(argument, &standing),
        35..=49 => Call::TakeDown(taken(argument, &standing)),
        50..=63 => Call::Wind(wind(argument, &standing)),
        64..=79 => Call::Report(room(argument, ROW * standing.sections as usize)),
        80..=89 => Call::Check,
        _ => Call::Write(room(argument, standing.file_length)),
    }
}

fn any_number(key: Key) -> u16 {
    key.within(0, 0..=ITEM_NUMBERS) as u16
}

fn hang(key: Key, standing: &Standing) -> Call {
    let odds = ITEM_ODDS;
    let draws = Draws { key, odds };
    Call::Hang(item(draws, any_number(key), standing.sections))
}

/// A number that is held, or any.
fn taken(key: Key, standing: &Standing) -> u16 {
    let held = &standing.held;
    if held.is_empty() || key.once_in(1, 2) {
        return any_number(key);
    }
    held[key.within(2, 0..=held.len() as u32 - 1) as usize]
}

/// A wind, of which some have a wrong number or several.
fn wind(key: Key, standing: &Standing) -> Wind {
    let odds = WIND_ODDS;
    let draws = Draws { key, odds };
    let count = if draws.is_wrong(4) {
        key.within(4, 0..=33)
    } else {
        standing.sections
    };
    let odds = WIND_ODDS * u64::from(standing.sections);
    let pressures = Draws { odds, ..draws }.part(5);
    Wind {
        direction: direction(draws, standing.legs),
        ice_class: if key.once_in(1, 2) {
            0
        } else {
            draws.field(2, ICE_CLASS)
        },
        structure_factor: draws.field(3, STRUCTURE_FACTOR),
        pressures: (0..count)
            .map(|place| pressure(pressures.part(place.into())))
            .collect(),
    }
}

/// With three legs an odd one is wrong too.
fn direction(draws: Draws, legs: Legs) -> u32 {
    let direction = draws.field(0, DIRECTION);
    if legs == Legs::Four || draws.is_wrong(6) {
        direction
    } else {
        direction / 2 * 2
    }
}

/// Any pressure, or one at a flow limit or just above it.
fn pressure(draws: Draws) -> u16 {
    let key = draws.key;
    if key.once_in(0, 4) {
        let (_, limit) = FLOW_LIMITS[key.within(1, 0..=5) as usize];
        return (limit + key.within(2, 0..=1)) as u16;
    }
    let (low, high) = PRESSURE.into_inner();
    draws.field(3, low.into()..=high.into()) as u16
}

/// As many elements as are needed, or some more or fewer.
fn room(key: Key, needed: usize) -> usize {
    match key.within(0, 0..=7) {
        0 => needed - 1,
        1 => key.within(1, 0..=needed as u32) as usize,
        2 | 3 => needed + key.within(1, 1..=20) as usize,
        _ => needed,
    }
}
