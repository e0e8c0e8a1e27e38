//! Lists of calls on a fresh service, with valid and invalid arguments.

use super::damage::{any_file, damage_item};
use super::{number, set_wind, Call, ListCase};
use crate::draw::{self, Random};
use crate::file::{self, LONGEST_FILE};
use crate::report::ROW;
use crate::service::Service;
use crate::tower::{Item, Tower, Wind};

/// Calls in a list.
const LENGTH: usize = 25;

pub fn list_cases() -> Vec<ListCase> {
    let mut random = Random(0x5eed_0103);
    (0..64).map(|_| list_case(&mut random)).collect()
}

fn list_case(random: &mut Random) -> ListCase {
    let mut service = Service::fresh();
    let (mut calls, mut refusals) = (Vec::new(), Vec::new());
    for _ in 0..LENGTH {
        let call = match service.tower() {
            None => first_call(random),
            Some(tower) => any_call(random, tower),
        };
        refusals.push(make(&mut service, &call));
        calls.push(call);
    }
    let mut file = vec![0; LONGEST_FILE];
    let length = service.write(&mut file).unwrap_or(0);
    file.truncate(length);
    ListCase {
        calls,
        refusals,
        file,
    }
}

/// Makes the call and answers the number of its refusal, or 0.
fn make(service: &mut Service, call: &Call) -> u32 {
    match call {
        Call::Erect(file) => number(service.erect(file)),
        Call::Hang(item) => number(service.hang(*item)),
        Call::TakeDown(item) => number(service.take_down(*item)),
        Call::Wind(wind) => number(set_wind(service, wind)),
        Call::Report(room) => number(service.report(&mut vec![0; *room])),
        Call::Check => number(service.check()),
        Call::Write(room) => number(service.write(&mut vec![0; *room])),
    }
}

/// A call while there is no tower; half of them erect one.
fn first_call(random: &mut Random) -> Call {
    let tower = draw::small_tower(random, 3);
    if random.chance(50) {
        erect(random)
    } else {
        any_call(random, &tower)
    }
}

/// A call that mostly suits this tower.
fn any_call(random: &mut Random, tower: &Tower) -> Call {
    match random.within(0, 99) {
        0..=5 => erect(random),
        6..=39 => Call::Hang(item(random, tower)),
        40..=54 => Call::TakeDown(item_number(random, tower)),
        55..=74 => Call::Wind(wind(random, tower)),
        75..=84 => Call::Report(room(random, ROW * tower.sections.len())),
        85..=89 => Call::Check,
        _ => Call::Write(room(random, file::write(tower).len())),
    }
}

/// A small tower, one with hardly a place left, or a file with any damage.
fn erect(random: &mut Random) -> Call {
    if random.chance(30) {
        return Call::Erect(any_file(random));
    }
    let mut tower = draw::small_tower(random, 3);
    if random.chance(15) {
        let held = random.within(62, 64);
        tower.items = draw::items(random, held, tower.sections.len());
    }
    Call::Erect(file::write(&tower))
}

/// A number that is held, or any.
fn item_number(random: &mut Random, tower: &Tower) -> u16 {
    if tower.items.is_empty() || random.chance(35) {
        let any = random.within(0, 200) as u16;
        random.pick(&[any, any, any, 65_535])
    } else {
        random.pick(&tower.items).number
    }
}

/// An item, most often a new one; some have a wrong field.
fn item(random: &mut Random, tower: &Tower) -> Item {
    let new = random.within(0, 200) as u16;
    let number = if random.chance(15) {
        item_number(random, tower)
    } else {
        new
    };
    let mut item = draw::item(random, number, tower.sections.len());
    if random.chance(30) {
        damage_item(random, &mut item, tower.sections.len());
    }
    item
}

/// A wind; each of its numbers may be wrong.
fn wind(random: &mut Random, tower: &Tower) -> Wind {
    let direction = draw::direction(random, tower.legs);
    let ice_class = random.within(0, 5);
    let mut wind = draw::wind(random, tower, direction, ice_class);
    if random.chance(12) {
        wind.direction = random.pick(&[1, 23, 24, 25, u32::MAX]);
    }
    if random.chance(8) {
        wind.ice_class = random.pick(&[6, 7, u32::MAX]);
    }
    if random.chance(12) {
        wind.structure_factor = random.pick(&[0, 499, 500, 2_000, 2_001, u32::MAX]);
    }
    if random.chance(6) {
        wind.pressures.pop();
    }
    if random.chance(6) {
        wind.pressures.push(1_000);
    }
    if random.chance(12) {
        if let Some(last) = wind.pressures.last_mut() {
            *last = random.pick(&[5_000, 5_001, u16::MAX]);
        }
    }
    wind
}

/// As many elements as needed, or some more or fewer.
fn room(random: &mut Random, needed: usize) -> usize {
    random.pick(&[0, needed - 1, needed, needed, needed + 1, needed + 7])
}
