//! Single requests, most of which suit a tower.

use super::damage::damaged_file;
use super::towers::{self, Size};
use crate::draw::{self, Random};
use crate::file;
use crate::report::ROW;
use crate::requests::Request;
use crate::tower::{Item, Tower, Wind};
use crate::units::Length;
use crate::vectors::damage::damage_item;

/// Any request but help, for this tower.
pub fn any_request(random: &mut Random, tower: &Tower, size: Size) -> Request {
    match random.within(0, 99) {
        0..=2 => erect(random, size),
        3..=13 => Request::Erect(damaged_file(random)),
        14..=33 => Request::Hang(item(random, tower)),
        34..=45 => Request::TakeDown(item_number(random, tower)),
        46..=63 => Request::Wind(any_wind(random, tower)),
        64..=81 => Request::Report(room(random, ROW * tower.sections.len())),
        82..=92 => Request::Check,
        _ => Request::Write(room(random, file::write(tower).len())),
    }
}

/// A whole file. A long one seldom stands behind a list's start, and the largest
/// never.
fn erect(random: &mut Random, size: Size) -> Request {
    let size = match size {
        Size::Tall | Size::Crowded if random.chance(25) => size,
        _ => Size::Small,
    };
    Request::Erect(file::write(&towers::tower(random, size).0))
}

/// None, as many elements as are needed, or some more or fewer.
fn room(random: &mut Random, needed: usize) -> Option<u64> {
    let needed = needed as u64;
    let more = needed + u64::from(random.within(1, 20));
    let fewer = u64::from(random.within(0, needed as u32 - 1));
    let any = random.next_bits() >> random.within(1, 60);
    let some = [needed, needed, more, needed - 1, fewer, any].map(Some);
    random.pick(&[&some[..], &[None, None]].concat())
}

/// A number that is held, or any.
fn item_number(random: &mut Random, tower: &Tower) -> u16 {
    if tower.items.is_empty() || random.chance(30) {
        let any = random.within(0, 200) as u16;
        random.pick(&[any, any, any, 65_535])
    } else {
        random.pick(&tower.items).number
    }
}

/// An item, most often a new one; some have a wrong section or field, and some
/// two faults.
fn item(random: &mut Random, tower: &Tower) -> Item {
    let new = random.within(0, u16::MAX.into()) as u16;
    let number = if random.chance(12) {
        item_number(random, tower)
    } else {
        new
    };
    let sections = tower.sections.len();
    let mut item = draw::item(random, number, sections);
    if random.chance(8) {
        item.section = random.pick(&[sections as u8, 32, 255]);
    }
    if random.chance(14) {
        damage_item(random, &mut item, sections);
    }
    // beyond the two bytes of a file's field
    let wide = Length(random.pick(&[65_536, 65_537, 1 << 31, u32::MAX]));
    match random.within(0, 39) {
        0 => item.width = wide,
        1 => item.length = wide,
        _ => {}
    }
    item
}

/// A wind, of which some have a wrong number or several.
fn any_wind(random: &mut Random, tower: &Tower) -> Wind {
    let mut wind = towers::wind(random, tower);
    if random.chance(50) {
        return wind;
    }
    if random.chance(20) {
        wind.direction = random.pick(&[1, 5, 23, 24, 25, 256, u32::MAX]);
    }
    if random.chance(20) {
        wind.ice_class = random.pick(&[6, 7, 256, u32::MAX]);
    }
    if random.chance(20) {
        wind.structure_factor = random.pick(&[0, 499, 2_001, 66_536, u32::MAX]);
    }
    if random.chance(20) {
        let count = random.within(0, 40) as usize;
        wind.pressures.resize(count, 1_000);
    }
    if random.chance(40) {
        if let Some(last) = wind.pressures.last_mut() {
            *last = random.pick(&[5_000, 5_001, 5_001, u16::MAX]);
        }
    }
    if random.chance(40) && wind.ice_class <= 5 {
        wind.ice_class = random.within(3, 5);
    }
    wind
}
