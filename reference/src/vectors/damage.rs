//! Tower files, whole, cut and damaged.

use crate::draw::{small_tower, Random};
use crate::file;
use crate::tower::{Item, Member, Section, Tower};
use crate::units::Length;

/// Bytes of one item.
const ITEM_BYTES: usize = 13;

/// The kind of the first group.
const FIRST_KIND: usize = 11;

/// A small tower's file; most have some damage.
pub fn any_file(random: &mut Random) -> Vec<u8> {
    let mut tower = small_tower(random, 2);
    if random.chance(55) {
        damage_field(random, &mut tower);
    }
    let mut bytes = file::write(&tower);
    if random.chance(40) {
        damage_bytes(random, &mut bytes, tower.items.len());
    }
    bytes
}

/// A number at or beyond an end of its range.
fn end(random: &mut Random, low: u32, high: u32) -> u32 {
    random.pick(&[low.saturating_sub(1), low, high, high + 1])
}

/// Damages one field.
fn damage_field(random: &mut Random, tower: &mut Tower) {
    let sections = tower.sections.len();
    let place = random.within(0, sections as u32 - 1) as usize;
    if tower.items.is_empty() || random.chance(60) {
        damage_section(random, &mut tower.sections[place]);
    } else if tower.items.len() > 1 && random.chance(30) {
        let last = tower.items.len() - 1;
        tower.items[last].number = tower.items[0].number;
    } else {
        let item = random.within(0, tower.items.len() as u32 - 1) as usize;
        damage_item(random, &mut tower.items[item], sections);
    }
}

fn damage_section(random: &mut Random, section: &mut Section) {
    let group = random.within(0, section.groups.len() as u32 - 1) as usize;
    match random.within(0, 6) {
        0 => section.width = Length(end(random, 100, 15_000)),
        1 => section.height = Length(end(random, 100, 10_000)),
        2 => section.height = Length(section.height.0 + 1),
        3 => section.groups.clear(),
        4 => section.groups.resize(9, section.groups[group]),
        5 => section.groups[group].member = Member::Round(Length(end(random, 1, 1_000))),
        _ => section.groups[group].length = Length(end(random, 1, 200_000)),
    }
}

/// Damages one field of an item; with so many sections.
pub fn damage_item(random: &mut Random, item: &mut Item, sections: usize) {
    match random.within(0, 5) {
        0 => item.section = random.pick(&[sections as u8, 255]),
        1 => item.width = Length(end(random, 1, 3_000)),
        2 => item.length = Length(end(random, 1, 10_000)),
        3 => item.bare = end(random, 0, 3_000) as u16,
        4 => item.iced = end(random, 0, 3_000) as u16,
        _ => item.position = end(random, 0, 1_000) as u16,
    }
}

/// Damages the bytes of a file with so many items.
fn damage_bytes(random: &mut Random, bytes: &mut Vec<u8>, items: usize) {
    let any = random.within(0, bytes.len() as u32 - 1) as usize;
    let item_count = bytes.len() - 1 - ITEM_BYTES * items;
    match random.within(0, 7) {
        0 => bytes[0] = random.pick(&[0, 2, 3, 4, 5, 255]),
        1 => bytes[1] = random.pick(&[0, 1, 2, 3, 32, 33, 255]),
        2 => bytes[item_count] = random.pick(&[0, 1, 64, 65, 255]),
        3 => bytes[FIRST_KIND] = random.pick(&[0, 1, 2, 255]),
        4 => bytes.truncate(any),
        5 => bytes.push(random.within(0, 255) as u8),
        6 => bytes[any] = random.within(0, 255) as u8,
        _ => bytes[any] = bytes[any].wrapping_add(1),
    }
}
