//! Tower files, each with one damage or two.

use super::towers::accepted;
use crate::draw::{self, Random};
use crate::file;
use crate::sample::flat;
use crate::tower::{Member, Tower};
use crate::units::Length;

/// Bytes of one item.
const ITEM_BYTES: usize = 13;

/// The kind of the first group.
const FIRST_KIND: usize = 11;

/// A small tower's file with damage, for each refusal of a file as often. In one
/// of five files there is damage for two refusals.
pub fn damaged_file(random: &mut Random) -> Vec<u8> {
    let mut tower = accepted(|| draw::small_tower(random, 2));
    let mut refusals = vec![random.within(2, 13)];
    if random.chance(20) {
        refusals.push(random.within(2, 13));
    }
    for &refusal in &refusals {
        damage_tower(random, &mut tower, refusal);
    }
    let mut bytes = file::write(&tower);
    let item_count = bytes.len() - 1 - ITEM_BYTES * tower.items.len();
    // a file is cut last
    refusals.sort_unstable_by(|one, other| other.cmp(one));
    for refusal in refusals {
        damage_bytes(random, &mut bytes, refusal, item_count);
    }
    bytes
}

/// Damage for the refusals that are about a field's value.
fn damage_tower(random: &mut Random, tower: &mut Tower, refusal: u32) {
    let place = random.within(0, tower.sections.len() as u32 - 1) as usize;
    let section = &mut tower.sections[place];
    match refusal {
        5 => match random.within(0, 2) {
            0 => section.width = Length(random.pick(&[0, 99, 15_001, 65_535])),
            1 => section.height = Length(random.pick(&[0, 98, 10_002, 65_534])),
            _ => section.height = Length(section.height.0 | 1),
        },
        6 => {
            let count = random.pick(&[0, 9]);
            section.groups.resize(count, flat(1, 1));
        }
        7 => {
            if let Some(group) = section.groups.last_mut() {
                match random.within(0, 1) {
                    0 => group.member = Member::Round(Length(random.pick(&[0, 1_001, 65_535]))),
                    _ => group.length = Length(random.pick(&[0, 200_001, u32::MAX])),
                }
            }
        }
        8 => *section = draw::exact_section(random, 0, 10, 1),
        10..=12 => damage_items(random, tower, refusal),
        _ => {}
    }
}

/// An item that comes twice, that hangs nowhere, or that has a wrong field.
fn damage_items(random: &mut Random, tower: &mut Tower, refusal: u32) {
    let sections = tower.sections.len();
    let mut item = draw::item(random, 900, sections);
    match refusal {
        10 => tower.items.push(item),
        11 => item.section = random.pick(&[sections as u8, 32, 255]),
        _ => match random.within(0, 4) {
            0 => item.width = Length(random.pick(&[0, 3_001, 65_535])),
            1 => item.length = Length(random.pick(&[0, 10_001, 65_535])),
            2 => item.bare = random.pick(&[3_001, 65_535]),
            3 => item.iced = random.pick(&[3_001, 65_535]),
            _ => item.position = random.pick(&[1_001, 65_535]),
        },
    }
    tower.items.push(item);
}

/// Damage for the other refusals, and a wrong kind; the place of the item count is
/// given.
fn damage_bytes(random: &mut Random, bytes: &mut Vec<u8>, refusal: u32, item_count: usize) {
    match refusal {
        2 => bytes.truncate(random.within(0, bytes.len() as u32) as usize),
        3 => bytes[0] = random.pick(&[0, 1, 2, 5, 255]),
        4 => bytes[1] = random.pick(&[0, 33, 255]),
        7 if random.chance(30) => bytes[FIRST_KIND] = random.pick(&[2, 255]),
        9 => bytes[item_count] = random.pick(&[65, 128, 255]),
        13 => bytes.extend(vec![0; random.within(1, 3) as usize]),
        _ => {}
    }
}
