//! Drawn files, whole and with a few other bytes.

use super::towers::{drawn as drawn_tower, largest, middle, roomy, smallest, triangle};
use super::Case;
use crate::draw::{self, Random};
use crate::file;
use crate::tower::{Legs, Tower};
use std::collections::BTreeMap;

/// Drawn towers beside those of the other parts.
const DRAWN_BASES: usize = 15;

/// Damaged files for each base file.
const DAMAGED: usize = 150;

/// Small towers; some faces are full or 1 mm² over that.
pub fn drawn() -> Vec<Case> {
    let mut random = Random(0x5eed_0405);
    let file = |_| Case::File(file::write(&draw::small_tower(&mut random, 4)));
    (0..100).map(file).collect()
}

/// Each base file, then that file with one to four other bytes, many times.
pub fn cases() -> Vec<Case> {
    let mut random = Random(0x5eed_0406);
    let mut towers = vec![smallest(), triangle(), roomy(), middle(), largest()];
    towers.extend((0..DRAWN_BASES).map(|_| any_tower(&mut random)));
    let mut cases = Vec::new();
    for tower in towers {
        let file = file::write(&tower);
        cases.push(Case::File(file.clone()));
        cases.extend((0..DAMAGED).map(|_| damaged(&mut random, &file)));
    }
    cases
}

/// One to eight sections, up to 20 items; in half of the towers their numbers
/// are near each other.
fn any_tower(random: &mut Random) -> Tower {
    let legs = random.pick(&[Legs::Three, Legs::Four]);
    let mut groups = vec![0; random.within(1, 8) as usize];
    groups.fill_with(|| random.within(1, 8) as usize);
    let items = random.within(0, 20);
    let mut tower = drawn_tower(random, legs, &groups, items as u16);
    if random.chance(50) {
        tower.items = draw::items(random, items, groups.len());
    }
    tower
}

/// One to four other bytes.
fn damaged(random: &mut Random, file: &[u8]) -> Case {
    let mut others = BTreeMap::new();
    for _ in 0..random.within(1, 4) {
        let place = random.within(0, file.len() as u32 - 1) as usize;
        others.insert(place, other_byte(random, file, file[place]));
    }
    Case::Set(others.into_iter().collect())
}

/// Beside the old one, one bit off it, from elsewhere in the file, or any.
fn other_byte(random: &mut Random, file: &[u8], old: u8) -> u8 {
    loop {
        let byte = match random.within(0, 5) {
            0 => old.wrapping_add(1),
            1 => old.wrapping_sub(1),
            2 => old ^ (1 << random.within(0, 7)),
            3 => random.pick(file),
            _ => random.within(0, 255) as u8,
        };
        if byte != old {
            return byte;
        }
    }
}
