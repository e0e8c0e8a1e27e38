//! The smallest and the largest sections, items and loads.

use super::samples::under;
use super::Case;
use crate::sample::{flat, item, round, sample, section, tower};
use crate::tower::{ice_thickness, Group, Item, Legs, Tower, GROUP_COUNT, MOST_ITEMS};
use crate::units::Length;

/// All of them.
pub fn cases() -> Vec<Case> {
    let mut cases = Vec::new();
    for legs in [Legs::Three, Legs::Four] {
        cases.extend(smallest(legs));
        cases.extend(largest(legs));
        cases.extend(largest_in_calm(legs));
        cases.extend(loads(legs));
        cases.push(longest(legs));
    }
    cases
}

/// A direction with s = 1, where Kθ of a square is largest and Kθ of flats on a
/// triangle is least.
pub fn turned(legs: Legs) -> u32 {
    match legs {
        Legs::Three => 4,
        Legs::Four => 3,
    }
}

/// With s = 0 and with s = 1.
fn directions(legs: Legs) -> [u32; 2] {
    [0, turned(legs)]
}

/// Bare, and the least and the most ice.
const ICE: [u32; 3] = [0, 1, 5];

/// 100 by 100 with one group of 1 by 1, bare and iced, and no item or one as
/// small as any.
fn smallest(legs: Legs) -> Vec<Case> {
    let none = Vec::new();
    let least = Item {
        width: Length(1),
        length: Length(1),
        bare: 1,
        iced: 1,
        position: 1,
        ..item(0)
    };
    let mut cases = Vec::new();
    for group in [flat(1, 1), round(1, 1)] {
        let mut tower = tower(legs, &[section(100, 100, &[group])]);
        for items in [&none, &vec![least]] {
            tower.items.clone_from(items);
            cases.extend(ICE.iter().flat_map(|ice| smallest_under(&tower, *ice)));
        }
    }
    cases
}

fn smallest_under(tower: &Tower, ice_class: u32) -> Vec<Case> {
    let mut cases = Vec::new();
    for direction in directions(tower.legs) {
        for (pressure, factor) in [(0, 500), (1, 500), (5_000, 2_000)] {
            cases.push(under(tower, direction, ice_class).loaded(pressure, factor));
        }
    }
    cases
}

/// 15 000 by 10 000 under the largest load, bare and with the most ice, and no
/// item or as many as hold, all largest. The largest force of all is that of
/// iced rounds that fill a square's face, with s = 1.
fn largest(legs: Legs) -> Vec<Case> {
    let mut cases = Vec::new();
    for kind in [flat, round] {
        for ice_class in [0, 5] {
            for held in [0, MOST_ITEMS] {
                cases.extend(largest_with(legs, kind, ice_class, held));
            }
        }
    }
    cases
}

/// Full, 1 mm² less and nearly empty, with so many of the largest items.
pub fn largest_with(
    legs: Legs,
    kind: fn(u32, u32) -> Group,
    ice_class: u32,
    held: usize,
) -> Vec<Case> {
    let mut cases = Vec::new();
    for groups in largest_faces(kind, ice_class) {
        let tower = Tower {
            items: (0..held as u16).map(largest_item).collect(),
            ..tower(legs, &[section(15_000, 10_000, &groups)])
        };
        let winds = directions(legs).map(|direction| under(&tower, direction, ice_class));
        cases.extend(winds.map(|case| case.loaded(5_000, 2_000)));
    }
    cases
}

/// Full under this ice, 1 mm² less, and nearly empty.
fn largest_faces(kind: fn(u32, u32) -> Group, ice_class: u32) -> [Vec<Group>; 3] {
    let size = 1_000 - 2 * ice_thickness(ice_class).0;
    [
        vec![kind(size, 150_000)],
        vec![kind(size, 149_999), kind(size - 1, 1)],
        vec![kind(1, 1)],
    ]
}

fn largest_item(number: u16) -> Item {
    Item {
        width: Length(3_000),
        length: Length(10_000),
        bare: 3_000,
        iced: 3_000,
        position: 1_000,
        ..item(number)
    }
}

/// The largest rounds just before and after they turn supercritical, and with
/// next to no wind.
fn largest_in_calm(legs: Legs) -> Vec<Case> {
    let mut cases = Vec::new();
    for groups in largest_faces(round, 0) {
        let tower = tower(legs, &[section(15_000, 10_000, &groups)]);
        for pressure in [0, 1, 22, 23] {
            for factor in [500, 2_000] {
                cases.push(under(&tower, 0, 0).loaded(pressure, factor));
            }
        }
    }
    cases
}

/// The ends of the pressures and of the structure factors.
fn loads(legs: Legs) -> Vec<Case> {
    let members = [flat(100, 12_000), round(100, 8_000), round(50, 8_000)];
    let tower = Tower {
        items: vec![item(0)],
        ..sample(legs, &members)
    };
    let mut cases = Vec::new();
    for pressure in [0, 1, 2, 4_999, 5_000] {
        for factor in [500, 501, 1_999, 2_000] {
            cases.push(under(&tower, 2, 0).loaded(pressure, factor));
        }
    }
    cases
}

/// The most groups, the longest group, the most items, on every section that a
/// tower can have, and the last direction: 417 numbers.
fn longest(legs: Legs) -> Case {
    let mut groups = vec![flat(500, 200_000)];
    groups.resize(*GROUP_COUNT.end() as usize, round(1_000, 7_000));
    let on = |number: u16| Item {
        section: (number % 32) as u8,
        ..largest_item(number)
    };
    let tower = Tower {
        items: (0..MOST_ITEMS as u16).map(on).collect(),
        ..tower(legs, &[section(15_000, 10_000, &groups)])
    };
    let last = match legs {
        Legs::Three => 22,
        Legs::Four => 23,
    };
    under(&tower, last, 0)
}
