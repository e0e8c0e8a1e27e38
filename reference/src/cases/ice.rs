//! Every ice class, with items whose coefficient depends on it.

use super::Case;
use crate::draw::{self, Random};
use crate::sample::{flat, item, round, sample};
use crate::tower::{Group, Item, Legs, Tower, ICE_CLASS};

/// Each class on each shape, with each face and each set of items.
pub fn cases() -> Vec<Case> {
    let mut random = Random(0x5eed_0302);
    let mut cases = Vec::new();
    for ice_class in ICE_CLASS {
        for legs in [Legs::Three, Legs::Four] {
            for groups in faces() {
                for items in hung() {
                    let tower = Tower {
                        items,
                        ..sample(legs, &groups)
                    };
                    let direction = draw::direction(&mut random, legs);
                    let wind = draw::wind(&mut random, &tower, direction, ice_class);
                    cases.push(Case::new(tower, wind));
                }
            }
        }
    }
    cases
}

/// All of them hold under every ice.
fn faces() -> [Vec<Group>; 3] {
    [
        vec![flat(100, 24_000)],
        vec![round(100, 24_000)],
        vec![flat(80, 12_000), round(150, 20_000), round(20, 9_000)],
    ]
}

/// Bare and iced coefficients differ, and some items hang elsewhere.
fn hung() -> [Vec<Item>; 5] {
    let on = |section, bare, iced| Item {
        section,
        bare,
        iced,
        ..item(u16::from(section))
    };
    [
        vec![on(0, 1_200, 700)],
        vec![on(0, 0, 3_000)],
        vec![on(0, 3_000, 0)],
        vec![on(1, 1_200, 700), on(31, 500, 2_000)],
        vec![on(31, 800, 900), on(0, 1_100, 1_300), on(1, 2_500, 1)],
    ]
}
