//! The towers whose files are cut, changed and written.

use crate::draw::{self, Random};
use crate::sample::{flat, item, round, section, tower};
use crate::tower::{Item, Legs, Section, Tower, MOST_ITEMS, SECTION_COUNT};
use crate::units::{Force, Length};

/// 32 sections of 8 groups, 64 items: 2 915 bytes.
pub fn largest() -> Tower {
    let sections = *SECTION_COUNT.end() as usize;
    let mut random = Random(0x5eed_0401);
    drawn(
        &mut random,
        Legs::Four,
        &vec![8; sections],
        MOST_ITEMS as u16,
    )
}

/// One section of 100 by 100 with one group of 1 by 1, no item: 19 bytes.
pub fn smallest() -> Tower {
    tower(Legs::Four, &[section(100, 100, &[flat(1, 1)])])
}

/// Six sections with one to eight groups of both kinds, 12 items: 381 bytes.
pub fn middle() -> Tower {
    let mut random = Random(0x5eed_0402);
    drawn(&mut random, Legs::Four, &[3, 8, 1, 5, 2, 5], 12)
}

/// Three legs, three sections, three items: 118 bytes.
pub fn triangle() -> Tower {
    let mut random = Random(0x5eed_0403);
    drawn(&mut random, Legs::Three, &[2, 4, 1], 3)
}

/// One section and 64 items with the numbers 0 to 63.
pub fn crowded() -> Tower {
    let mut random = Random(0x5eed_0404);
    let numbered = |number| draw::item(&mut random, number, 1);
    Tower {
        items: (0..MOST_ITEMS as u16).map(numbered).collect(),
        ..smallest()
    }
}

/// Three sections and three items; each field can be at either end of its range
/// while the others stay.
pub fn roomy() -> Tower {
    let mut sections = [
        section(2_000, 6_000, &[flat(11, 5_000), round(9, 4_300)]),
        section(2_100, 5_990, &[round(12, 4_800)]),
        section(
            2_310,
            5_800,
            &[round(8, 5_200), flat(10, 5_100), round(13, 4_900)],
        ),
    ];
    sections[0].allowance = Some(Force(70_000));
    sections[2].allowance = Some(Force(1));
    let on = |number, section, width| Item {
        section,
        width: Length(width),
        iced: 1_500,
        ..item(number)
    };
    Tower {
        items: vec![on(0x0201, 0, 300), on(0x0102, 2, 290), on(0x0007, 1, 1_200)],
        ..tower(Legs::Three, &sections)
    }
}

/// A tower with so many groups in each section, and so many items.
pub fn drawn(random: &mut Random, legs: Legs, groups: &[usize], items: u16) -> Tower {
    let sections: Vec<Section> = groups
        .iter()
        .map(|count| section_of(random, *count))
        .collect();
    Tower {
        items: items_on(random, items, sections.len()),
        legs,
        sections,
    }
}

/// An acceptable section with so many groups.
fn section_of(random: &mut Random, groups: usize) -> Section {
    loop {
        let section = draw::section(random, 0, 8);
        if section.groups.len() == groups {
            return section;
        }
    }
}

/// So many items whose numbers differ in both bytes.
fn items_on(random: &mut Random, count: u16, sections: usize) -> Vec<Item> {
    let first = random.within(0, u16::MAX.into()) as u16;
    // an odd step reaches each number once
    let number = |place: u16| first.wrapping_add(place.wrapping_mul(40_503));
    (0..count)
        .map(|place| draw::item(random, number(place), sections))
        .collect()
}
