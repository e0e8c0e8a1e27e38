//! Towers, items and winds that look random but never change.

use crate::tower::{ice_thickness, Group, Item, Legs, Member, Section, Tower, Wind};
use crate::units::{Force, Length};
use std::iter::repeat_with;

/// Diameters with the pressure at which 2 q d² is 45 000 000 exactly.
pub const FLOW_LIMITS: [(u32, u16); 6] = [
    (75, 4_000),
    (100, 2_250),
    (150, 1_000),
    (250, 360),
    (300, 250),
    (500, 90),
];

/// Tenths of A_u, and mm² beside them: the ends of K2's ranges, and a full face.
pub const EXACT_SOLIDITY: [(u32, i32); 11] = [
    (2, -1),
    (2, 0),
    (2, 1),
    (5, -1),
    (5, 0),
    (5, 1),
    (8, -1),
    (8, 0),
    (8, 1),
    (10, -1),
    (10, 0),
];

/// Marsaglia's xorshift.
pub struct Random(pub u64);

impl Random {
    /// The next 64 bits.
    pub fn next_bits(&mut self) -> u64 {
        self.0 ^= self.0 << 13;
        self.0 ^= self.0 >> 7;
        self.0 ^= self.0 << 17;
        self.0
    }

    /// From low to high, both included.
    pub fn within(&mut self, low: u32, high: u32) -> u32 {
        let count = u64::from(high - low) + 1;
        low + ((self.next_bits() >> 11) % count) as u32
    }

    /// True in so many of a hundred cases.
    pub fn chance(&mut self, percent: u32) -> bool {
        self.within(1, 100) <= percent
    }

    /// One of these.
    pub fn pick<T: Copy>(&mut self, all: &[T]) -> T {
        all[self.within(0, all.len() as u32 - 1) as usize]
    }
}

/// Draws until one is wanted.
pub fn until<T>(draw: impl FnMut() -> T, wanted: impl Fn(&T) -> bool) -> T {
    let one = repeat_with(draw).find(|one| wanted(one));
    one.expect("one of endless draws")
}

/// A flat or a round group.
fn group(random: &mut Random, size: u32, length: u32) -> Group {
    let kind = random.pick(&[Member::Flat, Member::Round]);
    Group {
        member: kind(Length(size)),
        length: Length(length),
    }
}

fn allowance(random: &mut Random) -> Option<Force> {
    let stated = random.chance(50);
    stated.then(|| Force(random.within(1, u32::MAX).into()))
}

/// A section with A_S of `tenths` tenths of A_u and `beside` mm² more, exactly,
/// under this ice.
pub fn exact_section(random: &mut Random, ice_class: u32, tenths: u32, beside: i32) -> Section {
    let size = random.within(101, 899);
    let iced = size + 2 * ice_thickness(ice_class).0;
    let across = random.within(1, (15_000 / iced).min(60));
    let down = random.within(10, 250);
    let mut length = tenths * across * down;
    let mut groups = Vec::new();
    if beside != 0 {
        // one millimetre of the length is wider or narrower by one
        groups.push(group(random, size.wrapping_add_signed(beside), 1));
        length -= 1;
    }
    for _ in 0..random.within(0, 2) {
        let piece = random.within(1, length / 3);
        groups.push(group(random, size, piece));
        length -= piece;
    }
    groups.push(group(random, size, length));
    Section {
        width: Length(iced * across),
        height: Length(10 * down),
        allowance: allowance(random),
        groups,
    }
}

/// A section with up to `most` groups and any solidity ratio, nearly 0 at
/// times, that holds under this ice.
pub fn section(random: &mut Random, ice_class: u32, most: u32) -> Section {
    let (width, height) = (random.within(100, 15_000), 2 * random.within(50, 5_000));
    let count = random.within(1, most);
    let thousandths = if random.chance(15) {
        0
    } else {
        random.within(1, 1_000)
    };
    let area = u64::from(width) * u64::from(height) * u64::from(thousandths) / 1_000;
    let mut groups = Vec::new();
    for _ in 0..count {
        let size = if random.chance(30) {
            random.pick(&FLOW_LIMITS).0
        } else {
            random.within(1, 1_000)
        };
        let iced = size + 2 * ice_thickness(ice_class).0;
        let length = area / u64::from(count * iced);
        groups.push(group(random, size, length.clamp(1, 200_000) as u32));
    }
    Section {
        width: Length(width),
        height: Length(height),
        allowance: allowance(random),
        groups,
    }
}

/// The greatest whole pressure with 2 q d² at most 45 000 000.
pub fn flow_limit(diameter: u32) -> u32 {
    22_500_000 / (diameter * diameter)
}

/// A pressure; at times at the end of its range, at the flow limit of one of
/// the section's groups or just above that.
fn pressure(random: &mut Random, section: &Section) -> u16 {
    let size = random.pick(&section.groups).member.bare_width().0;
    let limit = flow_limit(size);
    if limit < 5_000 && random.chance(50) {
        return (limit + random.within(0, 1)) as u16;
    }
    match random.within(0, 19) {
        0 => 0,
        1 => 5_000,
        _ => random.within(0, 5_000) as u16,
    }
}

/// Direction k that these legs take.
pub fn direction(random: &mut Random, legs: Legs) -> u32 {
    match legs {
        Legs::Three => 2 * random.within(0, 11),
        Legs::Four => random.within(0, 23),
    }
}

/// No ice, or any class of it.
pub fn ice_class(random: &mut Random) -> u32 {
    if random.chance(60) {
        0
    } else {
        random.within(1, 5)
    }
}

/// A wind for this tower with this direction and ice.
pub fn wind(random: &mut Random, tower: &Tower, direction: u32, ice_class: u32) -> Wind {
    let any = random.within(500, 2_000);
    let structure_factor = random.pick(&[500, 1_000, 2_000, any, any, any, any, any]);
    let sections = tower.sections.iter();
    Wind {
        direction,
        ice_class,
        structure_factor,
        pressures: sections.map(|section| pressure(random, section)).collect(),
    }
}

/// An item on one of so many sections.
pub fn item(random: &mut Random, number: u16, sections: usize) -> Item {
    Item {
        number,
        section: random.within(0, sections as u32 - 1) as u8,
        width: Length(random.within(1, 3_000)),
        length: Length(random.within(1, 10_000)),
        bare: random.within(0, 3_000) as u16,
        iced: random.within(0, 3_000) as u16,
        position: random.within(0, 1_000) as u16,
    }
}

/// So many items with rising numbers.
pub fn items(random: &mut Random, count: u32, sections: usize) -> Vec<Item> {
    let mut items = Vec::new();
    let mut number = random.within(0, 3) as u16;
    for _ in 0..count {
        items.push(item(random, number, sections));
        number += random.within(1, 3) as u16;
    }
    items
}

/// A small tower; some faces are exactly full, bare or under some ice, or
/// over that by 1 mm².
pub fn small_tower(random: &mut Random, most: u32) -> Tower {
    let count = random.within(1, most);
    let mut sections = Vec::new();
    for _ in 0..count {
        sections.push(if random.chance(25) {
            let ice_class = random.within(0, 3);
            let beside = random.pick(&[0, 1]);
            exact_section(random, ice_class, 10, beside)
        } else {
            section(random, 0, 3)
        });
    }
    let held = random.within(0, 3);
    Tower {
        legs: random.pick(&[Legs::Three, Legs::Four]),
        items: items(random, held, sections.len()),
        sections,
    }
}
