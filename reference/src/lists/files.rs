//! Files of drawn towers, sound and damaged.

use super::draws::{Draws, Key};
use crate::tower::{
    Item, COEFFICIENT, GROUP_COUNT, GROUP_LENGTH, ITEM_LENGTH, ITEM_WIDTH, MEMBER_WIDTH,
    MOST_ITEMS, POSITION_FACTOR, SECTION_COUNT, SECTION_WIDTH,
};
use crate::units::Length;

/// Diameters, each with the pressure at which 2 q d² is 45 000 000 exactly.
pub const FLOW_LIMITS: [(u32, u32); 6] = [
    (75, 4_000),
    (100, 2_250),
    (150, 1_000),
    (250, 360),
    (300, 250),
    (500, 90),
];

/// How large the towers of a list are.
#[derive(Clone, Copy, Debug, PartialEq, Eq)]
pub enum Size {
    /// Up to three sections and four items.
    Small,
    /// Up to 64 items.
    Crowded,
    /// Up to 32 sections.
    Tall,
}

impl Size {
    /// The size of a list.
    pub fn of(list: Key) -> Size {
        match list.within(CALLS_END, 0..=31) {
            0 => Size::Tall,
            1..=3 => Size::Crowded,
            _ => Size::Small,
        }
    }
}

/// A place beyond those of a list's calls.
const CALLS_END: u64 = 1_000;

/// How many sections and items a tower has.
#[derive(Clone, Copy, Debug, PartialEq, Eq)]
pub struct Extent {
    /// At least one.
    pub sections: u32,
    /// At most 64.
    pub items: u32,
}

impl Extent {
    fn of(key: Key, size: Size) -> Extent {
        let (sections, items) = match size {
            Size::Small => (1..=3, 0..=4),
            Size::Crowded => (1..=2, 60..=64),
            Size::Tall => (4..=32, 0..=8),
        };
        Extent {
            sections: key.within(0, sections),
            items: key.within(1, items),
        }
    }
}

/// A file that is accepted.
pub fn sound_file(key: Key, size: Size) -> Vec<u8> {
    let draws = Draws { key, odds: 0 };
    file(draws.part(0), Extent::of(key, size))
}

/// A file with wrong fields, a byte that is any, bytes behind its end, or none there.
pub fn damaged_file(key: Key, size: Size) -> Vec<u8> {
    let kind = key.within(2, 0..=7);
    let odds = match kind {
        0..=2 => 0,
        _ => key.within(3, 8..=64).into(),
    };
    let draws = Draws { key, odds };
    let mut bytes = file(draws.part(0), Extent::of(key, size));
    let any = key.within(4, 0..=bytes.len() as u32 - 1);
    match kind {
        0 => bytes[any as usize] = key.within(5, 0..=255) as u8,
        1 => put(&mut bytes, key.within(5, 1..=3) as usize, any),
        2 => bytes.truncate(any as usize),
        _ => {}
    }
    bytes
}

/// A file with so many sections and items.
pub fn file(draws: Draws, extent: Extent) -> Vec<u8> {
    let mut bytes = Vec::new();
    put(&mut bytes, 1, draws.field(0, 3..=4));
    let sections = extent.sections;
    put(&mut bytes, 1, draws.or_wrong(1, sections, SECTION_COUNT));
    for place in 0..sections {
        put_section(&mut bytes, draws.part(2).part(place.into()));
    }
    let most = MOST_ITEMS as u32;
    put(&mut bytes, 1, draws.or_wrong(3, extent.items, 0..=most));
    for place in 0..extent.items {
        put_item(&mut bytes, &filed_item(draws.part(4), place, sections));
    }
    bytes
}

/// Adds the number's low bytes, high byte first.
fn put(bytes: &mut Vec<u8>, width: usize, number: u32) {
    bytes.extend_from_slice(&number.to_be_bytes()[4 - width..]);
}

fn put_section(bytes: &mut Vec<u8>, draws: Draws) {
    if draws.key.once_in(0, 8) {
        put_full_section(bytes, draws.part(1));
    } else {
        put_any_section(bytes, draws.part(1));
    }
}

/// A section whose face is exactly full, bare or under some ice, or 1 mm² more than
/// that. A bare face has that only in a damaged file.
fn put_full_section(bytes: &mut Vec<u8>, draws: Draws) {
    let key = draws.key;
    let ice = if key.once_in(0, 2) {
        0
    } else {
        key.within(1, 1..=5)
    };
    let size = key.within(2, 100..=899);
    let across = key.within(3, 1..=15);
    let height = 2 * key.within(4, 50..=5_000);
    let more = match ice {
        0 if draws.odds == 0 => 0,
        _ => key.within(5, 0..=1),
    };
    put_frame(bytes, (size + 20 * ice) * across, height, allowance(key));
    put(bytes, 1, 2);
    put_group(bytes, key.within(6, 0..=1), size, across * height - 1);
    put_group(bytes, key.within(7, 0..=1), size + more, 1);
}

/// A section with any solidity ratio.
fn put_any_section(bytes: &mut Vec<u8>, draws: Draws) {
    let key = draws.key;
    let width = draws.field(0, SECTION_WIDTH);
    let half = draws.field(1, 50..=5_000);
    let height = half.wrapping_mul(2) + u32::from(draws.is_wrong(2));
    let most = if key.once_in(3, 8) { 8 } else { 3 };
    let groups = key.within(4, 1..=most);
    put_frame(bytes, width, height, allowance(key));
    put(bytes, 1, draws.or_wrong(5, groups, GROUP_COUNT));
    let thousandths = u64::from(key.within(6, 0..=1_000));
    let solid = u64::from(width) * thousandths / 1_000 * u64::from(height);
    for place in 0..groups {
        let draws = draws.part(7).part(place.into());
        let kind = draws.field(0, 0..=1);
        let size = if draws.key.once_in(1, 4) {
            FLOW_LIMITS[draws.key.within(2, 0..=5) as usize].0
        } else {
            draws.field(2, MEMBER_WIDTH)
        };
        let length = match size {
            0 => 1,
            _ => (solid / u64::from(groups) / u64::from(size)).clamp(1, 200_000) as u32,
        };
        put_group(bytes, kind, size, draws.or_wrong(3, length, GROUP_LENGTH));
    }
}

/// A section's own fields, down to its group count.
fn put_frame(bytes: &mut Vec<u8>, width: u32, height: u32, allowance: u32) {
    put(bytes, 2, width);
    put(bytes, 2, height);
    put(bytes, 4, allowance);
}

/// None, any, or one that is near the shears.
fn allowance(section: Key) -> u32 {
    let key = section.part(8);
    match key.within(0, 0..=3) {
        0 => 0,
        1 => key.within(1, 0..=u32::MAX),
        _ => key.within(1, 1..=300_000),
    }
}

fn put_group(bytes: &mut Vec<u8>, kind: u32, size: u32, length: u32) {
    put(bytes, 1, kind);
    put(bytes, 2, size);
    put(bytes, 4, length);
}

/// The item of this place among a file's. A wrong number is that of the item before.
fn filed_item(items: Draws, place: u32, sections: u32) -> Item {
    let draws = items.part(place.into());
    let back = u32::from(place > 0 && draws.is_wrong(0));
    let number = numbered(items.key, place - back);
    item(draws, number, sections)
}

/// A number that no other place has.
fn numbered(items: Key, place: u32) -> u16 {
    (3 * place + items.part(place.into()).within(1, 0..=2)) as u16
}

/// An item on one of so many sections.
pub fn item(draws: Draws, number: u16, sections: u32) -> Item {
    Item {
        number,
        section: draws.field(2, 0..=sections - 1) as u8,
        width: Length(draws.field(3, ITEM_WIDTH)),
        length: Length(draws.field(4, ITEM_LENGTH)),
        bare: draws.field(5, COEFFICIENT) as u16,
        iced: draws.field(6, COEFFICIENT) as u16,
        position: draws.field(7, POSITION_FACTOR) as u16,
    }
}

fn put_item(bytes: &mut Vec<u8>, item: &Item) {
    put(bytes, 2, item.number.into());
    put(bytes, 1, item.section.into());
    put(bytes, 2, item.width.0);
    put(bytes, 2, item.length.0);
    put(bytes, 2, item.bare.into());
    put(bytes, 2, item.iced.into());
    put(bytes, 2, item.position.into());
}
