//! Every field at both ends of its range and beside them.

use super::towers::roomy;
use super::Case;
use crate::file;
use crate::tower::{
    Tower, COEFFICIENT, GROUP_COUNT, GROUP_LENGTH, ITEM_LENGTH, ITEM_WIDTH, MEMBER_WIDTH,
    MOST_ITEMS, POSITION_FACTOR, SECTION_COUNT, SECTION_HEIGHT, SECTION_WIDTH,
};
use std::collections::BTreeSet;
use std::ops::RangeInclusive;

/// A field of a file.
#[derive(Clone, Debug, PartialEq, Eq)]
pub struct Field {
    /// Of its first byte.
    pub place: usize,
    /// How many it has.
    pub bytes: usize,
    /// Of its number; heights are also even.
    pub range: RangeInclusive<u32>,
}

impl Field {
    /// The largest number that it can hold.
    pub fn most(&self) -> u32 {
        u32::MAX >> (8 * (4 - self.bytes))
    }

    /// Its bytes, high byte first.
    pub fn spelled(&self, number: u32) -> Vec<u8> {
        number.to_be_bytes()[4 - self.bytes..].to_vec()
    }

    /// The base file with this number there.
    fn set(&self, number: u32) -> Case {
        let bytes = self.spelled(number).into_iter().enumerate();
        Case::Set(bytes.map(|(at, byte)| (self.place + at, byte)).collect())
    }

    /// At the ends of the range and beside them, and where a byte begins.
    fn telling(&self) -> BTreeSet<u32> {
        let (low, high) = (*self.range.start(), *self.range.end());
        let ends = [low, high].map(|end| [end.saturating_sub(1), end, end.saturating_add(1)]);
        let marks = (7..32).step_by(8).map(|bit| 1 << bit);
        let marks = marks.chain((8..32).step_by(8).map(|bit| 1 << bit));
        let most = self.most();
        let all = marks.flat_map(|mark: u32| [mark - 1, mark]);
        let all = all.chain(ends.concat()).chain([0, most]);
        all.filter(|number| *number <= most).collect()
    }
}

/// The fields of a tower's file in reading order.
pub fn fields(tower: &Tower) -> Vec<Field> {
    let sections = tower.sections.len() as u32;
    let mut shapes = vec![(1, 3..=4), (1, SECTION_COUNT)];
    for section in &tower.sections {
        shapes.extend([(2, SECTION_WIDTH), (2, SECTION_HEIGHT), (4, 0..=u32::MAX)]);
        shapes.push((1, GROUP_COUNT));
        for _ in &section.groups {
            shapes.extend([(1, 0..=1), (2, MEMBER_WIDTH), (4, GROUP_LENGTH)]);
        }
    }
    shapes.push((1, 0..=MOST_ITEMS as u32));
    for _ in &tower.items {
        shapes.extend([(2, 0..=u16::MAX.into()), (1, 0..=sections - 1)]);
        shapes.extend([(2, ITEM_WIDTH), (2, ITEM_LENGTH)]);
        shapes.extend([(2, COEFFICIENT), (2, COEFFICIENT), (2, POSITION_FACTOR)]);
    }
    let mut place = 0;
    let placed = shapes.into_iter().map(|(bytes, range)| {
        place += bytes;
        Field {
            place: place - bytes,
            bytes,
            range,
        }
    });
    placed.collect()
}

/// The roomy file with each field's telling numbers.
pub fn cases() -> Vec<Case> {
    let tower = roomy();
    let mut cases = vec![Case::File(file::write(&tower))];
    for field in fields(&tower) {
        let numbers = field.telling().into_iter();
        cases.extend(numbers.map(|number| field.set(number)));
    }
    cases
}
