//! The tower file: its reader and its writer.

use crate::areas::{gross_face_area, solid_area};
use crate::refusal::Refusal;
use crate::tower::{
    Group, Item, Legs, Member, Section, Tower, COEFFICIENT, GROUP_COUNT, GROUP_LENGTH, ITEM_LENGTH,
    ITEM_WIDTH, MEMBER_WIDTH, MOST_ITEMS, POSITION_FACTOR, SECTION_COUNT, SECTION_HEIGHT,
    SECTION_WIDTH,
};
use crate::units::{Force, Length};
use std::ops::RangeInclusive;

/// The length of the largest file.
pub const LONGEST_FILE: usize = 2_915;

/// Reads a file field by field; the first rule broken ends the reading.
pub fn read(file: &[u8]) -> Result<Tower, Refusal> {
    let mut fields = Fields { rest: file };
    let legs = match fields.next(1)? {
        3 => Legs::Three,
        4 => Legs::Four,
        _ => return Err(Refusal::Legs),
    };
    let count = fields.within(1, SECTION_COUNT, Refusal::SectionCount)?;
    let mut sections = Vec::new();
    for _ in 0..count {
        sections.push(read_section(&mut fields)?);
    }
    let items = read_items(&mut fields, sections.len())?;
    if !fields.rest.is_empty() {
        return Err(Refusal::BytesFollow);
    }
    Ok(Tower {
        legs,
        sections,
        items,
    })
}

/// The bytes that remain.
struct Fields<'a> {
    rest: &'a [u8],
}

impl Fields<'_> {
    /// The next field, high byte first.
    fn next(&mut self, bytes: usize) -> Result<u32, Refusal> {
        if self.rest.len() < bytes {
            return Err(Refusal::FileEnds);
        }
        let (field, rest) = self.rest.split_at(bytes);
        self.rest = rest;
        Ok(field
            .iter()
            .fold(0, |high, &low| (high << 8) | u32::from(low)))
    }

    /// The next field, if it is in its range.
    fn within(
        &mut self,
        bytes: usize,
        range: RangeInclusive<u32>,
        refusal: Refusal,
    ) -> Result<u32, Refusal> {
        let number = self.next(bytes)?;
        if range.contains(&number) {
            Ok(number)
        } else {
            Err(refusal)
        }
    }

    /// A field of two bytes, if it is in its range.
    fn short(&mut self, range: RangeInclusive<u32>, refusal: Refusal) -> Result<u16, Refusal> {
        Ok(self.within(2, range, refusal)? as u16)
    }
}

fn read_section(fields: &mut Fields) -> Result<Section, Refusal> {
    let width = fields.within(2, SECTION_WIDTH, Refusal::SectionSize)?;
    let height = fields.within(2, SECTION_HEIGHT, Refusal::SectionSize)?;
    if height % 2 == 1 {
        return Err(Refusal::SectionSize);
    }
    let allowance = fields.next(4)?;
    let count = fields.within(1, GROUP_COUNT, Refusal::GroupCount)?;
    let mut groups = Vec::new();
    for _ in 0..count {
        groups.push(read_group(fields)?);
    }
    let section = Section {
        width: Length(width),
        height: Length(height),
        allowance: (allowance > 0).then_some(Force(allowance.into())),
        groups,
    };
    if solid_area(&section, Length(0)) > gross_face_area(&section) {
        return Err(Refusal::BareFaceOverfull);
    }
    Ok(section)
}

fn read_group(fields: &mut Fields) -> Result<Group, Refusal> {
    let kind = fields.within(1, 0..=1, Refusal::GroupField)?;
    let width = Length(fields.within(2, MEMBER_WIDTH, Refusal::GroupField)?);
    let length = Length(fields.within(4, GROUP_LENGTH, Refusal::GroupField)?);
    let member = if kind == 0 {
        Member::Flat(width)
    } else {
        Member::Round(width)
    };
    Ok(Group { member, length })
}

fn read_items(fields: &mut Fields, sections: usize) -> Result<Vec<Item>, Refusal> {
    let count = fields.within(1, 0..=MOST_ITEMS as u32, Refusal::ItemCount)?;
    let mut items = Vec::new();
    for _ in 0..count {
        let item = read_item(fields, sections, &items)?;
        items.push(item);
    }
    Ok(items)
}

fn read_item(fields: &mut Fields, sections: usize, earlier: &[Item]) -> Result<Item, Refusal> {
    let number = fields.next(2)? as u16;
    if earlier.iter().any(|item| item.number == number) {
        return Err(Refusal::ItemNumber);
    }
    let section = fields.next(1)? as u8;
    if usize::from(section) >= sections {
        return Err(Refusal::ItemSection);
    }
    let wrong = Refusal::ItemField;
    Ok(Item {
        number,
        section,
        width: Length(fields.within(2, ITEM_WIDTH, wrong)?),
        length: Length(fields.within(2, ITEM_LENGTH, wrong)?),
        bare: fields.short(COEFFICIENT, wrong)?,
        iced: fields.short(COEFFICIENT, wrong)?,
        position: fields.short(POSITION_FACTOR, wrong)?,
    })
}

/// The file of a tower whose fields are all within their bytes.
pub fn write(tower: &Tower) -> Vec<u8> {
    let mut file = vec![tower.legs.count()];
    put(&mut file, 1, tower.sections.len() as u64);
    for section in &tower.sections {
        write_section(&mut file, section);
    }
    put(&mut file, 1, tower.items.len() as u64);
    for item in &tower.items {
        write_item(&mut file, item);
    }
    file
}

/// Adds a field, high byte first.
fn put(file: &mut Vec<u8>, bytes: usize, number: u64) {
    assert!(
        number >> (8 * bytes) == 0,
        "{number} is wider than its field"
    );
    file.extend_from_slice(&number.to_be_bytes()[8 - bytes..]);
}

fn write_section(file: &mut Vec<u8>, section: &Section) {
    put(file, 2, section.width.0.into());
    put(file, 2, section.height.0.into());
    put(file, 4, section.allowance.unwrap_or_default().0);
    put(file, 1, section.groups.len() as u64);
    for group in &section.groups {
        put(file, 1, group.member.kind().into());
        put(file, 2, group.member.bare_width().0.into());
        put(file, 4, group.length.0.into());
    }
}

fn write_item(file: &mut Vec<u8>, item: &Item) {
    put(file, 2, item.number.into());
    put(file, 1, item.section.into());
    put(file, 2, item.width.0.into());
    put(file, 2, item.length.0.into());
    put(file, 2, item.bare.into());
    put(file, 2, item.iced.into());
    put(file, 2, item.position.into());
}
