//! One number for many: FNV-1a over 64-bit values instead of bytes.

use crate::tower::{Section, Tower};

const START: u64 = 14_695_981_039_346_656_037;
const FACTOR: u64 = 1_099_511_628_211;

/// The digest of these values in this order.
pub fn digest(values: impl IntoIterator<Item = u64>) -> u64 {
    let step = |digest: u64, value: u64| (digest ^ value).wrapping_mul(FACTOR);
    values.into_iter().fold(START, step)
}

/// All numbers of a tower in the file's order, each list after its length.
pub fn tower_values(tower: &Tower) -> Vec<u64> {
    let mut values = vec![tower.legs.count().into(), tower.sections.len() as u64];
    for section in &tower.sections {
        values.extend(section_values(section));
    }
    values.push(tower.items.len() as u64);
    for item in &tower.items {
        values.extend([
            u64::from(item.number),
            item.section.into(),
            item.width.0.into(),
            item.length.0.into(),
            item.bare.into(),
            item.iced.into(),
            item.position.into(),
        ]);
    }
    values
}

/// An allowance that is not stated is 0.
fn section_values(section: &Section) -> Vec<u64> {
    let mut values = vec![
        section.width.0.into(),
        section.height.0.into(),
        section.allowance.unwrap_or_default().0,
        section.groups.len() as u64,
    ];
    for group in &section.groups {
        values.push(group.member.kind().into());
        values.push(group.member.bare_width().0.into());
        values.push(group.length.0.into());
    }
    values
}
