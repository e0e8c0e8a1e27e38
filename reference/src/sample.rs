//! Towers, items and winds made by hand, most of them as in document 01's
//! samples.

use crate::tower::{Group, Item, Legs, Member, Section, Tower, Wind};
use crate::units::Length;

/// Flat-sided members.
pub fn flat(width: u32, length: u32) -> Group {
    Group {
        member: Member::Flat(Length(width)),
        length: Length(length),
    }
}

/// Round members.
pub fn round(diameter: u32, length: u32) -> Group {
    Group {
        member: Member::Round(Length(diameter)),
        length: Length(length),
    }
}

/// A section that states no allowance.
pub fn section(width: u32, height: u32, groups: &[Group]) -> Section {
    Section {
        width: Length(width),
        height: Length(height),
        allowance: None,
        groups: groups.to_vec(),
    }
}

/// A tower without items.
pub fn tower(legs: Legs, sections: &[Section]) -> Tower {
    Tower {
        legs,
        sections: sections.to_vec(),
        items: Vec::new(),
    }
}

/// One section of 2 000 by 6 000, as in most samples.
pub fn sample(legs: Legs, groups: &[Group]) -> Tower {
    tower(legs, &[section(2_000, 6_000, groups)])
}

/// Wind with structure factor 1 000 and q = 1 000 on every section.
pub fn sample_wind(tower: &Tower, direction: u32, ice_class: u32) -> Wind {
    Wind {
        direction,
        ice_class,
        structure_factor: 1_000,
        pressures: vec![1_000; tower.sections.len()],
    }
}

/// The item of the samples, under this number.
pub fn item(number: u16) -> Item {
    Item {
        number,
        section: 0,
        width: Length(300),
        length: Length(2_000),
        bare: 1_200,
        iced: 1_200,
        position: 800,
    }
}
