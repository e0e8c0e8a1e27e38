//! What the service holds: the tower, what hangs on it, and the wind.

use crate::units::{Force, Length};
use std::ops::RangeInclusive;

/// Sections of a tower.
pub const SECTION_COUNT: RangeInclusive<u32> = 1..=32;
/// Mean width b of a section in mm.
pub const SECTION_WIDTH: RangeInclusive<u32> = 100..=15_000;
/// Height h of a section in mm; it is also even.
pub const SECTION_HEIGHT: RangeInclusive<u32> = 100..=10_000;
/// Member groups of a section.
pub const GROUP_COUNT: RangeInclusive<u32> = 1..=8;
/// Width or diameter of a member in mm.
pub const MEMBER_WIDTH: RangeInclusive<u32> = 1..=1_000;
/// Total length of a group in one face in mm.
pub const GROUP_LENGTH: RangeInclusive<u32> = 1..=200_000;
/// The most items that hang on a tower.
pub const MOST_ITEMS: usize = 64;
/// Width of an item in mm.
pub const ITEM_WIDTH: RangeInclusive<u32> = 1..=3_000;
/// Length of an item in mm.
pub const ITEM_LENGTH: RangeInclusive<u32> = 1..=10_000;
/// Force coefficient of an item in thousandths.
pub const COEFFICIENT: RangeInclusive<u32> = 0..=3_000;
/// Position factor K of an item in thousandths.
pub const POSITION_FACTOR: RangeInclusive<u32> = 0..=1_000;
/// Wind direction k, 15 degrees each.
pub const DIRECTION: RangeInclusive<u32> = 0..=23;
/// Ice class: 0 is bare, 1 to 5 are G1 to G5 of ISO 12494.
pub const ICE_CLASS: RangeInclusive<u32> = 0..=5;
/// Structure factor in thousandths.
pub const STRUCTURE_FACTOR: RangeInclusive<u32> = 500..=2_000;
/// Pressure in N/m².
pub const PRESSURE: RangeInclusive<u16> = 0..=5_000;

/// The shape of the tower: a triangle or a square.
#[derive(Clone, Copy, Debug, PartialEq, Eq)]
pub enum Legs {
    /// A triangle.
    Three,
    /// A square.
    Four,
}

impl Legs {
    /// 3 or 4.
    pub fn count(self) -> u8 {
        match self {
            Legs::Three => 3,
            Legs::Four => 4,
        }
    }
}

/// One member's cross-section.
#[derive(Clone, Copy, Debug, PartialEq, Eq)]
pub enum Member {
    /// Flat-sided, with its width.
    Flat(Length),
    /// Round, with its diameter.
    Round(Length),
}

impl Member {
    /// The width or diameter without ice.
    pub fn bare_width(self) -> Length {
        match self {
            Member::Flat(width) => width,
            Member::Round(diameter) => diameter,
        }
    }

    /// The kind's number: 0 flat, 1 round.
    pub fn kind(self) -> u8 {
        match self {
            Member::Flat(_) => 0,
            Member::Round(_) => 1,
        }
    }
}

/// Like members of one face.
#[derive(Clone, Copy, Debug, PartialEq, Eq)]
pub struct Group {
    /// The cross-section of each.
    pub member: Member,
    /// The total length in one face.
    pub length: Length,
}

/// One section of the tower.
#[derive(Clone, Debug, PartialEq, Eq)]
pub struct Section {
    /// Mean width b.
    pub width: Length,
    /// Height h, even.
    pub height: Length,
    /// Shear allowance, or none stated. The file says none with 0.
    pub allowance: Option<Force>,
    /// The members of one face.
    pub groups: Vec<Group>,
}

/// An ancillary item, such as a dish.
#[derive(Clone, Copy, Debug, PartialEq, Eq)]
pub struct Item {
    /// The number it is taken down by.
    pub number: u16,
    /// The section it hangs on.
    pub section: u8,
    /// Width without ice.
    pub width: Length,
    /// Length.
    pub length: Length,
    /// Force coefficient without ice, in thousandths.
    pub bare: u16,
    /// Force coefficient with ice, in thousandths.
    pub iced: u16,
    /// Position factor K, in thousandths.
    pub position: u16,
}

/// A tower with its items.
#[derive(Clone, Debug, PartialEq, Eq)]
pub struct Tower {
    /// The shape.
    pub legs: Legs,
    /// From the top.
    pub sections: Vec<Section>,
    /// In hanging order.
    pub items: Vec<Item>,
}

/// The wind that the tower is checked for.
#[derive(Clone, Debug, PartialEq, Eq)]
pub struct Wind {
    /// k: 15 degrees times k from the normal of face 1.
    pub direction: u32,
    /// 0 bare, 1 to 5 for G1 to G5.
    pub ice_class: u32,
    /// Structure factor in thousandths.
    pub structure_factor: u32,
    /// N/m², one per section, from the top.
    pub pressures: Vec<u16>,
}

impl Wind {
    /// Thickness t of the ice.
    pub fn ice_thickness(&self) -> Length {
        ice_thickness(self.ice_class)
    }
}

/// Thickness t of the ice in a class: 10 mm for each step.
pub fn ice_thickness(ice_class: u32) -> Length {
    Length(10 * ice_class)
}
