//! Iced areas of one face and the flow class of its members.

use crate::tower::{Group, Item, Member, Section};
use crate::units::{Area, Length};

/// How the wind flows around a member.
#[derive(Clone, Copy, Debug, PartialEq, Eq)]
pub enum Flow {
    /// Flat-sided: one class at every speed.
    Flat,
    /// Round, below the critical speed or iced.
    Subcritical,
    /// Round, above the critical speed.
    Supercritical,
}

/// The solid areas of one face.
#[derive(Clone, Copy, Debug, Default, PartialEq, Eq)]
pub struct Areas {
    /// A_f.
    pub flat: Area,
    /// A_c.
    pub subcritical: Area,
    /// A_p.
    pub supercritical: Area,
}

impl Areas {
    /// A_S, the sum of the three.
    pub fn solid(self) -> Area {
        self.flat + self.subcritical + self.supercritical
    }
}

/// A_u = b h.
pub fn gross_face_area(section: &Section) -> Area {
    section.width * section.height
}

/// A width with ice on both sides.
fn iced_width(width: Length, ice: Length) -> Length {
    width + ice + ice
}

/// (width + 2t) times length.
pub fn group_area(group: &Group, ice: Length) -> Area {
    iced_width(group.member.bare_width(), ice) * group.length
}

/// (width + 2t) times length.
pub fn item_area(item: &Item, ice: Length) -> Area {
    iced_width(item.width, ice) * item.length
}

/// A_S of a section; the flow does not change it.
pub fn solid_area(section: &Section, ice: Length) -> Area {
    let areas = section.groups.iter().map(|group| group_area(group, ice));
    areas.sum()
}

/// The flow class at pressure q. A round is classed by its bare diameter, and
/// with any ice it is subcritical.
pub fn flow(member: Member, ice: Length, pressure: u16) -> Flow {
    match member {
        Member::Flat(_) => Flow::Flat,
        Member::Round(Length(diameter)) => {
            let square = u64::from(diameter) * u64::from(diameter);
            if ice == Length(0) && 2 * u64::from(pressure) * square > 45_000_000 {
                Flow::Supercritical
            } else {
                Flow::Subcritical
            }
        }
    }
}

/// A_f, A_c and A_p of a section. It is part of each caller's code, as the plain
/// force is timed.
#[inline(always)]
pub fn areas(section: &Section, ice: Length, pressure: u16) -> Areas {
    let mut areas = Areas::default();
    for group in &section.groups {
        let part = match flow(group.member, ice, pressure) {
            Flow::Flat => &mut areas.flat,
            Flow::Subcritical => &mut areas.subcritical,
            Flow::Supercritical => &mut areas.supercritical,
        };
        *part = *part + group_area(group, ice);
    }
    areas
}
