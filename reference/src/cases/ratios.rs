//! Full faces, the ends of K2's ranges, and 1 mm² beside them, in every
//! direction, for each flow class alone and for all three together.

use super::ways::drawn;
use super::Case;
use crate::draw::{self, flow_limit, Random, EXACT_SOLIDITY};
use crate::tower::{Group, Legs, Member, Section, Tower, DIRECTION, PRESSURE};
use crate::units::Length;

/// The flow classes of a face.
#[derive(Clone, Copy, PartialEq, Eq)]
pub enum Members {
    /// Flats alone.
    Flat,
    /// Subcritical rounds alone.
    Subcritical,
    /// Supercritical rounds alone.
    Supercritical,
    /// All three classes.
    Mixed,
}

const MEMBERS: [Members; 4] = [
    Members::Flat,
    Members::Subcritical,
    Members::Supercritical,
    Members::Mixed,
];

/// Each ratio on each shape with each kind of members, in all directions that
/// differ.
pub fn cases() -> Vec<Case> {
    let mut random = Random(0x5eed_0301);
    let mut cases = Vec::new();
    for ratio in EXACT_SOLIDITY {
        for legs in [Legs::Three, Legs::Four] {
            for (place, members) in MEMBERS.into_iter().enumerate() {
                for direction in directions(legs, place) {
                    cases.push(drawn(|| case(&mut random, ratio, legs, members, direction)));
                }
            }
        }
    }
    cases
}

/// All directions of a triangle. A square looks the same after six of them, so
/// every other kind of members takes every other six.
fn directions(legs: Legs, place: usize) -> impl Iterator<Item = u32> {
    DIRECTION.filter(move |direction| match legs {
        Legs::Three => direction % 2 == 0,
        Legs::Four => direction / 6 % 2 == place as u32 % 2,
    })
}

/// A section with this part of A_u exactly, and members of these classes.
pub fn case(
    random: &mut Random,
    (tenths, beside): (u32, i32),
    legs: Legs,
    members: Members,
    direction: u32,
) -> Case {
    let ice_class = match members {
        Members::Flat | Members::Subcritical => draw::ice_class(random),
        Members::Supercritical | Members::Mixed => 0,
    };
    let mut section = draw::exact_section(random, ice_class, tenths, beside);
    let (least, most) = cast(random, &mut section, members, ice_class);
    let held = random.within(0, 2);
    let tower = Tower {
        legs,
        sections: vec![section],
        items: draw::items(random, held, 2),
    };
    let mut wind = draw::wind(random, &tower, direction, ice_class);
    wind.pressures[0] = random.within(least, most) as u16;
    Case::new(tower, wind)
}

/// Gives the section members of these classes and the same area. Answers the
/// least and the greatest pressure at which they are of these classes.
pub fn cast(
    random: &mut Random,
    section: &mut Section,
    members: Members,
    ice_class: u32,
) -> (u32, u32) {
    let (least, most) = match members {
        Members::Mixed => mix(random, section),
        alone => recast(section, alone, ice_class),
    };
    (least, most.min((*PRESSURE.end()).into()))
}

/// Makes all members flat or round. Answers the pressures for their class.
fn recast(section: &mut Section, members: Members, ice_class: u32) -> (u32, u32) {
    let sizes = section.groups.iter().map(|group| bare_width(group).0);
    let (thickest, thinnest) = (sizes.clone().max(), sizes.min());
    for group in &mut section.groups {
        group.member = match members {
            Members::Flat => Member::Flat(bare_width(group)),
            _ => Member::Round(bare_width(group)),
        };
    }
    match members {
        Members::Subcritical if ice_class == 0 => (1, flow_limit(thickest.expect("a group"))),
        Members::Supercritical => (flow_limit(thinnest.expect("a group")) + 1, 5_000),
        _ => (1, 5_000),
    }
}

fn bare_width(group: &Group) -> Length {
    group.member.bare_width()
}

/// Splits the last group into flats, rounds that are thinner and rounds that
/// are thicker by as much, so that the area stays. Answers the pressures that
/// are subcritical for the thinner and supercritical for the thicker.
fn mix(random: &mut Random, section: &mut Section) -> (u32, u32) {
    let last = section.groups.pop().expect("a group");
    let size = bare_width(&last).0;
    let step = random.within(50, (size - 1).min(1_000 - size));
    let third = last.length.0 / 3;
    let (thin, thick) = (size - step, size + step);
    let parts = [
        (Member::Flat(Length(size)), last.length.0 - 2 * third),
        (Member::Round(Length(thin)), third),
        (Member::Round(Length(thick)), third),
    ];
    section.groups.extend(parts.map(|(member, length)| Group {
        member,
        length: Length(length),
    }));
    (flow_limit(thick) + 1, flow_limit(thin))
}
