//! The timed towers, each under a wind.

use reference::sample::{flat, round, section};
use reference::tower::{Group, Item, Legs, Section, Tower, Wind, MOST_ITEMS, SECTION_COUNT};
use reference::units::Length;

/// The most sections of a tower.
pub const SECTIONS: usize = *SECTION_COUNT.end() as usize;

/// The number of the first item on a timed tower; the next ones follow. The dishes
/// that are hung and taken down have the numbers below it.
pub const FIRST_ITEM: u16 = 1_000;

/// The diameter of a tube that is supercritical from 687 N/m² on.
const TUBE: u32 = 181;

/// The round members of a tower.
#[derive(Clone, Copy, Debug, PartialEq, Eq)]
pub enum Rounds {
    /// All are subcritical.
    Thin,
    /// One in each section is supercritical, and its lesser wind is worked out; it
    /// governs in some.
    One,
    /// All are supercritical, four in each section, and their lesser winds are
    /// worked out.
    Thick,
}

/// A tower with 8 groups in each section, flats and rounds by turns, and so many
/// items spread over the sections. Its solidity ratio goes from 0.8 to 0.1.
pub fn tower(rounds: Rounds, sections: usize, items: usize) -> Tower {
    Tower {
        legs: Legs::Four,
        sections: (0..sections as u32)
            .map(|place| section_of(rounds, place))
            .collect(),
        items: (0..items as u16)
            .map(|place| item(place, sections))
            .collect(),
    }
}

/// The largest one, with 64 items.
pub fn largest(rounds: Rounds) -> Tower {
    tower(rounds, SECTIONS, MOST_ITEMS)
}

/// Wider from the top down, and less solid.
fn section_of(rounds: Rounds, place: u32) -> Section {
    let group = |turn: u32| {
        let length = 3_700 + 90 * (place % 7) + 210 * turn;
        match (turn % 2, rounds, turn) {
            (0, ..) => flat(60 + 10 * turn + place, length),
            (_, Rounds::Thick, _) => round(180 + 10 * turn, length),
            (_, Rounds::One, 1) => round(TUBE, length),
            _ => round(80 + 10 * turn, length),
        }
    };
    let groups: Vec<Group> = (0..8).map(group).collect();
    section(1_200 + 300 * place, 6_000, &groups)
}

fn item(place: u16, sections: usize) -> Item {
    Item {
        number: FIRST_ITEM + place,
        section: (usize::from(place) % sections) as u8,
        width: Length(300 + 10 * u32::from(place)),
        length: Length(2_000),
        bare: 1_200 + place,
        iced: 1_500,
        position: 800,
    }
}

/// 60 degrees from a face, 1 000 N/m² at the top and 10 N/m² less from section
/// to section, no ice.
pub fn wind(tower: &Tower) -> Wind {
    let pressure = |place: u16| 1_000 - 10 * place;
    Wind {
        direction: 4,
        ice_class: 0,
        structure_factor: 1_050,
        pressures: (0..tower.sections.len() as u16).map(pressure).collect(),
    }
}

/// The dish that is hung and taken down, with the round's number.
pub fn dish(round: u64) -> Item {
    Item {
        number: (round % u64::from(FIRST_ITEM)) as u16,
        section: 0,
        width: Length(1_200),
        length: Length(1_200),
        bare: 1_200,
        iced: 1_500,
        position: 900,
    }
}
