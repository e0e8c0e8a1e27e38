//! Tests that every lesser wind of the timed tubes is worked out.

use crate::section::{sections, Kind, PRESSURES};
use crate::towers::{self, Rounds};
use reference::areas::{areas, flow, gross_face_area, Flow};
use reference::cases::Case;
use reference::force::{exact_force, formula, lesser_pressures};
use reference::tower::{Legs, Section, Tower, Wind};
use reference::units::Length;

/// So many tubes are supercritical in this section without ice, and no lesser wind
/// is that of two or a quarter of the pressure or less.
fn has_tubes(section: &Section, pressure: u16, tubes: usize) {
    let ice = Length(0);
    let is_tube = |member| flow(member, ice, pressure) == Flow::Supercritical;
    let groups = section.groups.iter();
    assert_eq!(groups.filter(|group| is_tube(group.member)).count(), tubes);
    let lesser = lesser_pressures(section, ice, pressure);
    assert_eq!(lesser.len(), tubes);
    assert!(lesser.iter().all(|lesser| 4 * lesser > pressure));
}

/// The cases of this kind, whose tubes are so many in every round.
fn with_tubes(kind: Kind, tubes: usize) -> Vec<Case> {
    let timed = sections(kind, usize::MAX);
    let cases: Vec<Case> = timed.into_iter().map(|timed| timed.case).collect();
    for case in &cases {
        assert_eq!(case.wind.ice_class, 0);
        for round in 0..PRESSURES as u16 {
            has_tubes(case.section(), case.pressure() - round, tubes);
        }
    }
    cases
}

/// Whether the force on this section is greater than at full pressure.
fn is_raised(tower: &Tower, wind: &Wind, section: usize) -> bool {
    let full = formula(tower, wind, section, wind.pressures[section]);
    let force = exact_force(tower, wind, section);
    force.least_whole() > full.least_whole()
}

/// Under its lowest pressure.
fn is_raised_in_a_round(case: &Case) -> bool {
    let lowest = case.pressure() - (PRESSURES as u16 - 1);
    let case = case.clone().loaded(lowest, case.wind.structure_factor);
    is_raised(&case.tower, &case.wind, 0)
}

fn solidity(case: &Case) -> f64 {
    let areas = areas(case.section(), Length(0), case.pressure());
    areas.solid().0 as f64 / gross_face_area(case.section()).0 as f64
}

/// These are on both shapes, with solidity ratios from nearly 0 to nearly 1; some
/// have an item, and in some a lesser wind governs.
fn are_of_all_sorts(cases: &[Case]) {
    for legs in [Legs::Three, Legs::Four] {
        let cases: Vec<&Case> = cases
            .iter()
            .filter(|case| case.tower.legs == legs)
            .collect();
        assert_eq!(cases.len(), 16);
        let (first, last) = (solidity(cases[0]), solidity(cases[15]));
        assert!(first < 0.06 && last > 0.9, "{first} to {last}");
        let held = cases.iter().filter(|case| case.tower.items.len() == 1);
        assert!((1..16).contains(&held.count()));
        let raised = cases.iter().filter(|case| is_raised_in_a_round(case));
        assert!((1..16).contains(&raised.count()));
    }
}

#[test]
fn one_tube_has_one_lesser_wind_in_every_round() {
    let cases = with_tubes(Kind::OneTube, 1);
    are_of_all_sorts(&cases);
    let counts = cases.iter().map(|case| case.section().groups.len());
    assert_eq!((counts.clone().min(), counts.max()), (Some(2), Some(8)));
    let areas = |case: &Case| areas(case.section(), Length(0), case.pressure());
    assert!(cases.iter().any(|case| areas(case).flat.0 > 0));
    assert!(cases.iter().any(|case| areas(case).subcritical.0 > 0));
}

#[test]
fn eight_tubes_have_eight_lesser_winds_in_every_round() {
    are_of_all_sorts(&with_tubes(Kind::EightTubes, 8));
}

#[test]
fn towers_have_four_tubes_a_section_or_one_or_none() {
    for (rounds, tubes) in [(Rounds::Thick, 4), (Rounds::One, 1), (Rounds::Thin, 0)] {
        let tower = towers::largest(rounds);
        let wind = towers::wind(&tower);
        assert_eq!(wind.ice_class, 0);
        for (section, pressure) in tower.sections.iter().zip(wind.pressures) {
            has_tubes(section, pressure, tubes);
        }
    }
}

#[test]
fn the_lesser_wind_of_one_tube_governs_in_some_sections() {
    let tower = towers::largest(Rounds::One);
    let wind = towers::wind(&tower);
    let raised = (0..32).filter(|section| is_raised(&tower, &wind, *section));
    assert!((1..32).contains(&raised.count()));
}
