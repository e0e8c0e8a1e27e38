//! The cases for the definitions.

use crate::common::{beside_tenths, run_program};
use reference::areas::{areas, gross_face_area};
use reference::force::formula;
use reference::rational::Rational;
use reference::tower::{Item, Legs};
use reference::vectors::{Call, TowerCase, Vectors, USAGE};
use std::collections::BTreeSet;

/// The tenths that a section's solidity ratio is at or beside.
fn ratios(case: &TowerCase, section: usize) -> Vec<(u64, i64)> {
    let row = &case.rows[6 * section..];
    let gross = gross_face_area(&case.tower.sections[section]).0;
    beside_tenths(row[0] + row[1] + row[2], gross)
}

#[test]
fn the_cases_are_the_same_each_time() {
    let (first, second) = (Vectors::all(), Vectors::all());
    assert_eq!(first, second);
    assert_eq!(first.table(), second.table());
}

#[test]
fn there_are_enough_cases_and_every_refusal_is_reached() {
    let vectors = Vectors::all();
    assert!(vectors.towers.len() >= 150);
    assert!(vectors.files.len() >= 400);
    assert!(vectors.lists.len() >= 60);
    assert!(vectors.hosts.len() >= 200);
    assert_eq!(vectors.missing(), [""; 0]);
    for case in &vectors.lists {
        assert_eq!((case.calls.len(), case.refusals.len()), (25, 25));
    }
    let crowded = |call: &Call| matches!(call, Call::Erect(file) if file.len() > 800);
    assert!(vectors
        .lists
        .iter()
        .any(|case| case.calls.iter().any(crowded)));
    assert!(vectors.lists.iter().any(|case| !case.file.is_empty()));
}

#[test]
fn a_refusal_that_is_not_reached_is_named() {
    let mut vectors = Vectors::all();
    vectors.files.retain(|case| case.refusal != 8);
    vectors.lists.retain(|case| !case.refusals.contains(&20));
    vectors.hosts.retain(|case| case.refusal != 18);
    let missing = vectors.missing();
    assert!(missing.contains(&"no file has refusal 8".to_string()));
    assert!(missing.contains(&"no call has refusal 20".to_string()));
    assert!(missing.contains(&"no host's call has refusal 18".to_string()));
}

#[test]
fn the_solidity_ratios_reach_the_limits_and_the_full_face() {
    let vectors = Vectors::all();
    for legs in [Legs::Three, Legs::Four] {
        for iced in [false, true] {
            let cases = vectors.towers.iter();
            let found: BTreeSet<(u64, i64)> = cases
                .filter(|case| case.tower.legs == legs && (case.wind.ice_class > 0) == iced)
                .flat_map(|case| {
                    let sections = 0..case.tower.sections.len();
                    sections.flat_map(|section| ratios(case, section))
                })
                .collect();
            for tenths in [2, 5, 8, 10] {
                assert!(found.contains(&(tenths, -1)), "{legs:?} {iced} {tenths}");
                assert!(found.contains(&(tenths, 0)), "{legs:?} {iced} {tenths}");
                assert_eq!(found.contains(&(tenths, 1)), tenths < 10);
            }
        }
    }
}

#[test]
fn allowances_are_at_the_shears_and_on_either_side() {
    let vectors = Vectors::all();
    let mut seen = BTreeSet::new();
    for case in &vectors.towers {
        for (section, over) in case.over.iter().enumerate() {
            let shear = case.rows[6 * section + 4] as i64;
            let allowance = case.tower.sections[section].allowance;
            let beside = allowance.map(|newtons| newtons.0 as i64 - shear);
            seen.insert((beside, *over));
        }
    }
    assert!(seen.contains(&(Some(-1), 1)));
    for beside in [None, Some(0), Some(1)] {
        assert!(seen.contains(&(beside, 0)), "{beside:?}");
    }
}

#[test]
fn check_names_the_top_section_or_a_lower_one_of_one_or_several_or_none() {
    let mut seen = BTreeSet::new();
    for case in &Vectors::all().towers {
        let first = case.over.iter().position(|&over| over == 1);
        assert_eq!(case.topmost, first.unwrap_or(case.over.len()));
        let over = case.over.iter().filter(|&&over| over == 1).count();
        seen.insert((over.min(2), over > 0 && case.topmost > 0));
    }
    let kinds = [(0, false), (1, false), (1, true), (2, false), (2, true)];
    assert_eq!(seen, BTreeSet::from(kinds));
}

#[test]
fn all_directions_and_ice_classes_and_flows_are_there() {
    let vectors = Vectors::all();
    let directions = |legs| -> BTreeSet<u32> {
        let cases = vectors.towers.iter();
        let these = cases.filter(|case| case.tower.legs == legs);
        these.map(|case| case.wind.direction).collect()
    };
    assert_eq!(directions(Legs::Four), (0..24).collect());
    assert_eq!(directions(Legs::Three), (0..24).step_by(2).collect());
    let cases = vectors.towers.iter();
    let classes: BTreeSet<u32> = cases.map(|case| case.wind.ice_class).collect();
    assert_eq!(classes, (0..=5).collect());
    let mut mixed = 0;
    for case in &vectors.towers {
        for (section, &pressure) in case.tower.sections.iter().zip(&case.wind.pressures) {
            let areas = areas(section, case.wind.ice_thickness(), pressure);
            let parts = [areas.flat, areas.subcritical, areas.supercritical];
            mixed += usize::from(parts.iter().all(|area| area.0 > 0));
        }
    }
    assert!(mixed >= 20, "{mixed}");
}

/// Of two and more pressures each governs some; and with items.
#[test]
fn lesser_winds_govern_some_forces_and_not_others() {
    let vectors = Vectors::all();
    let (mut governed, mut not_governed, mut hung) = (0, 0, 0);
    for case in &vectors.towers {
        let sections = case.tower.sections.iter().zip(&case.wind.pressures);
        for (section, (part, &pressure)) in sections.enumerate() {
            let ice = case.wind.ice_thickness();
            let areas = areas(part, ice, pressure);
            let value = formula(&case.tower, &case.wind, section, pressure);
            let force = Rational::whole(case.rows[6 * section + 3]);
            // at least 1 N below the reported force
            let below = value.compare(&(force - Rational::whole(1))).is_le();
            let on = |item: &Item| usize::from(item.section) == section;
            let lesser = areas.supercritical.0 > 0;
            assert!(lesser || !below, "{case:?}");
            governed += usize::from(lesser && below);
            not_governed += usize::from(lesser && !below);
            hung += usize::from(lesser && below && case.tower.items.iter().any(on));
        }
    }
    assert_eq!(vectors.lesser_winds(), (governed, not_governed));
    let counts = (governed, not_governed, hung);
    assert!(
        governed >= 50 && not_governed >= 100 && hung >= 10,
        "{counts:?}"
    );
    let said = format!(
        "with {governed} forces of lesser winds and {not_governed} of full pressure beside them, "
    );
    assert!(vectors
        .table()
        .lines()
        .next()
        .expect("a line")
        .contains(&said));
}

/// Runs the binary itself.
fn vectors(words: &[&str]) -> (Option<i32>, String, String) {
    run_program(env!("CARGO_BIN_EXE_vectors"), words)
}

#[test]
fn the_program_answers_with_its_status() {
    let (status, stdout, stderr) = vectors(&[]);
    assert_eq!((status, stdout), (Some(0), Vectors::all().table()));
    assert!(stderr.contains("refusals of files: 0: "));
    assert_eq!(vectors(&["--help"]), (Some(0), USAGE.into(), String::new()));
    let (status, stdout, stderr) = vectors(&["--what"]);
    assert_eq!((status, stdout.as_str()), (Some(2), ""));
    assert!(stderr.contains("--what") && stderr.contains(USAGE));
}
