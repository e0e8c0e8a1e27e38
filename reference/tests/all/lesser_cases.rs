//! The cases of lesser winds: which pressure governs each. Pressures are worked
//! out by division here.

use reference::areas::areas;
use reference::cases::{all, lesser, near_whole, Case};
use reference::force::lesser_pressures;
use reference::rational::Rational;
use reference::tower::{Legs, Member};
use reference::units::{Force, Length};
use std::cmp::Ordering;
use std::collections::{BTreeMap, BTreeSet};

/// Diameters of the rounds.
fn diameters(case: &Case) -> Vec<u32> {
    let groups = case.section().groups.iter();
    let rounds = groups.filter_map(|group| match group.member {
        Member::Flat(_) => None,
        Member::Round(Length(diameter)) => Some(diameter),
    });
    rounds.collect()
}

/// The pressures of the lesser winds, rising.
fn divided(case: &Case) -> Vec<u16> {
    let full = u32::from(case.pressure());
    let bare = case.wind.ice_class == 0;
    let limits = diameters(case).into_iter().filter_map(|diameter| {
        let limit = 45_000_000 / (2 * diameter * diameter);
        (bare && limit < full).then_some(limit as u16)
    });
    let all: BTreeSet<u16> = limits.collect();
    all.into_iter().collect()
}

/// The formula's value at each pressure, rounded up; full pressure is last.
fn values(case: &Case) -> Vec<u64> {
    let pressures = divided(case).into_iter().chain([case.pressure()]);
    let value = |pressure| case.formula(pressure).least_whole().0;
    pressures.map(value).collect()
}

/// The place of the value that is above all others, and how many there are.
fn governing(case: &Case) -> (Option<usize>, usize) {
    let values = values(case);
    let most = values.iter().max().expect("a value");
    let mut places = (0..values.len()).filter(|place| values[*place] == *most);
    let first = places.next();
    (first.filter(|_| places.next().is_none()), values.len())
}

/// As many on each shape, in more than one direction.
fn assert_spread(cases: &[Case]) {
    for legs in [Legs::Three, Legs::Four] {
        let these = cases.iter().filter(|case| case.tower.legs == legs);
        assert_eq!(2 * these.clone().count(), cases.len());
        let directions: BTreeSet<u32> = these.map(|case| case.wind.direction).collect();
        assert!(directions.len() > 1, "{directions:?}");
    }
}

#[test]
fn the_printed_force_is_the_greatest_value() {
    let (mut with, mut governed) = (0, 0);
    for case in all() {
        let lesser = lesser_pressures(case.section(), case.wind.ice_thickness(), case.pressure());
        assert_eq!(lesser, divided(&case), "{}", case.line());
        let values = values(&case);
        let printed = case.answer();
        let force = printed.trim_end().rsplit(' ').next().expect("a force");
        assert_eq!(force, values.iter().max().expect("a value").to_string());
        let full = values[values.len() - 1];
        with += usize::from(values.len() > 1);
        governed += usize::from(values.iter().any(|value| *value > full));
    }
    assert!(with >= 1_700 && governed >= 340, "{with} {governed}");
}

/// Else their nearness would not show in what is printed.
#[test]
fn full_pressure_governs_forces_that_are_near_a_whole_number() {
    let cases = near_whole();
    assert!(cases.len() >= 450, "{}", cases.len());
    for case in cases {
        let (place, count) = governing(&case);
        assert_eq!(place, Some(count - 1), "{}", case.line());
    }
}

#[test]
fn a_lesser_wind_governs_a_round_or_does_not() {
    for (cases, place) in [(lesser::governed(), 0), (lesser::not_governed(), 1)] {
        assert_spread(&cases);
        for case in cases {
            assert_eq!(diameters(&case).len(), 1);
            assert_eq!(governing(&case), (Some(place), 2), "{}", case.line());
        }
    }
}

#[test]
fn full_pressure_governs_from_one_pressure_on() {
    let cases = lesser::turning();
    assert_spread(&cases);
    for pair in cases.chunks(2) {
        let [before, after] = pair else {
            panic!("no pair");
        };
        assert_eq!(before.tower, after.tower);
        assert_eq!(before.pressure() + 1, after.pressure());
        assert_ne!(governing(before).0, Some(1), "{}", before.line());
        assert_eq!(governing(after), (Some(1), 2), "{}", after.line());
    }
}

/// On nearly empty faces c_c is 1.72 times c_p on three legs and 1.59 times on
/// four, and no face has more.
#[test]
fn a_lesser_wind_governs_far_above_its_pressure() {
    let cases = lesser::emptiest();
    assert_spread(&cases);
    let mut farthest = BTreeMap::new();
    for pair in cases.chunks(2) {
        let [before, after] = pair else {
            panic!("no pair");
        };
        assert_eq!(before.pressure() + 1, after.pressure());
        assert_eq!(governing(before), (Some(0), 2), "{}", before.line());
        assert_eq!(governing(after), (Some(1), 2), "{}", after.line());
        let percent = 100 * u32::from(before.pressure()) / u32::from(divided(before)[0]);
        let most = farthest.entry(before.tower.legs.count()).or_insert(0);
        *most = percent.max(*most);
    }
    assert_eq!(farthest, BTreeMap::from([(3, 170), (4, 157)]));
}

#[test]
fn rounds_are_just_supercritical() {
    let cases = lesser::just_supercritical();
    assert_spread(&cases);
    for case in &cases {
        let [diameter] = diameters(case)[..] else {
            panic!("one round");
        };
        let above = 2 * u32::from(case.pressure()) * diameter * diameter - 45_000_000;
        assert!((1..1_000).contains(&above), "{above}");
        assert_eq!(divided(case), [case.pressure() - 1]);
        assert_eq!(governing(case), (Some(0), 2));
    }
}

/// The first third by the least wind, the next by one between, the last by full
/// pressure.
#[test]
fn each_of_three_and_of_nine_values_governs() {
    for (cases, count) in [(lesser::two_rounds(), 3), (lesser::eight_rounds(), 9)] {
        assert_spread(&cases);
        let wanted = [0..=0, 1..=count - 2, count - 1..=count - 1];
        for (wanted, cases) in wanted.into_iter().zip(cases.chunks(cases.len() / 3)) {
            let shapes = cases.iter().map(|case| case.tower.legs.count());
            assert_eq!(shapes.collect::<BTreeSet<u8>>().len(), 2);
            for case in cases {
                assert_eq!(diameters(case).len(), count - 1);
                let (place, values) = governing(case);
                assert_eq!(values, count, "{}", case.line());
                let right = place.is_some_and(|place| wanted.contains(&place));
                assert!(right, "{}", case.line());
            }
        }
    }
}

#[test]
fn one_between_the_least_and_full_pressure_governs() {
    let cases = lesser::middle();
    assert_spread(&cases);
    for case in &cases {
        let (place, count) = governing(case);
        assert!((4..=7).contains(&count), "{}", case.line());
        let between = place.is_some_and(|place| place > 0 && place < count - 1);
        assert!(between, "{}", case.line());
    }
}

#[test]
fn two_groups_have_one_lesser_wind() {
    for (cases, same) in [
        (lesser::same_diameter(), true),
        (lesser::same_pressure(), false),
    ] {
        assert_spread(&cases);
        for case in cases {
            let [first, second] = diameters(&case)[..] else {
                panic!("two rounds");
            };
            assert_eq!(first == second, same);
            assert_eq!(governing(&case), (Some(0), 2), "{}", case.line());
        }
    }
}

/// Alone they do not govern; a thinner round beside them does from where it is
/// supercritical.
#[test]
fn a_lesser_pressure_is_a_quarter_or_beside_it() {
    let mut found = BTreeSet::new();
    let cases = lesser::quarters();
    assert_spread(&cases);
    for case in cases {
        let least = i32::from(divided(&case)[0]);
        let beside = i32::from(case.pressure()) - 4 * least;
        let (place, count) = governing(&case);
        let alone = diameters(&case).len() == 1;
        assert!(!alone || place == Some(1), "{}", case.line());
        assert_ne!(place, Some(0), "{}", case.line());
        found.insert((case.tower.legs.count(), alone, beside, count));
        assert!(count < 3 || place == Some(1), "{}", case.line());
    }
    for legs in [3, 4] {
        for beside in [-1, 0, 1] {
            assert!(found.contains(&(legs, true, beside, 2)));
            let count = if beside == 1 { 3 } else { 2 };
            assert!(found.contains(&(legs, false, beside, count)));
        }
    }
}

#[test]
fn ice_leaves_no_lesser_wind() {
    let cases = lesser::iced();
    assert_spread(&cases);
    for mut case in cases {
        assert_eq!(governing(&case), (Some(0), 1));
        case.wind.ice_class = 0;
        assert!(governing(&case).1 > 1, "{}", case.line());
    }
}

#[test]
fn items_count_in_the_lesser_wind() {
    let (hung, relieved) = (lesser::hung(), lesser::relieved());
    assert_spread(&hung);
    assert_spread(&relieved);
    for (cases, by_full) in [(hung, false), (relieved, true)] {
        for case in cases {
            assert!(case.item_sum() > 0);
            let mut bare = case.clone();
            bare.tower.items.clear();
            let last = values(&case).len() - 1;
            assert_eq!(governing(&case).0 == Some(last), by_full, "{}", case.line());
            let place = governing(&bare).0.expect("one that governs");
            assert!(place < last && values(&bare)[place] < values(&case)[place]);
        }
    }
}

/// The pressure that governs, whether it leaves members supercritical, and the
/// value there, rounded up.
fn lesser_value(case: &Case) -> (u16, bool, u64) {
    let (place, count) = governing(case);
    let place = place.filter(|place| *place < count - 1);
    let place = place.expect("a lesser wind that governs");
    let pressure = divided(case)[place];
    let areas = areas(case.section(), Length(0), pressure);
    (pressure, areas.supercritical.0 > 0, values(case)[place])
}

#[test]
fn lesser_winds_have_whole_forces() {
    for (cases, with_root) in [(lesser::whole(), false), (lesser::whole_with_root(), true)] {
        for case in cases {
            let (pressure, root, force) = lesser_value(&case);
            assert_eq!(root, with_root, "{}", case.line());
            let exact = case.formula(pressure).compare(&Rational::whole(force));
            assert_eq!(exact, Ordering::Equal, "{}", case.line());
            assert_eq!(case.exact_force().least_whole(), Force(force));
        }
    }
}

/// With 10⁻⁶ mm² less than the most that does not pass a whole number, with
/// that and with as much more.
#[test]
fn lesser_winds_have_forces_beside_whole_ones() {
    let cases = lesser::beside();
    assert_spread(&cases);
    let mut roots = [0, 0];
    for three in cases.chunks(3) {
        let (pressure, root, force) = lesser_value(&three[1]);
        roots[usize::from(root)] += 1;
        let forces = [force, force, force + 1].map(Force);
        let whole = Rational::whole(force);
        let factored = u64::from(pressure) * u64::from(three[1].wind.structure_factor);
        let step = Rational::fraction(factored, 1_000_000_000_000_000);
        for (case, force) in three.iter().zip(forces) {
            assert_eq!(lesser_value(case).0, pressure);
            let exact = case.exact_force();
            assert_eq!(exact.least_whole(), force, "{}", case.line());
            let two = &step * Rational::whole(2);
            assert_ne!(exact.compare(&(&whole - &two)), Ordering::Less);
            assert_ne!(exact.compare(&(&whole + &step)), Ordering::Greater);
        }
    }
    assert_eq!(roots, [6, 6]);
}

#[test]
fn drawn_ones_have_one_to_eight_groups_and_many_are_governed() {
    let cases = lesser::drawn();
    assert_spread(&cases);
    let lines: BTreeSet<String> = cases.iter().map(Case::line).collect();
    assert_eq!(lines.len(), 400);
    let groups = cases.iter().map(|case| case.section().groups.len());
    assert_eq!(groups.collect::<BTreeSet<usize>>(), (1..=8).collect());
    let (mut with, mut governed, mut hung) = (0, 0, 0);
    for case in &cases {
        let (place, count) = governing(case);
        with += usize::from(count > 1);
        let lesser = place.is_some_and(|place| place < count - 1);
        governed += usize::from(lesser);
        hung += usize::from(lesser && case.item_sum() > 0);
    }
    let counts = (with, governed, hung);
    assert!(with >= 300 && governed >= 100 && hung >= 15, "{counts:?}");
}
