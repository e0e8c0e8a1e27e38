//! What decides each case's force, and the last line, which counts that.

use crate::cases::texts;
use crate::common::{flat, item, round, sample, sample_wind, section, tower};
use reference::areas::{areas, gross_face_area, Areas};
use reference::cases::{all, decided, full_governs, known_way, way, Case, Way};
use reference::plain;
use reference::rational::Rational;
use reference::tower::{Item, Legs, Member, Tower};
use reference::units::{Force, Length};
use std::cmp::Ordering;
use std::collections::BTreeSet;
use std::sync::OnceLock;

const WAYS: [Way; 4] = [Way::NoPressure, Way::Bounds, Way::Quotient, Way::Squares];

/// All cases, each with its way.
fn told() -> &'static [(Case, Way)] {
    static TOLD: OnceLock<Vec<(Case, Way)>> = OnceLock::new();
    TOLD.get_or_init(|| {
        let cases = all().into_iter();
        cases.map(|case| (case.clone(), way(&case))).collect()
    })
}

/// The cases of this way.
fn by(wanted: Way) -> impl Iterator<Item = &'static Case> {
    let these = told().iter().filter(move |(_, way)| *way == wanted);
    these.map(|(case, _)| case)
}

/// The tower along the normal of a face.
fn under(tower: &Tower, ice_class: u32, pressure: u16, factor: u32) -> Case {
    let wind = sample_wind(tower, 0, ice_class);
    Case::new(tower.clone(), wind).loaded(pressure, factor)
}

/// Rounds on four legs, subcritical up to 2 250 N/m²: 4.08 q.
fn rounds() -> Tower {
    sample(Legs::Four, &[round(100, 24_000)])
}

/// Rounds on three legs with the root 0.817: 198 189 N under 5 000 N/m² times 2.
fn rooted() -> Tower {
    let face = section(10_000, 10_000, &[round(300, 61_000)]);
    tower(Legs::Three, &[face])
}

#[test]
fn a_case_of_each_way() {
    let flats = sample(Legs::Four, &[flat(100, 24_000)]);
    // full: 22.8 q bare, and 24 q iced
    let full = sample(Legs::Four, &[round(1_000, 12_000)]);
    let iced = sample(Legs::Four, &[round(980, 12_000)]);
    for (case, wanted) in [
        (under(&flats, 0, 0, 2_000), Way::NoPressure),
        (under(&rounds(), 0, 0, 1_000), Way::NoPressure),
        (under(&rooted(), 0, 0, 2_000), Way::NoPressure),
        (under(&flats, 0, 1_000, 1_000), Way::Bounds),
        (under(&rounds(), 0, 1_001, 1_000), Way::Bounds),
        (under(&rooted(), 0, 5_000, 1_999), Way::Bounds),
        (under(&full, 0, 1_251, 1_000), Way::Bounds),
        (under(&rounds(), 0, 1_000, 1_000), Way::Quotient),
        (under(&iced, 1, 1_250, 1_000), Way::Quotient),
        (under(&rooted(), 0, 5_000, 2_000), Way::Squares),
        (under(&full, 0, 1_250, 1_000), Way::Squares),
    ] {
        assert_eq!(way(&case), wanted, "{}", case.line());
        assert_eq!(known_way(&case), Some(wanted));
    }
}

/// The case with items whose sum is this.
fn with_sum(mut case: Case, sum: u64) -> Case {
    let before = case.item_sum();
    for (length, width, coefficient, position) in [
        (sum % 10_000, 1, 1, 1),
        (sum / 10_000 % 10_000, 1, 10, 1_000),
        (sum / 100_000_000, 100, 1_000, 1_000),
    ] {
        if length > 0 {
            case.tower.items.push(Item {
                width: Length(width),
                length: Length(length as u32),
                bare: coefficient,
                position,
                ..item(case.tower.items.len() as u16)
            });
        }
    }
    assert_eq!(case.item_sum() - before, sum);
    case
}

/// `above` are sums over a whole number of newtons, and `below` are what is left
/// to the next: the last that is near, the two ends of what is neither, and the
/// first that is far.
fn assert_told_apart(case: &Case, newton: u64, exact: Way, above: [u64; 4], below: [u64; 4]) {
    let ways = [Some(exact), None, None, Some(Way::Bounds)];
    for sum in [0, newton] {
        assert_eq!(known_way(&with_sum(case.clone(), sum)), Some(exact));
    }
    for (place, way) in ways.into_iter().enumerate() {
        for sum in [above[place], newton - below[place]] {
            assert_eq!(known_way(&with_sum(case.clone(), sum)), way, "{sum}");
        }
    }
}

/// 2⁻²⁹ of 4 080 N and one unit of 10⁻⁹ N are 7 600.6 units, 2⁻²⁷ of 4 081 N
/// and eight are 30 413.8; below the next whole number it is 4 079 N and 4 080 N.
/// Items of 180 000 N change nothing: the bounds are as wide as the face's part.
#[test]
fn near_and_far_are_told_apart_without_a_root() {
    let above = [7_600, 7_601, 30_413, 30_414];
    let below = [7_598, 7_599, 30_406, 30_407];
    let mut case = under(&rounds(), 0, 1_000, 1_000);
    assert_told_apart(&case, 1_000_000_000, Way::Quotient, above, below);
    let largest = |number| Item {
        width: Length(3_000),
        length: Length(10_000),
        bare: 3_000,
        position: 1_000,
        ..item(number)
    };
    case.tower.items = vec![largest(0), largest(1)];
    assert_eq!(case.item_sum(), 180_000 * 1_000_000_000);
    assert_told_apart(&case, 1_000_000_000, Way::Quotient, above, below);
}

/// A unit is 10⁻⁸ N: 36 916.6 and 147 671.1 above, 36 916.4 and 147 670.3 below.
#[test]
fn near_and_far_are_told_apart_with_a_root() {
    let above = [36_916, 36_917, 147_671, 147_672];
    let below = [36_916, 36_917, 147_670, 147_671];
    let case = under(&rooted(), 0, 5_000, 2_000);
    assert_told_apart(&case, 100_000_000, Way::Squares, above, below);
}

#[test]
#[should_panic(expected = "draw another case: 4 0 0 1000 1000 2000 6000")]
fn a_case_that_is_neither_near_nor_far_has_no_way() {
    way(&with_sum(under(&rounds(), 0, 1_000, 1_000), 7_601));
}

#[test]
fn every_way_occurs() {
    let counts = WAYS.map(|way| by(way).count());
    let least = [100, 2_000, 40, 300];
    let enough = counts
        .iter()
        .zip(least)
        .all(|(count, least)| *count >= least);
    assert!(enough, "{counts:?}");
}

#[test]
fn the_last_line_counts_every_case_that_is_run() {
    let some = [Way::Bounds, Way::Squares, Way::Bounds, Way::NoPressure];
    let line = "decided: 1 without pressure, 2 by bounds, 0 by the quotient, 1 by squares\n";
    assert_eq!(decided(&some), line);
    let [_, stdout] = texts();
    let (answers, last) = stdout.trim_end().rsplit_once('\n').expect("two lines");
    let words = last.split([' ', ',']);
    let numbers: Vec<usize> = words.filter_map(|word| word.parse().ok()).collect();
    let run = answers.lines().filter(|line| !line.starts_with("error"));
    assert_eq!(numbers.iter().sum::<usize>(), run.count());
    // the samples behind the refused lines are run again
    let again = numbers.iter().zip(WAYS.map(|way| by(way).count()));
    let again: Vec<usize> = again.map(|(all, once)| all - once).collect();
    assert_eq!(again, [0, 168, 28, 0]);
    let [calm, bounds, quotient, squares] = numbers[..] else {
        panic!("{last}");
    };
    let wanted = format!(
        "decided: {calm} without pressure, {bounds} by bounds, \
         {quotient} by the quotient, {squares} by squares"
    );
    assert_eq!(last, wanted);
}

fn solid_areas(case: &Case) -> Areas {
    let ice = case.wind.ice_thickness();
    areas(case.section(), ice, case.pressure())
}

/// A_u less A_S.
fn open(case: &Case) -> u64 {
    gross_face_area(case.section()).0 - solid_areas(case).solid().0
}

/// How far the plain force at full pressure is from a whole number, up to
/// rounding.
#[test]
fn the_plain_force_is_as_near_or_far() {
    for (case, way) in told() {
        let (tower, items) = (&case.tower, case.item_sum() as f64 / 1e12);
        let pressure = case.pressure();
        let force = plain::formula(tower.legs, case.section(), &case.wind, pressure, items);
        let factored = case.factored_pressure() as f64;
        let face = force - factored / 1e3 * items;
        let distance = (force - force.round()).abs();
        let slack = 1e-12 * force + 1e-8;
        let right = match way {
            Way::NoPressure => force == 0.0 && pressure == 0,
            Way::Bounds => distance + slack > face / f64::from(1 << 27),
            Way::Quotient | Way::Squares => {
                distance < face / f64::from(1 << 29) + factored / 1e15 + slack
            }
        };
        assert!(right, "{way:?}: {}", case.line());
        let rooted = solid_areas(case).supercritical.0 > 0;
        assert!(*way != Way::Quotient || !rooted, "{}", case.line());
        assert!(*way != Way::Squares || rooted, "{}", case.line());
    }
}

/// The force at full pressure if it is a whole number of newtons exactly.
fn whole(case: &Case) -> Option<u64> {
    let exact = case.full_force();
    let Force(least) = exact.least_whole();
    let order = exact.compare(&Rational::whole(least));
    (order == Ordering::Equal).then_some(least)
}

/// Full pressure governs them, so that they are printed.
#[test]
fn whole_forces_with_a_root_are_on_both_shapes() {
    for (legs, least, directions) in [(Legs::Three, 16, 8), (Legs::Four, 33, 16)] {
        let these = by(Way::Squares).filter(|case| case.tower.legs == legs);
        let these: Vec<&Case> = these
            .filter(|case| open(case) > 0 && whole(case).is_some() && full_governs(case))
            .collect();
        assert!(these.len() >= least, "{legs:?}: {}", these.len());
        let found: BTreeSet<u32> = these.iter().map(|case| case.wind.direction).collect();
        assert!(found.len() >= directions, "{legs:?}: {found:?}");
        let (bare, hung): (Vec<&Case>, Vec<&Case>) =
            these.iter().partition(|case| case.tower.items.is_empty());
        assert!(bare.len() >= 3 && hung.len() >= 13, "{legs:?}");
    }
}

/// The face's part is the whole force, and in units it is no whole number.
#[test]
fn whole_forces_of_faces_that_are_not_in_millionths() {
    let mut kinds = Vec::new();
    for case in by(Way::Quotient).filter(|case| case.tower.items.is_empty()) {
        let Some(force) = whole(case) else { continue };
        let units = u128::from(force) * 1_000_000_000_000_000;
        if !units.is_multiple_of(case.factored_pressure().into()) {
            let flats = solid_areas(case).flat.0 > 0;
            kinds.push((case.tower.legs.count(), flats, case.wind.ice_class > 0));
        }
    }
    assert!(kinds.len() >= 28, "{kinds:?}");
    let found: BTreeSet<_> = kinds.into_iter().collect();
    assert_eq!(found.len(), 8);
}

/// Of the largest, thin, nearly full, nearly empty and mixed faces, each on
/// both shapes; and whether items took the force beside a whole number. Full
/// pressure governs them.
#[test]
fn forces_with_a_root_near_a_whole_number_are_of_every_kind() {
    let mut counts = [[0; 5]; 4];
    for case in by(Way::Squares).filter(|case| whole(case).is_none() && full_governs(case)) {
        let (section, areas) = (case.section(), solid_areas(case));
        let (width, height) = (section.width.0, section.height.0);
        let kinds = [
            (width, height) == (15_000, 10_000),
            width.min(height) <= 150,
            open(case) < 10,
            areas.solid().0 < 10_000,
            areas.flat.0 > 0 && areas.subcritical.0 > 0,
        ];
        let shape = usize::from(case.tower.legs == Legs::Four);
        let row = &mut counts[2 * shape + usize::from(case.tower.items.is_empty())];
        for (count, is) in row.iter_mut().zip(kinds) {
            *count += usize::from(is);
        }
    }
    for (row, counts) in counts.iter().enumerate() {
        // a nearly empty face needs items
        let drawn = row % 2 == 1;
        assert!(counts[3] >= 6 || drawn, "{counts:?}");
        assert!(
            [0, 1, 2, 4].iter().all(|kind| counts[*kind] >= 6),
            "{counts:?}"
        );
    }
}

/// Rounds that turn supercritical at some pressure, rounds that never do, and
/// none, each with items and without on both shapes.
#[test]
fn no_pressure_is_on_members_of_every_kind() {
    let mut found = BTreeSet::new();
    for case in by(Way::NoPressure) {
        let groups = case.section().groups.iter();
        let thickest = groups.filter_map(|group| match group.member {
            Member::Flat(_) => None,
            Member::Round(diameter) => Some(diameter > Length(67)),
        });
        let hung = !case.tower.items.is_empty();
        found.insert((case.tower.legs.count(), thickest.max(), hung));
    }
    assert_eq!(found.len(), 12);
}
