//! The plain floating-point version beside the exact one.

use reference::cases::{all, Case};
use reference::draw::{self, Random};
use reference::file::{read, write};
use reference::force::{radicand, subcritical_coefficient};
use reference::plain::{self, direction_share, force, whole_force};
use reference::rational::Rational;
use reference::report::rows;
use reference::rules::judge_pressures;
use reference::tower::{Legs, Section, Tower, Wind};
use std::cmp::Ordering;

/// A plain version on the case; it takes the items' sum in m².
fn on<T>(case: &Case, plain: fn(Legs, &Section, &Wind, u16, f64) -> T) -> T {
    let items = case.item_sum() as f64 / 1e12;
    let (tower, wind) = (&case.tower, &case.wind);
    plain(tower.legs, case.section(), wind, case.pressure(), items)
}

/// A number that is not negative, to 2⁻³⁰.
fn rational(number: f64) -> Rational {
    let scale = 1 << 30;
    Rational::fraction((number * scale as f64).round() as u64, scale)
}

/// Within 10⁻¹² of itself and 10⁻⁸ N, so within 0.001 N for all that a tower
/// can have.
#[test]
fn the_plain_force_is_near_the_exact_one() {
    for case in all() {
        let near = on(&case, force);
        let slack = 1e-12 * near + 1e-8;
        let exact = case.exact_force();
        let least = rational((near - slack).max(0.0));
        assert_ne!(exact.compare(&least), Ordering::Less, "{}", case.line());
        let most = rational(near + slack);
        assert_ne!(exact.compare(&most), Ordering::Greater, "{}", case.line());
    }
}

/// Rounded up it is off by 1 N at the most, but it is off: at times too high,
/// at times below the exact force.
#[test]
fn the_plain_force_is_off_by_one_at_times() {
    let (mut above, mut below) = (0, 0);
    for case in all() {
        let plain = on(&case, whole_force);
        let least = case.exact_force().least_whole().0;
        assert!(plain.abs_diff(least) <= 1, "{}", case.line());
        above += usize::from(plain > least);
        below += usize::from(plain < least);
    }
    // README.md states these numbers
    assert_eq!((above, below), (48, 1));
}

/// Areas, items, shears and moments are those of the exact rows wherever each
/// force is.
#[test]
fn the_plain_rows_add_up_as_the_exact_ones() {
    let mut random = Random(0x5eed_0602);
    let mut same = 0;
    for _ in 0..300 {
        let tower = draw::small_tower(&mut random, 8);
        let direction = draw::direction(&mut random, tower.legs);
        let ice_class = draw::ice_class(&mut random);
        let wind = draw::wind(&mut random, &tower, direction, ice_class);
        if read(&write(&tower)).is_err() || is_too_solid(&tower, ice_class) {
            continue;
        }
        let (plain, exact) = (plain::rows(&tower, &wind), rows(&tower, &wind));
        assert_eq!(plain.len(), exact.len());
        let mut pairs = plain.iter().zip(&exact);
        assert!(pairs
            .clone()
            .all(|(plain, exact)| plain.areas == exact.areas));
        if pairs
            .clone()
            .all(|(plain, exact)| plain.force as u64 == exact.force.0)
        {
            assert!(
                pairs.all(|(plain, exact)| plain.shear as u64 == exact.shear.0
                    && plain.moment as u64 == exact.moment.0)
            );
            same += 1;
        }
    }
    assert!(same >= 150, "{same}");
}

/// Under this ice.
fn is_too_solid(tower: &Tower, ice_class: u32) -> bool {
    let pressures = vec![0; tower.sections.len()];
    judge_pressures(tower, ice_class, &pressures).is_err()
}

/// Why a lesser wind that has no more force without supercritical members is
/// left out: c_p = 1.9 - √radicand is below c_c at every φ.
#[test]
fn supercritical_members_have_the_lower_coefficient() {
    for legs in [Legs::Three, Legs::Four] {
        for thousandths in 0..=1_000 {
            let phi = Rational::fraction(thousandths, 1_000);
            let less = Rational::fraction(19, 10) - subcritical_coefficient(legs, &phi);
            let below = less.is_negative() || less.squared() < radicand(legs, &phi);
            assert!(below, "{legs:?} {thousandths}");
        }
    }
}

/// (1 - cos 4θ)/2 for the square and (1 - cos 3θ)/2 for the triangle have the
/// values of the tables.
#[test]
fn the_shares_of_the_directions_are_those_of_cosines() {
    for direction in 0..24 {
        let share = |times: u32| (1.0 - f64::from(15 * times * direction).to_radians().cos()) / 2.0;
        let square = direction_share(Legs::Four, direction);
        assert!((square - share(4)).abs() < 1e-12, "{direction}");
        let triangle = direction_share(Legs::Three, direction);
        let even = direction % 2 == 0;
        assert!(!even || (triangle - share(3)).abs() < 1e-12, "{direction}");
    }
}
