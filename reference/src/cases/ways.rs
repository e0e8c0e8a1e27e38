//! What decides a case's force at full pressure in the proved program: bounds on
//! both sides of it, or an exact comparison where a whole number of newtons is
//! within them. The lesser winds have no part in it.

use super::{Case, UNITS};
use crate::areas::areas;
use crate::draw::until;
use crate::force::Rooted;
use crate::rational::Rational;
use crate::units::{Area, Force};
use std::cmp::Ordering;

/// What a force at full pressure is decided by.
#[derive(Clone, Copy, Debug, PartialEq, Eq, PartialOrd, Ord)]
pub enum Way {
    /// There is no force without pressure.
    NoPressure,
    /// No whole number is within the bounds.
    Bounds,
    /// One is, and without supercritical members the force has no root.
    Quotient,
    /// One is, and the force has a root.
    Squares,
}

/// The way of a case.
pub fn way(case: &Case) -> Way {
    known_way(case).unwrap_or_else(|| {
        let line = case.line();
        panic!("the bounds may or may not have a whole number within, draw another case: {line}")
    })
}

/// The way, or none where it takes the bounds' own widths to tell.
pub fn known_way(case: &Case) -> Option<Way> {
    if case.pressure() == 0 {
        return Some(Way::NoPressure);
    }
    let exact = case.full_force();
    let Force(least) = exact.least_whole();
    let between = [least - 1, least].map(Rational::whole);
    let reach = Reach::of(case, &between);
    let near = beside(&exact, &between, &reach.least);
    let far = beside(&exact, &between, &reach.most);
    if near[0].is_le() || near[1].is_ge() {
        Some(comparison(case))
    } else if far[0].is_ge() && far[1].is_le() {
        Some(Way::Bounds)
    } else {
        None
    }
}

/// Draws until the way is known.
pub fn drawn(draw: impl FnMut() -> Case) -> Case {
    until(draw, |case| known_way(case).is_some())
}

/// The last line that is printed: how many forces at full pressure each way
/// decided.
pub fn decided(ways: &[Way]) -> String {
    let count = |way: Way| ways.iter().filter(|other| **other == way).count();
    format!(
        "decided: {} without pressure, {} by bounds, {} by the quotient, {} by squares\n",
        count(Way::NoPressure),
        count(Way::Bounds),
        count(Way::Quotient),
        count(Way::Squares)
    )
}

/// How far the bounds are from the exact force at full pressure on each side.
struct Reach {
    least: Rational,
    most: Rational,
}

impl Reach {
    /// From 2⁻²⁹ of the face's part of the force and one unit to 2⁻²⁷ of it and
    /// eight, where a unit is what 10⁻⁶ mm² add to the force.
    fn of(case: &Case, [below, above]: &[Rational; 2]) -> Reach {
        let unit = Rational::fraction(case.factored_pressure(), UNITS);
        let items = &unit * Rational::whole(case.item_sum());
        let face = |force: &Rational| (force - &items).max(Rational::whole(0));
        Reach {
            least: face(below) * Rational::fraction(1, 1 << 29) + &unit,
            most: face(above) * Rational::fraction(1, 1 << 27) + &unit * Rational::whole(8),
        }
    }
}

/// How the exact force compares with what is so much above the one number and
/// so much below the other.
fn beside(exact: &Rooted, [below, above]: &[Rational; 2], by: &Rational) -> [Ordering; 2] {
    [below + by, above - by].map(|end| exact.compare(&end))
}

/// The exact comparison for these members.
fn comparison(case: &Case) -> Way {
    let ice = case.wind.ice_thickness();
    match areas(case.section(), ice, case.pressure()).supercritical {
        Area(0) => Way::Quotient,
        _ => Way::Squares,
    }
}
