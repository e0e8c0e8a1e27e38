//! The exact force on a section: the greatest value of document 01's formula at
//! full pressure and in lesser winds.

use crate::areas::{areas, gross_face_area, item_area, Areas};
use crate::rational::Rational;
use crate::tower::{Legs, Section, Tower, Wind};
use crate::units::{Area, Force, Length};
use std::cmp::Ordering;

/// A value of the formula in N: `rational - factor sqrt(radicand)`, with a
/// factor and a radicand that are not negative.
#[derive(Clone, Debug)]
pub struct Rooted {
    rational: Rational,
    /// factor² times radicand.
    root_squared: Rational,
}

impl Rooted {
    /// The number `rational - factor sqrt(radicand)`.
    pub fn new(rational: Rational, factor: &Rational, radicand: &Rational) -> Rooted {
        assert!(!factor.is_negative(), "a negative factor");
        assert!(!radicand.is_negative(), "the root of a negative number");
        let root_squared = factor.squared() * radicand;
        Rooted {
            rational,
            root_squared,
        }
    }

    /// How the value compares with a fraction, by squares.
    pub fn compare(&self, fraction: &Rational) -> Ordering {
        let difference = &self.rational - fraction;
        if difference.is_negative() {
            return Ordering::Less;
        }
        difference.squared().cmp(&self.root_squared)
    }

    /// Whether value <= force.
    pub fn is_at_most(&self, force: Force) -> bool {
        self.compare(&Rational::whole(force.0)) != Ordering::Greater
    }

    /// The least whole number of newtons that is not below the value. No value
    /// of the formula is negative, so the search starts at 0.
    pub fn least_whole(&self) -> Force {
        let mut enough = 1;
        while !self.is_at_most(Force(enough)) {
            enough *= 2;
        }
        let mut least = 0;
        while least < enough {
            let middle = least + (enough - least) / 2;
            if self.is_at_most(Force(middle)) {
                enough = middle;
            } else {
                least = middle + 1;
            }
        }
        Force(least)
    }
}

/// The exact force in N: the greatest of some values.
#[derive(Clone, Debug)]
pub struct ExactForce {
    /// Never empty.
    values: Vec<Rooted>,
}

impl ExactForce {
    /// The greatest of these; there must be one.
    pub fn greatest(values: Vec<Rooted>) -> ExactForce {
        assert!(!values.is_empty(), "the greatest of no values");
        ExactForce { values }
    }

    /// How the exact force compares with a fraction: it is greater if any value
    /// is, else equal if any is.
    pub fn compare(&self, fraction: &Rational) -> Ordering {
        let orders = self.values.iter().map(|value| value.compare(fraction));
        orders.max().expect("a value")
    }

    /// Whether exact <= force.
    pub fn is_at_most(&self, force: Force) -> bool {
        self.compare(&Rational::whole(force.0)) != Ordering::Greater
    }

    /// The least whole number of newtons that is not below the exact force, so
    /// below no value.
    pub fn least_whole(&self) -> Force {
        let raise = |least: Force, value: &Rooted| {
            if value.is_at_most(least) {
                least
            } else {
                value.least_whole()
            }
        };
        self.values.iter().fold(Force(0), raise)
    }
}

/// The exact force on one section of the tower.
pub fn exact_force(tower: &Tower, wind: &Wind, section: usize) -> ExactForce {
    let pressure = wind.pressures[section];
    let lesser = lesser_pressures(&tower.sections[section], wind.ice_thickness(), pressure);
    let pressures = [pressure].into_iter().chain(lesser);
    let value = |pressure| formula(tower, wind, section, pressure);
    ExactForce::greatest(pressures.map(value).collect())
}

/// The pressures of the lesser winds, rising: those below this one beyond which
/// a round turns supercritical, and so the areas by class change.
pub fn lesser_pressures(section: &Section, ice: Length, pressure: u16) -> Vec<u16> {
    changes(section, ice, 0, pressure)
}

/// The pressures from `low` to below `high` beyond which the areas change. With
/// rising pressure area goes from A_c to A_p and never back, so where both ends
/// have the same areas nothing changes between them.
fn changes(section: &Section, ice: Length, low: u16, high: u16) -> Vec<u16> {
    if areas(section, ice, low) == areas(section, ice, high) {
        return Vec::new();
    }
    let middle = low + (high - low) / 2;
    if middle == low {
        return vec![low];
    }
    let mut all = changes(section, ice, low, middle);
    all.extend(changes(section, ice, middle, high));
    all
}

/// The value of document 01's formula for a section at this pressure, whatever
/// the wind's is.
pub fn formula(tower: &Tower, wind: &Wind, section: usize, pressure: u16) -> Rooted {
    let ice = wind.ice_thickness();
    let areas = areas(&tower.sections[section], ice, pressure);
    let phi = solidity_ratio(&tower.sections[section], areas);
    let load = Rational::whole(u64::from(pressure)) * thousandths(wind.structure_factor);
    let k_theta = incidence_factor(tower.legs, areas, &phi, wind.direction);

    let flat = flat_coefficient(tower.legs, &phi) * square_metres(areas.flat);
    let subcritical = subcritical_coefficient(tower.legs, &phi) * square_metres(areas.subcritical);
    // c_p = 1.9 - sqrt(radicand), split at the minus sign.
    let supercritical = Rational::fraction(19, 10) * square_metres(areas.supercritical);
    let face = &k_theta * (flat + subcritical + supercritical);
    let rational = &load * (face + items_resistance(tower, wind, section));

    let factor = load * k_theta * square_metres(areas.supercritical);
    Rooted::new(rational, &factor, &radicand(tower.legs, &phi))
}

/// φ = A_S / A_u. Items are not in it.
pub fn solidity_ratio(section: &Section, areas: Areas) -> Rational {
    Rational::fraction(areas.solid().0, gross_face_area(section).0)
}

/// C1: 2.25 for four legs, 1.9 for three.
fn c1(legs: Legs) -> Rational {
    match legs {
        Legs::Four => Rational::fraction(225, 100),
        Legs::Three => Rational::fraction(19, 10),
    }
}

/// C2: 1.5 for four legs, 1.4 for three.
fn c2(legs: Legs) -> Rational {
    match legs {
        Legs::Four => Rational::fraction(15, 10),
        Legs::Three => Rational::fraction(14, 10),
    }
}

/// c_f = 1.76 C1 (1 - C2 φ + φ²).
pub fn flat_coefficient(legs: Legs, phi: &Rational) -> Rational {
    let bracket = Rational::whole(1) - c2(legs) * phi + phi.squared();
    Rational::fraction(176, 100) * c1(legs) * bracket
}

/// c_c = C1 (1 - C2 φ) + (C1 + 0.875) φ².
pub fn subcritical_coefficient(legs: Legs, phi: &Rational) -> Rational {
    let linear = c1(legs) * (Rational::whole(1) - c2(legs) * phi);
    linear + (c1(legs) + Rational::fraction(875, 1000)) * phi.squared()
}

/// What stands under the root in c_p: (1 - φ)(2.8 - 1.14 C1 + φ).
pub fn radicand(legs: Legs, phi: &Rational) -> Rational {
    let constant = Rational::fraction(28, 10) - Rational::fraction(114, 100) * c1(legs);
    (Rational::whole(1) - phi) * (constant + phi)
}

/// Kθ, the wind incidence factor.
pub fn incidence_factor(legs: Legs, areas: Areas, phi: &Rational, direction: u32) -> Rational {
    let flat = square_metres(areas.flat);
    let round = square_metres(areas.subcritical + areas.supercritical);
    let solid = square_metres(areas.solid());
    let s = direction_share(legs, direction);
    match legs {
        Legs::Four => {
            let weighted = Rational::fraction(55, 100) * flat + Rational::fraction(8, 10) * round;
            Rational::whole(1) + weighted / solid * solidity_share(phi) * s
        }
        Legs::Three => {
            let turned = Rational::whole(1) - Rational::fraction(1, 10) * s;
            round / &solid + flat / solid * turned
        }
    }
}

/// K2 of the square: 0.2 up to φ = 0.2, then φ up to 0.5, then 1 - φ, and 0.2
/// again from 0.8.
pub fn solidity_share(phi: &Rational) -> Rational {
    let fifth = Rational::fraction(2, 10);
    if *phi <= fifth || *phi >= Rational::fraction(8, 10) {
        fifth
    } else if *phi <= Rational::fraction(5, 10) {
        phi.clone()
    } else {
        Rational::whole(1) - phi
    }
}

/// s: by k mod 6 for the square, by k mod 8 for the triangle.
fn direction_share(legs: Legs, direction: u32) -> Rational {
    let quarters = match legs {
        Legs::Four => [0, 1, 3, 4, 3, 1][direction as usize % 6],
        Legs::Three => match direction % 8 {
            0 => 0,
            2 | 6 => 2,
            4 => 4,
            _ => panic!("an odd direction on a triangle"),
        },
    };
    Rational::fraction(quarters, 4)
}

/// The sum of coefficient times K times area in m² over the section's items.
fn items_resistance(tower: &Tower, wind: &Wind, section: usize) -> Rational {
    let ice = wind.ice_thickness();
    let mut sum = Rational::whole(0);
    for item in &tower.items {
        if usize::from(item.section) == section {
            let coefficient = if ice.0 > 0 { item.iced } else { item.bare };
            let factors = thousandths(coefficient.into()) * thousandths(item.position.into());
            sum = sum + factors * square_metres(item_area(item, ice));
        }
    }
    sum
}

fn thousandths(number: u32) -> Rational {
    Rational::fraction(u64::from(number), 1_000)
}

fn square_metres(area: Area) -> Rational {
    Rational::fraction(area.0, 1_000_000)
}
