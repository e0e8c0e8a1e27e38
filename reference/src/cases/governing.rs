//! Which of the pressures that a section is worked out at governs its force.

use super::Case;
use crate::force::lesser_pressures;
use crate::units::Force;

/// Each pressure at which the section is worked out, full pressure last, with
/// the formula's value there, rounded up.
pub fn forces(case: &Case) -> Vec<(u16, Force)> {
    let ice = case.wind.ice_thickness();
    let lesser = lesser_pressures(case.section(), ice, case.pressure());
    let pressures = lesser.into_iter().chain([case.pressure()]);
    let force = |pressure| (pressure, case.formula(pressure).least_whole());
    pressures.map(force).collect()
}

/// The place of the force that is above all others, if one is.
pub fn greatest(forces: &[(u16, Force)]) -> Option<usize> {
    let most = forces.iter().map(|(_, force)| *force).max();
    let mut places = (0..forces.len()).filter(|place| Some(forces[*place].1) == most);
    let first = places.next();
    first.filter(|_| places.next().is_none())
}

/// The pressure that governs, if its force is above that of all others.
pub fn governing(case: &Case) -> Option<u16> {
    let forces = forces(case);
    greatest(&forces).map(|place| forces[place].0)
}

/// Whether it is full pressure.
pub fn full_governs(case: &Case) -> bool {
    governing(case) == Some(case.pressure())
}

/// Whether it is a lesser wind's.
pub fn lesser_governs(case: &Case) -> bool {
    governing(case).is_some_and(|pressure| pressure < case.pressure())
}
