//! The rows of a report, and the check of the shear allowances.

use crate::areas::{areas, Areas};
use crate::force::exact_force;
use crate::tower::{Section, Tower, Wind};
use crate::units::{Force, Length, Moment};

/// Numbers in one section's row.
pub const ROW: usize = 6;

/// One section's row.
#[derive(Clone, Copy, Debug, PartialEq, Eq)]
pub struct Row {
    /// A_f, A_c and A_p.
    pub areas: Areas,
    /// The reported force, at mid-height.
    pub force: Force,
    /// The shear at the section's foot.
    pub shear: Force,
    /// The moment at the section's foot.
    pub moment: Moment,
}

impl Row {
    /// A_f, A_c, A_p in mm², force in N, shear in N, moment in N mm.
    pub fn numbers(&self) -> [u64; ROW] {
        [
            self.areas.flat.0,
            self.areas.subcritical.0,
            self.areas.supercritical.0,
            self.force.0,
            self.shear.0,
            self.moment.0,
        ]
    }
}

/// All rows, from the top.
pub fn rows(tower: &Tower, wind: &Wind) -> Vec<Row> {
    let forces: Vec<Force> = (0..tower.sections.len())
        .map(|section| exact_force(tower, wind, section).least_whole())
        .collect();
    rows_with(tower, wind, &forces)
}

/// The rows with these reported forces.
pub fn rows_with(tower: &Tower, wind: &Wind, forces: &[Force]) -> Vec<Row> {
    let row = |section: usize| Row {
        areas: areas(
            &tower.sections[section],
            wind.ice_thickness(),
            wind.pressures[section],
        ),
        force: forces[section],
        shear: forces[..=section].iter().copied().sum(),
        moment: moment(&tower.sections, forces, section),
    };
    (0..tower.sections.len()).map(row).collect()
}

/// The moment at a section's foot.
fn moment(sections: &[Section], forces: &[Force], foot: usize) -> Moment {
    (0..=foot)
        .map(|above| forces[above] * arm(sections, above, foot))
        .sum()
}

/// From mid-height of the section `above` down to the foot of `foot`.
fn arm(sections: &[Section], above: usize, foot: usize) -> Length {
    let between: Length = sections[above + 1..=foot]
        .iter()
        .map(|section| section.height)
        .sum();
    sections[above].height.half() + between
}

/// Whether a section's allowance is stated and its reported shear is above it.
pub fn is_over(section: &Section, row: &Row) -> bool {
    match section.allowance {
        Some(allowance) => allowance != Force(0) && row.shear > allowance,
        None => false,
    }
}
