//! One tower under one wind after another, each with 1 N/m² more on one of its
//! sections: no reported force, shear or moment falls.

use super::draws::{Draws, Key};
use super::files::{file, item, Extent};
use super::line;
use crate::file_cases::digest;
use crate::force::formula;
use crate::report::{rows_with, ROW};
use crate::service::Service;
use crate::tower::{Tower, Wind};
use crate::units::Force;
use std::cmp::Ordering;

/// The key of the tower and its items. Each of its sections has tubes whose lesser
/// winds govern.
const KEY: Key = Key(18);

/// Sections of the tower.
pub const SECTIONS: usize = 3;

/// Items on it.
const ITEMS: u16 = 4;

/// The highest pressure on a section.
const HIGHEST: u16 = 5_000;

/// The rows are printed whenever the pressure on all sections is a multiple of this.
const PRINTED: usize = 1_000;

/// What the program tells of these winds.
#[derive(Clone, Debug, PartialEq, Eq)]
pub struct Pressures {
    /// With its items.
    pub tower: Tower,
    /// The numbers of each report, from no pressure on.
    pub reports: Vec<Vec<u64>>,
}

/// All reports. A force is the greatest that document 01's formula gives at any
/// pressure up to the section's, so no lesser wind is looked for.
pub fn pressures() -> Pressures {
    let tower = tower();
    let forces: Vec<Vec<Force>> = (0..SECTIONS).map(|i| forces(&tower, i)).collect();
    let report = |step| {
        let wind = wind(step);
        let reported = |i: usize| forces[i][usize::from(wind.pressures[i])];
        let reported: Vec<Force> = (0..SECTIONS).map(reported).collect();
        let rows = rows_with(&tower, &wind, &reported);
        rows.iter().flat_map(|row| row.numbers()).collect()
    };
    let reports = (0..=SECTIONS * usize::from(HIGHEST)).map(report).collect();
    Pressures { tower, reports }
}

/// A tower with its items.
fn tower() -> Tower {
    let mut service = Service::fresh();
    let draws = Draws { key: KEY, odds: 0 };
    let extent = Extent {
        sections: SECTIONS as u32,
        items: 0,
    };
    let accepted = "the tower and its items are sound";
    service.erect(&file(draws.part(0), extent)).expect(accepted);
    for number in 0..ITEMS {
        let draws = draws.part(1).part(number.into());
        let item = item(draws, number, SECTIONS as u32);
        service.hang(item).expect(accepted);
    }
    service.tower().expect("a tower").clone()
}

/// The wind of a step: each step adds 1 N/m² on one section, in turns from the top.
pub fn wind(step: usize) -> Wind {
    let turns = |i: usize| step / SECTIONS + usize::from(i < step % SECTIONS);
    Wind {
        direction: 4,
        ice_class: 0,
        structure_factor: 1_000,
        pressures: (0..SECTIONS).map(|i| turns(i) as u16).collect(),
    }
}

/// The reported force on a section under each pressure.
fn forces(tower: &Tower, section: usize) -> Vec<Force> {
    let mut greatest = Force(0);
    let mut raise = |pressure| {
        let value = formula(tower, &wind(0), section, pressure).least_whole();
        greatest = greatest.max(value);
        greatest
    };
    (0..=HIGHEST).map(&mut raise).collect()
}

impl Pressures {
    /// How many forces, shears and moments were more than in the report before, the
    /// same, and less.
    pub fn compared(&self) -> [u64; 3] {
        let mut counts = [0; 3];
        for pair in self.reports.windows(2) {
            let numbers = pair[0].iter().zip(&pair[1]).enumerate();
            for (_, (before, after)) in numbers.filter(|(place, _)| place % ROW >= 3) {
                counts[match after.cmp(before) {
                    Ordering::Greater => 0,
                    Ordering::Equal => 1,
                    Ordering::Less => 2,
                }] += 1;
            }
        }
        counts
    }

    /// The lines that the program prints.
    pub fn text(&self) -> String {
        let printed = self.reports.iter().step_by(SECTIONS * PRINTED);
        let rows = printed.flat_map(|numbers| numbers.chunks(ROW));
        let lines: String = rows
            .map(|row| line("pressed", row.iter().copied()))
            .collect();
        let digest = digest(self.reports.iter().flatten().copied());
        lines + &line("digest", [digest]) + &line("compared", self.compared())
    }
}
