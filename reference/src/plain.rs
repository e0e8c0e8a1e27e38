//! The exact force in plain floating point, as an engineer would write it. It is
//! near the exact one, at times below it, and only compared with.

use crate::areas::{areas, flow, gross_face_area, item_area, Areas, Flow};
use crate::tower::{Legs, Section, Tower, Wind, SECTION_COUNT};
use crate::units::Area;

/// The force on a section in N at pressure q and in lesser winds, not rounded.
/// `items` is the sum of coefficient times K times area over its items, in m².
pub fn force(legs: Legs, section: &Section, wind: &Wind, pressure: u16, items: f64) -> f64 {
    let areas = areas(section, wind.ice_thickness(), pressure);
    force_on(legs, section, areas, wind, pressure, items)
}

/// The same with the section's areas at pressure q ready made.
#[inline(always)]
fn force_on(
    legs: Legs,
    section: &Section,
    areas: Areas,
    wind: &Wind,
    pressure: u16,
    items: f64,
) -> f64 {
    let by_class = numbers(areas);
    let face = Face::new(legs, section, by_class, wind, items);
    let full = face.force(by_class, pressure);
    if areas.supercritical == Area(0) {
        return full;
    }
    face.in_lesser_winds(section, by_class, wind, pressure, full)
}

/// Document 01's formula at this pressure alone.
pub fn formula(legs: Legs, section: &Section, wind: &Wind, pressure: u16, items: f64) -> f64 {
    let by_class = numbers(areas(section, wind.ice_thickness(), pressure));
    Face::new(legs, section, by_class, wind, items).force(by_class, pressure)
}

/// What does not depend on the pressure.
struct Face {
    /// c_f, c_c and c_p.
    coefficients: [f64; 3],
    k_theta: f64,
    items: f64,
    /// The structure factor in thousandths.
    factor: f64,
}

impl Face {
    #[inline(always)]
    fn new(legs: Legs, section: &Section, by_class: [f64; 3], wind: &Wind, items: f64) -> Face {
        let [flat, subcritical, supercritical] = by_class;
        let solid = flat + subcritical + supercritical;
        let phi = solid / number(gross_face_area(section));
        let (c1, c2) = match legs {
            Legs::Four => (2.25, 1.5),
            Legs::Three => (1.9, 1.4),
        };
        let c_f = 1.76 * c1 * (1.0 - c2 * phi + phi * phi);
        let c_c = c1 * (1.0 - c2 * phi) + (c1 + 0.875) * phi * phi;
        let c_p = 1.9 - ((1.0 - phi) * (2.8 - 1.14 * c1 + phi)).sqrt();
        let (flats, rounds) = (flat / solid, (subcritical + supercritical) / solid);
        let s = direction_share(legs, wind.direction);
        let k_theta = match legs {
            Legs::Four => 1.0 + (0.55 * flats + 0.8 * rounds) * solidity_share(phi) * s,
            Legs::Three => rounds + flats * (1.0 - 0.1 * s),
        };
        Face {
            coefficients: [c_f, c_c, c_p],
            k_theta,
            items,
            factor: f64::from(wind.structure_factor),
        }
    }

    /// The force at this pressure, with the areas by class that it has there.
    #[inline(always)]
    fn force(&self, [flat, subcritical, supercritical]: [f64; 3], pressure: u16) -> f64 {
        let [c_f, c_c, c_p] = self.coefficients;
        let face = self.k_theta * (c_f * flat + c_c * subcritical + c_p * supercritical) / 1e6;
        f64::from(pressure) * self.factor / 1e3 * (face + self.items)
    }

    /// The greatest of the force at full pressure and those in the lesser winds,
    /// one for each supercritical group.
    fn in_lesser_winds(
        &self,
        section: &Section,
        [flat, subcritical, supercritical]: [f64; 3],
        wind: &Wind,
        pressure: u16,
        full: f64,
    ) -> f64 {
        let ice = wind.ice_thickness();
        // c_c is above c_p: no wind has more for each N/m² than without
        // supercritical members
        let most = self.force([flat, subcritical + supercritical, 0.0], 1);
        let mut greatest = full;
        for group in &section.groups {
            if flow(group.member, ice, pressure) == Flow::Supercritical {
                let diameter = group.member.bare_width().0;
                let lesser = (22_500_000 / (diameter * diameter)) as u16;
                if f64::from(lesser) * most > greatest {
                    let by_class = numbers(areas(section, ice, lesser));
                    greatest = greatest.max(self.force(by_class, lesser));
                }
            }
        }
        greatest
    }
}

/// A_f, A_c and A_p in mm².
fn numbers(areas: Areas) -> [f64; 3] {
    [areas.flat, areas.subcritical, areas.supercritical].map(number)
}

/// The force rounded up to whole newtons.
pub fn whole_force(legs: Legs, section: &Section, wind: &Wind, pressure: u16, items: f64) -> u64 {
    force(legs, section, wind, pressure, items).ceil() as u64
}

/// One section's row of a report.
#[derive(Clone, Copy, Debug, PartialEq)]
pub struct Row {
    /// A_f, A_c and A_p.
    pub areas: Areas,
    /// Rounded up to whole newtons.
    pub force: f64,
    /// The shear at the section's foot in N.
    pub shear: f64,
    /// The moment at the section's foot in N mm.
    pub moment: f64,
}

/// All rows, from the top.
pub fn rows(tower: &Tower, wind: &Wind) -> Vec<Row> {
    let items = item_sums(tower, wind);
    let (mut shear, mut moment) = (0.0, 0.0);
    let row = |(place, section): (usize, &Section)| {
        let pressure = wind.pressures[place];
        let areas = areas(section, wind.ice_thickness(), pressure);
        let force = force_on(tower.legs, section, areas, wind, pressure, items[place]).ceil();
        let height = f64::from(section.height.0);
        moment += shear * height + force * height / 2.0;
        shear += force;
        Row {
            areas,
            force,
            shear,
            moment,
        }
    };
    tower.sections.iter().enumerate().map(row).collect()
}

/// The sum of coefficient times K times area over each section's items, in m².
fn item_sums(tower: &Tower, wind: &Wind) -> [f64; *SECTION_COUNT.end() as usize] {
    let ice = wind.ice_thickness();
    let mut sums = [0.0; *SECTION_COUNT.end() as usize];
    for item in &tower.items {
        let coefficient = if ice.0 > 0 { item.iced } else { item.bare };
        let factors = f64::from(coefficient) / 1e3 * f64::from(item.position) / 1e3;
        sums[usize::from(item.section)] += factors * number(item_area(item, ice)) / 1e6;
    }
    sums
}

fn number(area: Area) -> f64 {
    area.0 as f64
}

/// K2 of the square.
fn solidity_share(phi: f64) -> f64 {
    if phi <= 0.2 || phi >= 0.8 {
        0.2
    } else if phi <= 0.5 {
        phi
    } else {
        1.0 - phi
    }
}

/// s of this direction.
pub fn direction_share(legs: Legs, direction: u32) -> f64 {
    match legs {
        Legs::Four => [0.0, 0.25, 0.75, 1.0, 0.75, 0.25][direction as usize % 6],
        Legs::Three => [0.0, 0.5, 1.0, 0.5][direction as usize / 2 % 4],
    }
}
