//! Single sections under a wind: the cases that the program `force_cases`
//! reads, a line for each, and what it has to print for them. Lines that are no
//! case follow, with the message for each, and a count of what decided the
//! forces at full pressure.

mod beside;
mod calm;
mod close;
mod extremes;
mod fractions;
mod governing;
mod ice;
pub mod lesser;
mod limits;
mod ratios;
mod refused;
mod samples;
mod ways;
mod whole;

use crate::areas::item_area;
use crate::draw::{self, Random};
use crate::force::{exact_force, formula, ExactForce, Rooted};
use crate::outputs::OutputFile;
use crate::report::rows;
use crate::tower::{Item, Legs, Section, Tower, Wind};

pub use governing::full_governs;
pub use refused::{breaking_one_rule, breaking_two_rules, Refused};
pub use samples::sample_cases;
pub use ways::{decided, known_way, way, Way};

/// Millionths of mm² under thousandths of N/m² that make up one newton.
pub const UNITS: u64 = 1_000_000_000_000_000;

/// The section of a tower with one section. Its items may hang on other
/// sections, and then they do not count.
#[derive(Clone, Debug, PartialEq, Eq)]
pub struct Case {
    /// The section, and all items.
    pub tower: Tower,
    /// With the section's pressure.
    pub wind: Wind,
}

impl Case {
    /// A case in which no allowance is stated: a line has none.
    pub fn new(mut tower: Tower, wind: Wind) -> Case {
        tower.sections[0].allowance = None;
        Case { tower, wind }
    }

    /// The case with this pressure and structure factor.
    pub fn loaded(mut self, pressure: u16, factor: u32) -> Case {
        self.wind.pressures[0] = pressure;
        self.wind.structure_factor = factor;
        self
    }

    /// The section.
    pub fn section(&self) -> &Section {
        &self.tower.sections[0]
    }

    /// The pressure on it.
    pub fn pressure(&self) -> u16 {
        self.wind.pressures[0]
    }

    /// Pressure times structure factor, in thousandths of N/m².
    pub fn factored_pressure(&self) -> u64 {
        u64::from(self.pressure()) * u64::from(self.wind.structure_factor)
    }

    /// The exact force on it.
    pub fn exact_force(&self) -> ExactForce {
        exact_force(&self.tower, &self.wind, 0)
    }

    /// The formula's value at this pressure, without lesser winds.
    pub fn formula(&self, pressure: u16) -> Rooted {
        formula(&self.tower, &self.wind, 0, pressure)
    }

    /// The formula's value at full pressure.
    pub fn full_force(&self) -> Rooted {
        self.formula(self.pressure())
    }

    /// Coefficient times K times area over the section's items, in millionths
    /// of mm².
    pub fn item_sum(&self) -> u64 {
        let ice = self.wind.ice_thickness();
        let part = |item: &Item| {
            let coefficient = if ice.0 > 0 { item.iced } else { item.bare };
            u64::from(coefficient) * u64::from(item.position) * item_area(item, ice).0
        };
        let held = self.tower.items.iter().filter(|item| item.section == 0);
        held.map(part).sum()
    }

    /// The numbers of the line up to the groups: legs, direction, ice class,
    /// structure factor, pressure, width, height, then the counted groups.
    pub fn section_numbers(&self) -> Vec<u64> {
        let (section, wind) = (self.section(), &self.wind);
        let mut numbers = vec![
            self.tower.legs.count().into(),
            wind.direction.into(),
            wind.ice_class.into(),
            wind.structure_factor.into(),
            self.pressure().into(),
            section.width.0.into(),
            section.height.0.into(),
            section.groups.len() as u64,
        ];
        for group in &section.groups {
            numbers.push(group.member.kind().into());
            numbers.push(group.member.bare_width().0.into());
            numbers.push(group.length.0.into());
        }
        numbers
    }

    /// The line that is read: the section's numbers, then the counted items.
    pub fn line(&self) -> String {
        let mut numbers = self.section_numbers();
        numbers.push(self.tower.items.len() as u64);
        for item in &self.tower.items {
            numbers.push(item.section.into());
            numbers.push(item.width.0.into());
            numbers.push(item.length.0.into());
            numbers.push(item.bare.into());
            numbers.push(item.iced.into());
            numbers.push(item.position.into());
        }
        spaced(&numbers)
    }

    /// The line that is printed: A_f, A_c, A_p, the items' sum, the force.
    pub fn answer(&self) -> String {
        let [flat, subcritical, supercritical, force, ..] =
            rows(&self.tower, &self.wind)[0].numbers();
        spaced(&[flat, subcritical, supercritical, self.item_sum(), force])
    }
}

/// One space between numbers, and a newline.
fn spaced(numbers: &[u64]) -> String {
    let words: Vec<String> = numbers.iter().map(u64::to_string).collect();
    words.join(" ") + "\n"
}

/// All cases, the same each time.
pub fn all() -> Vec<Case> {
    [
        sample_cases(),
        ratios::cases(),
        extremes::cases(),
        ice::cases(),
        limits::cases(),
        near_whole(),
        calm::cases(),
        lesser::cases(),
        random_cases(),
    ]
    .concat()
}

/// Forces at full pressure that are a whole number of newtons, or near one.
pub fn near_whole() -> Vec<Case> {
    [whole::cases(), fractions::cases(), close::cases()].concat()
}

/// `stdin` and `stdout` of the program: all cases, then the refused lines, each
/// with a sample behind it. At last it prints what decided the forces.
pub fn files() -> Vec<OutputFile> {
    let (mut stdin, mut stdout) = (String::new(), String::new());
    let mut ways = Vec::new();
    for case in all() {
        stdin += &case.line();
        stdout += &case.answer();
        ways.push(way(&case));
    }
    let refused = [breaking_one_rule(), breaking_two_rules()].concat();
    for (refused, case) in refused.iter().zip(sample_cases().iter().cycle()) {
        stdin += &format!("{}\n{}", refused.line, case.line());
        stdout += &format!("error: {}\n{}", refused.message, case.answer());
        ways.push(way(case));
    }
    stdout += &decided(&ways);
    let files = [("stdin", stdin), ("stdout", stdout)];
    let file = |(name, text): (_, String)| OutputFile {
        name,
        bytes: text.into_bytes(),
    };
    files.map(file).to_vec()
}

/// Drawn sections of any kind, some full to the last mm² or nearly so.
pub fn random_cases() -> Vec<Case> {
    let mut random = Random(0x5eed_0304);
    let one = |_| ways::drawn(|| random_case(&mut random));
    (0..680).map(one).collect()
}

fn random_case(random: &mut Random) -> Case {
    let ice_class = draw::ice_class(random);
    let section = if random.chance(20) {
        let (tenths, beside) = (random.within(1, 10), random.pick(&[0, -1]));
        draw::exact_section(random, ice_class, tenths, beside)
    } else {
        draw::section(random, ice_class, 8)
    };
    let held = if random.chance(2) {
        64
    } else {
        random.within(0, 5)
    };
    let on = random.pick(&[1, 2, 32]);
    let tower = Tower {
        legs: random.pick(&[Legs::Three, Legs::Four]),
        sections: vec![section],
        items: draw::items(random, held, on),
    };
    let direction = draw::direction(random, tower.legs);
    let wind = draw::wind(random, &tower, direction, ice_class);
    Case::new(tower, wind)
}
