//! Towers for tests, drawn or made by hand, and programs run with words.

use reference::draw::{self, Random};
use reference::file;
use reference::rational::Rational;
use reference::refusal::Refusal;
use reference::service::Service;
use reference::tower::{Legs, Section, Tower, Wind};
use reference::units::Force;
use std::process::Command;

pub use reference::sample::{flat, item, round, sample, sample_wind, section, tower};

pub fn erected(tower: &Tower) -> Service {
    let mut service = Service::fresh();
    assert_eq!(service.erect(&file::write(tower)), Ok(()));
    assert_eq!(service.tower(), Some(tower));
    service
}

pub fn under_wind(tower: &Tower, wind: &Wind) -> Service {
    let mut service = erected(tower);
    assert_eq!(set_wind(&mut service, wind), Ok(()));
    service
}

pub fn set_wind(service: &mut Service, wind: &Wind) -> Result<(), Refusal> {
    service.wind(
        wind.direction,
        wind.ice_class,
        wind.structure_factor,
        &wind.pressures,
    )
}

/// All rows, in a slice that is just long enough.
pub fn rows(service: &Service) -> Vec<u64> {
    let sections = service.tower().expect("a tower").sections.len();
    let mut lent = vec![u64::MAX; 6 * sections];
    assert_eq!(service.report(&mut lent), Ok(()));
    lent
}

/// A number printed with decimals, such as `7032.96`.
pub fn decimal(text: &str) -> Rational {
    let (whole, decimals) = text.split_once('.').unwrap_or((text, ""));
    let digits = format!("{whole}{decimals}").parse().expect("digits");
    Rational::fraction(digits, 10_u64.pow(decimals.len() as u32))
}

/// Tenths of A_u that A_S is beside, and the distance in mm², if it is at most 1.
pub fn beside_tenths(solid: u64, gross: u64) -> Vec<(u64, i64)> {
    let tenths = [2, 5, 8, 10].into_iter();
    let near = tenths.filter(|tenths| (gross * tenths).is_multiple_of(10));
    near.map(|tenths| (tenths, solid as i64 - (gross * tenths / 10) as i64))
        .filter(|(_, distance)| distance.abs() <= 1)
        .collect()
}

/// An acceptable section; its solidity ratio goes from near 0 to near 1.
pub fn random_section(random: &mut Random) -> Section {
    let width = random.within(100, 15_000);
    let height = 2 * random.within(50, 5_000);
    let mut left = u64::from(width) * u64::from(height);
    let mut groups = Vec::new();
    for _ in 0..random.within(1, 8) {
        let size = random.within(1, 1_000);
        let fits = (left / u64::from(size)).min(200_000) as u32;
        if fits > 0 {
            let length = random.within(1, fits);
            left -= u64::from(size) * u64::from(length);
            let group = if random.chance(40) { flat } else { round };
            groups.push(group(size, length));
        }
    }
    if groups.is_empty() {
        groups.push(flat(1, 1));
    }
    let allowance = random.chance(50).then(|| random.within(1, 200_000));
    Section {
        allowance: allowance.map(|newtons| Force(newtons.into())),
        ..section(width, height, &groups)
    }
}

/// An acceptable tower with up to `most` sections and a few items.
pub fn random_tower(random: &mut Random, most: u32) -> Tower {
    let legs = if random.chance(50) {
        Legs::Three
    } else {
        Legs::Four
    };
    let count = random.within(1, most);
    let sections: Vec<Section> = (0..count).map(|_| random_section(random)).collect();
    let mut tower = tower(legs, &sections);
    for place in 0..random.within(0, 6) as u16 {
        let number = 900 * place + random.within(0, 899) as u16;
        tower.items.push(draw::item(random, number, sections.len()));
    }
    tower
}

/// A wind that fits the legs; the ice may be too thick for the sections.
pub fn random_wind(random: &mut Random, tower: &Tower) -> Wind {
    let pressures = tower.sections.iter();
    Wind {
        direction: draw::direction(random, tower.legs),
        ice_class: draw::ice_class(random),
        structure_factor: random.within(500, 2_000),
        pressures: pressures.map(|_| random.within(0, 5_000) as u16).collect(),
    }
}

/// A service whose wind was accepted: bare if the random ice is too thick.
pub fn random_service(random: &mut Random, most: u32) -> Service {
    let tower = random_tower(random, most);
    let mut service = erected(&tower);
    let mut wind = random_wind(random, &tower);
    if set_wind(&mut service, &wind).is_err() {
        wind.ice_class = 0;
        assert_eq!(set_wind(&mut service, &wind), Ok(()));
    }
    service
}

/// Runs a program and gives its status, stdout and stderr.
pub fn run_program(program: &str, words: &[&str]) -> (Option<i32>, String, String) {
    let output = Command::new(program).args(words).output();
    let output = output.expect("the program runs");
    let text = |bytes| String::from_utf8(bytes).expect("text");
    (
        output.status.code(),
        text(output.stdout),
        text(output.stderr),
    )
}
