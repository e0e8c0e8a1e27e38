//! Calls of a host program, with valid and invalid arguments.

use super::damage::any_file;
use super::HostCase;
use crate::draw::{self, Random};
use crate::file;
use crate::host::{host_call, ROW_BYTES};

pub fn host_cases() -> Vec<HostCase> {
    let mut random = Random(0x5eed_0104);
    (0..240).map(|_| host_case(&mut random)).collect()
}

fn host_case(random: &mut Random) -> HostCase {
    let tower = draw::small_tower(random, 3);
    let direction = draw::direction(random, tower.legs);
    let ice_class = random.within(0, 1) * random.within(1, 5);
    let wind = draw::wind(random, &tower, direction, ice_class);
    let bytes = wind
        .pressures
        .iter()
        .flat_map(|pressure| pressure.to_be_bytes());
    let mut case = HostCase {
        file: file::write(&tower),
        direction,
        ice_class,
        factor: wind.structure_factor,
        pressures: bytes.collect(),
        room: ROW_BYTES * tower.sections.len() + random.within(0, 9) as usize,
        refusal: 0,
    };
    if random.chance(75) {
        damage(random, &mut case);
    }
    answered(case)
}

/// One to three arguments are changed, so that the order of the rules matters.
fn damage(random: &mut Random, case: &mut HostCase) {
    for _ in 0..random.within(1, 3) {
        match random.within(0, 8) {
            0 => case.file = any_file(random),
            1 => case.direction = random.within(0, 30),
            2 => case.ice_class = random.within(0, 7),
            3 => case.factor = random.pick(&[0, 499, 500, 2_000, 2_001]),
            4 => case.pressures.push(random.within(0, 255) as u8),
            5 => drop(case.pressures.pop()),
            6 => {
                let place = random.within(0, 1) as usize;
                if let Some(byte) = case.pressures.get_mut(place) {
                    *byte = random.within(0, 255) as u8;
                }
            }
            7 => case
                .pressures
                .splice(0..0, [19, 136 + random.within(0, 1) as u8])
                .for_each(drop),
            _ => case.room -= case.room.min(random.within(0, 20) as usize),
        }
    }
}

/// With the number that the call answers.
fn answered(case: HostCase) -> HostCase {
    let mut rows = vec![0; case.room];
    let refusal = host_call(
        &case.file,
        case.direction,
        case.ice_class,
        case.factor,
        &case.pressures,
        &mut rows,
    );
    HostCase { refusal, ..case }
}
