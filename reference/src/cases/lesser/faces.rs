//! Faces of rounds, under pressures near those at which they turn supercritical.

use crate::cases::samples::under;
use crate::cases::Case;
use crate::draw::{self, flow_limit, Random, FLOW_LIMITS};
use crate::sample::{flat, round, section, tower};
use crate::tower::{Group, Legs, PRESSURE, STRUCTURE_FACTOR};

/// A group of this size and length.
pub type Kind = fn(u32, u32) -> Group;

/// These members on a face of any size; one of them may have the larger part of
/// A_S.
pub fn face(random: &mut Random, legs: Legs, members: &[(Kind, u32)], pressure: u32) -> Case {
    let (width, height) = (random.within(1_000, 6_000), 2 * random.within(500, 3_000));
    let solid = width * height / 1_000 * random.within(20, 950);
    let mut shares: Vec<u32> = members.iter().map(|_| random.within(1, 9)).collect();
    let large = random.within(0, members.len() as u32 - 1);
    shares[large as usize] = random.pick(&[9, 30, 90]);
    let all: u32 = shares.iter().sum();
    let parts = members.iter().zip(shares);
    let groups =
        parts.map(|((kind, size), share)| kind(*size, (solid / all * share / size).max(1)));
    let groups: Vec<Group> = groups.collect();
    let direction = draw::direction(random, legs);
    let any = random.within(*STRUCTURE_FACTOR.start(), *STRUCTURE_FACTOR.end());
    let factor = random.pick(&[500, 1_000, 2_000, any]);
    let pressure = pressure.min((*PRESSURE.end()).into()) as u16;
    let face = section(width, height, &groups);
    under(&tower(legs, &[face]), direction, 0).loaded(pressure, factor)
}

/// Rounds of these diameters, under a pressure above all their flow limits and
/// not much above the highest.
pub fn rounds(random: &mut Random, legs: Legs, diameters: &[u32]) -> Case {
    let limits = diameters.iter().map(|diameter| flow_limit(*diameter));
    let highest = limits.max().expect("a round");
    let (near, far) = (
        random.within(1, highest / 10 + 1),
        random.within(1, highest),
    );
    let pressure = highest + random.pick(&[1, near, far]);
    let members: Vec<(Kind, u32)> = diameters
        .iter()
        .map(|size| (round as Kind, *size))
        .collect();
    face(random, legs, &members, pressure)
}

/// One round.
pub fn one_round(random: &mut Random, legs: Legs) -> Case {
    let diameter = random.within(100, 1_000);
    rounds(random, legs, &[diameter])
}

/// One round on the largest face, just supercritical; φ is at most 0.01.
pub fn nearly_empty(random: &mut Random, legs: Legs) -> Case {
    let diameter = random.within(100, 1_000);
    let length = random.within(500_000, 1_500_000) / diameter;
    let face = section(15_000, 10_000, &[round(diameter, length)]);
    let direction = draw::direction(random, legs);
    let factor = random.pick(&[500, 1_000, 2_000]);
    let pressure = flow_limit(diameter) + 1;
    under(&tower(legs, &[face]), direction, 0).loaded(pressure as u16, factor)
}

/// So many rounds, from thick to thin.
pub fn many_rounds(random: &mut Random, legs: Legs, count: u32) -> Case {
    let thinnest = random.within(100, 900);
    let widest = (1_000 - thinnest) / (count - 1);
    let steps = [random.within(1, widest), random.within(1, widest / 5 + 1)];
    let step = random.pick(&steps);
    let diameters: Vec<u32> = (0..count)
        .rev()
        .map(|place| thinnest + place * step)
        .collect();
    rounds(random, legs, &diameters)
}

/// One to eight groups, most of them rounds, with a pressure at the flow limit
/// of one of them or above it.
pub fn any_members(random: &mut Random, legs: Legs) -> Case {
    let count = random.within(1, 8);
    let members: Vec<(Kind, u32)> = (0..count).map(|_| any_member(random)).collect();
    let limit = flow_limit(random.pick(&members).1);
    let (near, far) = (
        random.within(1, limit / 10 + 1),
        random.within(1, limit / 2 + 1),
    );
    let pressure = limit + random.pick(&[0, 1, 1, near, near, far]);
    face(random, legs, &members, pressure)
}

fn any_member(random: &mut Random) -> (Kind, u32) {
    let kind = if random.chance(15) { flat } else { round };
    let (any, (even, _)) = (random.within(67, 1_000), random.pick(&FLOW_LIMITS));
    let size = random.pick(&[any, any, even]);
    (kind, size)
}
