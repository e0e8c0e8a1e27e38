//! Sections with supercritical tubes whose lesser winds are all worked out: each
//! has another pressure, and more than a quarter of the full one.

use crate::section::PRESSURES;
use reference::cases::Case;
use reference::draw::{self, flow_limit, Random};
use reference::sample::{flat, item, round, section, tower};
use reference::tower::{Group, Legs, Wind, PRESSURE};

/// How many sections of each kind there are.
const COUNT: u32 = 32;

/// The sizes of members that are no tubes, in mm.
const THINNEST: u32 = 60;
const THICKEST: u32 = 150;

/// A group of this size and length.
type Kind = fn(u32, u32) -> Group;

/// The members of a face by kind and size, and the pressure on it.
struct Members {
    groups: Vec<(Kind, u32)>,
    pressure: u32,
}

/// With one tube, and one to seven groups that are flat or subcritical.
pub fn one_tube() -> Vec<Case> {
    cases(0x5eed_0602, |random| {
        let diameter = random.within(100, 600);
        let pressure = pressure(random, diameter, diameter);
        let count = random.within(1, 7);
        let mut groups: Vec<_> = (0..count).map(|_| other(random, pressure)).collect();
        let place = random.within(0, count) as usize;
        groups.insert(place, (round, diameter));
        Members { groups, pressure }
    })
}

/// With eight tubes.
pub fn eight_tubes() -> Vec<Case> {
    cases(0x5eed_0603, |random| {
        let thinnest = random.within(120, 300);
        let step = random.within(5, thinnest / 14);
        let diameters = (0..8).map(|place| thinnest + place * step);
        let groups = diameters.map(|diameter| (round as Kind, diameter));
        Members {
            groups: groups.collect(),
            pressure: pressure(random, thinnest, thinnest + 7 * step),
        }
    })
}

/// A pressure under which tubes from one diameter to another are supercritical in
/// every round, and the lesser wind of none is a quarter of it or less. Half are
/// near the least one, where a lesser wind may govern.
fn pressure(random: &mut Random, thinnest: u32, thickest: u32) -> u32 {
    let least = flow_limit(thinnest) + PRESSURES as u32;
    let most = (4 * flow_limit(thickest) - 1).min((*PRESSURE.end()).into());
    let near = least + (most - least) / 16;
    let highest = random.pick(&[near, most]);
    random.within(least, highest)
}

/// A flat group, or a round one that is not supercritical.
fn other(random: &mut Random, pressure: u32) -> (Kind, u32) {
    let size = random.within(THINNEST, THICKEST);
    let is_round = random.chance(50) && pressure <= flow_limit(size);
    (if is_round { round } else { flat }, size)
}

/// Faces of drawn members on three and four legs by turns, with one item or none.
/// The solidity ratio goes from 0.025 to 0.955.
fn cases(seed: u64, members: impl Fn(&mut Random) -> Members) -> Vec<Case> {
    let mut random = Random(seed);
    let case = |place: u32| {
        let legs = [Legs::Three, Legs::Four][place as usize % 2];
        let Members { groups, pressure } = members(&mut random);
        let (width, height) = (random.within(1_000, 3_000), 2 * random.within(500, 2_000));
        let solid = width * height / 1_000 * (25 + 30 * place);
        let face = section(width, height, &shared(&mut random, &groups, solid));
        let mut tower = tower(legs, &[face]);
        if random.chance(50) {
            tower.items.push(item(1));
        }
        let wind = Wind {
            direction: draw::direction(&mut random, legs),
            ice_class: 0,
            structure_factor: random.within(500, 2_000),
            pressures: vec![pressure as u16],
        };
        Case::new(tower, wind)
    };
    (0..COUNT).map(case).collect()
}

/// Groups of these members, with drawn shares of the solid area.
fn shared(random: &mut Random, groups: &[(Kind, u32)], solid: u32) -> Vec<Group> {
    let shares: Vec<u32> = groups.iter().map(|_| random.within(1, 9)).collect();
    let all: u32 = shares.iter().sum();
    let group = |((kind, size), share): (&(Kind, u32), u32)| {
        let length = solid / all * share / size;
        kind(*size, length.max(1))
    };
    groups.iter().zip(shares).map(group).collect()
}
