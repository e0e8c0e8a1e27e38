//! Forces with a root that are near a whole number of newtons: as they were
//! drawn, and by items. Full pressure governs all of them.

use super::beside::{beside_whole, is_nearly_whole};
use super::governing::full_governs;
use super::ratios::{self, Members};
use super::samples::under;
use super::ways::{known_way, Way};
use super::Case;
use crate::draw::{self, flow_limit, until, Random};
use crate::sample::{round, section, tower};
use crate::tower::{Legs, PRESSURE, STRUCTURE_FACTOR};

/// Draws a bare face with a root, without items.
type Face = fn(&mut Random, Legs) -> Case;

const FACES: [Face; 5] = [large, thin, nearly_full, mixed, nearly_empty];

/// By items, then as drawn. On a nearly empty face the force is too small to be
/// drawn near a whole number.
pub fn cases() -> Vec<Case> {
    let mut random = Random(0x5eed_0306);
    let mut cases = Vec::new();
    for legs in [Legs::Three, Legs::Four] {
        for face in FACES {
            for _ in 0..3 {
                cases.extend(by_items(&mut random, legs, face));
            }
        }
        for face in &FACES[..4] {
            cases.extend((0..6).map(|_| near(&mut random, legs, *face)));
        }
    }
    cases
}

/// At most a whole number of newtons, and above it, by as little as items allow.
fn by_items(random: &mut Random, legs: Legs, face: Face) -> [Case; 2] {
    let beside = || {
        let [_, at_most, above] = beside_whole(&face(random, legs));
        [at_most, above]
    };
    until(beside, |cases| cases.iter().all(full_governs))
}

/// Draws until the bounds do not decide the force.
fn near(random: &mut Random, legs: Legs, face: Face) -> Case {
    let part = 1.0 / f64::from(1 << 29);
    let wanted = |case: &Case| {
        is_nearly_whole(case, part) && known_way(case) == Some(Way::Squares) && full_governs(case)
    };
    until(|| face(random, legs), wanted)
}

/// The largest face.
fn large(random: &mut Random, legs: Legs) -> Case {
    rounds(random, legs, (15_000, 10_000), 200_000)
}

/// A narrow or a low face.
fn thin(random: &mut Random, legs: Legs) -> Case {
    let (thin, long) = (2 * random.within(50, 75), 2 * random.within(4_000, 5_000));
    let size = random.pick(&[(thin, long), (long, thin)]);
    rounds(random, legs, size, 200_000)
}

/// A few mm² less than full.
fn nearly_full(random: &mut Random, legs: Legs) -> Case {
    let ratio = (10, -(random.within(1, 9) as i32));
    let members = random.pick(&[Members::Supercritical, Members::Mixed]);
    exact(random, legs, ratio, members)
}

/// All classes.
fn mixed(random: &mut Random, legs: Legs) -> Case {
    let ratio = (random.within(1, 9), 0);
    exact(random, legs, ratio, Members::Mixed)
}

/// A few millimetres of one round.
fn nearly_empty(random: &mut Random, legs: Legs) -> Case {
    let size = (
        random.within(10_000, 15_000),
        2 * random.within(2_500, 5_000),
    );
    rounds(random, legs, size, 9)
}

/// Supercritical rounds on a face of this size, up to this length.
fn rounds(random: &mut Random, legs: Legs, (width, height): (u32, u32), longest: u32) -> Case {
    let diameter = random.within(100, 1_000);
    let length = random.within(1, longest.min(width * height / diameter));
    let face = section(width, height, &[round(diameter, length)]);
    let direction = draw::direction(random, legs);
    let pressure = random.within(flow_limit(diameter) + 1, (*PRESSURE.end()).into());
    let factor = random.within(*STRUCTURE_FACTOR.start(), *STRUCTURE_FACTOR.end());
    under(&tower(legs, &[face]), direction, 0).loaded(pressure as u16, factor)
}

/// Members of these classes with this part of A_u exactly.
fn exact(random: &mut Random, legs: Legs, ratio: (u32, i32), members: Members) -> Case {
    let direction = draw::direction(random, legs);
    let mut case = ratios::case(random, ratio, legs, members, direction);
    case.tower.items.clear();
    case
}
