//! Values in a lesser wind that govern and are a whole number of newtons, or
//! beside one.

use super::faces::{many_rounds, one_round};
use super::on_both;
use crate::cases::beside::{beside_whole_at, is_whole_at};
use crate::cases::governing::{governing, lesser_governs};
use crate::cases::samples::under;
use crate::cases::Case;
use crate::draw::{self, Random};
use crate::sample::{round, sample, section, tower};
use crate::tower::Legs;

/// Whole without items and without a root: four legs with rounds that are
/// subcritical up to 2 250 have 4.08 q along the normal of a face, three legs
/// with rounds that are up to 1 000 have 3.5496 q.
pub fn whole() -> Vec<Case> {
    let four = sample(Legs::Four, &[round(100, 24_000)]);
    let three = sample(Legs::Three, &[round(150, 16_000)]);
    let mut cases = Vec::new();
    for pressure in [2_251, 2_300, 2_900] {
        for (direction, factor) in [(0, 500), (6, 1_000), (1, 1_250), (14, 1_250), (9, 1_250)] {
            cases.push(under(&four, direction, 0).loaded(pressure, factor));
        }
    }
    for pressure in [1_001, 1_020, 1_360] {
        for direction in [0, 2, 20] {
            cases.push(under(&three, direction, 0).loaded(pressure, 1_250));
        }
    }
    cases
}

/// Whole by items, with a root that is a fraction: at 1 000 N/m² the thicker
/// rounds are supercritical, and the thinner ones are not yet.
pub fn whole_with_root() -> Vec<Case> {
    on_both(0x5eed_0321, 2, at_the_thinner, |[case]| {
        is_whole_at(case, 1_000) && governing(case) == Some(1_000)
    })
}

/// Rounds of 300 and of 150 mm on a face of 10 m by 10 m: φ is 0.183 on three
/// legs and 0.3825 on four, and the root 0.817 and 0.6175.
fn at_the_thinner(random: &mut Random, legs: Legs) -> [Case; 1] {
    // 18 300 000 and 38 250 000 mm², in pieces of 1 mm of the thinner
    let pieces = match legs {
        Legs::Three => 122_000,
        Legs::Four => 255_000,
    };
    let thick = random.within(pieces / 8, pieces / 3);
    let groups = [round(300, thick), round(150, pieces - 2 * thick)];
    let face = section(10_000, 10_000, &groups);
    let direction = draw::direction(random, legs);
    let pressure = random.within(1_001, 1_050) as u16;
    let factor = random.pick(&[500, 1_000, 2_000]);
    let case = under(&tower(legs, &[face]), direction, 0).loaded(pressure, factor);
    let [_, at_most, _] = beside_whole_at(&case, 1_000);
    [at_most]
}

/// Beside a whole number of newtons by as little as items allow: with the least
/// taken off, at most whole, and with the least more.
pub fn beside() -> Vec<Case> {
    let governs = |cases: &[Case; 3]| cases.iter().all(lesser_governs);
    let without_root = |random: &mut Random, legs| near(&one_round(random, legs));
    let with_root = |random: &mut Random, legs| near(&rooted(random, legs));
    [
        on_both(0x5eed_0322, 3, without_root, governs),
        on_both(0x5eed_0323, 3, with_root, governs),
    ]
    .concat()
}

/// Rounds of which some are supercritical in the lesser wind that governs.
fn rooted(random: &mut Random, legs: Legs) -> Case {
    let draw = || many_rounds(random, legs, 3);
    draw::until(draw, super::middle_governs)
}

/// The value at the pressure that governs before any items hang, beside a whole
/// number of newtons.
fn near(case: &Case) -> [Case; 3] {
    beside_whole_at(case, governing(case).unwrap_or(case.pressure()))
}
