//! Lesser winds: bare sections with supercritical rounds, which are also worked
//! out at the greatest pressure at which each of these is not supercritical.

mod faces;
mod near;

use super::governing::{forces, full_governs, greatest, lesser_governs};
use super::ways::known_way;
use super::Case;
use crate::areas::{gross_face_area, solid_area};
use crate::draw::{self, flow_limit, until, Random};
use crate::sample::round;
use crate::tower::{Legs, ICE_CLASS, MEMBER_WIDTH, PRESSURE};
use faces::{any_members, face, many_rounds, nearly_empty, one_round, rounds, Kind};
use std::ops::RangeInclusive;

pub use near::{beside, whole, whole_with_root};

/// All of them.
pub fn cases() -> Vec<Case> {
    [
        governed(),
        not_governed(),
        turning(),
        emptiest(),
        just_supercritical(),
        two_rounds(),
        eight_rounds(),
        middle(),
        same_diameter(),
        same_pressure(),
        quarters(),
        iced(),
        hung(),
        relieved(),
        whole(),
        whole_with_root(),
        beside(),
        drawn(),
    ]
    .concat()
}

/// So many draws on each shape that are wanted, and whose way is known.
fn on_both<const N: usize>(
    seed: u64,
    count: usize,
    draw: impl Fn(&mut Random, Legs) -> [Case; N],
    wanted: impl Fn(&[Case; N]) -> bool,
) -> Vec<Case> {
    let mut random = Random(seed);
    let known = |cases: &[Case; N]| cases.iter().all(|case| known_way(case).is_some());
    let mut cases = Vec::new();
    for legs in [Legs::Three, Legs::Four] {
        for _ in 0..count {
            let draw = || draw(&mut random, legs);
            cases.extend(until(draw, |drawn| wanted(drawn) && known(drawn)));
        }
    }
    cases
}

/// One round, and its lesser wind governs.
pub fn governed() -> Vec<Case> {
    let draw = |random: &mut Random, legs| [one_round(random, legs)];
    on_both(0x5eed_0310, 8, draw, |[case]| lesser_governs(case))
}

/// One round, and full pressure governs.
pub fn not_governed() -> Vec<Case> {
    let draw = |random: &mut Random, legs| [one_round(random, legs)];
    on_both(0x5eed_0311, 4, draw, |[case]| full_governs(case))
}

/// One round under the greatest pressure at which full pressure does not govern,
/// and under the next, where it does.
pub fn turning() -> Vec<Case> {
    let draw = |random: &mut Random, legs| turn(&one_round(random, legs));
    on_both(0x5eed_0312, 4, draw, |[before, after]| {
        !full_governs(before) && full_governs(after)
    })
}

/// The same on nearly empty faces, where a lesser wind governs up to 1.7 times
/// its pressure on three legs and up to 1.57 times on four.
pub fn emptiest() -> Vec<Case> {
    let draw = |random: &mut Random, legs| turn(&nearly_empty(random, legs));
    on_both(0x5eed_031e, 4, draw, |[before, after]| {
        lesser_governs(before) && full_governs(after)
    })
}

fn turn(case: &Case) -> [Case; 2] {
    let at = |pressure| case.clone().loaded(pressure, case.wind.structure_factor);
    let (mut before, mut after) = (case.pressure(), *PRESSURE.end());
    while after - before > 1 {
        let middle = before + (after - before) / 2;
        if full_governs(&at(middle)) {
            after = middle;
        } else {
            before = middle;
        }
    }
    [before, after].map(at)
}

/// One round for which 2 q d² is above 45 000 000 by as little as any.
pub fn just_supercritical() -> Vec<Case> {
    let mut diameters: Vec<u32> = (68..=*MEMBER_WIDTH.end()).collect();
    diameters.sort_by_key(|diameter| (flow_limit(*diameter) + 1) * diameter * diameter);
    let least = &diameters[..6];
    let draw = |random: &mut Random, legs| {
        let diameter = random.pick(least);
        let above = flow_limit(diameter) + 1;
        [face(random, legs, &[(round, diameter)], above)]
    };
    on_both(0x5eed_0313, 6, draw, |_| true)
}

/// Two rounds, so three values: each of them governs some.
pub fn two_rounds() -> Vec<Case> {
    each_governs(0x5eed_0314, 2)
}

/// Eight rounds, so nine values: the one in the least wind governs some, one
/// between, and the one at full pressure.
pub fn eight_rounds() -> Vec<Case> {
    each_governs(0x5eed_0315, 8)
}

/// So many rounds of which the least wind governs, then a middle one, then full
/// pressure.
fn each_governs(seed: u64, count: usize) -> Vec<Case> {
    let draw = |random: &mut Random, legs| [many_rounds(random, legs, count as u32)];
    let governs = |places: RangeInclusive<usize>| {
        on_both(seed, 2, draw, |[case]| {
            let forces = forces(case);
            let place = greatest(&forces).filter(|place| places.contains(place));
            forces.len() == count + 1 && place.is_some()
        })
    };
    [0..=0, 1..=count - 1, count..=count].map(governs).concat()
}

/// Three to six rounds, and neither the least wind nor full pressure governs.
pub fn middle() -> Vec<Case> {
    let draw = |random: &mut Random, legs| {
        let count = random.within(3, 6);
        [many_rounds(random, legs, count)]
    };
    on_both(0x5eed_0316, 6, draw, |[case]| middle_governs(case))
}

fn middle_governs(case: &Case) -> bool {
    let forces = forces(case);
    greatest(&forces).is_some_and(|place| place > 0 && place < forces.len() - 1)
}

/// Two groups of one diameter: the same lesser wind for both.
pub fn same_diameter() -> Vec<Case> {
    let draw = |random: &mut Random, legs| {
        let diameter = random.within(100, 1_000);
        [rounds(random, legs, &[diameter, diameter])]
    };
    on_both(0x5eed_0317, 3, draw, |[case]| lesser_governs(case))
}

/// Two diameters that have the same lesser wind.
pub fn same_pressure() -> Vec<Case> {
    let draw = |random: &mut Random, legs| {
        let diameter = random.within(500, 1_000);
        [rounds(random, legs, &[diameter, diameter - 1])]
    };
    on_both(0x5eed_0318, 3, draw, |[case]| {
        forces(case).len() == 2 && lesser_governs(case)
    })
}

/// Four times a lesser wind's pressure, and 1 N/m² less and more: rounds alone,
/// and together with ones that turn supercritical just above four times it.
pub fn quarters() -> Vec<Case> {
    let alone: [&[u32]; 5] = [&[1_000], &[700], &[500], &[300], &[150]];
    let together: [&[u32]; 2] = [&[300, 150], &[500, 250]];
    let at = |diameters: &[u32], beside: i32| {
        let quarter = flow_limit(diameters[0]);
        let members: Vec<(Kind, u32)> = diameters
            .iter()
            .map(|size| (round as Kind, *size))
            .collect();
        let pressure = (4 * quarter).wrapping_add_signed(beside);
        let draw = |random: &mut Random, legs| [face(random, legs, &members, pressure)];
        on_both(0x5eed_0319, 1, draw, |_| true)
    };
    let all = alone.into_iter().chain(together);
    all.flat_map(|diameters| [-1, 0, 1].map(|beside| at(diameters, beside)).concat())
        .collect()
}

/// With ice no round is supercritical, and there is no lesser wind.
pub fn iced() -> Vec<Case> {
    let draw = |random: &mut Random, legs| {
        let mut case = many_rounds(random, legs, 2);
        case.wind.ice_class = random.within(1, *ICE_CLASS.end());
        [case]
    };
    on_both(0x5eed_031a, 4, draw, |[case]| {
        let solid = solid_area(case.section(), case.wind.ice_thickness());
        solid <= gross_face_area(case.section())
    })
}

/// Items that count in the lesser wind that governs.
pub fn hung() -> Vec<Case> {
    on_both(0x5eed_031b, 4, with_items, |[case]| {
        case.item_sum() > 0 && lesser_governs(case)
    })
}

/// Items with which full pressure governs where a lesser wind did without them.
pub fn relieved() -> Vec<Case> {
    on_both(0x5eed_031c, 3, with_items, |[case]| {
        let mut bare = case.clone();
        bare.tower.items.clear();
        full_governs(case) && lesser_governs(&bare)
    })
}

/// One to three rounds, and items here and on the next section.
fn with_items(random: &mut Random, legs: Legs) -> [Case; 1] {
    let mut case = match random.within(1, 3) {
        1 => one_round(random, legs),
        count => many_rounds(random, legs, count),
    };
    let held = random.within(1, 3);
    case.tower.items = draw::items(random, held, 2);
    [case]
}

/// Any members, with items at times.
pub fn drawn() -> Vec<Case> {
    let draw = |random: &mut Random, legs| {
        let mut case = any_members(random, legs);
        if random.chance(30) {
            case.tower.items = draw::items(random, 1, 1);
        }
        [case]
    };
    on_both(0x5eed_031d, 200, draw, |_| true)
}
