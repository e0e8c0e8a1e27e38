//! Whole forces of faces whose root is a fraction, and of faces without a root
//! whose solidity ratio is no decimal number. Full pressure governs all of them.

use super::beside::{beside_whole, is_nearly_whole, is_whole};
use super::governing::full_governs;
use super::ratios::{cast, Members};
use super::samples::under;
use super::{Case, UNITS};
use crate::draw::{self, flow_limit, until, Random};
use crate::sample::{round, section, tower};
use crate::tower::{
    ice_thickness, Legs, Section, GROUP_LENGTH, MEMBER_WIDTH, SECTION_HEIGHT, SECTION_WIDTH,
    STRUCTURE_FACTOR,
};
use crate::units::Force;

/// With a root, then without.
pub fn cases() -> Vec<Case> {
    let mut random = Random(0x5eed_0305);
    let mut cases = without_items();
    for (legs, slopes) in [(Legs::Three, &SLOPES[3..]), (Legs::Four, &SLOPES)] {
        cases.extend(slopes.iter().map(|slope| rooted(&mut random, legs, *slope)));
    }
    for legs in [Legs::Three, Legs::Four] {
        for (place, solidity) in SOLIDITY.into_iter().enumerate() {
            for members in [Members::Flat, Members::Subcritical] {
                let ice_class = [0, random.within(1, 5)][place % 2];
                cases.push(rootless(&mut random, legs, solidity, members, ice_class));
            }
        }
    }
    cases
}

/// Direction, pressure, structure factor and length of rounds of 500 mm on four
/// legs, 10 m by 10 m: φ is 0.012, 0.145, 0.3825, 0.62 and 0.753, and the root
/// is 0.494, 0.57, 0.6175, 0.57 and 0.494.
const DECIMAL_ROOTS: [(u32, u16, u32, u32); 17] = [
    (0, 5_000, 2_000, 2_400),
    (6, 1_000, 1_250, 2_400),
    (0, 5_000, 2_000, 29_000),
    (12, 200, 2_000, 29_000),
    (1, 2_500, 1_000, 29_000),
    (17, 5_000, 2_000, 29_000),
    (2, 1_000, 1_250, 29_000),
    (10, 5_000, 1_250, 29_000),
    (3, 2_500, 2_000, 29_000),
    (21, 5_000, 2_000, 29_000),
    (6, 800, 2_000, 76_500),
    (18, 4_800, 2_000, 76_500),
    (0, 100, 500, 124_000),
    (12, 5_000, 2_000, 124_000),
    (15, 5_000, 1_250, 124_000),
    (0, 2_500, 2_000, 150_600),
    (18, 5_000, 2_000, 150_600),
];

/// Whole without items. The roots of the last two are no decimal numbers: the
/// structure factor makes up for 13 and 29.
fn without_items() -> Vec<Case> {
    let on = |legs, (width, height), rounds, direction| {
        let face = section(width, height, &[rounds]);
        under(&tower(legs, &[face]), direction, 0)
    };
    let square = |(direction, pressure, factor, length)| {
        let rounds = round(500, length);
        on(Legs::Four, (10_000, 10_000), rounds, direction).loaded(pressure, factor)
    };
    let mut cases = DECIMAL_ROOTS.map(square).to_vec();
    cases.extend([
        on(Legs::Three, (8_125, 2_500), round(625, 16_160), 18).loaded(5_000, 1_625),
        on(Legs::Three, (14_500, 5_000), round(500, 112_320), 6).loaded(3_125, 1_450),
    ]);
    cases
}

/// p and q where the root of (1 - φ)(c + φ) is p/q times 1 - φ: there 1 - φ is
/// (1 + c)/(1 + (p/q)²). The first three are too low for three legs.
const SLOPES: [(u32, u32); 16] = [
    (1, 2),
    (2, 3),
    (3, 4),
    (1, 1),
    (5, 4),
    (4, 3),
    (3, 2),
    (2, 1),
    (5, 2),
    (3, 1),
    (4, 1),
    (5, 1),
    (6, 1),
    (7, 1),
    (9, 1),
    (11, 1),
];

/// Supercritical rounds with such a root, and items that make the force whole.
fn rooted(random: &mut Random, legs: Legs, slope: (u32, u32)) -> Case {
    let draw = || {
        let face = rooted_face(random, legs, slope);
        let diameter = face.groups[0].member.bare_width().0;
        let pressures = (flow_limit(diameter) + 1, 5_000);
        let [_, at_most, _] = beside_whole(&loaded(random, legs, face, 0, pressures, 1));
        at_most
    };
    until(draw, |case| is_whole(case) && full_governs(case))
}

/// c is `taken` over `parts`, and φ is `solid` over `parts` times p² + q². The
/// diameter is a multiple of that sum, so that the face's part of the force
/// mostly is a whole number of millionths of mm².
fn rooted_face(random: &mut Random, legs: Legs, (p, q): (u32, u32)) -> Section {
    let (parts, taken) = match legs {
        Legs::Four => (200, 47),
        Legs::Three => (500, 317),
    };
    let (sum, solid) = (p * p + q * q, parts * p * p - taken * q * q);
    let thickest = (SECTION_WIDTH.end() / sum).min(*MEMBER_WIDTH.end());
    let diameter = sum * random.within(100_u32.div_ceil(sum), thickest / sum);
    let highest = (SECTION_HEIGHT.end() / parts).min(GROUP_LENGTH.end() / solid);
    let times = random.within(1, highest);
    let rounds = round(diameter, solid * times);
    section(sum * diameter, parts * times, &[rounds])
}

/// Numbers that divide a power of ten. The steps that items make under a load
/// of such numbers meet every whole number of newtons.
const DECIMALS: [u32; 36] = [
    1, 2, 4, 5, 8, 10, 16, 20, 25, 32, 40, 50, 64, 80, 100, 125, 160, 200, 250, 320, 400, 500, 625,
    640, 800, 1_000, 1_250, 1_280, 1_600, 2_000, 2_500, 3_125, 3_200, 4_000, 5_000, 6_250,
];

/// One of them from `low` to `high`.
fn decimal(random: &mut Random, low: u32, high: u32) -> u32 {
    let fits = |number: &u32| (low..=high).contains(number);
    let fitting: Vec<u32> = DECIMALS.into_iter().filter(fits).collect();
    random.pick(&fitting)
}

/// The face in any direction; pressure and structure factor are such numbers
/// times `by`.
fn loaded(
    random: &mut Random,
    legs: Legs,
    face: Section,
    ice_class: u32,
    (least, most): (u32, u32),
    by: u32,
) -> Case {
    let direction = draw::direction(random, legs);
    let pressure = by * decimal(random, least.div_ceil(by), most / by);
    let (low, high) = (STRUCTURE_FACTOR.start(), STRUCTURE_FACTOR.end());
    let factor = by * decimal(random, low.div_ceil(by), high / by);
    let case = under(&tower(legs, &[face]), direction, ice_class);
    case.loaded(pressure as u16, factor)
}

/// Solidity ratios.
const SOLIDITY: [(u32, u32); 7] = [(1, 3), (4, 7), (6, 7), (5, 9), (8, 9), (10, 11), (5, 13)];

/// Flats or subcritical rounds with this φ. The load makes up for its
/// denominator: the force is whole and the face's part of it is not in
/// millionths.
fn rootless(
    random: &mut Random,
    legs: Legs,
    (part, whole): (u32, u32),
    members: Members,
    ice_class: u32,
) -> Case {
    let ice = 2 * ice_thickness(ice_class).0;
    let least = (1 + ice).max(SECTION_WIDTH.start().div_ceil(whole));
    let draw = || {
        let across = decimal(random, least, *MEMBER_WIDTH.end());
        let height = 2 * decimal(random, 50, 5_000);
        let rounds = round(across - ice, part * height);
        let mut face = section(whole * across, height, &[rounds]);
        let pressures = cast(random, &mut face, members, ice_class);
        loaded(random, legs, face, ice_class, pressures, whole)
    };
    let wanted =
        |case: &Case| is_nearly_whole(case, 1e-12) && is_whole(case) && !is_in_millionths(case);
    until(draw, wanted)
}

/// Whether a whole force without items is that of a whole number of millionths
/// of mm².
fn is_in_millionths(case: &Case) -> bool {
    let Force(force) = case.full_force().least_whole();
    let units = u128::from(force) * u128::from(UNITS);
    units.is_multiple_of(case.factored_pressure().into())
}
