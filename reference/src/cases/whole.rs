//! Exact forces that are a whole number of newtons, and forces beside one. Full
//! pressure governs all of them.

use super::beside::{beside_whole, MOST_ADDED};
use super::extremes::{largest_with, turned};
use super::governing::full_governs;
use super::ratios::{self, Members};
use super::samples::{sample_cases, under};
use super::Case;
use crate::draw::{self, until, Random, EXACT_SOLIDITY};
use crate::sample::{flat, round, sample, section, tower};
use crate::tower::{Legs, Tower, MOST_ITEMS};
use crate::units::Length;

/// Whole forces, then forces beside a whole number of newtons.
pub fn cases() -> Vec<Case> {
    let mut bases = sample_cases();
    bases.retain(full_governs);
    bases.extend(rooted());
    bases.extend(heaviest());
    let beside = bases.iter().flat_map(beside_whole);
    whole().into_iter().chain(beside).collect()
}

/// Whole without items; the last one has a root that is a fraction.
fn whole() -> Vec<Case> {
    let at = |tower: &Tower, pressure| under(tower, 0, 0).loaded(pressure, 1_000);
    // 4.08 q, with rounds that are subcritical up to 2 250
    let rounds = sample(Legs::Four, &[round(100, 24_000)]);
    let mut cases: Vec<Case> = (75..=2_250)
        .step_by(75)
        .map(|pressure| at(&rounds, pressure))
        .collect();
    // full faces: 23.76 q, 24.0768 q, and 22.8 q for both shapes
    for legs in [Legs::Four, Legs::Three] {
        let flats = sample(legs, &[flat(100, 120_000)]);
        let thick = sample(legs, &[round(1_000, 12_000)]);
        for pressure in [1_250, 2_500, 3_750, 5_000] {
            cases.push(at(&flats, pressure));
            cases.push(at(&thick, pressure));
        }
    }
    // root 0.817: 198 189
    let face = section(10_000, 10_000, &[round(300, 61_000)]);
    let rooted = under(&tower(Legs::Three, &[face]), 0, 0);
    cases.push(rooted.loaded(5_000, 2_000));
    cases
}

/// Bare sections with a root.
fn rooted() -> Vec<Case> {
    let mut random = Random(0x5eed_0303);
    let mut cases = Vec::new();
    for legs in [Legs::Three, Legs::Four] {
        for members in [Members::Supercritical, Members::Mixed] {
            let mut draw = || {
                let ratio = random.pick(&EXACT_SOLIDITY);
                let direction = draw::direction(&mut random, legs);
                ratios::case(&mut random, ratio, legs, members, direction)
            };
            cases.extend((0..16).map(|_| until(&mut draw, full_governs)));
        }
    }
    cases
}

/// The largest section, full or 1 mm² less, with s = 1 and with as many of the
/// largest items as leave room for those that are added. The last two are iced.
fn heaviest() -> Vec<Case> {
    let shapes = [(Legs::Three, 0), (Legs::Four, 0), (Legs::Four, 5)];
    let mut cases = shapes
        .map(|(legs, ice_class)| largest_with(legs, round, ice_class, MOST_ITEMS - MOST_ADDED))
        .concat();
    cases.retain(|case| {
        let nearly_full = case.section().groups[0].length > Length(1);
        nearly_full && case.wind.direction == turned(case.tower.legs)
    });
    cases
}
