//! Shears beside their allowances.

use super::{erect, first_sample, wind, Sample};
use crate::requests::Request;
use crate::sample::{item, tower};
use crate::tower::{Legs, Tower};
use crate::units::Force;

/// Allowances of both sections, and what check answers without and with the item.
const CASES: [(u64, u64, &str); 6] = [
    (7_033, 14_066, "Allowances 7 033 and 14 066: none, then 0"),
    (7_032, 14_065, "Allowances 7 032 and 14 065: 0, then 0"),
    (7_033, 14_065, "Allowances 7 033 and 14 065: 1, then 0"),
    (0, 1, "Allowances 0 and 1: 1, then 1"),
    (
        7_609,
        14_642,
        "Allowances 7 609 and 14 642: none, then none",
    ),
    (0, 0, "Allowances 0 and 0: none, then none"),
];

/// Allowances of three sections, and what check answers.
const TOPMOST: [([u64; 3], &str); 6] = [
    (
        [7_032, 14_065, 21_098],
        "All three sections over: 0, the topmost",
    ),
    (
        [7_033, 14_065, 21_098],
        "The two lower sections over: 1, the upper of them",
    ),
    (
        [0, 14_065, 21_098],
        "The top section without an allowance, the others over: 1",
    ),
    (
        [7_032, 0, 21_098],
        "The top section over and the lowest, the one between without an allowance: 0",
    ),
    (
        [0, 14_066, 21_098],
        "The top section without an allowance, the next at its allowance, the lowest over: 2",
    ),
    ([7_033, 14_066, 21_099], "No section over: none"),
];

/// Two and three sections like the first, each time with other allowances.
pub fn samples() -> Vec<Sample> {
    let two = [
        "Two sections like the first: shears 7 033 and 14 066, with the item on the upper one 7 609 and 14 642.",
        "Check answers the topmost section whose shear is above its allowance; 0 says that none is stated.",
    ];
    let three = "Request M-105, on three sections like the first: shears 7 033, 14 066 and 21 099.";
    let mut samples = two.map(Sample::heading).to_vec();
    samples.extend(CASES.map(with_the_item));
    samples.push(Sample::heading(three));
    samples.extend(TOPMOST.map(checked));
    samples
}

fn with_the_item((upper, lower, title): (u64, u64, &'static str)) -> Sample {
    let tower = allowing(&[upper, lower]);
    Sample::new(
        title,
        [
            erect(&tower),
            Request::Check,
            wind(&tower, 0, 0),
            Request::Check,
            Request::Hang(item(1)),
            Request::Check,
        ],
    )
}

fn checked((allowances, title): ([u64; 3], &'static str)) -> Sample {
    let tower = allowing(&allowances);
    Sample::new(title, [erect(&tower), wind(&tower, 0, 0), Request::Check])
}

/// A section like the first for each of these allowances, from the top.
fn allowing(allowances: &[u64]) -> Tower {
    let parts = vec![first_sample().sections; allowances.len()];
    let mut tower = tower(Legs::Four, &parts.concat());
    for (section, newtons) in tower.sections.iter_mut().zip(allowances) {
        section.allowance = Some(Force(*newtons));
    }
    tower
}
