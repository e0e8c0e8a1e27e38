//! No pressure, and so no force, whatever the members are.

use super::extremes::turned;
use super::samples::under;
use super::Case;
use crate::sample::{flat, item, round, sample};
use crate::tower::{Group, Legs, Tower};

/// Each face on each shape, without items and with one.
pub fn cases() -> Vec<Case> {
    let mut cases = Vec::new();
    for legs in [Legs::Three, Legs::Four] {
        for groups in faces() {
            let bare = sample(legs, &groups);
            let hung = Tower {
                items: vec![item(0)],
                ..bare.clone()
            };
            cases.push(under(&bare, 0, 0).loaded(0, 2_000));
            cases.push(under(&hung, turned(legs), 0).loaded(0, 500));
        }
    }
    cases
}

/// Flats, rounds that are subcritical at every pressure, rounds that are not,
/// both, all of them, and a full face.
fn faces() -> [Vec<Group>; 6] {
    let (flats, thin, thick) = (flat(100, 24_000), round(67, 20_000), round(1_000, 2_000));
    [
        vec![flats],
        vec![thin],
        vec![thick],
        vec![thin, thick],
        vec![flats, thin, thick],
        vec![round(1_000, 12_000)],
    ]
}
