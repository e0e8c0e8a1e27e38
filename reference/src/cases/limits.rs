//! Rounds at the limit between the flow classes, and beside it.

use super::samples::under;
use super::Case;
use crate::draw::FLOW_LIMITS;
use crate::sample::{flat, round, sample};
use crate::tower::Legs;

/// 2 q d² is 45 000 000 exactly, or q or d is off by one; bare and iced.
pub fn cases() -> Vec<Case> {
    let mut cases = Vec::new();
    for legs in [Legs::Three, Legs::Four] {
        for ice_class in [0, 1] {
            for (diameter, pressure) in FLOW_LIMITS {
                for (thicker, stronger) in [(0, 0), (0, -1), (0, 1), (-1, 0), (1, 0)] {
                    let diameter = diameter.wrapping_add_signed(thicker);
                    let rounds = round(diameter, 3_000_000 / diameter);
                    let tower = sample(legs, &[rounds, flat(60, 10_000)]);
                    let pressure = pressure.wrapping_add_signed(stronger);
                    cases.push(under(&tower, 2, ice_class).loaded(pressure, 1_000));
                }
            }
        }
    }
    cases
}
