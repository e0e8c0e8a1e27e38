//! Document 01's starred sample towers.

use super::Case;
use crate::sample::{flat, item, round, sample, sample_wind, section, tower};
use crate::tower::{Legs, Tower};

/// In the order of document 01.
pub fn sample_cases() -> Vec<Case> {
    let square = sample(Legs::Four, &[flat(100, 24_000)]);
    let triangle = sample(Legs::Three, &[flat(100, 24_000)]);
    let rounds = sample(Legs::Four, &[round(100, 24_000)]);
    let rational_root = tower(Legs::Three, &[section(2_000, 5_000, &[round(300, 6_100)])]);
    let any_root = sample(Legs::Three, &[round(300, 8_000)]);
    let limit = sample(Legs::Four, &[round(150, 10_000)]);
    vec![
        under(&square, 0, 0),
        under(&square, 1, 0),
        under(&square, 3, 0),
        under(&square, 0, 2),
        under(&triangle, 0, 0),
        under(&triangle, 2, 0),
        under(&triangle, 4, 0),
        under(&rounds, 0, 0),
        under(&rational_root, 0, 0),
        under(&any_root, 0, 0),
        under(&with_item(&square), 0, 0),
        under(&with_item(&rounds), 0, 0),
        under(&limit, 0, 0),
        under(&limit, 0, 0).loaded(1_001, 1_000),
    ]
}

/// The tower under the samples' wind.
pub fn under(tower: &Tower, direction: u32, ice_class: u32) -> Case {
    let wind = sample_wind(tower, direction, ice_class);
    Case::new(tower.clone(), wind)
}

/// The tower with the samples' item, which adds 576 N.
fn with_item(tower: &Tower) -> Tower {
    Tower {
        items: vec![item(0)],
        ..tower.clone()
    }
}
