//! The tower under rising pressures.

use reference::force::formula;
use reference::lists::{pressures, wind, Pressures, SECTIONS};
use reference::report::{rows, ROW};
use std::sync::OnceLock;

pub fn run() -> &'static Pressures {
    static PRESSURES: OnceLock<Pressures> = OnceLock::new();
    PRESSURES.get_or_init(pressures)
}

#[test]
fn each_wind_has_one_more_on_one_section() {
    assert_eq!(wind(0).pressures, [0; SECTIONS]);
    assert_eq!(wind(1).pressures, [1, 0, 0]);
    assert_eq!(wind(5).pressures, [2, 2, 1]);
    assert_eq!(wind(15_000).pressures, [5_000; SECTIONS]);
    assert_eq!(run().reports.len(), 15_001);
    for step in 0..15_000 {
        let (before, after) = (wind(step).pressures, wind(step + 1).pressures);
        let mut more = before.iter().zip(&after).map(|(b, a)| a - b);
        assert_eq!(more.clone().sum::<u16>(), 1, "{step}");
        assert!(more.all(|added| added <= 1), "{step}");
    }
}

#[test]
fn no_force_shear_or_moment_falls() {
    let [more, same, less] = run().compared();
    assert_eq!(less, 0);
    assert_eq!(more + same, 15_000 * 3 * SECTIONS as u64);
}

/// The reports take the greatest value at any pressure; the service takes full
/// pressure and the lesser winds.
#[test]
fn the_reports_are_those_with_lesser_winds() {
    let Pressures { tower, reports } = run();
    for step in (0..=15_000).step_by(7) {
        let expected = rows(tower, &wind(step));
        let numbers: Vec<u64> = expected.iter().flat_map(|row| row.numbers()).collect();
        assert_eq!(reports[step], numbers, "{step}");
    }
}

/// The value at full pressure alone would fall.
#[test]
fn a_lesser_wind_governs_on_every_section() {
    let Pressures { tower, reports } = run();
    for section in 0..SECTIONS {
        let above = |pressure: &u16| {
            let reported = reports[SECTIONS * usize::from(*pressure)][ROW * section + 3];
            let alone = formula(tower, &wind(0), section, *pressure);
            reported > alone.least_whole().0
        };
        assert!((0..=5_000).any(|pressure| above(&pressure)), "{section}");
    }
}

#[test]
fn a_fall_is_counted() {
    let mut falling = run().clone();
    falling.reports.truncate(2);
    falling.reports[0][ROW + 4] = u64::MAX;
    falling.reports[0][ROW + 2] = u64::MAX;
    assert_eq!(falling.compared()[2], 1);
}
