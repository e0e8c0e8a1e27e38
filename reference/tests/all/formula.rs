//! The formula beyond the samples, and the faults that readers make.

use crate::common::{
    decimal, erected, flat, item, round, rows, sample, sample_wind, set_wind, under_wind,
};
use reference::areas::{areas, item_area};
use reference::force::{exact_force, solidity_share};
use reference::tower::{Legs, Tower, Wind};
use reference::units::Length;
use std::cmp::Ordering;

fn assert_exact(tower: &Tower, wind: &Wind, exact: &str) {
    let order = exact_force(tower, wind, 0).compare(&decimal(exact));
    assert_eq!(order, Ordering::Equal, "not {exact}");
}

#[test]
fn the_four_ranges_of_k2_and_their_ends() {
    let cases = [
        ("0.1", "0.2"),
        ("0.2", "0.2"),
        ("0.2000001", "0.2000001"),
        ("0.3", "0.3"),
        ("0.5", "0.5"),
        ("0.5000001", "0.4999999"),
        ("0.7999999", "0.2000001"),
        ("0.8", "0.2"),
        ("0.9", "0.2"),
        ("1", "0.2"),
    ];
    for (phi, share) in cases {
        assert_eq!(solidity_share(&decimal(phi)), decimal(share), "{phi}");
    }
}

/// Flats on a square at k = 3, worked out by hand.
#[test]
fn squares_at_45_degrees_in_every_range() {
    let cases = [
        (12_000, "4536.2592"),
        (24_000, "7806.5856"),
        (36_000, "10629.2736"),
        (60_000, "15147"),
        (72_000, "16000.9344"),
        (96_000, "18567.0144"),
        (108_000, "21837.3408"),
    ];
    for (length, exact) in cases {
        let tower = sample(Legs::Four, &[flat(100, length)]);
        assert_exact(&tower, &sample_wind(&tower, 3, 0), exact);
    }
}

/// Half flat, half round: K1 = 0.675 on the square; on the triangle only the
/// flats are turned.
#[test]
fn mixed_faces_turn_by_their_shares() {
    let groups = [flat(100, 12_000), round(100, 12_000)];
    let square = sample(Legs::Four, &groups);
    // 1.135 (2.9304 + 1.7) 1.2
    assert_exact(&square, &sample_wind(&square, 3, 0), "6306.6048");
    let triangle = sample(Legs::Three, &groups);
    // 0.95 (2.54144 + 1.479) 1.2
    assert_exact(&triangle, &sample_wind(&triangle, 4, 0), "4583.3016");
}

#[test]
fn pressure_and_structure_factor_scale_the_force() {
    let tower = sample(Legs::Four, &[flat(100, 24_000)]);
    let mut wind = sample_wind(&tower, 0, 0);
    wind.structure_factor = 1_500;
    assert_exact(&tower, &wind, "10549.44");
    wind.pressures[0] = 500;
    assert_exact(&tower, &wind, "5274.72");
    wind.pressures[0] = 0;
    assert_exact(&tower, &wind, "0");
    assert_eq!(rows(&under_wind(&tower, &wind))[3..], [0, 0, 0]);
}

#[test]
fn iced_items_take_the_iced_coefficient_and_width() {
    let mut tower = sample(Legs::Four, &[flat(100, 24_000)]);
    let mut dish = item(1);
    dish.iced = 2_000;
    tower.items.push(dish);
    assert_eq!(item_area(&dish, Length(20)).0, 680_000);
    // 8 760.40704 + 1 000 times 2.0 times 0.8 times 0.68
    assert_exact(&tower, &sample_wind(&tower, 0, 2), "9848.40704");
    assert_exact(&tower, &sample_wind(&tower, 0, 0), "7608.96");
}

#[test]
fn items_are_not_turned_and_load_their_section_alone() {
    let mut tower = sample(Legs::Four, &[flat(100, 24_000)]);
    tower.sections.push(tower.sections[0].clone());
    tower.items.push(item(1));
    tower.items[0].section = 1;
    let wind = sample_wind(&tower, 3, 0);
    assert_exact(&tower, &wind, "7806.5856");
    let lower = exact_force(&tower, &wind, 1);
    assert_eq!(lower.compare(&decimal("8382.5856")), Ordering::Equal);
}

#[test]
fn a_round_is_classed_by_its_bare_diameter_and_never_supercritical_in_ice() {
    let tower = sample(Legs::Three, &[round(140, 10_000)]);
    // Bare: 2 q d² = 39 200 000 stays below; 160 mm would not.
    let bare = areas(&tower.sections[0], Length(0), 1_000);
    assert_eq!(bare.subcritical.0, 1_400_000);
    let iced = areas(&tower.sections[0], Length(10), 5_000);
    assert_eq!(iced.subcritical.0, 1_600_000);
    let fast = areas(&tower.sections[0], Length(0), 5_000);
    assert_eq!(fast.supercritical.0, 1_400_000);
}

/// φ = 1 - 1/12 000 000: the root is about 0.00032, here worth 38.5 N. With φ
/// rounded up to 1 there would be none: 228 000.
#[test]
fn the_root_near_a_full_face_is_kept() {
    let tower = sample(Legs::Four, &[round(1_000, 11_999), round(999, 1)]);
    let mut wind = sample_wind(&tower, 0, 0);
    wind.pressures[0] = 5_000;
    wind.structure_factor = 2_000;
    let numbers = rows(&under_wind(&tower, &wind));
    assert_eq!(numbers[..4], [0, 0, 11_999_999, 227_962]);
}

#[test]
fn thousands_of_bookings_leave_no_drift() {
    let tower = sample(Legs::Four, &[flat(100, 24_000)]);
    let mut service = erected(&tower);
    assert_eq!(set_wind(&mut service, &sample_wind(&tower, 1, 0)), Ok(()));
    let first = rows(&service);
    for number in 0..5_000 {
        assert_eq!(service.hang(item(number)), Ok(()));
        assert_eq!(service.take_down(number), Ok(()));
    }
    assert_eq!(rows(&service), first);
}
