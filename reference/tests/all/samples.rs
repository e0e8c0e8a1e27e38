//! Every sample of document 01.

use crate::common::{
    decimal, erected, flat, item, round, rows, sample, sample_wind, section, set_wind, tower,
    under_wind,
};
use reference::areas::{areas, flow, Flow};
use reference::file;
use reference::force::{exact_force, formula, radicand, solidity_ratio};
use reference::refusal::Refusal;
use reference::tower::{Legs, Member, Tower};
use reference::units::{Force, Length};
use std::cmp::Ordering;

/// Checks the exact force of the only section and the reported one.
fn assert_force(tower: &Tower, k: u32, ice: u32, exact: &str, reported: u64) {
    let wind = sample_wind(tower, k, ice);
    let force = exact_force(tower, &wind, 0);
    let said = format!("{exact} for k = {k}, ice {ice}");
    assert_eq!(force.compare(&decimal(exact)), Ordering::Equal, "{said}");
    assert_eq!(rows(&under_wind(tower, &wind))[3], reported, "{said}");
}

#[test]
fn four_legs_with_flats() {
    let tower = sample(Legs::Four, &[flat(100, 24_000)]);
    assert_force(&tower, 0, 0, "7032.96", 7_033);
    assert_force(&tower, 1, 0, "7226.3664", 7_227);
    assert_force(&tower, 3, 0, "7806.5856", 7_807);
    assert_force(&tower, 0, 2, "8760.40704", 8_761);
}

#[test]
fn four_legs_repeat_every_six_directions() {
    let tower = sample(Legs::Four, &[flat(100, 24_000)]);
    let exact = ["7032.96", "7226.3664", "7613.1792", "7806.5856"];
    let reported = [7_033, 7_227, 7_614, 7_807];
    for k in 0..24 {
        let step = [0, 1, 2, 3, 2, 1][k as usize % 6];
        assert_force(&tower, k, 0, exact[step], reported[step]);
    }
}

#[test]
fn three_legs_with_flats() {
    let tower = sample(Legs::Three, &[flat(100, 24_000)]);
    assert_force(&tower, 0, 0, "6099.456", 6_100);
    assert_force(&tower, 2, 0, "5794.4832", 5_795);
    assert_force(&tower, 4, 0, "5489.5104", 5_490);
}

#[test]
fn three_legs_repeat_every_eight_directions() {
    let tower = sample(Legs::Three, &[flat(100, 24_000)]);
    for k in [0, 8, 16] {
        assert_force(&tower, k, 0, "6099.456", 6_100);
        assert_force(&tower, k + 2, 0, "5794.4832", 5_795);
        assert_force(&tower, k + 4, 0, "5489.5104", 5_490);
        assert_force(&tower, k + 6, 0, "5794.4832", 5_795);
    }
}

#[test]
fn four_legs_with_subcritical_rounds() {
    let tower = sample(Legs::Four, &[round(100, 24_000)]);
    assert_force(&tower, 0, 0, "4080", 4_080);
    assert_eq!(
        rows(&under_wind(&tower, &sample_wind(&tower, 0, 0)))[..3],
        [0, 2_400_000, 0]
    );
}

#[test]
fn three_legs_with_a_rational_root() {
    let tower = tower(Legs::Three, &[section(2_000, 5_000, &[round(300, 6_100)])]);
    assert_force(&tower, 0, 0, "1981.89", 1_982);
    let part = &tower.sections[0];
    let areas = areas(part, Length(0), 1_000);
    assert_eq!(areas.supercritical.0, 1_830_000);
    let phi = solidity_ratio(part, areas);
    assert_eq!(radicand(Legs::Three, &phi), decimal("0.817").squared());
}

#[test]
fn three_legs_with_an_irrational_root() {
    let tower = sample(Legs::Three, &[round(300, 8_000)]);
    let part = &tower.sections[0];
    let phi = solidity_ratio(part, areas(part, Length(0), 1_000));
    assert_eq!(radicand(Legs::Three, &phi), decimal("0.6672"));
    let wind = sample_wind(&tower, 0, 0);
    let force = exact_force(&tower, &wind, 0);
    // 2 400 (1.9 - 0.816 823 1...)
    assert_eq!(force.compare(&decimal("2599.624")), Ordering::Greater);
    assert_eq!(force.compare(&decimal("2599.625")), Ordering::Less);
    let whole = rows(&under_wind(&tower, &wind))[3];
    assert_eq!(whole, 2_600);
}

#[test]
fn the_item_adds_576() {
    let mut tower = sample(Legs::Four, &[flat(100, 24_000)]);
    tower.items.push(item(7));
    assert_force(&tower, 0, 0, "7608.96", 7_609);
    let mut alone = sample(Legs::Four, &[round(100, 24_000)]);
    alone.items.push(item(7));
    assert_force(&alone, 0, 0, "4656", 4_656);
}

#[test]
fn a_round_of_150_turns_supercritical_above_1000() {
    let member = Member::Round(Length(150));
    assert_eq!(flow(member, Length(0), 1_000), Flow::Subcritical);
    assert_eq!(flow(member, Length(0), 1_001), Flow::Supercritical);
    let tower = sample(Legs::Four, &[round(150, 10_000)]);
    let mut wind = sample_wind(&tower, 0, 0);
    let sub = rows(&under_wind(&tower, &wind));
    assert_eq!(sub[..3], [0, 1_500_000, 0]);
    wind.pressures[0] = 1_001;
    let above = rows(&under_wind(&tower, &wind));
    assert_eq!(above[..3], [0, 0, 1_500_000]);
    // 1 000 governs
    assert_eq!(above[3], sub[3]);
    let alone = formula(&tower, &wind, 0, 1_001).least_whole();
    assert_eq!(alone, Force(2_011));
}

#[test]
fn two_sections_like_the_first() {
    let part = section(2_000, 6_000, &[flat(100, 24_000)]);
    let tower = tower(Legs::Four, &[part.clone(), part]);
    let numbers = rows(&under_wind(&tower, &sample_wind(&tower, 0, 0)));
    let top = [2_400_000, 0, 0, 7_033, 7_033, 21_099_000];
    let foot = [2_400_000, 0, 0, 7_033, 14_066, 84_396_000];
    assert_eq!(numbers, [top, foot].concat());
}

#[test]
fn a_full_bare_face_is_accepted_and_one_more_is_8() {
    let full = sample(Legs::Four, &[flat(100, 120_000)]);
    assert_eq!(file::read(&file::write(&full)).as_ref(), Ok(&full));
    assert_force(&full, 0, 0, "23760", 23_760);
    let more = sample(Legs::Four, &[flat(100, 120_000), round(1, 1)]);
    let refused = file::read(&file::write(&more));
    assert_eq!(refused, Err(Refusal::BareFaceOverfull));
}

#[test]
fn a_full_iced_face_is_accepted_and_one_more_is_20() {
    // With 10 mm of ice: 100 mm by 119 979, 21 by 99, and 21 or 22 by 1.
    let groups = |last| [flat(80, 119_979), flat(1, 99), round(last, 1)];
    let full = sample(Legs::Four, &groups(1));
    let mut service = erected(&full);
    assert_eq!(set_wind(&mut service, &sample_wind(&full, 0, 1)), Ok(()));
    let areas = &rows(&service)[..3];
    assert_eq!(areas, [11_999_979, 21, 0]);
    let more = sample(Legs::Four, &groups(2));
    let mut service = erected(&more);
    let refused = set_wind(&mut service, &sample_wind(&more, 0, 1));
    assert_eq!(refused, Err(Refusal::IcedFaceOverfull));
    assert_eq!(set_wind(&mut service, &sample_wind(&more, 0, 0)), Ok(()));
}

#[test]
fn sixty_four_items_hold_and_the_next_is_9() {
    let tower = sample(Legs::Four, &[flat(100, 24_000)]);
    let mut service = erected(&tower);
    for number in 0..64 {
        assert_eq!(service.hang(item(number)), Ok(()));
    }
    let before = service.clone();
    assert_eq!(service.hang(item(64)), Err(Refusal::ItemCount));
    assert_eq!(service, before);
    assert_eq!(set_wind(&mut service, &sample_wind(&tower, 0, 0)), Ok(()));
    // 7 032.96 + 64 times 576
    assert_eq!(rows(&service)[3], 43_897);
    assert_eq!(service.take_down(0), Ok(()));
    assert_eq!(service.hang(item(64)), Ok(()));
}
