//! Refusals of the calls after erect, their order, and that they change
//! nothing.

use crate::common::{erected, flat, item, rows, sample, sample_wind, section, tower, under_wind};
use reference::refusal::{Refusal, ANSWERS};
use reference::service::Service;
use reference::tower::{Item, Legs, Tower};
use reference::units::{Force, Length};

fn two_sections(legs: Legs) -> Tower {
    let part = section(2_000, 6_000, &[flat(100, 24_000)]);
    tower(legs, &[part.clone(), part])
}

/// Members of 2 mm in a face of 40 m²: ice makes 35.2 m² of them in class 1,
/// 67.2 m² in class 2.
fn thin_members() -> Tower {
    let part = section(2_000, 6_000, &[flat(100, 24_000)]);
    let thin = section(5_000, 8_000, &[flat(2, 200_000); 8]);
    tower(Legs::Four, &[part, thin])
}

#[test]
fn the_numbers_of_the_refusals() {
    use Refusal::*;
    let all = [
        NoTower,
        FileEnds,
        Legs,
        SectionCount,
        SectionSize,
        GroupCount,
        GroupField,
        BareFaceOverfull,
        ItemCount,
        ItemNumber,
        ItemSection,
        ItemField,
        BytesFollow,
        NoSuchItem,
        Direction,
        IceClass,
        StructureFactor,
        PressureCount,
        Pressure,
        IcedFaceOverfull,
        NoWind,
        LentTooShort,
    ];
    assert_eq!(all, Refusal::ALL);
    let numbers: Vec<u32> = all.iter().map(|refusal| refusal.number()).collect();
    assert_eq!(numbers, (1..ANSWERS as u32).collect::<Vec<u32>>());
}

#[test]
fn every_call_but_erect_needs_a_tower_first() {
    let mut service = Service::fresh();
    let wrong = Item {
        section: 9,
        width: Length(0),
        ..item(1)
    };
    assert_eq!(service.hang(wrong), Err(Refusal::NoTower));
    assert_eq!(service.take_down(1), Err(Refusal::NoTower));
    assert_eq!(service.wind(99, 99, 0, &[]), Err(Refusal::NoTower));
    assert_eq!(service.report(&mut []), Err(Refusal::NoTower));
    assert_eq!(service.check(), Err(Refusal::NoTower));
    assert_eq!(service.is_over(0), Err(Refusal::NoTower));
    assert_eq!(service.write(&mut []), Err(Refusal::NoTower));
    assert_eq!(service, Service::fresh());
}

/// Every mix of hang's faults: the lowest number counts.
#[test]
fn hang_tests_9_10_11_12_in_order() {
    let refusals = [
        Refusal::ItemCount,
        Refusal::ItemNumber,
        Refusal::ItemSection,
        Refusal::ItemField,
    ];
    for mix in 0..16_usize {
        let mut service = erected(&two_sections(Legs::Four));
        for number in 0..if mix & 1 > 0 { 64 } else { 63 } {
            assert_eq!(service.hang(item(number)), Ok(()));
        }
        let mut new = item(if mix & 2 > 0 { 5 } else { 500 });
        new.section = if mix & 4 > 0 { 2 } else { 1 };
        new.position = if mix & 8 > 0 { 1_001 } else { 1_000 };
        let before = service.clone();
        let answer = service.hang(new);
        if mix == 0 {
            assert_eq!(answer, Ok(()));
            let items = &service.tower().expect("a tower").items;
            assert_eq!((items.len(), items[63]), (64, new));
        } else {
            let first = refusals[mix.trailing_zeros() as usize];
            assert_eq!(answer, Err(first), "mix {mix}");
            assert_eq!(service, before);
        }
    }
}

/// An item with one field of its own: width, length, bare, iced or position.
fn with_field(field: usize, number: u32) -> Item {
    let mut item = item(1);
    match field {
        0 => item.width = Length(number),
        1 => item.length = Length(number),
        2 => item.bare = number as u16,
        3 => item.iced = number as u16,
        _ => item.position = number as u16,
    }
    item
}

#[test]
fn hang_judges_each_field_at_both_ends() {
    let right = [[1, 3_000], [1, 10_000], [0, 3_000], [0, 3_000], [0, 1_000]];
    let wrong: [&[u32]; 5] = [
        &[0, 3_001, u32::MAX],
        &[0, 10_001, u32::MAX],
        &[3_001, 65_535],
        &[3_001, 65_535],
        &[1_001, 65_535],
    ];
    let fresh = erected(&two_sections(Legs::Three));
    for field in 0..5 {
        for number in right[field] {
            let item = with_field(field, number);
            assert_eq!(fresh.clone().hang(item), Ok(()), "{item:?}");
        }
        for &number in wrong[field] {
            let item = with_field(field, number);
            let mut service = fresh.clone();
            assert_eq!(service.hang(item), Err(Refusal::ItemField), "{item:?}");
            assert_eq!(service, fresh);
        }
    }
}

#[test]
fn take_down_finds_the_number_or_14() {
    let mut service = erected(&two_sections(Legs::Four));
    for number in [30, 10, 20] {
        assert_eq!(service.hang(item(number)), Ok(()));
    }
    let before = service.clone();
    assert_eq!(service.take_down(11), Err(Refusal::NoSuchItem));
    assert_eq!(service, before);
    assert_eq!(service.take_down(10), Ok(()));
    assert_eq!(
        service.tower().expect("a tower").items,
        [item(30), item(20)]
    );
    assert_eq!(service.take_down(10), Err(Refusal::NoSuchItem));
    assert_eq!(service.hang(item(10)), Ok(()));
    let items = &service.tower().expect("a tower").items;
    assert_eq!(items[..], [item(30), item(20), item(10)]);
}

/// Every mix of wind's faults: the lowest number counts.
#[test]
fn wind_tests_15_to_20_in_order() {
    let refusals = [
        Refusal::Direction,
        Refusal::IceClass,
        Refusal::StructureFactor,
        Refusal::PressureCount,
        Refusal::Pressure,
        Refusal::IcedFaceOverfull,
    ];
    for mix in 0..64_usize {
        let tower = thin_members();
        let mut service = under_wind(&tower, &sample_wind(&tower, 7, 0));
        let before = service.clone();
        let k = if mix & 1 > 0 { 24 } else { 23 };
        let ice = match (mix & 2 > 0, mix & 32 > 0) {
            (true, _) => 6,
            (false, true) => 2,
            (false, false) => 1,
        };
        let factor = if mix & 4 > 0 { 2_001 } else { 2_000 };
        let high = if mix & 16 > 0 { 5_001 } else { 5_000 };
        let pressures = [high, 0, 5_000];
        let count = if mix & 8 > 0 { 3 } else { 2 };
        let answer = service.wind(k, ice, factor, &pressures[..count]);
        if mix == 0 {
            assert_eq!(answer, Ok(()));
            let wind = service.current_wind().expect("a wind");
            assert_eq!((wind.direction, wind.ice_class), (23, 1));
            assert_eq!(wind.structure_factor, 2_000);
            assert_eq!(wind.pressures, [5_000, 0]);
        } else {
            let first = refusals[mix.trailing_zeros() as usize];
            assert_eq!(answer, Err(first), "mix {mix}");
            assert_eq!(service, before);
        }
    }
}

#[test]
fn directions_of_both_shapes() {
    let mut square = erected(&two_sections(Legs::Four));
    let mut triangle = erected(&two_sections(Legs::Three));
    for k in (0..40).chain([256, 1 << 31, u32::MAX]) {
        let refused = Err(Refusal::Direction);
        let on_square = if k <= 23 { Ok(()) } else { refused };
        let on_triangle = if k <= 23 && k % 2 == 0 {
            Ok(())
        } else {
            refused
        };
        assert_eq!(square.wind(k, 0, 1_000, &[1, 2]), on_square, "{k}");
        assert_eq!(triangle.wind(k, 0, 1_000, &[1, 2]), on_triangle, "{k}");
    }
}

#[test]
fn ranges_of_ice_factor_and_pressures() {
    let fresh = erected(&two_sections(Legs::Four));
    let wind = |ice, factor, pressures: &[u16]| fresh.clone().wind(0, ice, factor, pressures);
    for ice in 0..=5 {
        assert_eq!(wind(ice, 1_000, &[0, 0]), Ok(()), "{ice}");
    }
    for ice in [6, 7, 256, u32::MAX] {
        assert_eq!(wind(ice, 1_000, &[0, 0]), Err(Refusal::IceClass), "{ice}");
    }
    for factor in [500, 1_000, 2_000] {
        assert_eq!(wind(0, factor, &[0, 0]), Ok(()), "{factor}");
    }
    for factor in [0, 499, 2_001, 66_536, u32::MAX] {
        let refused = Err(Refusal::StructureFactor);
        assert_eq!(wind(0, factor, &[0, 0]), refused, "{factor}");
    }
    for count in [0, 1, 3, 4, 40] {
        let refused = Err(Refusal::PressureCount);
        assert_eq!(wind(0, 1_000, &vec![1; count]), refused, "{count}");
    }
    assert_eq!(wind(0, 1_000, &[0, 5_001]), Err(Refusal::Pressure));
    assert_eq!(wind(0, 1_000, &[u16::MAX, 0]), Err(Refusal::Pressure));
}

#[test]
fn report_tests_21_before_22() {
    let tower = two_sections(Legs::Four);
    let service = erected(&tower);
    let mut lent = [9; 11];
    assert_eq!(service.report(&mut lent), Err(Refusal::NoWind));
    assert_eq!(lent, [9; 11]);
    let service = under_wind(&tower, &sample_wind(&tower, 0, 0));
    for length in 0..12 {
        let mut lent = vec![9; length];
        assert_eq!(service.report(&mut lent), Err(Refusal::LentTooShort));
        assert_eq!(lent, vec![9; length]);
    }
    for length in [12, 13, 18, 23, 24, 100] {
        let mut lent = vec![9; length];
        assert_eq!(service.report(&mut lent), Ok(()));
        assert_eq!(lent[..12], rows(&service));
        assert_eq!(lent[12..], vec![9; length - 12]);
    }
}

#[test]
fn write_needs_the_whole_length() {
    let service = erected(&two_sections(Legs::Four));
    for length in 0..35 {
        let mut lent = vec![9; length];
        assert_eq!(service.write(&mut lent), Err(Refusal::LentTooShort));
        assert_eq!(lent, vec![9; length]);
    }
    assert_eq!(service.write(&mut [0; 35]), Ok(35));
}

#[test]
fn check_needs_a_wind() {
    let service = erected(&two_sections(Legs::Four));
    assert_eq!(service.check(), Err(Refusal::NoWind));
    assert_eq!(service.is_over(0), Err(Refusal::NoWind));
}

#[test]
fn check_compares_the_reported_shear_with_the_allowance() {
    // Shears 7 033 and 14 066; an allowance may be reached.
    let cases = [
        (None, None, None),
        (Some(7_033), Some(14_066), None),
        (Some(7_032), Some(14_066), Some(0)),
        (Some(7_033), Some(14_065), Some(1)),
        (Some(7_032), Some(14_065), Some(0)),
        (None, Some(1), Some(1)),
        (Some(1), None, Some(0)),
        (Some(0), Some(0), None),
    ];
    for (top, foot, answer) in cases {
        let mut tower = two_sections(Legs::Four);
        let stated = |newtons: Option<u64>| newtons.filter(|&n| n > 0).map(Force);
        tower.sections[0].allowance = stated(top);
        tower.sections[1].allowance = stated(foot);
        let service = under_wind(&tower, &sample_wind(&tower, 0, 0));
        assert_eq!(service.check(), Ok(answer), "{top:?} {foot:?}");
        let over = |allowance, shear| stated(allowance).is_some_and(|most| most < Force(shear));
        assert_eq!(service.is_over(0), Ok(over(top, 7_033)));
        assert_eq!(service.is_over(1), Ok(over(foot, 14_066)));
        assert_eq!(service.is_over(2), Ok(false));
    }
}

#[test]
fn check_sees_what_hangs() {
    let mut tower = sample(Legs::Four, &[flat(100, 24_000)]);
    tower.sections[0].allowance = Some(Force(7_608));
    let mut service = under_wind(&tower, &sample_wind(&tower, 0, 0));
    assert_eq!(service.check(), Ok(None));
    assert_eq!(service.hang(item(1)), Ok(()));
    assert_eq!(service.check(), Ok(Some(0)));
    assert_eq!(service.take_down(1), Ok(()));
    assert_eq!(service.check(), Ok(None));
}
