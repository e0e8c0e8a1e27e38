//! The C call.

use crate::common::{flat, random_service, round, rows, section, tower};
use reference::draw::Random;
use reference::file;
use reference::host::host_call;
use reference::service::Service;
use reference::tower::{Legs, Tower};

fn bytes_of(pressures: &[u16]) -> Vec<u8> {
    pressures.iter().flat_map(|p| p.to_be_bytes()).collect()
}

fn two_sections() -> Tower {
    let part = section(2_000, 6_000, &[flat(100, 24_000)]);
    // Class 2 does not fit.
    let thin = section(5_000, 8_000, &[flat(2, 200_000); 8]);
    tower(Legs::Four, &[part, thin])
}

#[test]
fn it_equals_erect_wind_and_report_from_fresh() {
    let mut random = Random(0x5eed_0009);
    for _ in 0..300 {
        let service = random_service(&mut random, 5);
        let wind = service.current_wind().expect("a wind");
        let file = file::write(service.tower().expect("a tower"));
        let numbers = rows(&service);
        let expected: Vec<u8> = numbers.iter().flat_map(|n| n.to_be_bytes()).collect();
        let beyond = random.within(0, 20) as usize;
        let mut lent = vec![0xee; expected.len() + beyond];
        let answer = host_call(
            &file,
            wind.direction,
            wind.ice_class,
            wind.structure_factor,
            &bytes_of(&wind.pressures),
            &mut lent,
        );
        assert_eq!(answer, 0);
        assert_eq!(lent[..expected.len()], expected);
        assert_eq!(lent[expected.len()..], vec![0xee; beyond]);
    }
}

#[test]
fn a_row_byte_by_byte() {
    let part = section(2_000, 6_000, &[round(100, 24_000)]);
    let file = file::write(&tower(Legs::Four, &[part]));
    let mut lent = [0xee; 49];
    let answer = host_call(&file, 0, 0, 1_000, &[0x03, 0xe8], &mut lent);
    assert_eq!(answer, 0);
    let mut expected = [0; 49];
    expected[13..16].copy_from_slice(&[0x24, 0x9f, 0x00]); // 2 400 000 mm²
    expected[30..32].copy_from_slice(&[0x0f, 0xf0]); // 4 080 N
    expected[38..40].copy_from_slice(&[0x0f, 0xf0]); // 4 080 N
    expected[44..48].copy_from_slice(&[0x00, 0xba, 0xc4, 0x80]); // 12 240 000 N mm
    expected[48] = 0xee;
    assert_eq!(lent, expected);
}

/// Every mix of a bad file, wind's faults and short rows: the first counts.
#[test]
fn the_first_refusal_counts_and_no_row_byte_changes() {
    let numbers = [13, 15, 16, 17, 18, 19, 20, 22];
    for mix in 0..256_usize {
        let mut file = file::write(&two_sections());
        if mix & 1 > 0 {
            file.push(0);
        }
        let k = if mix & 2 > 0 { 24 } else { 1 };
        let ice = match (mix & 4 > 0, mix & 64 > 0) {
            (true, _) => 6,
            (false, true) => 2,
            (false, false) => 1,
        };
        let factor = if mix & 8 > 0 { 499 } else { 500 };
        let high = if mix & 32 > 0 { 5_001 } else { 5_000 };
        let mut pressures = bytes_of(&[1, high]);
        if mix & 16 > 0 {
            pressures.push(0);
        }
        let mut lent = vec![0xee; if mix & 128 > 0 { 95 } else { 96 }];
        let answer = host_call(&file, k, ice, factor, &pressures, &mut lent);
        if mix == 0 {
            assert_eq!(answer, 0);
            assert!(lent.iter().all(|&byte| byte != 0xee));
        } else {
            assert_eq!(answer, numbers[mix.trailing_zeros() as usize], "mix {mix}");
            assert!(lent.iter().all(|&byte| byte == 0xee), "mix {mix}");
        }
    }
}

#[test]
fn every_number_of_pressure_bytes_but_two_per_section_is_18() {
    let file = file::write(&two_sections());
    for count in (0..10).filter(|&count| count != 4) {
        let mut lent = [0xee; 96];
        let answer = host_call(&file, 0, 0, 1_000, &vec![0; count], &mut lent);
        assert_eq!(answer, 18, "{count} bytes");
        assert_eq!(lent, [0xee; 96]);
    }
}

#[test]
fn every_cut_of_the_file_is_2_and_short_rows_are_22() {
    let file = file::write(&two_sections());
    let pressures = bytes_of(&[1, 2]);
    for cut in 0..file.len() {
        let answer = host_call(&file[..cut], 0, 0, 1_000, &pressures, &mut [0; 96]);
        assert_eq!(answer, 2, "cut at {cut}");
    }
    for length in 0..96 {
        let mut lent = vec![0xee; length];
        let answer = host_call(&file, 0, 0, 1_000, &pressures, &mut lent);
        assert_eq!(answer, 22, "{length} bytes");
        assert_eq!(lent, vec![0xee; length]);
    }
}

/// A file that is still good may have another section count, which is 18.
#[test]
fn damaged_files_get_the_refusal_of_erect() {
    let mut random = Random(0x5eed_000a);
    let good = file::write(&two_sections());
    let mut refused = 0;
    for _ in 0..3_000 {
        let mut file = good.clone();
        let place = random.within(0, good.len() as u32 - 1) as usize;
        file[place] = random.next_bits() as u8;
        let erect = Service::fresh().erect(&file);
        let answer = host_call(&file, 0, 0, 1_000, &[0; 4], &mut [0; 96]);
        match erect {
            Err(refusal) => {
                assert_eq!(answer, refusal.number());
                refused += 1;
            }
            Ok(()) => assert!([0, 18].contains(&answer), "{answer}"),
        }
    }
    assert!(refused > 500);
}
