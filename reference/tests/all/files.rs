//! Reading and writing tower files.

use crate::common::{erected, flat, item, random_tower, round, sample, section, tower};
use reference::draw::Random;
use reference::file::{read, write, LONGEST_FILE};
use reference::refusal::Refusal;
use reference::tower::{Item, Legs, Tower};
use reference::units::{Force, Length};

/// A small file, byte by byte as document 01 lays it out.
#[rustfmt::skip]
const SMALL: [u8; 39] = [
    3, 1,
    0x07, 0xd0, 0x17, 0x70, 0x00, 0x01, 0x00, 0x02, 2,
    0, 0x00, 0x64, 0x00, 0x00, 0x5d, 0xc0,
    1, 0x01, 0x2c, 0x00, 0x00, 0x00, 0x05,
    1,
    0x12, 0x34, 0, 0x01, 0x2c, 0x07, 0xd0, 0x04, 0xb0, 0x05, 0xdc, 0x03, 0x20,
];

fn small() -> Tower {
    let mut part = section(2_000, 6_000, &[flat(100, 24_000), round(300, 5)]);
    part.allowance = Some(Force(65_538));
    Tower {
        items: vec![Item {
            iced: 1_500,
            ..item(0x1234)
        }],
        ..tower(Legs::Three, &[part])
    }
}

/// 32 sections of 8 groups and 64 items, with the largest numbers that fit.
fn largest() -> Tower {
    let groups = [flat(1_000, 10_000); 8];
    let mut part = section(15_000, 10_000, &groups);
    part.allowance = Some(Force(u32::MAX.into()));
    let mut tower = tower(Legs::Four, &vec![part; 32]);
    for number in 0..64 {
        tower.items.push(Item {
            number: u16::MAX - number,
            section: (number % 32) as u8,
            width: Length(3_000),
            length: Length(10_000),
            bare: 3_000,
            iced: 3_000,
            position: 1_000,
        });
    }
    tower
}

#[test]
fn the_small_file_is_read_and_written() {
    assert_eq!(read(&SMALL), Ok(small()));
    assert_eq!(write(&small()), SMALL);
}

#[test]
fn an_allowance_of_0_is_none_stated() {
    let mut bytes = SMALL;
    bytes[6..10].fill(0);
    let tower = read(&bytes).expect("a tower");
    assert_eq!(tower.sections[0].allowance, None);
    assert_eq!(write(&tower), bytes);
}

#[test]
fn the_largest_file_has_2915_bytes() {
    let bytes = write(&largest());
    assert_eq!(bytes.len(), 2_915);
    assert_eq!(LONGEST_FILE, 2_915);
    assert_eq!(read(&bytes), Ok(largest()));
    let mut lent = [7; LONGEST_FILE];
    assert_eq!(erected(&largest()).write(&mut lent), Ok(2_915));
    assert_eq!(lent[..], bytes);
}

#[test]
fn the_largest_forces_stay_within_64_bits() {
    let mut service = erected(&largest());
    assert_eq!(service.wind(3, 0, 2_000, &[5_000; 32]), Ok(()));
    let mut lent = [0; 6 * 32];
    assert_eq!(service.report(&mut lent), Ok(()));
    // Two items of 30 m² with coefficient 3 load each section alike.
    let force = lent[3];
    assert!(force > 1_800_000);
    let half_heights: u64 = (0..32).map(|section| 2 * section + 1).sum();
    assert_eq!(lent[191], force * 5_000 * half_heights);
    assert_eq!(lent[190], 32 * force);
}

#[test]
fn round_trips_of_random_towers() {
    let mut random = Random(0x5eed_0004);
    for _ in 0..300 {
        let tower = random_tower(&mut random, 32);
        let bytes = write(&tower);
        assert_eq!(read(&bytes).as_ref(), Ok(&tower));
        assert_eq!(write(&read(&bytes).expect("a tower")), bytes);
    }
}

#[test]
fn every_range_is_accepted_at_both_ends() {
    let least = Tower {
        items: vec![Item {
            number: 0,
            section: 0,
            width: Length(1),
            length: Length(1),
            bare: 0,
            iced: 0,
            position: 0,
        }],
        ..tower(Legs::Three, &[section(100, 100, &[round(1, 1)])])
    };
    assert_eq!(read(&write(&least)).as_ref(), Ok(&least));
    let mut long = sample(Legs::Four, &[flat(1, 200_000), round(1_000, 1)]);
    long.sections[0].width = Length(15_000);
    assert_eq!(read(&write(&long)).as_ref(), Ok(&long));
}

#[test]
fn every_cut_of_a_good_file_is_2() {
    let mut random = Random(0x5eed_0005);
    let mut towers = vec![small(), largest(), sample(Legs::Four, &[flat(100, 24_000)])];
    towers.extend((0..20).map(|_| random_tower(&mut random, 4)));
    for tower in towers {
        let bytes = write(&tower);
        for cut in 0..bytes.len() {
            assert_eq!(read(&bytes[..cut]), Err(Refusal::FileEnds), "{cut}");
        }
    }
}

#[test]
fn write_leaves_the_bytes_beyond() {
    let service = erected(&small());
    let mut lent = [0xee; 60];
    assert_eq!(service.write(&mut lent), Ok(SMALL.len()));
    assert_eq!(lent[..SMALL.len()], SMALL);
    assert!(lent[SMALL.len()..].iter().all(|&byte| byte == 0xee));
}

#[test]
fn write_follows_the_items_that_hang_now() {
    let mut service = erected(&small());
    assert_eq!(service.hang(item(5)), Ok(()));
    assert_eq!(service.hang(item(4)), Ok(()));
    assert_eq!(service.take_down(0x1234), Ok(()));
    let mut lent = [0; 100];
    let length = service.write(&mut lent).expect("long enough");
    assert_eq!(length, SMALL.len() + 13);
    let again = read(&lent[..length]).expect("a tower");
    assert_eq!(again.items, [item(5), item(4)]);
    assert_eq!(again.sections, small().sections);
}
