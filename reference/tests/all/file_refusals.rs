//! Refusals 2 to 13 of a file, and their order.

use crate::common::{erected, flat, item, sample, section, tower};
use reference::file::{read, write};
use reference::refusal::Refusal;
use reference::service::Service;
use reference::tower::{Item, Legs, Tower};
use reference::units::Length;

/// Two sections, one group each, two items: 61 bytes.
fn base() -> Tower {
    let part = section(2_000, 6_000, &[flat(100, 24_000)]);
    Tower {
        items: vec![
            item(1),
            Item {
                section: 1,
                ..item(2)
            },
        ],
        ..tower(Legs::Four, &[part.clone(), part])
    }
}

/// Bytes put at a place, and the refusal they bring once the bytes up to
/// `tested` are there.
#[derive(Clone, Debug)]
struct Fault {
    place: usize,
    bytes: Vec<u8>,
    tested: usize,
    refusal: Refusal,
}

fn fault(place: usize, bytes: &[u8], refusal: Refusal) -> Fault {
    Fault {
        place,
        bytes: bytes.to_vec(),
        tested: place + bytes.len(),
        refusal,
    }
}

/// Faults in one of the two sections.
fn section_faults(start: usize) -> Vec<Fault> {
    let mut faults = Vec::new();
    for width in [0_u16, 99, 15_001, 65_535] {
        faults.push(fault(start, &width.to_be_bytes(), Refusal::SectionSize));
    }
    for height in [0_u16, 98, 99, 101, 5_999, 9_999, 10_001, 10_002, 65_534] {
        faults.push(fault(
            start + 2,
            &height.to_be_bytes(),
            Refusal::SectionSize,
        ));
    }
    for count in [0, 9, 255] {
        faults.push(fault(start + 8, &[count], Refusal::GroupCount));
    }
    for kind in [2, 255] {
        faults.push(fault(start + 9, &[kind], Refusal::GroupField));
    }
    for width in [0_u16, 1_001, 65_535] {
        faults.push(fault(start + 10, &width.to_be_bytes(), Refusal::GroupField));
    }
    for length in [0_u32, 200_001, u32::MAX] {
        faults.push(fault(
            start + 12,
            &length.to_be_bytes(),
            Refusal::GroupField,
        ));
    }
    // 1 000 by 12 001 in a face of 12 m².
    let overfull = [[3, 0xe8].as_slice(), &12_001_u32.to_be_bytes()].concat();
    faults.push(fault(start + 10, &overfull, Refusal::BareFaceOverfull));
    faults
}

/// Faults in one of the two items.
fn item_faults(start: usize) -> Vec<Fault> {
    let mut faults = vec![
        fault(start + 2, &[2], Refusal::ItemSection),
        fault(start + 2, &[255], Refusal::ItemSection),
    ];
    let ranges = [
        (3, vec![0_u16, 3_001, 65_535]),
        (5, vec![0, 10_001, 65_535]),
        (7, vec![3_001, 65_535]),
        (9, vec![3_001, 65_535]),
        (11, vec![1_001, 65_535]),
    ];
    for (offset, numbers) in ranges {
        for number in numbers {
            let bytes = number.to_be_bytes();
            faults.push(fault(start + offset, &bytes, Refusal::ItemField));
        }
    }
    faults
}

fn all_faults() -> Vec<Fault> {
    let mut faults = Vec::new();
    for legs in [0, 1, 2, 5, 255] {
        faults.push(fault(0, &[legs], Refusal::Legs));
    }
    for count in [0, 33, 255] {
        faults.push(fault(1, &[count], Refusal::SectionCount));
    }
    faults.extend(section_faults(2));
    faults.extend(section_faults(18));
    for count in [65, 255] {
        faults.push(fault(34, &[count], Refusal::ItemCount));
    }
    faults.extend(item_faults(35));
    faults.push(fault(48, &[0, 1], Refusal::ItemNumber));
    faults.extend(item_faults(48));
    faults.push(fault(61, &[0], Refusal::BytesFollow));
    faults.push(fault(61, &[0, 1], Refusal::BytesFollow));
    faults
}

fn with_faults(faults: &[&Fault]) -> Vec<u8> {
    let mut bytes = write(&base());
    for fault in faults {
        let end = fault.place + fault.bytes.len();
        if bytes.len() < end {
            bytes.resize(end, 0);
        }
        bytes[fault.place..end].copy_from_slice(&fault.bytes);
    }
    bytes
}

#[test]
fn the_faulty_files_have_a_good_base() {
    let bytes = write(&base());
    assert_eq!(bytes.len(), 61);
    assert_eq!(read(&bytes), Ok(base()));
    let mut seen: Vec<u32> = all_faults().iter().map(|f| f.refusal.number()).collect();
    seen.sort_unstable();
    seen.dedup();
    assert_eq!(seen, [3, 4, 5, 6, 7, 8, 9, 10, 11, 12, 13]);
}

/// A cut that takes any byte of the faulty field is 2; from there on the
/// fault's own number holds, whatever is cut after it.
#[test]
fn each_fault_at_every_cut() {
    for fault in all_faults() {
        let bytes = with_faults(&[&fault]);
        let follow = fault.refusal == Refusal::BytesFollow;
        let tested = if follow { 62 } else { fault.tested };
        for cut in 0..=bytes.len() {
            if follow && cut == 61 {
                assert_eq!(read(&bytes[..cut]), Ok(base()));
                continue;
            }
            let refusal = if cut < tested {
                Refusal::FileEnds
            } else {
                fault.refusal
            };
            assert_eq!(read(&bytes[..cut]), Err(refusal), "{fault:?} cut at {cut}");
        }
    }
}

#[test]
fn of_two_faults_the_first_in_reading_order_counts() {
    let faults = all_faults();
    let mut pairs = 0;
    for first in &faults {
        for second in faults.iter().filter(|second| second.place >= first.tested) {
            let bytes = with_faults(&[first, second]);
            assert_eq!(read(&bytes), Err(first.refusal), "{first:?} {second:?}");
            pairs += 1;
        }
    }
    assert!(pairs > 1_000);
}

#[test]
fn a_number_is_held_against_all_earlier_items_before_its_section() {
    let mut tower = sample(Legs::Four, &[flat(100, 24_000)]);
    tower.items = vec![item(8), item(9), item(8)];
    tower.items[2].section = 9;
    tower.items[2].width = Length(0);
    assert_eq!(read(&write(&tower)), Err(Refusal::ItemNumber));
    tower.items[2].number = 10;
    assert_eq!(read(&write(&tower)), Err(Refusal::ItemSection));
    tower.items[2].section = 0;
    assert_eq!(read(&write(&tower)), Err(Refusal::ItemField));
    tower.items[2].width = Length(1);
    assert_eq!(read(&write(&tower)).as_ref(), Ok(&tower));
}

#[test]
fn bytes_after_an_item_count_of_0_are_13() {
    let mut bytes = write(&sample(Legs::Four, &[flat(100, 24_000)]));
    assert!(read(&bytes).is_ok());
    bytes.push(0);
    assert_eq!(read(&bytes), Err(Refusal::BytesFollow));
}

#[test]
fn the_bare_face_is_judged_after_the_last_group_alone() {
    // The first group alone is over; 8 waits for the second, which breaks 7.
    let mut tower = sample(Legs::Four, &[flat(1_000, 12_001), flat(0, 1)]);
    assert_eq!(read(&write(&tower)), Err(Refusal::GroupField));
    tower.sections[0].groups[1] = flat(1, 1);
    let bytes = write(&tower);
    assert_eq!(read(&bytes), Err(Refusal::BareFaceOverfull));
    // Legs and count 2, section 9, groups 14: the last byte is the item count.
    assert_eq!(bytes.len(), 26);
    assert_eq!(read(&bytes[..25]), Err(Refusal::BareFaceOverfull));
    assert_eq!(read(&bytes[..24]), Err(Refusal::FileEnds));
}

#[test]
fn a_refused_erect_leaves_the_old_tower() {
    let mut service = erected(&base());
    assert_eq!(service.wind(1, 0, 900, &[10, 20]), Ok(()));
    let before = service.clone();
    for fault in all_faults() {
        let bytes = with_faults(&[&fault]);
        assert_eq!(service.erect(&bytes), Err(fault.refusal));
        assert_eq!(service, before);
    }
    assert_eq!(service.erect(&[]), Err(Refusal::FileEnds));
    assert_eq!(service, before);
}

#[test]
fn erect_replaces_everything_and_has_no_wind() {
    let mut service = erected(&base());
    assert_eq!(service.wind(1, 0, 900, &[10, 20]), Ok(()));
    assert_eq!(service.erect(&write(&base())), Ok(()));
    assert_eq!(service, erected(&base()));
    assert_eq!(service.current_wind(), None);
    let mut fresh = Service::fresh();
    assert_eq!(fresh.erect(&[3]), Err(Refusal::FileEnds));
    assert_eq!(fresh, Service::fresh());
}
