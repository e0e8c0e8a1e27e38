//! Files that reach a rule by more than one field: faces that are just full,
//! counts with as many parts behind them, and item numbers that come again.

use super::towers::{crowded, roomy, smallest};
use super::Case;
use crate::file;
use crate::sample::{flat, item, round, section, tower};
use crate::tower::{Item, Legs, Section, Tower};
use crate::units::Length;

/// Full faces first, then counts, then items.
pub fn cases() -> Vec<Case> {
    let mut cases = Vec::new();
    for face in faces() {
        // the first, the middle and the last section, and the only one
        for place in 0..3 {
            let mut tower = roomy();
            tower.sections[place] = face.clone();
            cases.push(whole(&tower));
        }
        cases.push(whole(&tower(Legs::Three, &[face])));
    }
    cases.extend(late_faults());
    cases.extend(counts());
    cases.extend(item_numbers());
    cases.extend(item_sections());
    cases
}

fn whole(tower: &Tower) -> Case {
    Case::File(file::write(tower))
}

/// A_S 1 mm² below A_u, equal and 1 mm² above, in sections of four sizes; and
/// as far above as can be.
fn faces() -> Vec<Section> {
    // 1 · 10 099, 101 · 100 and 273 · 37 in 10 100 mm²
    let one = [(1, 10_099), (101, 100), (273, 37)];
    let mut faces = one
        .map(|(size, length)| section(101, 100, &[round(size, length)]))
        .to_vec();
    faces.extend([
        section(100, 100, &[flat(100, 99), round(99, 1)]),
        section(100, 100, &[flat(100, 100)]),
        section(100, 100, &[flat(100, 100), round(1, 1)]),
        section(15_000, 10_000, &[flat(1_000, 149_999), round(999, 1)]),
        section(15_000, 10_000, &[round(1_000, 150_000)]),
        section(15_000, 10_000, &[round(1, 1), flat(1_000, 150_000)]),
    ]);
    for last in [499, 500, 501] {
        let mut groups = vec![flat(100, 10_000); 6];
        groups.extend([round(500, 11_999), round(last, 1)]);
        faces.push(section(2_000, 6_000, &groups));
    }
    faces.push(section(100, 100, &[flat(1_000, 200_000); 8]));
    faces
}

/// A face that the first group overfills, with a fault in the second group,
/// behind the face, and with nothing behind it.
fn late_faults() -> Vec<Case> {
    let over = [flat(1_000, 200_000), round(1, 1)];
    let overfull = tower(Legs::Four, &[section(100, 100, &over)]);
    let file = file::write(&overfull);
    let kind = 2 + 9 + 7;
    let end = file.len() - 1;
    vec![
        Case::File(file),
        Case::Set(vec![(kind, 2)]),
        Case::Set(vec![(kind + 2, 0)]),
        Case::Set(vec![(kind + 6, 0)]),
        Case::Set(vec![(end, 65)]),
        Case::Cut(end),
        Case::Cut(end - 1),
        Case::Cut(kind),
    ]
}

/// Each count at both ends and beside them, with as many parts as it says.
fn counts() -> Vec<Case> {
    let mut cases = Vec::new();
    let part = &smallest().sections[0];
    for count in [0, 1, 2, 31, 32, 33] {
        cases.push(whole(&tower(Legs::Four, &vec![part.clone(); count])));
    }
    for count in [0, 1, 7, 8, 9] {
        let mut tower = roomy();
        tower.sections[1].groups = vec![flat(7, 500); count];
        cases.push(whole(&tower));
    }
    for count in [0, 1, 63, 64, 65] {
        let mut tower = crowded();
        tower.items.push(item(64));
        tower.items.truncate(count);
        cases.push(whole(&tower));
    }
    // 64 items, but another count
    let file = file::write(&crowded());
    cases.push(Case::File(file));
    cases.extend([0, 1, 63, 65, 255].map(|count| Case::Set(vec![(18, count)])));
    cases
}

/// Of the crowded file, whose numbers are 0 to 63: an item with the number of
/// the first, of the last before it or of one between, and with a new one; the
/// same where all numbers have the same low ten bits; then small files with
/// numbers that differ in one byte or in none.
fn item_numbers() -> Vec<Case> {
    let place = |item: usize| 19 + 13 * item;
    let set = |item: usize, number: u16| {
        let bytes = number.to_be_bytes();
        Case::Set(vec![(place(item), bytes[0]), (place(item) + 1, bytes[1])])
    };
    let mut cases = vec![whole(&crowded())];
    for item in [1, 2, 31, 32, 33, 62, 63] {
        let last = item as u16 - 1;
        cases.extend([0, last / 2, last].map(|number| set(item, number)));
    }
    // held by a later item, which is then the one that comes again
    cases.extend([1, 32, 63].map(|number| set(0, number)));
    // new ones: above all, and with a high byte
    cases.extend([64, 255, 256, 319, 16_384, u16::MAX].map(|number| set(63, number)));
    let alike: Vec<u16> = (0..64).map(|place| 5 + 1024 * place).collect();
    cases.push(numbered(&alike));
    cases.extend([5, 5 + 1024 * 31, 5 + 1024 * 62, 6, 0].map(|number| set(63, number)));
    cases.extend([5, 5 + 1024 * 2, 5 + 1024 * 63].map(|number| set(1, number)));
    cases.extend([0x0100, 0x0001, 0x0101].map(|number| numbered(&[0x0100, 0x0001, number])));
    cases.push(numbered(&[0, 0]));
    cases.push(numbered(&[u16::MAX, 0, u16::MAX]));
    cases.push(numbered(&[5, 5, 5]));
    cases
}

/// The smallest tower with items of these numbers.
fn numbered(numbers: &[u16]) -> Case {
    whole(&Tower {
        items: numbers.iter().map(|number| item(*number)).collect(),
        ..smallest()
    })
}

/// Items on the last section and on the one behind it; faults of one item in
/// the order of their numbers.
fn item_sections() -> Vec<Case> {
    let part = &smallest().sections[0];
    let mut cases = Vec::new();
    for count in [1, 2, 31, 32] {
        for section in [count as u8 - 1, count as u8, 255] {
            let sections = vec![part.clone(); count];
            let items = vec![Item { section, ..item(0) }];
            cases.push(whole(&Tower {
                items,
                ..tower(Legs::Three, &sections)
            }));
        }
    }
    let mut faulty = roomy();
    faulty.items[2].number = faulty.items[0].number;
    faulty.items[2].section = 3;
    faulty.items[2].width = Length(0);
    cases.push(whole(&faulty));
    faulty.items[2].number = 0;
    cases.push(whole(&faulty));
    faulty.items[2].section = 0;
    cases.push(whole(&faulty));
    cases
}
