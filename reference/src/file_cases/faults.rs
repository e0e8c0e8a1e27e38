//! Faults in two places, of which the first counts, and files that end in or
//! behind a fault.

use super::fields::{fields, Field};
use super::towers::roomy;
use super::Case;
use crate::file;
use crate::tower::{Item, Tower};

/// Bytes put at a place of the roomy file.
struct Fault {
    place: usize,
    bytes: Vec<u8>,
}

impl Fault {
    fn end(&self) -> usize {
        self.place + self.bytes.len()
    }

    fn pairs(&self) -> impl Iterator<Item = (usize, u8)> + '_ {
        (self.place..).zip(self.bytes.iter().copied())
    }
}

/// Each field that has a range with the number just above it or, if `widest`,
/// with the largest that it holds; and each rule about more than one field.
fn faults(tower: &Tower, widest: bool) -> Vec<Fault> {
    let outside = |field: Field| {
        let (above, most) = (field.range.end().checked_add(1)?, field.most());
        let number = if widest { most } else { above };
        (above <= most).then(|| Fault {
            place: field.place,
            bytes: field.spelled(number),
        })
    };
    let mut faults: Vec<Fault> = fields(tower).into_iter().filter_map(outside).collect();
    faults.extend(overfull(tower));
    faults.extend(again(tower));
    faults.sort_by_key(Fault::end);
    faults
}

/// Each section's last group as 1 000 by 200 000.
fn overfull(tower: &Tower) -> Vec<Fault> {
    let mut end = 2;
    let last_group = |groups: usize| {
        end += 9 + 7 * groups;
        Fault {
            place: end - 6,
            bytes: [
                1_000_u16.to_be_bytes().as_slice(),
                &200_000_u32.to_be_bytes(),
            ]
            .concat(),
        }
    };
    let groups = tower.sections.iter().map(|section| section.groups.len());
    groups.map(last_group).collect()
}

/// Each item but the first with the number of the one before it.
fn again(tower: &Tower) -> Vec<Fault> {
    let first = file::write(tower).len() - 13 * tower.items.len();
    let items = (1..).zip(&tower.items).take(tower.items.len() - 1);
    let number = |(place, before): (usize, &Item)| Fault {
        place: first + 13 * place,
        bytes: before.number.to_be_bytes().to_vec(),
    };
    items.map(number).collect()
}

/// Two faults at a time, in fields of their own.
pub fn pairs() -> Vec<Case> {
    let tower = roomy();
    let mut cases = vec![Case::File(file::write(&tower))];
    let faults = faults(&tower, false);
    for first in &faults {
        let later = faults.iter().filter(|fault| fault.place >= first.end());
        cases.extend(later.map(|second| Case::Set(first.pairs().chain(second.pairs()).collect())));
    }
    cases
}

/// A file with one fault, cut before it, in it and behind it: 2 comes before
/// the rule of its field, and the rule before a later 2.
pub fn cuts() -> Vec<Case> {
    let tower = roomy();
    let whole = file::write(&tower);
    let mut cases = Vec::new();
    for fault in faults(&tower, true) {
        let faulty = Case::Set(fault.pairs().collect()).file(&whole);
        let last = faulty.len().min(fault.end() + 1);
        cases.push(Case::File(faulty));
        cases.extend((fault.place..=last).map(Case::Cut));
    }
    cases
}
