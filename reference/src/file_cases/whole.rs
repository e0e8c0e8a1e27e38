//! Whole files: cut at every length, with other bytes, with bytes behind them,
//! and written into lent bytes of any number.

use super::towers::{largest, middle, smallest, triangle};
use super::wrong::MOST_BYTES;
use super::Case;
use crate::file;
use std::collections::BTreeSet;

/// The files of these parts.
fn whole_files() -> [Vec<u8>; 4] {
    [smallest(), triangle(), middle(), largest()].map(|tower| file::write(&tower))
}

/// Each file, and each cut of it from nothing to all.
pub fn cuts() -> Vec<Case> {
    let mut cases = Vec::new();
    for file in whole_files() {
        let ends = 0..=file.len();
        cases.push(Case::File(file));
        cases.extend(ends.map(Case::Cut));
    }
    cases
}

/// Each byte of the middle file: 0, 1, 255, and one more and one less.
pub fn bytes() -> Vec<Case> {
    let file = file::write(&middle());
    let mut cases = vec![Case::File(file.clone())];
    for (place, byte) in file.into_iter().enumerate() {
        let beside = [byte.checked_sub(1), byte.checked_add(1)];
        let mut others = BTreeSet::from([0, 1, 255]);
        others.extend(beside.into_iter().flatten());
        others.remove(&byte);
        cases.extend(
            others
                .into_iter()
                .map(|other| Case::Set(vec![(place, other)])),
        );
    }
    cases
}

/// Every room for the smallest and the middle file and a few for the others,
/// and rooms for files that are refused.
pub fn rooms() -> Vec<Case> {
    let [smallest, triangle, middle, largest] = whole_files();
    let mut cases = Vec::new();
    for file in [smallest, middle.clone()] {
        let rooms = 0..=file.len() + 3;
        cases.push(Case::File(file));
        cases.extend(rooms.map(Case::Room));
    }
    for file in [triangle, largest] {
        let all = file.len();
        cases.push(Case::File(file));
        cases.extend([0, 1, 2].map(Case::Room));
        cases.extend((all - 3..=all + 6).map(Case::Room));
        cases.push(Case::Room(MOST_BYTES));
    }
    let all = middle.len();
    for file in [middle[..all - 1].to_vec(), vec![5], Vec::new()] {
        cases.push(Case::File(file));
        cases.extend([0, 1, all, MOST_BYTES].map(Case::Room));
    }
    cases
}

/// Bytes behind each file, up to the longest that is read; an item's missing
/// bytes; a file behind none.
pub fn added() -> Vec<Case> {
    let mut cases = Vec::new();
    for file in whole_files() {
        let item = &file[file.len() - 13..];
        let beyond = [vec![0], vec![255], vec![0, 0], vec![0; 13], item.to_vec()];
        let longest = vec![0; MOST_BYTES - file.len()];
        cases.push(Case::File(file.clone()));
        cases.extend(beyond.into_iter().map(Case::Add));
        cases.push(Case::Add(longest));
    }
    let [smallest, .., middle, _] = whole_files();
    let (start, item) = middle.split_at(middle.len() - 13);
    cases.push(Case::File(start.to_vec()));
    let more = [&item[..1], &item[..12], item, &[item, &[0]].concat()];
    cases.extend(more.map(|added| Case::Add(added.to_vec())));
    cases.push(Case::File(Vec::new()));
    cases.push(Case::Add(smallest));
    cases
}
