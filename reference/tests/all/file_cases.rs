//! The cases of tower files: what they cover.

use crate::file_lines::{lines, texts};
use reference::file::{read, write};
use reference::file_cases::{
    files, largest, middle, parts, smallest, triangle, Case, Meaning, Part, Program,
};
use std::collections::{BTreeMap, BTreeSet};
use std::sync::OnceLock;

/// A case with its base file and its answer.
pub struct Answered {
    pub case: Case,
    pub base: Vec<u8>,
    pub answer: String,
}

impl Answered {
    /// The number of the refusal, or 0.
    pub fn refusal(&self) -> u32 {
        let words: Vec<&str> = self.answer.split(' ').collect();
        match words[..] {
            ["ok", ..] => 0,
            ["refused", number, ..] => number.parse().expect("a number"),
            _ => panic!("{}", self.answer),
        }
    }
}

/// The cases of a part.
pub fn part(name: &str) -> Vec<Answered> {
    static PARTS: OnceLock<Vec<Part>> = OnceLock::new();
    let all = PARTS.get_or_init(parts);
    let part = all.iter().find(|part| part.name == name);
    let (mut program, mut base) = (Program::default(), Vec::new());
    let mut cases = Vec::new();
    for line in &part.expect("a part").lines {
        let answer = program.answer(&line.meaning);
        let Meaning::Case(case) = line.meaning.clone() else {
            continue;
        };
        if let Case::File(file) = &case {
            base.clone_from(file);
        }
        cases.push(Answered {
            case,
            base: base.clone(),
            answer,
        });
    }
    cases
}

#[test]
fn the_files_are_the_same_each_time_and_not_too_long() {
    assert_eq!(files(), files());
    let [stdin, stdout] = texts();
    assert!(stdin.len() < 480_000, "{} bytes", stdin.len());
    assert!(stdout.len() < 600_000, "{} bytes", stdout.len());
}

#[test]
fn there_are_so_many_lines() {
    let counts: Vec<(&str, usize)> = parts()
        .iter()
        .map(|part| (part.name, part.lines.len()))
        .collect();
    let wanted = [
        ("before a file", 23),
        ("cuts", 3_441),
        ("bytes", 1_494),
        ("rooms", 455),
        ("added", 35),
        ("fields", 668),
        ("rules", 143),
        ("pairs of faults", 1_373),
        ("cuts of faults", 273),
        ("drawn", 100),
        ("damage", 3_020),
        ("wrong", 333),
    ];
    assert_eq!(counts, wanted);
}

#[test]
fn every_refusal_of_a_file_is_there_and_22() {
    let mut counts: BTreeMap<&str, usize> = BTreeMap::new();
    for answer in lines(&texts()[1]) {
        let number = answer.strip_prefix("refused ");
        let number = number.and_then(|rest| rest.split(' ').next());
        *counts.entry(number.unwrap_or("none")).or_default() += 1;
    }
    for number in (2..=13).chain([22]) {
        assert!(
            counts[number.to_string().as_str()] >= 30,
            "{number}: {counts:?}"
        );
    }
    assert_eq!(counts.len(), 14);
    assert!(counts["none"] >= 2_000);
}

#[test]
fn the_files_that_are_cut_are_these() {
    let sizes = [smallest(), triangle(), middle(), largest()].map(|tower| {
        let groups: Vec<usize> = tower.sections.iter().map(|s| s.groups.len()).collect();
        let kinds = tower.sections.iter().flat_map(|section| &section.groups);
        let kinds: BTreeSet<u8> = kinds.map(|group| group.member.kind()).collect();
        let legs = tower.legs.count();
        (
            write(&tower).len(),
            legs,
            groups,
            tower.items.len(),
            kinds.len(),
        )
    });
    assert_eq!(
        sizes,
        [
            (19, 4, vec![1], 0, 1),
            (118, 3, vec![2, 4, 1], 3, 2),
            (381, 4, vec![3, 8, 1, 5, 2, 5], 12, 2),
            (2_915, 4, vec![8; 32], 64, 2),
        ]
    );
}

#[test]
fn each_cut_of_an_accepted_file_is_refused() {
    let mut ends: BTreeMap<Vec<u8>, Vec<usize>> = BTreeMap::new();
    for case in part("cuts") {
        let Case::Cut(end) = case.case else {
            assert_eq!(case.refusal(), 0);
            continue;
        };
        let wanted = if end < case.base.len() { 2 } else { 0 };
        assert_eq!(case.refusal(), wanted, "{end} of {}", case.base.len());
        ends.entry(case.base).or_default().push(end);
    }
    for tower in [smallest(), triangle(), middle(), largest()] {
        let file = write(&tower);
        assert_eq!(ends[&file], (0..=file.len()).collect::<Vec<usize>>());
    }
}

#[test]
fn every_byte_of_the_middle_file_is_set_to_its_neighbours() {
    let file = write(&middle());
    let found: BTreeSet<(usize, u8)> = part("bytes")
        .iter()
        .filter_map(|case| match &case.case {
            Case::Set(pairs) => Some(pairs[0]),
            _ => None,
        })
        .collect();
    let mut wanted = BTreeSet::new();
    for (place, byte) in file.iter().enumerate() {
        let beside = [i32::from(*byte) - 1, i32::from(*byte) + 1, 0, 1, 255];
        let others = beside
            .into_iter()
            .filter_map(|other| u8::try_from(other).ok());
        wanted.extend(
            others
                .filter(|other| other != byte)
                .map(|other| (place, other)),
        );
    }
    assert_eq!(found, wanted);
}

#[test]
fn a_room_below_the_length_is_refused() {
    let mut rooms: BTreeMap<usize, BTreeSet<usize>> = BTreeMap::new();
    for case in part("rooms") {
        let Case::Room(room) = case.case else {
            continue;
        };
        if read(&case.base).is_ok() {
            let all = case.base.len();
            assert_eq!(case.refusal(), if room < all { 22 } else { 0 });
            rooms.entry(all).or_default().insert(room);
        } else {
            assert_eq!(case.answer.split(' ').count(), 2);
        }
    }
    for all in [19, 381] {
        assert!((0..=all + 3).all(|room| rooms[&all].contains(&room)));
    }
    for all in [118, 2_915] {
        assert!([all - 1, all, all + 1]
            .iter()
            .all(|room| rooms[&all].contains(room)));
    }
}

#[test]
fn bytes_behind_a_file_are_13() {
    let mut ends = BTreeSet::new();
    for case in part("added") {
        let Case::Add(added) = &case.case else {
            continue;
        };
        ends.insert((case.base.len(), added.len(), case.refusal()));
    }
    for all in [19, 118, 381, 2_915] {
        for added in [1, 13, 4_000 - all] {
            assert!(ends.contains(&(all, added, 13)), "{all} {added}");
        }
    }
    // the middle file without its last item, and nothing
    for end in [(368, 12, 2), (368, 13, 0), (368, 14, 13), (0, 19, 0)] {
        assert!(ends.contains(&end), "{end:?}");
    }
}

#[test]
fn damage_is_one_to_four_bytes_and_about_3000_files() {
    let (mut changed, mut refusals) = (BTreeMap::new(), BTreeMap::new());
    let mut files = BTreeSet::new();
    for case in part("damage") {
        let Case::Set(pairs) = &case.case else {
            continue;
        };
        let places: BTreeSet<usize> = pairs.iter().map(|(place, _)| *place).collect();
        assert_eq!(places.len(), pairs.len());
        assert!(pairs.iter().all(|(place, byte)| case.base[*place] != *byte));
        *changed.entry(pairs.len()).or_insert(0) += 1;
        *refusals.entry(case.refusal()).or_insert(0) += 1;
        files.insert(case.case.file(&case.base));
    }
    assert_eq!(
        changed.keys().copied().collect::<Vec<usize>>(),
        [1, 2, 3, 4]
    );
    assert_eq!(changed.values().sum::<usize>(), 3_000);
    assert!(files.len() >= 2_900, "{}", files.len());
    let missing = (2..=13).filter(|number| !refusals.contains_key(number));
    assert_eq!(missing.collect::<Vec<u32>>(), [0; 0]);
    assert!(refusals[&0] >= 500, "{refusals:?}");
}
