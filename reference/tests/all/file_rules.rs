//! The cases of tower files by the rules that they reach.

use crate::common::{flat, item};
use crate::file_cases::part;
use reference::file::{read, write};
use reference::file_cases::{crowded, roomy, smallest, Case};
use reference::tower::Tower;
use std::collections::{BTreeMap, BTreeSet};

/// Bytes, range and refusal of each field of the roomy file, and whether the
/// file stays right at both ends, as it does but for counts.
fn roomy_fields() -> Vec<(usize, u32, u32, u32, bool)> {
    let mut fields = vec![(1, 3, 4, 3, true), (1, 1, 32, 4, false)];
    for groups in [2, 1, 3] {
        fields.extend([(2, 100, 15_000, 5, true), (2, 100, 10_000, 5, true)]);
        fields.extend([(4, 0, u32::MAX, 0, true), (1, 1, 8, 6, false)]);
        for _ in 0..groups {
            fields.extend([(1, 0, 1, 7, true), (2, 1, 1_000, 7, true)]);
            fields.push((4, 1, 200_000, 7, true));
        }
    }
    fields.push((1, 0, 64, 9, false));
    for _ in 0..3 {
        fields.extend([(2, 0, 65_535, 0, true), (1, 0, 2, 11, true)]);
        fields.extend([(2, 1, 3_000, 12, true), (2, 1, 10_000, 12, true)]);
        fields.extend([(2, 0, 3_000, 12, true), (2, 0, 3_000, 12, true)]);
        fields.push((2, 0, 1_000, 12, true));
    }
    fields
}

#[test]
fn every_field_is_accepted_at_its_ends_and_refused_beside_them() {
    let refusals: BTreeMap<Vec<(usize, u8)>, u32> = part("fields")
        .iter()
        .filter_map(|case| match &case.case {
            Case::Set(pairs) => Some((pairs.clone(), case.refusal())),
            _ => None,
        })
        .collect();
    let mut place = 0;
    for (bytes, low, high, refusal, stays) in roomy_fields() {
        let of = |number: u32| {
            let bytes = number.to_be_bytes()[4 - bytes..].to_vec();
            refusals[&(place..).zip(bytes).collect::<Vec<(usize, u8)>>()]
        };
        if stays {
            assert_eq!((of(low), of(high)), (0, 0), "{place}");
        }
        if refusal > 0 {
            assert_eq!(of(high + 1), refusal, "{place}");
            assert_eq!(of(u32::MAX >> (32 - 8 * bytes)), refusal, "{place}");
            assert!(low == 0 || of(low - 1) == refusal, "{place}");
        }
        // an odd height
        assert!(low != 100 || high != 10_000 || (of(101), of(9_999)) == (5, 5));
        place += bytes;
    }
    assert_eq!(place, write(&roomy()).len());
}

#[test]
fn every_count_is_accepted_at_its_ends_and_refused_beside_them() {
    let cases = part("rules");
    let refusal = |tower: &Tower| {
        let file = Case::File(write(tower));
        let mut these = cases.iter().filter(|case| case.case == file);
        these.next().expect("a file").refusal()
    };
    for (count, wanted) in [(0, 4), (1, 0), (32, 0), (33, 4)] {
        let mut tower = smallest();
        tower.sections = vec![tower.sections[0].clone(); count];
        assert_eq!(refusal(&tower), wanted, "{count} sections");
    }
    for (count, wanted) in [(0, 6), (1, 0), (8, 0), (9, 6)] {
        let mut tower = roomy();
        tower.sections[1].groups = vec![flat(7, 500); count];
        assert_eq!(refusal(&tower), wanted, "{count} groups");
    }
    for (count, wanted) in [(0, 0), (1, 0), (64, 0), (65, 9)] {
        let mut tower = crowded();
        tower.items.push(item(64));
        tower.items.truncate(count);
        assert_eq!(refusal(&tower), wanted, "{count} items");
    }
}

/// The bare A_S above A_u in each section of a file, as far as its sections go.
fn beside(file: &[u8]) -> Vec<i64> {
    let number = |at: usize, bytes: usize| {
        let field = file.get(at..at + bytes).unwrap_or(&[]);
        field
            .iter()
            .fold(0, |high, low| 256 * high + i64::from(*low))
    };
    let (mut at, mut all) = (2, Vec::new());
    for _ in 0..number(1, 1) {
        let groups = number(at + 8, 1) as usize;
        let area = |group| number(at + 10 + 7 * group, 2) * number(at + 12 + 7 * group, 4);
        let solid: i64 = (0..groups).map(area).sum();
        all.push(solid - number(at, 2) * number(at + 2, 2));
        at += 9 + 7 * groups;
    }
    all
}

#[test]
fn a_full_face_is_accepted_and_one_square_millimetre_more_is_8_in_any_section() {
    let mut found: BTreeMap<(i64, usize, usize), BTreeSet<u32>> = BTreeMap::new();
    for case in part("rules") {
        let Case::File(file) = &case.case else {
            continue;
        };
        let beside = beside(file);
        for (place, area) in beside.iter().enumerate() {
            let key = (*area, place, beside.len());
            found.entry(key).or_default().insert(case.refusal());
        }
    }
    for (place, sections) in [(0, 3), (1, 3), (2, 3), (0, 1)] {
        for (area, refusal) in [(-1, 0), (0, 0), (1, 8)] {
            let refusals = &found[&(area, place, sections)];
            assert_eq!(*refusals, BTreeSet::from([refusal]), "{area} in {place}");
        }
    }
    assert!(found.keys().any(|(area, ..)| *area > 1_000_000_000));
}

#[test]
fn an_item_number_is_held_against_the_first_and_the_last_before_it() {
    let mut refused = BTreeSet::new();
    for case in part("rules") {
        let file = case.case.file(&case.base);
        let (start, items) = (19, file.get(19..).unwrap_or(&[]));
        if file.len() < start || file[1] != 1 || items.len() % 13 != 0 {
            continue;
        }
        let numbers: Vec<&[u8]> = items.chunks(13).map(|item| &item[..2]).collect();
        let again = |place: &usize| numbers[..*place].contains(&numbers[*place]);
        let Some(place) = (0..numbers.len()).find(again) else {
            assert_ne!(case.refusal(), 10);
            continue;
        };
        assert_eq!(case.refusal(), 10);
        let earlier = numbers[..place].iter().position(|n| *n == numbers[place]);
        refused.insert((place, earlier.expect("an earlier one")));
    }
    for place in [1, 2, 31, 32, 33, 62, 63] {
        assert!(refused.contains(&(place, 0)) && refused.contains(&(place, place - 1)));
    }
}

#[test]
fn numbers_with_the_same_low_bits_are_told_apart() {
    let mut refusals: BTreeMap<u32, usize> = BTreeMap::new();
    for case in part("rules") {
        let whole = match &case.case {
            Case::File(file) => file,
            _ => &case.base,
        };
        let items = whole.get(19..).unwrap_or(&[]).chunks_exact(13);
        let alike = |item: &[u8]| u16::from_be_bytes([item[0], item[1]]) % 1024 == 5;
        if items.len() == 64 && items.into_iter().all(alike) {
            *refusals.entry(case.refusal()).or_default() += 1;
        }
    }
    assert_eq!(refusals, BTreeMap::from([(0, 3), (10, 6)]));
}

#[test]
fn of_two_faults_the_first_counts() {
    let whole = write(&roomy());
    let mut refusals = BTreeSet::new();
    for case in part("pairs of faults") {
        let Case::Set(pairs) = &case.case else {
            continue;
        };
        let alone = |pairs: &[(usize, u8)]| {
            let refusal = read(&Case::Set(pairs.to_vec()).file(&whole)).err();
            refusal.map(|refusal| refusal.number())
        };
        let two = |end: &usize| {
            let (first, second) = pairs.split_at(*end);
            alone(first) == Some(case.refusal()) && alone(second).is_some()
        };
        assert!((1..pairs.len()).any(|end| two(&end)), "{pairs:?}");
        refusals.insert(case.refusal());
    }
    assert_eq!(refusals, (3..=12).collect());
}

/// 2 up to the last byte of the faulty field, then the rule's number.
#[test]
fn a_file_that_ends_in_a_fault_is_2_and_behind_it_the_rule_counts() {
    let mut by_file: BTreeMap<Vec<u8>, Vec<(usize, u32)>> = BTreeMap::new();
    for case in part("cuts of faults") {
        if let Case::Cut(end) = case.case {
            let refusal = case.refusal();
            by_file.entry(case.base).or_default().push((end, refusal));
        }
    }
    let mut rules = BTreeSet::new();
    for (file, cuts) in by_file {
        let rule = read(&file).expect_err("a fault").number();
        let before = cuts.iter().take_while(|(_, refusal)| *refusal == 2).count();
        assert!(before >= 1 && before < cuts.len(), "{file:?}");
        assert!(cuts[before..].iter().all(|(_, refusal)| *refusal == rule));
        rules.insert((rule, before));
    }
    for rule in [
        (3, 1),
        (4, 1),
        (5, 2),
        (6, 1),
        (7, 1),
        (7, 2),
        (7, 4),
        (8, 6),
    ] {
        assert!(rules.contains(&rule), "{rule:?}");
    }
    for rule in [(9, 1), (10, 2), (11, 1), (12, 2)] {
        assert!(rules.contains(&rule), "{rule:?}");
    }
}
