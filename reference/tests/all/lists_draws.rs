//! The draws behind the lists of calls.

use reference::file;
use reference::lists::{sound_file, Draws, Key, Size};
use std::collections::BTreeSet;

#[test]
fn every_number_of_a_range_comes_about_as_often() {
    let mut counts = [0; 10];
    for place in 0..10_000 {
        counts[Key(7).within(place, 5..=14) as usize - 5] += 1;
    }
    assert!(
        counts.iter().all(|count| (850..=1_150).contains(count)),
        "{counts:?}"
    );
}

/// Keys and places that differ in one bit have draws that do not go together.
#[test]
fn neighbours_are_independent() {
    let both = |first: Key, second: Key| {
        (0..1_000)
            .filter(|&place| first.once_in(place, 4) && second.once_in(place, 4))
            .count()
    };
    for bit in 0..64 {
        let count = both(Key(99), Key(99 ^ (1 << bit)));
        assert!((30..=95).contains(&count), "{bit} {count}");
    }
    let next = (0..10_000).filter(|&key| Key(key).once_in(0, 4) && Key(key).once_in(1, 4));
    let next = next.count();
    assert!((500..=750).contains(&next), "{next}");
}

#[test]
fn a_part_is_another_key() {
    let parts: BTreeSet<u64> = (0..10_000).map(|place| Key(1).part(place).0).collect();
    assert_eq!(parts.len(), 10_000);
}

#[test]
fn a_field_is_wrong_as_often_as_the_odds_say() {
    let wrong = |odds| {
        let draws = Draws { key: Key(3), odds };
        (0..10_000)
            .filter(|&place| !(20..=40).contains(&draws.field(place, 20..=40)))
            .count()
    };
    assert_eq!(wrong(0), 0);
    assert_eq!(wrong(1), 10_000);
    assert!((850..=1_150).contains(&wrong(10)), "{}", wrong(10));
}

#[test]
fn a_wrong_field_is_beside_its_range_or_the_largest() {
    let draws = Draws {
        key: Key(4),
        odds: 1,
    };
    let wrong = |range: std::ops::RangeInclusive<u32>| -> BTreeSet<u32> {
        let fields = (0..100).map(|place| draws.field(place, range.clone()));
        fields.collect()
    };
    assert_eq!(wrong(3..=4), [2, 5, u32::MAX].into());
    assert_eq!(wrong(0..=23), [24, u32::MAX].into());
}

#[test]
fn sound_files_are_accepted() {
    for size in [Size::Small, Size::Crowded, Size::Tall] {
        for key in 0..300 {
            let file = sound_file(Key(key), size);
            assert!(file::read(&file).is_ok(), "{size:?} {key}");
        }
    }
}

#[test]
fn most_lists_have_small_towers() {
    let sizes: Vec<Size> = (0..3_200).map(|key| Size::of(Key(key))).collect();
    let count = |wanted| sizes.iter().filter(|size| **size == wanted).count();
    assert!((60..=150).contains(&count(Size::Tall)));
    assert!((240..=360).contains(&count(Size::Crowded)));
}
