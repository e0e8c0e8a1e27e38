//! Tests of the fields' places and numbers, with the library linked.

use crate::fields::{numbers, timed_fields, Fetch, Places, TimedFields, TABLE};
use crate::library::Fields;
use crate::timing::Pair;
use reference::draw::{small_tower, Random};
use reference::file::write;
use reference::file_cases::{largest, triangle};

#[test]
fn the_largest_file_has_992_fields_of_two_or_four_bytes() {
    let places = Places::of(&largest());
    // 2 in a section, 1 in a group, 6 in an item
    assert_eq!(places.twos.len(), 32 * 2 + 32 * 8 + 64 * 6);
    // 1 in a section, 1 in a group
    assert_eq!(places.fours.len(), 32 + 32 * 8);
    assert_eq!(places.count(), 992);
    // width, height and first size; the last item's last two numbers
    assert_eq!(places.twos[..3], [2, 4, 12]);
    assert_eq!(places.twos[702..], [2_911, 2_913]);
    // the first section's allowance and first length; the last two lengths
    assert_eq!(places.fours[..2], [6, 14]);
    assert_eq!(places.fours[286..], [2_071, 2_078]);
    let counts: Vec<(&str, usize)> = timed_fields()
        .iter()
        .map(|fields| (fields.name, fields.count()))
        .collect();
    let wanted = [
        ("largest", 992),
        ("middle", 138),
        ("triangle", 41),
        ("smallest", 5),
    ];
    assert_eq!(counts, wanted);
}

/// The places of the largest file's fields of one byte: a section has 65 bytes
/// from place 2 on, a group 7 and an item 13.
fn ones_of_the_largest() -> Vec<u64> {
    let mut ones = vec![0, 1, 2_082];
    for section in (0..32).map(|place| 2 + 65 * place) {
        ones.push(section + 8);
        ones.extend((0..8).map(|group| section + 9 + 7 * group));
    }
    ones.extend((0..64).map(|item| 2_083 + 13 * item + 2));
    ones
}

#[test]
fn the_fields_of_the_largest_file_cover_each_byte_once() {
    let places = Places::of(&largest());
    let mut times = vec![0; write(&largest()).len()];
    for (fields, bytes) in [
        (ones_of_the_largest(), 1),
        (places.twos, 2),
        (places.fours, 4),
    ] {
        for place in fields {
            for byte in place..place + bytes {
                times[byte as usize] += 1;
            }
        }
    }
    assert_eq!(times, vec![1; 2_915]);
}

#[test]
fn the_library_and_rust_have_the_same_numbers() {
    let mut random = Random(0x5eed_0601);
    let mut all = timed_fields();
    all.extend((0..200).map(|_| TimedFields::new("drawn", &small_tower(&mut random, 8))));
    for fields in all {
        for fetch in Fetch::ALL {
            assert_eq!(fields.difference(fetch), None);
        }
    }
}

#[test]
fn the_numbers_of_a_tower_are_those_of_its_fields() {
    let tower = triangle();
    let (file, places) = (write(&tower), Places::of(&tower));
    let (mut twos, mut fours) = (Vec::new(), Vec::new());
    for section in &tower.sections {
        twos.extend([section.width.0, section.height.0].map(u64::from));
        fours.push(section.allowance.unwrap_or_default().0);
        for group in &section.groups {
            twos.push(group.member.bare_width().0.into());
            fours.push(group.length.0.into());
        }
    }
    for item in &tower.items {
        twos.push(item.number.into());
        twos.extend([item.width.0, item.length.0].map(u64::from));
        twos.extend([item.bare, item.iced, item.position].map(u64::from));
    }
    assert_eq!(numbers(&places.in_file(&file)), [twos, fours].concat());
}

/// What lent numbers are filled with.
const FILL: u64 = 0xa5a5;

/// The answer, and so many lent numbers afterwards.
fn fetched(fetch: Fetch, fields: &Fields, room: usize) -> (u64, Vec<u64>) {
    let mut out = vec![FILL; room];
    let answer = fetch.library(fields, &mut out);
    (answer, out)
}

#[test]
fn a_place_where_fewer_bytes_remain_has_no_number() {
    let (file, places) = (write(&triangle()), Places::of(&triangle()));
    for fetch in Fetch::ALL {
        for end in 0..=file.len() {
            let cut = places.in_file(&file[..end]);
            let (answer, out) = fetched(fetch, &cut, places.count());
            assert_eq!((answer, &out), (41, &numbers(&cut)), "{end}");
            let past = |place: &&u64, bytes| **place + bytes > end as u64;
            let missing = places.twos.iter().filter(|place| past(place, 2)).count()
                + places.fours.iter().filter(|place| past(place, 4)).count();
            let none = out.iter().filter(|number| **number == u64::MAX);
            assert_eq!(none.count(), missing, "{end}");
        }
    }
}

#[test]
fn a_place_may_be_any_number() {
    let file = [0xff, 0xfe, 0xfd, 0xfc, 0xfb];
    let far = [u64::MAX, u64::MAX - 1, u64::MAX - 3, 1 << 32, 1 << 63];
    let fields = Fields {
        file: &file,
        twos: &[&[3, 0, 3, 4, 5, 6][..], &far].concat(),
        fours: &[&[1, 0, 2, 3][..], &far].concat(),
    };
    const NONE: u64 = u64::MAX;
    let mut wanted = vec![0xfcfb, 0xfffe, 0xfcfb, NONE, NONE, NONE];
    wanted.extend([NONE; 5]);
    wanted.extend([0xfefd_fcfb, 0xfffe_fdfc, NONE, NONE]);
    wanted.extend([NONE; 5]);
    for fetch in Fetch::ALL {
        assert_eq!(fetched(fetch, &fields, 20), (20, wanted.clone()));
    }
    assert_eq!(numbers(&fields), wanted);
}

#[test]
fn numbers_that_do_not_fit_change_nothing() {
    let (file, places) = (write(&triangle()), Places::of(&triangle()));
    let fields = places.in_file(&file);
    let no_places = Fields {
        twos: &[],
        fours: &[],
        ..fields
    };
    for fetch in Fetch::ALL {
        for room in 0..41 {
            let unchanged = (u64::MAX, vec![FILL; room]);
            assert_eq!(fetched(fetch, &fields, room), unchanged);
        }
        let beyond = [numbers(&fields), vec![FILL; 3]].concat();
        assert_eq!(fetched(fetch, &fields, 44), (41, beyond));
        for room in [0, 3] {
            let unchanged = (0, vec![FILL; room]);
            assert_eq!(fetched(fetch, &no_places, room), unchanged);
        }
    }
}

#[test]
fn the_table_has_nanoseconds_of_both_and_their_ratio() {
    let times = Pair {
        first: 1.5,
        second: 0.604,
    };
    let shown = TABLE.line("largest, 992 fields", times);
    assert_eq!(shown.len(), TABLE.head().len());
    let words: Vec<&str> = shown.split_whitespace().collect();
    assert_eq!(words, ["largest,", "992", "fields", "1.50", "0.60", "2.48"]);
    let head = TABLE.head();
    let last: Vec<&str> = head.split_whitespace().rev().take(3).collect();
    assert_eq!(last, ["byte/word", "word", "byte"]);
}
