//! Tests of the tower files, their bytes and the table, with the library linked.

use crate::file::{megabytes, timed_files, TimedFile};
use crate::lent::difference_in;
use crate::library::{Files, Library};
use crate::proved::Proved;
use reference::draw::{small_tower, Random};
use reference::file::{read, write};
use reference::file_cases::{largest, triangle};

#[test]
fn the_largest_file_comes_first() {
    let names: Vec<String> = timed_files().iter().map(Proved::name).collect();
    let wanted = [
        "largest, 2915 bytes, read",
        "largest, 2915 bytes, write",
        "middle, 381 bytes, read",
        "middle, 381 bytes, write",
        "triangle, 118 bytes, read",
        "triangle, 118 bytes, write",
        "smallest, 19 bytes, read",
        "smallest, 19 bytes, write",
    ];
    assert_eq!(names, wanted);
}

#[test]
fn the_library_and_the_rust_version_give_the_same_bytes() {
    let mut random = Random(0x5eed_0501);
    let drawn = (0..200).map(|_| small_tower(&mut random, 8));
    let accepted = drawn.filter(|tower| read(&write(tower)).is_ok());
    let mut files = timed_files();
    files.extend(accepted.flat_map(|tower| TimedFile::both("drawn", &tower)));
    assert!(files.len() >= 200);
    for file in files {
        for library in Files::all(true) {
            assert_eq!(file.difference(&library), None);
        }
    }
}

#[test]
fn a_difference_is_said() {
    let wanted = [7, 8, 9];
    let said = |answer, bytes: &[u8]| {
        let put = |lent: &mut [u8]| {
            lent[..bytes.len()].copy_from_slice(bytes);
            answer
        };
        difference_in(&wanted, 1, put)
    };
    assert_eq!(said(3, &[7, 8, 9]), None);
    assert_eq!(said(3, &[7, 8, 9, 1]), None);
    assert_eq!(said(2, &[7, 8, 9]), Some("answers 2, not 3".into()));
    let from = |place| Some(format!("differs from place {place} on"));
    assert_eq!(said(3, &[7, 1, 9]), from(1));
    assert_eq!(said(3, &[7, 8]), from(2));
    assert_eq!(said(3, &[7, 8, 9, 1, 2]), from(4));
}

/// Both functions of each linked library.
fn calls() -> impl Iterator<Item = impl Fn(&[u8], u64, &mut [u8]) -> u64> {
    let both = |library: Files| {
        [Files::read, Files::write].map(|call| {
            move |file: &[u8], rounds, out: &mut [u8]| call(&library, file, rounds, out)
        })
    };
    Files::all(true).flat_map(both)
}

#[test]
fn the_library_answers_the_length_after_any_number_of_rounds_but_0() {
    let file = write(&largest());
    for call in calls() {
        for rounds in [1, 2, 3, 100] {
            let mut out = vec![0; file.len()];
            assert_eq!(call(&file, rounds, &mut out), file.len() as u64);
            assert_eq!(out, file);
        }
        assert_eq!(call(&file, 0, &mut vec![0; file.len()]), u64::MAX);
    }
}

#[test]
fn the_library_turns_down_a_refused_file_and_lent_bytes_that_are_too_few() {
    let file = write(&triangle());
    let longer = [&file[..], &[0]].concat();
    for call in calls() {
        let mut out = vec![0; file.len() + 5];
        for end in 0..file.len() {
            assert_eq!(call(&file[..end], 1, &mut out), u64::MAX, "{end}");
            assert_eq!(call(&file, 1, &mut out[..end]), u64::MAX, "{end}");
        }
        assert_eq!(call(&longer, 1, &mut out), u64::MAX);
        assert_eq!(call(&file, 1, &mut out), file.len() as u64);
    }
}

#[test]
fn the_table_has_megabytes_a_second() {
    // 2 915 bytes in 5 830 ns are 500 bytes a microsecond
    assert_eq!(megabytes(2_915, 5_830.0), 500.0);
    assert_eq!(timed_files()[0].number(5_830.0), 500.0);
    assert_eq!(timed_files()[0].rounds(), 1_373);
}
