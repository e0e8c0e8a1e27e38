//! Tests of the sections, the sums and the table, with the library linked.

use crate::library::{Forces, Library};
use crate::proved::{Proved, Versions};
use crate::section::{sections, Kind, PRESSURES};
use crate::timing::{head, line, Times};

const TIMES: [Times; 2] = [
    Times {
        library: 400.0,
        plain: 10.0,
        exact: 8_000.0,
    },
    Times {
        library: 200.0,
        plain: 30.0,
        exact: 9_000.0,
    },
];

#[test]
fn there_are_some_tens_of_each_kind() {
    let last = [
        "supercritical 31",
        "no supercritical 31",
        "one tube 31",
        "eight tubes 31",
    ];
    for (kind, last) in Kind::ALL.into_iter().zip(last) {
        let names: Vec<String> = sections(kind, 32).iter().map(Proved::name).collect();
        assert_eq!((names.len(), &names[31][..]), (32, last));
    }
}

#[test]
fn the_library_and_the_exact_version_have_the_same_sums() {
    for kind in Kind::ALL {
        for section in sections(kind, usize::MAX) {
            let turns = 3 * section.exact(PRESSURES) + section.exact(5);
            for library in Forces::all(true) {
                assert_eq!(section.difference(&library), None);
                assert_eq!(section.library(&library, 3 * PRESSURES + 5), turns);
            }
        }
    }
}

#[test]
fn the_plain_version_is_within_1_newton_a_force() {
    for kind in Kind::ALL {
        for section in sections(kind, 32) {
            let off = section.plain(PRESSURES).abs_diff(section.exact(PRESSURES));
            assert!(off <= PRESSURES);
        }
    }
}

/// Document 01's first sample, at 1 000 to 985 N/m².
const SAMPLE: [u64; 12] = [4, 0, 0, 1_000, 1_000, 2_000, 6_000, 1, 0, 100, 24_000, 0];

#[test]
fn the_library_takes_the_words_of_a_section_alone() {
    for library in Forces::all(true) {
        assert_eq!(library.sum(&SAMPLE, 0), 0);
        assert_eq!(library.sum(&SAMPLE, 1), 7_033);
        assert_eq!(library.sum(&SAMPLE, 2), 7_033 + 7_026);
        for end in 0..SAMPLE.len() {
            assert_eq!(library.sum(&SAMPLE[..end], 1), u64::MAX, "{end}");
        }
        let broken = [(0, 5), (1, 24), (2, 6), (3, 499), (4, 5_001), (5, 99)];
        for (place, number) in broken.into_iter().chain([(6, 5_999), (7, 0), (8, 2)]) {
            let mut words = SAMPLE;
            words[place] = number;
            assert_eq!(library.sum(&words, 1), u64::MAX, "{place}");
        }
    }
}

#[test]
fn the_table_has_means_and_the_slowest_section() {
    let middle = Times {
        library: 300.0,
        plain: 20.0,
        exact: 8_500.0,
    };
    assert_eq!(Times::mean(&TIMES), middle);
    assert_eq!(Times::worst(&TIMES), TIMES[0]);
    let shown = line("flats, mean", middle);
    assert_eq!(shown.len(), head("ns per section force").len());
    let words: Vec<&str> = shown.split_whitespace().collect();
    let wanted = ["flats,", "mean", "300.0", "20.0", "8500.0", "15.00", "28.3"];
    assert_eq!(words, wanted);
}
