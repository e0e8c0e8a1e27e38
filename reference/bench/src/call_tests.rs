//! Tests of the timed towers and their calls, with the library linked.

use crate::calls::{
    largest, mast, timed_calls, timed_towers, with_room, Call, TimedCall, TimedTower,
};
use crate::copies::{timed_copies, TimedCopy};
use crate::library::{Calls, Library, Windy};
use crate::proved::{InRust, Proved, Versions};
use crate::towers::{self, Rounds};
use reference::draw::{self, Random};
use reference::file::{read, write};
use reference::report::{rows, ROW};
use reference::sample::{item, sample_wind};
use reference::tower::{Tower, Wind};

/// Rows with and without supercritical members.
fn supercritical(tower: &Tower, wind: &Wind) -> (usize, usize) {
    let all = rows(tower, wind);
    let with = all.iter().filter(|row| row.areas.supercritical.0 > 0);
    let with = with.count();
    (with, all.len() - with)
}

#[test]
fn the_largest_towers_have_as_much_of_all_as_may_be() {
    for (rounds, wanted) in [
        (Rounds::Thick, (32, 0)),
        (Rounds::One, (32, 0)),
        (Rounds::Thin, (0, 32)),
    ] {
        let tower = towers::largest(rounds);
        assert_eq!(write(&tower).len(), 2_915);
        assert!(tower
            .sections
            .iter()
            .all(|section| section.groups.len() == 8));
        let on = |section| {
            tower
                .items
                .iter()
                .filter(move |item| item.section == section)
        };
        assert!((0..32).all(|section| on(section).count() == 2));
        assert_eq!(supercritical(&tower, &towers::wind(&tower)), wanted);
    }
    assert_eq!(with_room().file().len(), 2_915 - 13);
    assert_eq!(mast().sections(), 12);
}

/// Towers of up to eight sections without ice.
fn drawn() -> Vec<TimedTower> {
    let mut random = Random(0x5eed_0601);
    let mut accepted = Vec::new();
    while accepted.len() < 200 {
        let tower = draw::small_tower(&mut random, 8);
        if read(&write(&tower)).is_ok() {
            let direction = draw::direction(&mut random, tower.legs);
            let wind = draw::wind(&mut random, &tower, direction, 0);
            accepted.push(TimedTower::new("drawn", tower, wind));
        }
    }
    accepted
}

#[test]
fn the_reports_are_the_same_and_the_plain_one_is_near() {
    for timed in timed_towers().iter().chain(&drawn()) {
        for library in Calls::all(true) {
            assert_eq!(timed.difference(&library), None);
        }
        assert_eq!(timed.plain_difference(), None);
    }
}

#[test]
fn every_report_is_accepted_in_each_version() {
    for timed in timed_towers() {
        for rounds in [0, 1, 2, 5] {
            for library in Calls::all(true) {
                assert_eq!(timed.library(&library, rounds), rounds);
            }
            assert_eq!(timed.plain(rounds), rounds);
            assert_eq!(timed.exact(rounds), rounds);
        }
    }
}

#[test]
fn the_library_leaves_the_numbers_beyond_the_rows_and_all_after_a_refusal() {
    let tower = towers::tower(Rounds::Thick, 3, 5);
    let (file, wind) = (write(&tower), towers::wind(&tower));
    let windy = Windy {
        file: &file,
        wind: &wind,
    };
    let numbers: Vec<u64> = rows(&tower, &wind)
        .iter()
        .flat_map(|row| row.numbers())
        .collect();
    let still = Wind {
        pressures: vec![1_000; 2],
        ..wind.clone()
    };
    let cut = &file[..file.len() - 1];
    let refused = [
        (&file[..], &wind, 17),
        (&file, &still, 22),
        (cut, &wind, 22),
    ];
    for library in Calls::all(true) {
        for rounds in [1, 2, 7] {
            let mut lent = vec![9; 3 * ROW + 4];
            assert_eq!(library.report(&windy, rounds, &mut lent), rounds);
            assert_eq!(lent, [&numbers[..], &[9; 4]].concat());
        }
        for (file, wind, room) in refused {
            let mut lent = vec![9; room];
            assert_eq!(library.report(&Windy { file, wind }, 3, &mut lent), 0);
            assert_eq!(lent, vec![9; room]);
        }
        assert_eq!(library.report(&windy, 0, &mut [9; 22]), 0);
    }
}

/// Each library and the Rust version accept so many of the calls of these rounds.
fn accept(timed: &TimedCall, rounds: u64, accepted: u64) {
    let name = timed.name();
    for library in Calls::all(true).filter(|library| timed.is_in(library)) {
        assert_eq!(timed.library(&library, rounds), accepted, "{name}");
    }
    assert_eq!(timed.rust(rounds), accepted, "{name}");
}

#[test]
fn the_timed_calls_are_all_accepted() {
    for timed in timed_calls() {
        for rounds in [0, 1, 2_500] {
            accept(&timed, rounds, rounds * timed.in_round());
        }
    }
}

/// 64 items leave no room for a dish; an item with a dish's number is taken down
/// for it.
#[test]
fn the_versions_count_the_same_calls_where_some_are_turned_down() {
    let call = Call::Hang;
    let on = largest();
    accept(&TimedCall { call, on }, 10, 0);
    let tower = Tower {
        items: vec![item(3), item(4), item(1_007)],
        ..towers::tower(Rounds::Thin, 2, 0)
    };
    let wind = sample_wind(&tower, 0, 0);
    let on = TimedTower::new("numbered", tower, wind);
    let numbered = TimedCall { call, on };
    for (rounds, accepted) in [(3, 6), (4, 7), (5, 8), (6, 10), (1_005, 2_008)] {
        accept(&numbered, rounds, accepted);
    }
    let file = write(&towers::tower(Rounds::Thin, 2, 0));
    let windy = Windy {
        file: &file[..9],
        wind: &towers::wind(&towers::tower(Rounds::Thin, 2, 0)),
    };
    for library in Calls::all(true) {
        assert_eq!(library.erect(&windy, 5), 0);
        assert_eq!(library.hang(&windy, 5), 0);
        assert_eq!(library.first_down(&windy, 5).unwrap_or(0), 0);
    }
}

/// Without an item the dish is taken down from the second round on.
#[test]
fn the_first_item_is_taken_down_and_hung_again() {
    let call = Call::FirstDown;
    for (items, refused) in [(0, 1), (1, 0), (2, 0), (64, 0)] {
        let tower = towers::tower(Rounds::Thin, 2, items);
        let wind = towers::wind(&tower);
        let on = TimedTower::new("some items", tower, wind);
        let timed = TimedCall { call, on };
        for rounds in [1, 2, 150] {
            accept(&timed, rounds, 2 * rounds - refused);
        }
    }
}

#[test]
fn the_last_copy_reports_the_same() {
    for timed in timed_copies() {
        for library in Calls::all(true).filter(|library| timed.is_in(library)) {
            assert_eq!(timed.difference(&library), None);
            for rounds in [0, 1, 7] {
                let mut lent = timed.on.lent();
                assert_eq!(library.keep(&timed.on.windy(), rounds, &mut lent), Some(1));
                assert_eq!(lent, timed.on.exact_numbers());
                assert_eq!(
                    library.keep(&timed.on.windy(), rounds, &mut [9; 5]),
                    Some(0)
                );
            }
        }
        assert_eq!(timed.rust(3), 1);
    }
}

#[test]
fn the_calls_have_names_and_two_of_a_round_half_its_time() {
    let calls = timed_calls();
    let named = calls.iter().map(|timed| (timed.name(), timed.number(30.0)));
    let wanted = [
        ("hang, take down: 32 sections, 63 items", 15.0),
        ("first of 64 items down, hung again", 15.0),
        ("erect: 2915 bytes", 30.0),
        ("hang, take down: 12 sections, 8 items", 15.0),
        ("first of 8 items down, hung again", 15.0),
        ("erect: 887 bytes", 30.0),
    ];
    assert!(named.eq(wanted.map(|(name, time)| (name.to_string(), time))));
    let copies: Vec<String> = timed_copies().iter().map(TimedCopy::name).collect();
    assert_eq!(copies, ["32 sections, 64 items", "12 sections, 8 items"]);
}
