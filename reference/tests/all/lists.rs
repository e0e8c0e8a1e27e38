//! The drawn lists of calls: what they cover.

use reference::areas::{gross_face_area, solid_area};
use reference::file_cases::digest;
use reference::lists::{
    all_lists, list, list_digest, Step, CALLS, LENT_BYTE, LENT_NUMBER, LISTS, NONE_OVER,
};
use reference::refusal::{Refusal, ANSWERS};
use reference::report::ROW;
use reference::service::Service;
use reference::tower::{ice_thickness, Tower};
use reference::vectors::Call;
use std::collections::{BTreeMap, BTreeSet};
use std::sync::OnceLock;

/// All lists.
pub fn lists() -> &'static [Vec<Step>] {
    static LISTS_ONCE: OnceLock<Vec<Vec<Step>>> = OnceLock::new();
    LISTS_ONCE.get_or_init(all_lists)
}

/// A short name of a call.
fn kind(call: &Call) -> &'static str {
    match call {
        Call::Erect(_) => "erect",
        Call::Hang(_) => "hang",
        Call::TakeDown(_) => "take down",
        Call::Wind(_) => "wind",
        Call::Report(_) => "report",
        Call::Check => "check",
        Call::Write(_) => "write",
    }
}

/// The calls of this kind, over all lists.
fn of_kind(name: &'static str) -> impl Iterator<Item = &'static Step> {
    let steps = lists().iter().flatten();
    steps.filter(move |step| kind(&step.call) == name)
}

/// Makes the calls that may change the state, and gives each call of all lists with
/// the service before it.
fn replay(mut look: impl FnMut(&Step, &Service)) {
    for steps in lists() {
        let mut service = Service::fresh();
        for step in steps {
            look(step, &service);
            let turned = match &step.call {
                Call::Erect(file) => service.erect(file),
                Call::Hang(item) => service.hang(*item),
                Call::TakeDown(number) => service.take_down(*number),
                Call::Wind(wind) => service.wind(
                    wind.direction,
                    wind.ice_class,
                    wind.structure_factor,
                    &wind.pressures,
                ),
                Call::Report(_) | Call::Check | Call::Write(_) => continue,
            };
            assert_eq!(
                turned.map_or_else(Refusal::number, |()| 0),
                step.answer.number
            );
        }
    }
}

#[test]
fn there_are_2000_lists_of_100_calls_and_no_two_alike() {
    assert_eq!((LISTS, CALLS), (2_000, 100));
    assert_eq!(lists().len(), 2_000);
    assert!(lists().iter().all(|steps| steps.len() == 100));
    let digests: BTreeSet<u64> = lists().iter().map(|steps| list_digest(steps)).collect();
    assert_eq!(digests.len(), 2_000);
}

#[test]
fn a_list_is_the_same_each_time() {
    for place in (0..LISTS).step_by(50) {
        assert_eq!(list(place), lists()[place as usize], "{place}");
    }
}

#[test]
fn every_answer_comes_at_least_250_times() {
    let mut counts = [0; ANSWERS];
    for step in lists().iter().flatten() {
        counts[step.answer.number as usize] += 1;
    }
    assert!(counts.iter().all(|count| *count >= 250), "{counts:?}");
    assert!(counts[0] >= 100_000, "{counts:?}");
}

/// Each call's own refusals, and no other.
#[test]
fn every_call_reaches_its_refusals_often() {
    let wanted: [(&str, &[u32]); 7] = [
        ("check", &[0, 1, 21]),
        ("erect", &[0, 2, 3, 4, 5, 6, 7, 8, 9, 10, 11, 12, 13]),
        ("hang", &[0, 1, 9, 10, 11, 12]),
        ("report", &[0, 1, 21, 22]),
        ("take down", &[0, 1, 14]),
        ("wind", &[0, 1, 15, 16, 17, 18, 19, 20]),
        ("write", &[0, 1, 22]),
    ];
    for (call, numbers) in wanted {
        let mut counts: BTreeMap<u32, usize> = BTreeMap::new();
        for step in of_kind(call) {
            *counts.entry(step.answer.number).or_default() += 1;
        }
        assert_eq!(
            counts.keys().copied().collect::<Vec<u32>>(),
            numbers,
            "{call}"
        );
        assert!(
            counts.values().all(|count| *count >= 50),
            "{call} {counts:?}"
        );
    }
}

/// The digest sees every answer's number, and everything else that is handed back.
#[test]
fn a_digest_depends_on_every_answer() {
    let steps = &lists()[0];
    let digest = list_digest(steps);
    for place in 0..steps.len() {
        let mut other = steps.clone();
        other[place].answer.number ^= 1;
        assert_ne!(list_digest(&other), digest, "{place}");
        let mut other = steps.clone();
        other[place].answer.rest ^= 1 << 63;
        assert_ne!(list_digest(&other), digest, "{place}");
    }
}

#[test]
fn small_crowded_and_tall_towers_stand() {
    let (mut sections, mut items, mut groups) = (BTreeSet::new(), BTreeSet::new(), BTreeSet::new());
    let mut legs = BTreeSet::new();
    replay(|_, service| {
        if let Some(tower) = service.tower() {
            sections.insert(tower.sections.len());
            items.insert(tower.items.len());
            groups.extend(tower.sections.iter().map(|section| section.groups.len()));
            legs.insert(tower.legs.count());
        }
    });
    assert_eq!(sections, (1..=32).collect());
    assert!(
        (0..=12).chain(57..=64).all(|held| items.contains(&held)),
        "{items:?}"
    );
    assert_eq!(groups, (1..=8).collect());
    assert_eq!(legs, [3, 4].into());
}

#[test]
fn every_direction_and_ice_class_is_accepted() {
    let mut accepted = BTreeSet::new();
    let mut classes = BTreeSet::new();
    replay(|step, service| {
        if let (Call::Wind(wind), Some(tower), 0) =
            (&step.call, service.tower(), step.answer.number)
        {
            accepted.insert((tower.legs.count(), wind.direction));
            classes.insert(wind.ice_class);
        }
    });
    let three = (0..24).step_by(2).map(|k| (3, k));
    assert_eq!(accepted, three.chain((0..24).map(|k| (4, k))).collect());
    assert_eq!(classes, (0..=5).collect());
}

/// Accepted where just enough is lent, and turned down with one element less.
#[test]
fn rooms_are_just_enough_and_one_short() {
    let mut counts = BTreeMap::new();
    replay(|step, service| {
        let Some(tower) = service.tower() else {
            return;
        };
        let beside = match step.call {
            Call::Report(room) => room as i64 - (ROW * tower.sections.len()) as i64,
            Call::Write(room) => room as i64 - reference::file::write(tower).len() as i64,
            _ => return,
        };
        if beside.abs() <= 1 {
            let key = (kind(&step.call), beside, step.answer.number);
            *counts.entry(key).or_insert(0) += 1;
        }
    });
    let many = |call, beside, number| counts.get(&(call, beside, number)) >= Some(&500);
    assert!(many("report", -1, 22) && many("report", 0, 0), "{counts:?}");
    assert!(many("write", -1, 22) && many("write", 0, 0), "{counts:?}");
    assert!(counts
        .keys()
        .all(|&(_, beside, number)| (beside < 0) == (number == 22) || number == 21));
}

/// All lent elements are in the digest, and a refused call leaves them.
#[test]
fn a_refused_report_or_write_leaves_what_is_lent() {
    let refused = lists()
        .iter()
        .flatten()
        .filter(|step| step.answer.number > 0);
    let mut counts = [0, 0];
    for step in refused {
        match step.call {
            Call::Report(room) => {
                assert_eq!(step.answer.rest, digest(vec![LENT_NUMBER; room]));
                counts[0] += 1;
            }
            Call::Write(room) => {
                let lent = vec![LENT_BYTE.into(); room].into_iter();
                assert_eq!(step.answer.rest, digest(lent.chain([0])));
                counts[1] += 1;
            }
            _ => {}
        }
    }
    assert!(counts.iter().all(|count| *count >= 1_000), "{counts:?}");
}

#[test]
fn check_answers_none_and_many_sections() {
    let accepted = of_kind("check").filter(|step| step.answer.number == 0);
    let rests: Vec<u64> = accepted.map(|step| step.answer.rest).collect();
    let none = rests.iter().filter(|rest| **rest == NONE_OVER).count();
    assert!(none >= 1_000 && rests.len() - none >= 1_000);
    assert!((0..4).all(|section| rests.contains(&section)));
    assert!(rests.iter().all(|rest| *rest <= NONE_OVER));
}

/// How a section's A_S under ice compares with A_u: equal, or 1 mm² more.
fn beside_full(tower: &Tower, ice_class: u32) -> Vec<i64> {
    let ice = ice_thickness(ice_class);
    let sections = tower.sections.iter();
    sections
        .map(|section| solid_area(section, ice).0 as i64 - gross_face_area(section).0 as i64)
        .collect()
}

#[test]
fn full_faces_stand_bare_and_under_ice_and_1_mm2_more_is_20() {
    let (mut bare, mut iced, mut over) = (0, 0, 0);
    replay(|step, service| {
        let (Some(tower), Call::Wind(wind)) = (service.tower(), &step.call) else {
            return;
        };
        if wind.ice_class > 5 {
            return;
        }
        let beside = beside_full(tower, wind.ice_class);
        let most = *beside.iter().max().expect("a section");
        match (step.answer.number, most) {
            (0, 0) if wind.ice_class == 0 => bare += 1,
            (0, 0) => iced += 1,
            (20, 1) => over += 1,
            (0, most) => assert!(most < 0),
            _ => {}
        }
    });
    assert!(
        bare >= 500 && iced >= 50 && over >= 50,
        "{bare} {iced} {over}"
    );
}

/// Both sides of a flow limit, under a wind without ice.
#[test]
fn pressures_are_at_a_flow_limit_and_just_above() {
    let mut found = BTreeSet::new();
    replay(|step, service| {
        let (Some(tower), Call::Wind(wind), 0) = (service.tower(), &step.call, step.answer.number)
        else {
            return;
        };
        for (section, pressure) in tower.sections.iter().zip(&wind.pressures) {
            for group in &section.groups {
                let (kind, size) = (group.member.kind(), u64::from(group.member.bare_width().0));
                let double = 2 * u64::from(*pressure) * size * size;
                if kind == 1
                    && wind.ice_class == 0
                    && double.abs_diff(45_000_000) <= 2 * size * size
                {
                    found.insert((size, double > 45_000_000));
                }
            }
        }
    });
    for size in [75, 100, 150, 250, 300, 500] {
        assert!(
            found.contains(&(size, false)) && found.contains(&(size, true)),
            "{size}"
        );
    }
}

#[test]
fn lists_begin_without_a_tower() {
    let first = lists().iter().map(|steps| &steps[0]);
    let refused = first.filter(|step| step.answer.number == Refusal::NoTower.number());
    assert!(refused.count() >= 500);
}
