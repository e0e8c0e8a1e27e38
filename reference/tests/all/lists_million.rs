//! The list of hangings and take-downs on one tower, and what the program prints.

use crate::lists::lists;
use crate::lists_pressures;
use reference::lists::{million, text, Million, HUNG, LISTS};
use reference::refusal::ANSWERS;
use reference::tower::Member;
use std::sync::OnceLock;

fn run() -> &'static Million {
    static MILLION: OnceLock<Million> = OnceLock::new();
    MILLION.get_or_init(million)
}

#[test]
fn a_million_calls_are_accepted_and_others_are_9_10_and_14() {
    let counts = &run().counts;
    assert_eq!(counts.iter().sum::<u64>(), 3_000_000);
    assert!(counts[0] >= 1_000_000);
    for (number, count) in counts.iter().enumerate() {
        match number {
            0 => {}
            9 | 10 | 14 => assert!(*count >= 100_000, "{number} {count}"),
            _ => assert_eq!(*count, 0, "{number}"),
        }
    }
}

#[test]
fn the_first_report_and_the_last_are_equal_number_for_number() {
    let Million {
        start, amid, end, ..
    } = run();
    assert_eq!(start, end);
    assert_eq!(start.len(), 36);
    assert_eq!(run().equal(), 36);
    for row in 0..6 {
        let place = 6 * row;
        assert_eq!(start[place..place + 3], amid[place..place + 3], "areas");
        assert_ne!(start[place + 3], amid[place + 3], "force");
    }
}

#[test]
fn the_tower_has_both_kinds_and_items_on_most_sections() {
    let tower = &run().tower;
    let groups = || tower.sections.iter().flat_map(|section| &section.groups);
    assert!(groups().any(|group| matches!(group.member, Member::Flat(_))));
    assert!(groups().any(|group| matches!(group.member, Member::Round(_))));
    assert_eq!(tower.sections.len(), 6);
    let numbers: Vec<u32> = tower.items.iter().map(|item| item.number.into()).collect();
    assert_eq!(numbers, (0..HUNG).collect::<Vec<u32>>());
    let hung = |section| tower.items.iter().any(|item| item.section == section);
    assert!((0..6).filter(|&section| hung(section)).count() >= 4);
}

/// Rows of all three flow classes, so that a root is among the forces.
#[test]
fn all_flow_classes_are_reported() {
    let area = |column: usize| (0..6).any(|row| run().start[6 * row + column] > 0);
    assert!(area(0) && area(1) && area(2));
}

#[test]
fn the_program_prints_a_line_a_list_the_answers_and_the_reports() {
    let text = text(lists(), run(), lists_pressures::run());
    let named = |name: &str| -> Vec<&str> {
        let lines = text.lines();
        lines
            .filter(|line| line.split(' ').next() == Some(name))
            .collect()
    };
    let lists = named("list");
    assert_eq!(lists.len() as u64, LISTS);
    for (place, line) in lists.iter().enumerate() {
        let words: Vec<&str> = line.split(' ').collect();
        assert_eq!(words.len(), 4, "{line}");
        assert_eq!(words[1], place.to_string());
        assert!(words[2].parse::<u64>().expect("a count") <= 100);
        words[3].parse::<u64>().expect("a digest");
    }
    assert_eq!(named("answer").len(), ANSWERS);
    for name in ["start", "amid", "end"] {
        assert_eq!(named(name).len(), 6, "{name}");
    }
    let digests = named("digest");
    assert_eq!(digests.len(), 4);
    assert_eq!(digests[0], digests[2]);
    assert_ne!(digests[0], digests[1]);
    assert_eq!(named("million").len(), 4);
    assert_eq!(named("equal"), ["equal 36"]);
    assert_eq!(named("pressed").len(), 6 * 3);
    let last = text.lines().last().expect("a line");
    assert!(
        last.starts_with("compared ") && last.ends_with(" 0"),
        "{last}"
    );
}
