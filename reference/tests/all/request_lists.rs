//! The lists of requests for `towerd`: what they cover.

use crate::requests::second_answer;
use reference::refusal::ANSWERS;
use reference::request_lists::{self, files, Line, List};
use reference::requests::{Fault, Program, Request};
use reference::service::Service;
use std::collections::{BTreeMap, BTreeSet};
use std::sync::OnceLock;

/// `stdin` and `stdout`.
pub fn texts() -> &'static [Vec<u8>; 2] {
    static TEXTS: OnceLock<[Vec<u8>; 2]> = OnceLock::new();
    TEXTS.get_or_init(|| {
        let files = files();
        let names: Vec<&str> = files.iter().map(|file| file.name).collect();
        assert_eq!(names, ["stdin", "stdout"]);
        let bytes: Vec<Vec<u8>> = files.into_iter().map(|file| file.bytes).collect();
        bytes.try_into().expect("two files")
    })
}

/// All lists.
pub fn lists() -> &'static [List] {
    static LISTS: OnceLock<Vec<List>> = OnceLock::new();
    LISTS.get_or_init(request_lists::lists)
}

/// The lists of this name.
pub fn named(name: &str) -> Vec<&'static List> {
    let named: Vec<&List> = lists().iter().filter(|list| list.name == name).collect();
    assert!(!named.is_empty(), "{name}");
    named
}

/// The answers to a list's lines; it begins with a tower of its own.
pub fn answers(list: &List) -> Vec<String> {
    let mut program = Program::default();
    let lines = list.lines.iter();
    lines.map(|line| program.answer(&line.text)).collect()
}

/// The number that an answer refuses with, 0 if it is accepted, none of an error.
pub fn number(answer: &str) -> Option<u32> {
    match answer.strip_prefix("refused ") {
        Some(number) => number.trim_end().parse().ok(),
        None if answer.starts_with("ok") => Some(0),
        None => None,
    }
}

/// The requests of a list with their answers.
fn requests(list: &List) -> Vec<(Request, String)> {
    let lines = list.lines.iter().zip(answers(list));
    lines
        .filter_map(|(line, answer)| Some((line.meaning.clone().ok()?, answer)))
        .collect()
}

/// A request's word.
fn word(request: &Request) -> String {
    let text = request.text();
    text.split(' ').next().expect("a word").to_string()
}

#[test]
fn the_files_are_the_same_each_time_and_not_too_long() {
    assert_eq!(files(), files());
    let [stdin, stdout] = texts();
    assert!(stdin.len() < 720_000, "{} bytes", stdin.len());
    assert!(stdout.len() < 600_000, "{} bytes", stdout.len());
    assert!(stdout.is_ascii());
}

#[test]
fn there_are_so_many_lists_and_lines() {
    let mut counts: BTreeMap<&str, (usize, usize)> = BTreeMap::new();
    for list in lists() {
        let (lists, lines) = counts.entry(list.name).or_default();
        *lists += 1;
        *lines += list.lines.len();
    }
    let counts: Vec<(&str, usize, usize)> = counts
        .into_iter()
        .map(|(name, (lists, lines))| (name, lists, lines))
        .collect();
    let wanted = [
        ("before a tower", 1, 121),
        ("drawn", 80, 5_820),
        ("large rooms", 1, 26),
        ("long", 1, 27),
        ("newly erected", 80, 1_114),
        ("refused", 1, 86),
        ("small rooms", 1, 26),
        ("spellings", 1, 20),
        ("types", 1, 25),
        ("wrong", 1, 632),
    ];
    assert_eq!(counts, wanted);
}

/// Each list but the very first, which finds no tower at all.
#[test]
fn a_list_begins_with_a_tower_of_its_own() {
    let lists = lists();
    let mut program = Program::default();
    for line in &lists[0].lines {
        program.answer(&line.text);
    }
    assert_eq!(program.service, Service::fresh());
    for list in &lists[1..] {
        let first = &list.lines[0];
        assert!(matches!(first.meaning, Ok(Request::Erect(_))));
        assert_eq!(Program::default().answer(&first.text), "ok\n");
    }
}

/// On one service from the first line to the last.
#[test]
fn every_line_is_answered_as_the_service_says() {
    let mut service = Service::fresh();
    let mut wanted = String::new();
    for line in lists().iter().flat_map(|list| &list.lines) {
        let before = service.clone();
        let answer = match &line.meaning {
            Ok(request) => second_answer(&mut service, request),
            Err(fault) => format!("error {}\n", fault.message()),
        };
        if !answer.starts_with("ok") {
            assert_eq!(service, before, "{}", line.text.escape_ascii());
        }
        wanted += &answer;
    }
    assert!(texts()[1] == wanted.as_bytes());
}

#[test]
fn every_refusal_is_reached_at_least_thirty_times() {
    let mut counts: BTreeMap<u32, usize> = BTreeMap::new();
    for list in lists() {
        for number in answers(list).iter().filter_map(|answer| number(answer)) {
            *counts.entry(number).or_default() += 1;
        }
    }
    assert_eq!(
        counts.keys().copied().collect::<Vec<u32>>(),
        (0..ANSWERS as u32).collect::<Vec<u32>>()
    );
    assert!(counts.values().all(|count| *count >= 30), "{counts:?}");
    assert!(counts[&0] >= 4_000, "{counts:?}");
}

/// Each request's own refusals, and no other.
#[test]
fn every_request_reaches_its_refusals() {
    let mut found: BTreeMap<String, BTreeSet<u32>> = BTreeMap::new();
    for list in lists() {
        for (request, answer) in requests(list) {
            found
                .entry(word(&request))
                .or_default()
                .extend(number(&answer));
        }
    }
    let wanted: [(&str, &[u32]); 8] = [
        ("check", &[0, 1, 21]),
        ("erect", &[0, 2, 3, 4, 5, 6, 7, 8, 9, 10, 11, 12, 13]),
        ("hang", &[0, 1, 9, 10, 11, 12]),
        ("help", &[]),
        ("report", &[0, 1, 21, 22]),
        ("takedown", &[0, 1, 14]),
        ("wind", &[0, 1, 15, 16, 17, 18, 19, 20]),
        ("write", &[0, 1, 22]),
    ];
    for (request, numbers) in wanted {
        let numbers: BTreeSet<u32> = numbers.iter().copied().collect();
        assert_eq!(found[request], numbers, "{request}");
    }
}

#[test]
fn every_fault_stands_at_many_places() {
    let mut places: BTreeMap<Fault, BTreeSet<usize>> = BTreeMap::new();
    let mut texts: BTreeMap<Fault, BTreeSet<&[u8]>> = BTreeMap::new();
    for (place, list) in lists().iter().enumerate() {
        for line in &list.lines {
            if let Err(fault) = line.meaning {
                places.entry(fault).or_default().insert(place);
                texts.entry(fault).or_default().insert(&line.text);
            }
        }
    }
    let wanted = [
        (Fault::LineTooLong, 4, 7),
        (Fault::UnknownRequest, 60, 150),
        (Fault::NotHexadecimal, 30, 50),
        (Fault::NotDecimal, 40, 120),
        (Fault::NumberTooLarge, 25, 60),
        (Fault::TooFewWords, 25, 15),
        (Fault::TooManyWords, 25, 18),
    ];
    for (fault, least_places, least_texts) in wanted {
        let (places, texts) = (places[&fault].len(), texts[&fault].len());
        let enough = places >= least_places && texts >= least_texts;
        assert!(enough, "{fault:?} {places} {texts}");
    }
}

/// Over a tower with an item and a wind.
#[test]
fn a_line_that_is_wrong_or_refused_changes_nothing() {
    for name in ["wrong", "refused", "long"] {
        let list = named(name)[0];
        let answers = answers(list);
        let pairs: Vec<(&Line, &String)> = list.lines.iter().zip(&answers).collect();
        assert!(pairs[..2].iter().all(|(_, answer)| *answer == "ok\n"));
        let mut shown = BTreeSet::new();
        for pair in pairs[2..].chunks(2) {
            if let [(line, answer), show] = pair {
                let refused = number(answer).is_some_and(|number| number > 0);
                assert_eq!(refused, line.meaning.is_ok(), "{answer}");
                assert_eq!(refused, !answer.starts_with("error "), "{answer}");
                shown.insert((show.0.text.clone(), show.1.clone()));
            }
        }
        // the same report, check and write throughout
        assert_eq!(shown.len(), 3, "{name}");
    }
}

/// All that a tower with an item and a wind can refuse, but for 20.
#[test]
fn the_refused_requests() {
    let answers = answers(named("refused")[0]);
    let refused: Vec<u32> = answers.iter().filter_map(|answer| number(answer)).collect();
    let refused: Vec<u32> = refused.into_iter().filter(|number| *number > 0).collect();
    let wanted = [
        2, 2, 2, 3, 4, 4, 5, 5, 6, 6, 7, 8, 9, 11, 12, 12, 13, 10, 11, 11, 12, 12, 12, 12, 12, 12,
        12, 14, 14, 15, 16, 17, 17, 18, 18, 19, 22, 22, 22, 22, 22, 22,
    ];
    assert_eq!(refused, wanted);
}

#[test]
fn spellings_types_and_rooms() {
    let numbers = |name: &str| -> Vec<Option<u32>> {
        let answers = answers(named(name)[0]);
        answers.iter().map(|answer| number(answer)).collect()
    };
    let spellings = numbers("spellings");
    let wanted = [0, 0, 0, 0, 22, 0, 14, 0, 0, 0, 0, 2, 2, 0, 0, 0, 0, 3, 3];
    assert_eq!(spellings[..19], wanted.map(Some));
    assert_eq!(spellings[19..], [None]);
    let types = numbers("types");
    let wanted = [
        0, 0, 11, 12, 12, 12, 12, 12, 0, 10, 0, 0, 14, 14, 15, 16, 17, 19, 18, 18, 18, 0, 0, 0, 0,
    ];
    assert_eq!(types, wanted.map(Some));
    // beside what is needed, beside the program's own room, and far beyond
    let small = [0, 22, 22, 0, 0, 0, 0, 0, 0, 0, 0, 0, 0].map(Some);
    assert_eq!(
        numbers("small rooms"),
        [&[Some(0)][..], &small, &small[1..]].concat()
    );
    let large = [0, 22, 22, 0, 0, 22, 0, 0, 0, 0, 0, 0, 0].map(Some);
    assert_eq!(
        numbers("large rooms"),
        [&[Some(0)][..], &large, &small[1..]].concat()
    );
}

#[test]
fn drawn_lists_have_40_to_100_lines_and_many_accepted_reports_and_checks() {
    let lists = named("drawn");
    assert_eq!(lists.len(), 80);
    let mut busy = 0;
    for list in &lists {
        assert!((40..=100).contains(&list.lines.len()));
        let requests = requests(list);
        let accepted = |wanted: &str| {
            let accepted = requests
                .iter()
                .filter(|(_, answer)| answer.starts_with("ok"));
            accepted
                .filter(|(request, _)| word(request) == wanted)
                .count()
        };
        assert!(accepted("report") >= 1 && accepted("check") >= 1 && accepted("write") >= 1);
        busy += usize::from(accepted("report") >= 5 && accepted("check") >= 4);
    }
    assert!(busy >= 60, "{busy}");
}

/// Sections and items of the towers that stand.
#[test]
fn small_and_largest_towers_stand_in_drawn_lists() {
    let (mut sections, mut items) = (BTreeSet::new(), BTreeSet::new());
    let mut largest = 0;
    for list in named("drawn") {
        let mut program = Program::default();
        for line in &list.lines {
            program.answer(&line.text);
            let tower = program.service.tower().expect("a tower");
            sections.insert(tower.sections.len());
            items.insert(tower.items.len());
            largest += usize::from(line.text.len() == 6 + 2 * 2_915);
        }
    }
    assert!(sections.len() >= 15, "{sections:?}");
    assert!([1, 2, 3, 4, 32]
        .iter()
        .all(|count| sections.contains(count)));
    assert!((0..=8).chain(60..=64).all(|held| items.contains(&held)));
    assert_eq!(largest, 5);
}

/// Demand 3 on lists: a tower with a history reports what it reports when it is
/// newly erected with its items in another order.
#[test]
fn a_newly_erected_tower_gives_the_same_report() {
    let (drawn, anew) = (named("drawn"), named("newly erected"));
    assert_eq!(drawn.len(), anew.len());
    let (mut hung, mut other_order) = (0, 0);
    for (list, anew) in drawn.iter().zip(&anew) {
        let (old, new) = (answers(list), answers(anew));
        let [.., report, check, write] = &old[..] else {
            panic!("{old:?}");
        };
        let [.., wind, new_report, new_check, new_write] = &new[..] else {
            panic!("{new:?}");
        };
        assert!(report.starts_with("ok ") && wind == "ok\n");
        assert_eq!((report, check), (new_report, new_check));
        assert!(new[..new.len() - 3].iter().all(|answer| answer == "ok\n"));
        assert_eq!(write.len(), new_write.len());
        hung += new.len() - 5;
        other_order += usize::from(write != new_write);
    }
    assert!(hung >= 500 && other_order >= 40, "{hung} {other_order}");
}

#[test]
fn check_answers_none_and_many_sections() {
    let (mut sections, mut none, mut several) = (BTreeSet::<u8>::new(), 0, 0);
    for list in named("drawn") {
        let mut program = Program::default();
        for line in &list.lines {
            let answer = program.answer(&line.text);
            if line.meaning != Ok(Request::Check) || number(&answer) != Some(0) {
                continue;
            }
            let count = program.service.tower().expect("a tower").sections.len() as u8;
            let over: Vec<u8> = (0..count)
                .filter(|&section| program.service.is_over(section) == Ok(true))
                .collect();
            match over.first() {
                Some(top) => assert_eq!(answer, format!("ok {top}\n")),
                None => assert_eq!(answer, "ok none\n"),
            }
            sections.extend(over.first().copied());
            none += usize::from(over.is_empty());
            several += usize::from(over.len() > 1);
        }
    }
    assert!(sections.len() >= 8, "{sections:?}");
    assert!(none >= 100 && several >= 100, "{none} {several}");
}

/// Long lines, and bytes that no request has.
#[test]
fn lengths_and_bytes_of_the_input() {
    let stdin = &texts()[0];
    assert!(!stdin.ends_with(b"\n"));
    let lines: Vec<&[u8]> = stdin.split(|byte| *byte == b'\n').collect();
    assert_eq!(lines.last(), Some(&&b"report"[..]));
    let count = |length: usize| lines.iter().filter(|line| line.len() == length).count();
    for (length, least) in [(5_000, 2), (6_006, 5), (6_007, 6)] {
        assert!(count(length) >= least, "{length}");
    }
    assert_eq!((count(70_000), count(200_000)), (1, 1));
    let bytes: BTreeSet<u8> = stdin.iter().copied().collect();
    assert_eq!(bytes.len(), 256);
    for byte in [0, b'\t', b'\r', 128, 255] {
        let short = lines.iter().filter(|line| line.len() < 100);
        let with = short.filter(|line| line.contains(&byte)).count();
        assert!(with >= 5, "{byte} {with}");
    }
}
