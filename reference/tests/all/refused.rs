//! The lines that are no case, judged by a reader of its own and by the service.

use crate::cases::texts;
use reference::cases::{all, breaking_one_rule, breaking_two_rules, sample_cases, Refused};
use reference::file::write;
use reference::refusal::Refusal;
use reference::sample::{flat, sample};
use reference::service::Service;
use reference::tower::Legs;
use std::cmp::Ordering;
use std::collections::{BTreeMap, BTreeSet};

const FORM: &str = "not decimal numbers with single spaces between them";
const TOO_LARGE: &str = "a number is too large";
const TOO_MANY: &str = "there are too many numbers";
const MISSING: &str = "numbers are missing";

/// The other messages, in their order, with the refusals of document 01 that
/// they stand for.
const MESSAGES: [(&str, &[u32]); 11] = [
    ("legs are neither 3 nor 4", &[3]),
    ("k is above 23, or odd with three legs", &[15]),
    ("the ice class is above 5", &[16]),
    ("the structure factor is not 500 to 2000", &[17]),
    ("the pressure is above 5000", &[19]),
    (
        "the width, the height or the number of groups is out of range, or the height is odd",
        &[5, 6],
    ),
    ("a kind, size or length of a group is out of range", &[7]),
    ("A_S is above A_u", &[8, 20]),
    ("there are more than 64 items", &[9]),
    ("numbers are left over", &[13]),
    ("an item is out of range", &[11, 12]),
];

fn refused() -> Vec<Refused> {
    [breaking_one_rule(), breaking_two_rules()].concat()
}

/// The numbers of a line, read from left to right.
fn numbers(line: &str) -> Result<Vec<u64>, &'static str> {
    let mut numbers = Vec::new();
    for word in line.split(' ') {
        let end = word.find(|sign: char| !sign.is_ascii_digit());
        let digits = &word[..end.unwrap_or(word.len())];
        if digits.len() > 19 {
            return Err(TOO_LARGE);
        }
        numbers.push(digits.parse().map_err(|_| FORM)?);
        if numbers.len() > 417 {
            return Err(TOO_MANY);
        }
        if end.is_some() {
            return Err(FORM);
        }
    }
    Ok(numbers)
}

fn unless(right: bool, message: usize) -> Result<(), &'static str> {
    right.then_some(()).ok_or(MESSAGES[message].0)
}

/// Says what is wrong with a line, if anything is.
fn judge(line: &str) -> Result<(), &'static str> {
    let numbers = numbers(line)?;
    let [legs, k, ice, factor, pressure, width, height, count, ref rest @ ..] = numbers[..] else {
        return Err(MISSING);
    };
    unless(legs == 3 || legs == 4, 0)?;
    unless(k < 24 && (legs == 4 || k % 2 == 0), 1)?;
    unless(ice <= 5, 2)?;
    unless((500..=2_000).contains(&factor), 3)?;
    unless(pressure <= 5_000, 4)?;
    let sized = (100..=15_000).contains(&width) && (100..=10_000).contains(&height);
    unless(sized && height % 2 == 0 && (1..=8).contains(&count), 5)?;
    let (groups, rest) = rest.split_at_checked(3 * count as usize).ok_or(MISSING)?;
    let right = |group: &[u64]| matches!(group, [0..=1, 1..=1_000, 1..=200_000]);
    unless(groups.chunks(3).all(right), 6)?;
    let areas = groups
        .chunks(3)
        .map(|group| (group[1] + 20 * ice) * group[2]);
    unless(areas.sum::<u64>() <= width * height, 7)?;
    let (held, items) = rest.split_first().ok_or(MISSING)?;
    unless(*held <= 64, 8)?;
    match items.len().cmp(&(6 * *held as usize)) {
        Ordering::Less => return Err(MISSING),
        order => unless(order == Ordering::Equal, 9)?,
    }
    let right = |item: &[u64]| {
        let last = [0..=3_000, 0..=3_000, 0..=1_000];
        let mut last = last.iter().zip(&item[3..]);
        matches!(item[..3], [0..=31, 1..=3_000, 1..=10_000])
            && last.all(|(range, number)| range.contains(number))
    };
    unless(items.chunks(6).all(right), 10)
}

#[test]
fn every_message_is_the_first_that_fits() {
    let refused = refused();
    for Refused { line, message } in &refused {
        assert_eq!(judge(line), Err(*message), "{line}");
    }
    let messages: BTreeSet<&str> = refused.iter().map(|refused| refused.message).collect();
    let mut wanted = BTreeSet::from([FORM, TOO_LARGE, TOO_MANY, MISSING]);
    wanted.extend(MESSAGES.map(|(message, _)| message));
    assert_eq!(messages, wanted);
    let lines: BTreeSet<&String> = refused.iter().map(|refused| &refused.line).collect();
    assert_eq!(lines.len(), refused.len());
    assert_eq!(refused.len(), 196);
}

#[test]
fn every_case_is_right() {
    for case in all() {
        assert_eq!(judge(case.line().trim_end_matches('\n')), Ok(()));
    }
}

/// All cases, then each refused line and a sample, and one line more at last.
#[test]
fn the_answers_go_on_after_a_refused_line() {
    let [stdin, stdout] = texts();
    assert!(stdin.len() <= 500_000, "{} bytes", stdin.len());
    assert_eq!(stdin.lines().count() + 1, stdout.lines().count());
    let lines: Vec<(&str, &str)> = stdin.lines().zip(stdout.lines()).collect();
    let (cases, rest) = lines.split_at(all().len());
    assert!(cases.iter().all(|(_, answer)| !answer.contains("error")));
    let (refused, samples) = (refused(), sample_cases());
    assert_eq!(rest.len(), 2 * refused.len());
    let mut answers = BTreeMap::new();
    answers.extend(samples.iter().map(|case| (case.line(), case.answer())));
    for (pair, Refused { line, message }) in rest.chunks(2).zip(&refused) {
        assert_eq!(
            pair[0],
            (line.as_str(), format!("error: {message}").as_str())
        );
        let (line, answer) = (format!("{}\n", pair[1].0), format!("{}\n", pair[1].1));
        assert_eq!(answers[&line], answer);
    }
}

/// Each number with the place that it has in a line of one group and one item.
fn placed(numbers: &[u64]) -> Vec<(usize, u64)> {
    let groups = numbers
        .get(7)
        .map_or(0, |count| 3 * *count.min(&100) as usize);
    let place = |at: usize| match at {
        0..8 => at,
        _ if at < 8 + groups => 8 + (at - 8) % 3,
        _ if at == 8 + groups => 11,
        _ => 12 + (at - 9 - groups) % 6,
    };
    let all = numbers.iter().enumerate();
    all.map(|(at, number)| (place(at), *number)).collect()
}

/// The ends of the range of each place.
const ENDS: [(u64, u64); 18] = [
    (3, 4),
    (0, 23),
    (0, 5),
    (500, 2_000),
    (0, 5_000),
    (100, 15_000),
    (100, 10_000),
    (1, 8),
    (0, 1),
    (1, 1_000),
    (1, 200_000),
    (0, 64),
    (0, 31),
    (1, 3_000),
    (1, 10_000),
    (0, 3_000),
    (0, 3_000),
    (0, 1_000),
];

#[test]
fn every_end_has_a_case_at_it_and_a_refused_line_beside_it() {
    let cases: Vec<Vec<u64>> = all()
        .iter()
        .map(|case| numbers(case.line().trim_end()).unwrap())
        .collect();
    let right: BTreeSet<(usize, u64)> = cases.iter().flat_map(|case| placed(case)).collect();
    let sample = "4 0 0 1000 1000 2000 6000 1 0 100 24000 1 0 300 2000 1200 1200 800";
    let refused: BTreeSet<String> = refused().into_iter().map(|refused| refused.line).collect();
    let is_refused = |place: usize, number: u64| {
        let mut words: Vec<String> = sample.split(' ').map(str::to_string).collect();
        words[place] = number.to_string();
        refused.contains(&words.join(" "))
    };
    for (place, (low, high)) in ENDS.into_iter().enumerate() {
        assert!(
            right.contains(&(place, low)) && right.contains(&(place, high)),
            "{place}"
        );
        // heights are even
        let step = if place == 6 { 2 } else { 1 };
        assert!(is_refused(place, high + step), "{place}");
        assert!(low == 0 || is_refused(place, low - step), "{place}");
    }
    assert!(is_refused(6, 5_999));
    assert_eq!(cases.iter().map(Vec::len).max(), Some(417));
}

/// Bytes of each place in a tower file; the wind's numbers have none.
const BYTES: [usize; 18] = [1, 0, 0, 0, 0, 2, 2, 1, 1, 2, 4, 1, 1, 2, 2, 2, 2, 2];

/// A tower file with the line's section and items, as far as its numbers go;
/// none if a number does not fit its field.
fn file(numbers: &[u64]) -> Option<Vec<u8>> {
    let mut file = Vec::new();
    for (at, (place, number)) in placed(numbers).into_iter().enumerate() {
        let bytes = BYTES[place];
        if bytes > 0 && number >> (8 * bytes) > 0 {
            return None;
        }
        if place == 12 {
            // the item's own number
            file.extend((at as u16).to_be_bytes());
        }
        file.extend(&number.to_be_bytes()[8 - bytes..]);
        match place {
            // one section
            0 => file.push(1),
            // no allowance
            6 => file.extend([0; 4]),
            _ => {}
        }
    }
    Some(file)
}

/// What turns down erect and wind with the line's numbers, the wind on a sample
/// if there is no other tower; none if a number does not fit its field.
fn refusals(numbers: &[u64]) -> Option<Vec<u32>> {
    let mut service = Service::fresh();
    let mut results = vec![service.erect(&file(numbers)?)];
    if service.tower().is_none() {
        let legs = if numbers[0] == 3 {
            Legs::Three
        } else {
            Legs::Four
        };
        let tower = sample(legs, &[flat(100, 24_000)]);
        assert_eq!(service.erect(&write(&tower)), Ok(()));
    }
    if let [_, k, ice, factor, pressure, ..] = *numbers {
        let pressures = [pressure.try_into().ok()?];
        let [k, ice, factor] = [k, ice, factor].map(|number| number.try_into().ok());
        results.push(service.wind(k?, ice?, factor?, &pressures));
    }
    let refusals = results.into_iter().filter_map(Result::err);
    Some(refusals.map(Refusal::number).collect())
}

#[test]
fn the_service_turns_down_what_is_refused() {
    let mut by_rule: BTreeMap<&str, &[u32]> = BTreeMap::from(MESSAGES);
    by_rule.insert(MISSING, &[2]);
    let mut met = BTreeSet::new();
    for Refused { line, message } in breaking_one_rule() {
        let found = numbers(&line).ok().and_then(|numbers| refusals(&numbers));
        let Some(found) = found else { continue };
        assert_eq!(found.len(), 1, "{line}");
        assert!(by_rule[message].contains(&found[0]), "{line}: {found:?}");
        met.extend(found);
    }
    let wanted = by_rule.values().flat_map(|numbers| numbers.iter().copied());
    assert_eq!(met, wanted.collect());
    for Refused { line, .. } in breaking_two_rules() {
        let found = numbers(&line).ok().and_then(|numbers| refusals(&numbers));
        assert!(found.is_none_or(|found| !found.is_empty()), "{line}");
    }
}
