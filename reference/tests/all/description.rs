//! Towers as text and back.

use crate::common::{flat, item, random_tower, round, section, tower};
use reference::description::{file_of, text_of, Fault, Wrong};
use reference::draw::{self, small_tower, Random};
use reference::file::{read, write};
use reference::file_cases::{crowded, largest, middle, roomy, smallest, triangle};
use reference::refusal::{Refusal, ANSWERS};
use reference::tower::{Item, Legs, Tower};
use reference::units::{Force, Length};

/// Two sections and two items.
fn small() -> Tower {
    let mut top = section(1_200, 4_000, &[round(76, 8_000), flat(60, 6_250)]);
    top.allowance = Some(Force(9_000));
    let foot = section(14_300, 10_000, &[round(1_000, 100_020)]);
    let first = Item {
        iced: 1_405,
        position: 1_000,
        ..item(101)
    };
    let second = Item {
        section: 1,
        bare: 7,
        ..item(65_535)
    };
    Tower {
        items: vec![first, second],
        ..tower(Legs::Three, &[top, foot])
    }
}

pub const SMALL: &str = "\
legs 3

section  0  width  1200 mm  height  4000 mm  allowance   9000 N
  round    76 mm  length   8000 mm
  flat     60 mm  length   6250 mm

section  1  width 14300 mm  height 10000 mm  allowance none
  round  1000 mm  length 100020 mm

item   101  section  0  width  300 mm  length  2000 mm  bare 1.200  iced 1.405  K 1.000
item 65535  section  1  width  300 mm  length  2000 mm  bare 0.007  iced 1.200  K 0.800
";

#[test]
fn a_description_line_by_line() {
    assert_eq!(text_of(&small()), SMALL);
    assert_eq!(file_of(SMALL.as_bytes()), Ok(write(&small())));
}

#[test]
fn the_last_line_of_a_tower_without_items_is_a_group() {
    let text = text_of(&smallest());
    assert!(text.ends_with("  flat      1 mm  length      1 mm\n"));
    assert_eq!(file_of(text.as_bytes()), Ok(write(&smallest())));
}

#[test]
fn comments_and_spaces_are_free() {
    let tabbed = |line: &str| line.split_whitespace().collect::<Vec<_>>().join("\t ");
    let lines = SMALL.lines();
    let short = SMALL.replace("1.000", "1").replace("1.200", "1.2");
    for text in [
        lines.clone().map(|l| format!("{l} # 3 legs\n")).collect(),
        lines.map(|l| format!("# ä\n\t{}\r\n", tabbed(l))).collect(),
        format!("\u{feff}{SMALL}"),
        short.replace("0.800", "00.80"),
        SMALL.trim().to_string(),
    ] {
        assert_eq!(file_of(text.as_bytes()), Ok(write(&small())), "{text}");
    }
}

/// Text, file, text and file again, as far as document 01 accepts the tower.
fn there_and_back(tower: &Tower) -> Result<(), Refusal> {
    let (text, file) = (text_of(tower), write(tower));
    match (file_of(text.as_bytes()), read(&file)) {
        (Ok(found), Ok(again)) => {
            assert_eq!(found, file, "{text}");
            assert_eq!(text_of(&again), text);
            Ok(())
        }
        (Err(wrong), Err(refusal)) => {
            assert_eq!(wrong.fault, Fault::Refused(refusal), "{text}");
            assert!((1..=text.lines().count()).contains(&wrong.line));
            Err(refusal)
        }
        (found, read) => panic!("{found:?} but {read:?}:\n{text}"),
    }
}

#[test]
fn every_tower_and_its_text_give_the_same_file() {
    let named = [smallest(), middle(), largest(), triangle(), crowded()];
    for tower in named.iter().chain(&[small(), roomy()]) {
        assert_eq!(there_and_back(tower), Ok(()));
    }
    let mut random = Random(0x5eed_0501);
    for _ in 0..200 {
        assert_eq!(there_and_back(&random_tower(&mut random, 32)), Ok(()));
    }
}

/// A number at or beyond an end of its range.
fn end(random: &mut Random, low: u32, high: u32) -> Length {
    Length(random.pick(&[low - 1, low, high, high + 1]))
}

/// Something that a text can say wrong.
fn damage(random: &mut Random, tower: &mut Tower) {
    let sections = tower.sections.len();
    let section = &mut tower.sections[sections - 1];
    match random.within(0, 9) {
        0 => section.width = end(random, 100, 15_000),
        1 => section.height = end(random, 100, 10_000),
        2 => section.height.0 += 1,
        3 => section.groups.clear(),
        4 => section.groups = vec![flat(1, 1); random.pick(&[8, 9])],
        5 => section.groups[0] = flat(end(random, 1, 1_000).0, 1),
        6 => section.groups[0].length = end(random, 1, 200_000),
        7 => tower
            .sections
            .resize(random.pick(&[0, 32, 33]), smallest().sections[0].clone()),
        8 => tower.items = (0..random.pick(&[64, 65])).map(item).collect(),
        _ => tower.items = vec![item(7), damaged_item(random, sections)],
    }
}

/// With so many sections.
fn damaged_item(random: &mut Random, sections: usize) -> Item {
    let mut damaged = item(random.pick(&[7, 8]));
    match random.within(0, 5) {
        0 => damaged.section = random.pick(&[sections as u8, 255]),
        1 => damaged.width = end(random, 1, 3_000),
        2 => damaged.length = end(random, 1, 10_000),
        3 => damaged.bare = end(random, 1, 3_000).0 as u16,
        4 => damaged.iced = end(random, 1, 3_000).0 as u16,
        _ => damaged.position = end(random, 1, 1_000).0 as u16,
    }
    damaged
}

/// Some of the drawn towers have a face that is over full.
#[test]
fn a_tower_with_a_fault_gets_the_refusal_of_its_file() {
    let mut random = Random(0x5eed_0502);
    let mut counts = [0; ANSWERS];
    for _ in 0..2_000 {
        let mut tower = small_tower(&mut random, 3);
        damage(&mut random, &mut tower);
        let answer = there_and_back(&tower);
        counts[answer.map_or_else(|refusal| refusal.number() as usize, |()| 0)] += 1;
    }
    for refusal in [0, 4, 5, 6, 7, 8, 9, 10, 11, 12] {
        assert!(counts[refusal] >= 10, "{refusal}: {counts:?}");
    }
}

/// A description with some damage: a line or a word left out, repeated or changed.
fn damaged(random: &mut Random, text: &str) -> Vec<u8> {
    let words = |line: &str| line.split(' ').map(str::to_string).collect();
    let mut lines: Vec<Vec<String>> = text.lines().map(words).collect();
    let at = random.within(0, lines.len() as u32 - 1) as usize;
    let word = random.within(0, lines[at].len() as u32 - 1) as usize;
    let other = random.pick(&["mm", "-1", "70000", "none", "#", "0"]);
    match random.within(0, 6) {
        0 => drop(lines.remove(at)),
        1 => lines.insert(at, lines[at].clone()),
        2 => drop(lines[at].remove(word)),
        3 => lines[at][word] = other.to_string(),
        4 => lines[at][word] = random.within(0, 20_000).to_string(),
        5 => lines[at].insert(word, "1".to_string()),
        _ => lines.swap(at, 0),
    }
    let lines: Vec<String> = lines.iter().map(|line| line.join(" ")).collect();
    let mut bytes = lines.join("\n").into_bytes();
    if random.chance(20) {
        let at = random.within(0, bytes.len() as u32 - 1) as usize;
        bytes[at] = random.next_bits() as u8;
    }
    bytes
}

/// A drawn tower's description with some damage.
fn damaged_text(random: &mut Random) -> Vec<u8> {
    let tower = Tower {
        legs: random.pick(&[Legs::Three, Legs::Four]),
        sections: (0..2).map(|_| draw::section(random, 0, 3)).collect(),
        items: draw::items(random, 3, 2),
    };
    damaged(random, &text_of(&tower))
}

#[test]
fn a_damaged_description_gives_a_sound_file_or_a_line() {
    let mut random = Random(0x5eed_0503);
    let (mut accepted, mut refused, mut unread) = (0, 0, 0);
    for _ in 0..3_000 {
        let text = damaged_text(&mut random);
        match file_of(&text) {
            Ok(file) => {
                let tower = read(&file).expect("a sound file");
                assert_eq!(there_and_back(&tower), Ok(()));
                assert_eq!(write(&tower), file);
                accepted += 1;
            }
            Err(Wrong { line, fault }) => {
                let lines = text.split(|&byte| byte == b'\n').count();
                assert!((1..=lines).contains(&line));
                match fault {
                    Fault::Words(_) => unread += 1,
                    Fault::Refused(refusal) => {
                        assert!((3..=12).contains(&refusal.number()));
                        refused += 1;
                    }
                }
            }
        }
    }
    let least = accepted.min(refused).min(unread);
    assert!(least > 100, "{accepted} {refused} {unread}");
}
