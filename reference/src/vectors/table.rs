//! The cases as definitions, in the terms of `definitions/Vectors.antt.in`.

use super::{Call, FileCase, HostCase, ListCase, TowerCase, Vectors};
use crate::tower::{Group, Item, Legs, Member, Section, Tower, Wind};
use std::fmt::Display;

/// The types of the cases, and short names for their parts.
const HEAD: &str = include_str!("../../definitions/Vectors.antt.in");

/// The first line says how many cases there are, how many forces are those of a
/// lesser wind, and how many are not though there is one.
pub fn table(vectors: &Vectors) -> String {
    let (towers, files) = (&vectors.towers, &vectors.files);
    let (lists, hosts) = (&vectors.lists, &vectors.hosts);
    let (governed, not_governed) = vectors.lesser_winds();
    format!(
        "-- {} towers with {governed} forces of lesser winds and {not_governed} of full pressure beside them, \
         {} files, {} lists of calls, {} host calls\n{HEAD}{}{}{}{}",
        towers.len(),
        files.len(),
        lists.len(),
        hosts.len(),
        definition("towers", "TowerCase", towers, tower_case),
        definition("files", "FileCase", files, file_case),
        definition("lists", "ListCase", lists, list_case),
        definition("hosts", "HostCase", hosts, host_case),
    )
}

/// A list of cases, one to a line.
fn definition<T>(name: &str, kind: &str, cases: &[T], one: fn(&T) -> String) -> String {
    let lines: String = cases
        .iter()
        .map(|case| format!("    {} ∷\n", one(case)))
        .collect();
    format!("\nunfoldable pub {name} : List {kind}\n{name} =\n{lines}    []\n")
}

/// A list in brackets.
fn list<T>(all: &[T], one: fn(&T) -> String) -> String {
    let parts: String = all.iter().map(|part| one(part) + " ∷ ").collect();
    format!("({parts}[])")
}

fn numbers<T: Display>(all: &[T]) -> String {
    list(all, T::to_string)
}

fn tower_case(case: &TowerCase) -> String {
    let (rows, over) = (numbers(&case.rows), numbers(&case.over));
    format!(
        "reported {} {} {rows} {over} {}",
        tower(&case.tower),
        wind(&case.wind),
        case.topmost
    )
}

fn file_case(case: &FileCase) -> String {
    format!("file {} {}", numbers(&case.bytes), case.refusal)
}

fn list_case(case: &ListCase) -> String {
    let refusals = numbers(&case.refusals);
    let file = numbers(&case.file);
    format!("after {} {refusals} {file}", list(&case.calls, call))
}

fn host_case(case: &HostCase) -> String {
    format!(
        "host {} {} {} {} {} {} {}",
        numbers(&case.file),
        case.direction,
        case.ice_class,
        case.factor,
        numbers(&case.pressures),
        case.room,
        case.refusal,
    )
}

fn tower(tower: &Tower) -> String {
    let legs = match tower.legs {
        Legs::Three => "Three",
        Legs::Four => "Four",
    };
    let sections = list(&tower.sections, section);
    format!("(tower {legs} {sections} {})", list(&tower.items, item))
}

fn section(section: &Section) -> String {
    format!(
        "section {} {} {} {}",
        section.width.0,
        section.height.0,
        section.allowance.unwrap_or_default().0,
        list(&section.groups, group),
    )
}

fn group(group: &Group) -> String {
    let kind = match group.member {
        Member::Flat(_) => "flat",
        Member::Round(_) => "round",
    };
    format!("{kind} {} {}", group.member.bare_width().0, group.length.0)
}

fn item(item: &Item) -> String {
    format!(
        "item {} {} {} {} {} {} {}",
        item.number, item.section, item.width.0, item.length.0, item.bare, item.iced, item.position,
    )
}

fn wind(wind: &Wind) -> String {
    format!(
        "(wind_with {} {} {} {})",
        wind.direction,
        wind.ice_class,
        wind.structure_factor,
        numbers(&wind.pressures),
    )
}

fn call(call: &Call) -> String {
    match call {
        Call::Erect(file) => format!("erect {}", numbers(file)),
        Call::Hang(hung) => format!("hang ({})", item(hung)),
        Call::TakeDown(number) => format!("take_down {number}"),
        Call::Wind(blown) => format!("wind {}", wind(blown)),
        Call::Report(room) => format!("report (replicate {room} 0)"),
        Call::Check => "check".to_string(),
        Call::Write(room) => format!("write (replicate {room} 0)"),
    }
}
