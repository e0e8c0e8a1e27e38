//! A tower as text for people: a line for the legs and for each section, group
//! and item, with units. It is turned into the tower file and back.

pub mod command;
mod parts;
mod words;

use crate::file;
use crate::refusal::Refusal;
use crate::tower::{Group, Item, Member, Section, Tower};
use crate::units::Force;
use parts::{parts, Part};
use std::fmt;

/// Why a description gives no tower file.
#[derive(Clone, Debug, PartialEq, Eq)]
pub struct Wrong {
    /// The line, counted from 1.
    pub line: usize,
    /// What is wrong with it.
    pub fault: Fault,
}

/// What is wrong with a line.
#[derive(Clone, Debug, PartialEq, Eq)]
pub enum Fault {
    /// It does not read as a description.
    Words(String),
    /// Document 01 turns the tower down for what the line says.
    Refused(Refusal),
}

impl fmt::Display for Wrong {
    fn fmt(&self, out: &mut fmt::Formatter) -> fmt::Result {
        write!(out, "line {}: ", self.line)?;
        match &self.fault {
            Fault::Words(wrong) => out.write_str(wrong),
            Fault::Refused(refusal) => out.write_str(&refused(*refusal)),
        }
    }
}

/// A refusal's number and meaning.
pub fn refused(refusal: Refusal) -> String {
    format!("refused {}: {}", refusal.number(), refusal.meaning())
}

/// The tower file that a description gives.
pub fn file_of(text: &[u8]) -> Result<Vec<u8>, Wrong> {
    accepted(&parts(text)?)
}

/// The file of these parts. A file is read in their order, so that the first part
/// that is turned down is the one at fault.
fn accepted(parts: &[Part]) -> Result<Vec<u8>, Wrong> {
    let mut bytes = Vec::new();
    for part in parts {
        bytes.extend_from_slice(&part.bytes);
        match file::read(&bytes) {
            Ok(_) | Err(Refusal::FileEnds) => {}
            Err(refusal) => {
                return Err(Wrong {
                    line: part.line,
                    fault: Fault::Refused(refusal),
                });
            }
        }
    }
    Ok(bytes)
}

/// The description of a tower, without comments and always laid out the same way.
pub fn text_of(tower: &Tower) -> String {
    let mut text = format!("legs {}\n", tower.legs.count());
    for (place, section) in tower.sections.iter().enumerate() {
        text += "\n";
        text += &section_line(place, section);
        text.extend(section.groups.iter().map(group_line));
    }
    if !tower.items.is_empty() {
        text += "\n";
    }
    text.extend(tower.items.iter().map(item_line));
    text
}

fn section_line(place: usize, section: &Section) -> String {
    let allowance = match section.allowance {
        Some(Force(newtons)) => format!("{newtons:>6} N"),
        None => "none".to_string(),
    };
    let (width, height) = (section.width.0, section.height.0);
    format!(
        "section {place:>2}  width {width:>5} mm  height {height:>5} mm  allowance {allowance}\n"
    )
}

fn group_line(group: &Group) -> String {
    let kind = match group.member {
        Member::Flat(_) => "flat ",
        Member::Round(_) => "round",
    };
    let (width, length) = (group.member.bare_width().0, group.length.0);
    format!("  {kind}  {width:>4} mm  length {length:>6} mm\n")
}

fn item_line(item: &Item) -> String {
    let (number, section) = (item.number, item.section);
    let (width, length) = (item.width.0, item.length.0);
    let [bare, iced, position] = [item.bare, item.iced, item.position].map(thousandths);
    format!(
        "item {number:>5}  section {section:>2}  width {width:>4} mm  length {length:>5} mm  \
         bare {bare}  iced {iced}  K {position}\n"
    )
}

/// Thousandths as a decimal number.
fn thousandths(number: u16) -> String {
    format!("{}.{:03}", number / 1_000, number % 1_000)
}
